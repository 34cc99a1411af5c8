//! Request Three, what may come next: lists worked out by hand, the refusals in their order, the limits, and lists with names.

use oracle::by_hand::{self, A, B, C, MILLION};
use oracle::cases::lending::{presses, similar, LIFT, LIFT_P1, LIFT_P2, PRESS, PRESS_P1, PRESS_P2};
use oracle::cases::writing::{self, Fault};
use oracle::cases::{fixed, listing};
use oracle::drawing::*;
use oracle::flowfile::{self, section_of, Entry};
use oracle::judge::{with_deep_stack, Answer, Lent};
use oracle::next::{next, next_named, Beginning, Next, LIST_ROOM};
use oracle::refusals::{Refusal, MOST_RECORDS};
use oracle::rng::Rng;
use oracle::selfcheck::closed_as_needed;
use oracle::term::{is_event, DONE, FAILED, WITHDRAWN};

const WORK: usize = 40_000;

/// Without names, with room and work enough.
fn line(flow: &Drawing, records: &[u16]) -> String {
    of_nodes(&flow.table(), records)
}

fn of_nodes(nodes: &[u16], records: &[u16]) -> String {
    next(nodes, records, LIST_ROOM, WORK, MILLION).to_string()
}

/// The same with names.
fn named(names: &[Entry], flow: &Drawing, records: &[u16]) -> String {
    next_named(&section_of(names), &flow.table(), records, LIST_ROOM, WORK, MILLION).to_string()
}

fn of_presses(flow: &Drawing, records: &[u16]) -> String {
    named(&presses(), flow, records)
}

// ---- worked out by hand ----

#[test]
fn listed_by_hand() {
    let section = section_of(&fixed::four_names());
    for case in by_hand::lists() {
        let (nodes, shown) = (case.flow.table(), case.flow.show());
        for names in [None, Some(&section[..])] {
            let beginning = Beginning::enough(names, &nodes, &case.records, case.allowance);
            assert_eq!(beginning.listed().to_string(), case.line, "{shown} {:?}", case.records);
            assert_eq!(beginning.listed_by_lists().to_string(), case.line, "{shown} {:?}", case.records);
        }
    }
}

/// Every beginning of the records of "Judged by hand" that a run follows is among them, and lists the record after it as far as a run
/// follows that too.
#[test]
fn every_line_of_the_hand_table_is_among_them() {
    let lists = by_hand::lists();
    for case in by_hand::table().into_iter().filter(|case| !case.line.starts_with("undecided")) {
        let followed: usize = case.line.split(' ').nth(2).unwrap().parse().unwrap();
        for length in 0..=followed.min(case.records.len() - 1) {
            let records = &case.records[..length];
            let found = lists.iter().find(|list| list.flow == case.flow && list.records == records);
            let line = found.unwrap_or_else(|| panic!("{} {records:?}", case.flow.show())).line;
            let follows = line.split(' ').skip(3).any(|number| number == case.records[length].to_string());
            assert_eq!(follows, length < followed, "{line}");
        }
    }
}

#[test]
fn the_worked_file() {
    let file = flowfile::worked();
    let names = file.names_section();
    let after = |records: &[u16]| {
        next_named(&names, &file.nodes, records, LIST_ROOM, 12 * (records.len() + 1), MILLION).to_string()
    };
    assert_eq!(after(&[]), "listed 1 1 1");
    assert_eq!(after(&[1]), "listed 1 2 2");
    assert_eq!(after(&[1, 2]), "listed 1 3 61441");
    assert_eq!(after(&[1, 2, DONE]), "refused 13 2");
    assert_eq!(after(&[2]), "listed 0 1");
}

/// "Each once, in rising order of its number."
#[test]
fn each_once_and_rising() {
    let events = |events: &[u16]| events.iter().map(|e| event(*e)).reduce(choice).unwrap();
    assert_eq!(line(&events(&[256, 1, 255, 2, 1, 256]), &[]), "listed 4 1 1 2 255 256");
    assert_eq!(line(&parallel(throw(), events(&[3, 2, 3])), &[]), "listed 2 1 2 3");
    let every_closing = choice(yields(), throw());
    assert_eq!(line(&choice(every_closing, events(&[256])), &[]), "listed 4 1 256 61441 61442 61443");
    let either = choice(seq(event(A), event(C)), seq(event(A), choice(event(B), event(C))));
    assert_eq!(line(&either, &[A]), "listed 2 3 2 3", "what any state lists");
    assert_eq!(line(&either, &[A, C]), "listed 1 5 61441");
    assert_eq!(line(&either, &[A, B]), "listed 1 4 61441");
}

/// "All runs of the beginning are searched": the count does not depend on what is found first, nor on the list.
#[test]
fn there_is_no_early_stop() {
    for (first, second) in [(event(A), throw()), (throw(), event(A))] {
        let flow = choice(seq(event(A), first), seq(event(A), second));
        assert_eq!(line(&flow, &[A]), "listed 2 3 1 61443");
    }
    let leaves = |e: u16| pair(skip(), event(e));
    let in_turn = seq(choice(leaves(A), leaves(B)), choice(leaves(B), leaves(C)));
    assert_eq!(line(&in_turn, &[]), "listed 1 1 61441");
    assert_eq!(line(&in_turn, &[DONE]), "listed 2 5 2 3", "four compensations");
    assert_eq!(line(&in_turn, &[DONE, B]), "listed 2 7 1 2");
    assert_eq!(line(&in_turn, &[DONE, B, B]), "listed 1 8 61441");
}

// ---- refusals ----

#[test]
fn refusals_of_the_nodes() {
    assert_eq!(of_nodes(&[], &[]), "refused 1 0");
    assert_eq!(of_nodes(&[1, 1], &[]), "refused 2 0");
    assert_eq!(of_nodes(&[1; 196], &[]), "refused 2 0", "2 comes before 3");
    assert_eq!(of_nodes(&[0; 195], &[]), "refused 3 0");
    assert_eq!(of_nodes(&[2, 0, 0, 17, 0, 0], &[]), "refused 4 1");
    assert_eq!(of_nodes(&[1, 257, 0], &[0; 257]), "refused 5 0", "nodes come before records");
    assert_eq!(of_nodes(&[5, 0, 0], &[]), "refused 6 0");
    assert_eq!(of_nodes(&[2, 0, 0, 9, 0, 0], &[]), "refused 7 1");
    assert_eq!(of_nodes(&[2, 0, 0, 5, 0, 0], &[]), "refused 8 1");
    assert_eq!(of_nodes(&[2, 0, 0, 2, 0, 0, 2, 0, 0], &[0; 257]), "refused 9 0", "9 comes before 11");
}

#[test]
fn refusals_of_the_beginning() {
    let (skip, skipp) = ([2, 0, 0], [14, 0, 0]);
    assert_eq!(of_nodes(&skip, &[]), "listed 1 1 61441", "10 isn't given");
    assert_eq!(of_nodes(&skip, &[0; 257]), "refused 11 0", "11 comes before 12");
    assert_eq!(of_nodes(&skip, &[1, 257, 0]), "refused 12 1");
    assert_eq!(of_nodes(&skip, &[DONE, DONE, 61440]), "refused 12 2", "12 comes before 13");
    assert_eq!(of_nodes(&skip, &[61444]), "refused 12 0");
    for closing in [DONE, WITHDRAWN, FAILED] {
        assert_eq!(of_nodes(&skip, &[closing]), "refused 13 0", "any for a standard root");
        assert_eq!(of_nodes(&skip, &[1, 1, closing, 1, DONE]), "refused 13 2", "at that closing");
        assert_eq!(
            of_nodes(&skipp, &[1, DONE, 1, closing]),
            "refused 13 3",
            "a second for a compensable one"
        );
        assert_eq!(
            of_nodes(&skipp, &[closing, 1, DONE, 1, DONE]),
            "refused 13 2",
            "the second, not the third"
        );
    }
    assert_eq!(of_nodes(&skip, &[1, 1]), "listed 0 1", "too few is none");
    assert_eq!(of_nodes(&skipp, &[1]), "listed 0 1");
    assert_eq!(of_nodes(&skipp, &[DONE, 1]), "listed 0 2");
}

/// 14 comes last, for each of the two that is too short, and before the search.
#[test]
fn table_and_work_bytes() {
    let answer = |records: &[u16], room, work_len, allowance| {
        next(&[2, 0, 0, 2, 0, 0, 5, 0, 1], records, room, work_len, allowance).to_string()
    };
    assert_eq!(answer(&[], 259, 6, 1), "listed 1 1 61441");
    assert_eq!(answer(&[], 258, 6, 1), "refused 14 0");
    assert_eq!(answer(&[], 259, 5, 1), "refused 14 0");
    assert_eq!(answer(&[], 0, 0, 0), "refused 14 0", "14 comes before the search");
    assert_eq!(answer(&[], 70_000, 40_000, 0), "undecided 0 0");
    assert_eq!(answer(&[1], 259, 12, 1), "listed 0 1");
    assert_eq!(answer(&[1], 259, 11, 1), "refused 14 0");
    assert_eq!(answer(&[1, DONE], 0, 0, 0), "refused 13 1", "14 comes last");
    assert_eq!(answer(&[7], 0, 0, 0), "refused 14 0", "however short the list would be");
}

#[test]
fn refusals_with_names() {
    let section = section_of(&presses());
    let after = |names: &[u8], nodes: &[u16], records: &[u16], work_len| {
        next_named(names, nodes, records, LIST_ROOM, work_len, MILLION).to_string()
    };
    assert_eq!(after(&[], &[], &[0; 257], 0), "refused 15 0");
    assert_eq!(after(&[1, 1], &[], &[], 0), "refused 16 0");
    assert_eq!(after(b"\x01\x00\x00", &[], &[], 0), "refused 17 2");
    assert_eq!(after(b"\x02\x00\x01a\x00\x01a\x00", &[], &[], 0), "refused 18 5");
    assert_eq!(after(&[&section[..], &[9]].concat(), &[], &[], 0), format!("refused 21 {}", section.len()));
    assert_eq!(after(&section, &[], &[], 0), "refused 1 0");
    assert_eq!(after(&section, &[17, 0], &[0; 257], 0), "refused 2 0");
    assert_eq!(after(&section, &[17; 195], &[0; 257], 0), "refused 3 0");
    assert_eq!(
        after(&section, &[17, 0, 0], &[0; 257], 0),
        "refused 11 0",
        "with names 11 comes before the nodes"
    );
    assert_eq!(of_nodes(&[17, 0, 0], &[0; 257]), "refused 4 0", "and without after them");
    assert_eq!(after(&section, &[17, 0, 0], &[], 0), "refused 4 0", "10 isn't given");
    assert_eq!(after(&section, &[1, 7, 0], &[8, 0], 0), "refused 12 1");
    assert_eq!(after(&section, &[1, 7, 0], &[8, DONE], 0), "refused 13 1", "13 comes before 19");
    assert_eq!(after(&section, &[1, 7, 0], &[8], 0), "refused 19 0");
    assert_eq!(after(&section, &[1, 6, 0], &[6, 7], 0), "refused 20 1");
    assert_eq!(after(&section, &[1, 6, 0], &[6], 3), "refused 14 0", "14 comes last");
    assert_eq!(after(&section, &[1, 6, 0], &[6], 4), "listed 1 2 61441");
    assert_eq!(of_nodes(&[1, 7, 0], &[7]), "listed 1 2 61441", "no names, no 19");
}

/// Each fault by its number and place, and of each two the one that comes first, with names and without.
#[test]
fn faults_alone_and_in_pairs() {
    let numbers = |faults: &[Fault]| faults.iter().map(|fault| fault.refusal.number).collect::<Vec<_>>();
    let (with_names, without) = (listing::faults(), listing::faults_without_names());
    assert_eq!(
        numbers(&with_names),
        [15, 16, 17, 17, 15, 18, 15, 21, 1, 2, 3, 11, 23, 4, 22, 5, 6, 7, 8, 9, 12, 13, 19, 20, 14, 14]
    );
    assert_eq!(numbers(&without), [1, 2, 3, 23, 4, 22, 5, 6, 7, 8, 9, 11, 12, 13, 14, 14]);
    let planned = listing::planned();
    for (planned, faults) in [(planned.clone(), with_names), (planned.nameless(), without)] {
        assert_eq!(planned.beginning().listed().to_string(), "listed 1 3 61441");
        let faults: Vec<&Fault> = faults.iter().collect();
        for (refusal, call) in writing::faults_alone_and_in_pairs(&planned, &faults) {
            assert_eq!(call.beginning().listed(), Next::Refused(refusal), "{call:?}");
        }
    }
}

/// A beginning is refused as the judge refuses it once it is closed, but for 13, and for 14.
#[test]
fn refusals_are_those_of_the_judge() {
    with_deep_stack(|| {
        let mut rng = Rng::new(14);
        let mut seen = [[0; 24]; 2];
        for i in 0..12_000 {
            let at_limits = i % 8 == 0;
            let case = if at_limits { listing::case_at_limits } else { listing::damaged_case }(&mut rng);
            let lent = Beginning { allowance: 0, ..case.beginning().unwrap() };
            let enough = Beginning::enough(lent.names, lent.nodes, lent.records, 0);
            let enough = Beginning { sets: lent.sets, ..enough };
            let number = refusal(lent.listed()).map_or(0, |refusal| refusal.number);
            seen[lent.names.is_some() as usize][number as usize] += 1;
            let short = lent.list_room < LIST_ROOM || lent.work_len < enough.work_len;
            match refusal(enough.listed()) {
                None => assert_eq!(number, if short { 14 } else { 0 }),
                found => assert_eq!(refusal(lent.listed()), found, "14 comes last"),
            }
            if number == 13 {
                let place = refusal(lent.listed()).unwrap().place;
                let before = Beginning { records: &lent.records[..place], ..lent };
                assert!(!is_event(lent.records[place]));
                assert!(refusal(before.listed()).is_none_or(|r| [14, 19, 20].contains(&r.number)));
                continue;
            }
            let whole_nodes = !lent.nodes.is_empty() && lent.nodes.len().is_multiple_of(3);
            let closed =
                if whole_nodes { closed_as_needed(lent.nodes, lent.records) } else { lent.records.to_vec() };
            if closed.len() <= MOST_RECORDS || lent.records.len() > MOST_RECORDS {
                let closed = Lent::enough(lent.names, lent.nodes, &closed, 0);
                let judged = match (Lent { sets: lent.sets, ..closed }).judged() {
                    Answer::Refused(refusal) => Some(refusal),
                    _ => None,
                };
                assert_eq!(refusal(enough.listed()), judged);
            }
        }
        seen.iter_mut().for_each(|seen| seen[10] = 50);
        (15..=21).for_each(|number| seen[0][number] = 50);
        assert!(seen.iter().flatten().all(|n| *n >= 50), "{seen:?}");
    });
}

fn refusal(next: Next) -> Option<Refusal> {
    match next {
        Next::Refused(refusal) => Some(refusal),
        _ => None,
    }
}

// ---- limits ----

#[test]
fn limits_of_nodes_and_records() {
    with_deep_stack(|| {
        let sixty_four = seq(block(skipp()), tower(31, &event(A), seq));
        assert_eq!(sixty_four.size(), 64);
        let nodes = sixty_four.table();
        let after = |length: usize, work_len| {
            next(&nodes, &vec![A; length], LIST_ROOM, work_len, MILLION).to_string()
        };
        assert_eq!(after(30, WORK), "listed 1 31 1");
        assert_eq!(after(31, WORK), "listed 1 32 61441");
        assert_eq!(after(32, WORK), "listed 0 32");
        assert_eq!(after(255, WORK), "listed 0 32");
        assert_eq!(after(256, 2 * 64 * 257), "listed 0 32");
        assert_eq!(after(256, 2 * 64 * 257 - 1), "refused 14 0");
        assert_eq!(after(257, WORK), "refused 11 0");
        assert_eq!(line(&tower(33, &event(A), seq), &[]), "refused 3 0");
    });
}

/// "A lent table of at least 259 numbers": so many are listed where a node takes any of 256 entries and can end in every way.
#[test]
fn the_longest_list() {
    for machineless in [1u16, 77, 256] {
        let machine = |e: u16| if e == machineless { vec![] } else { vec![e as u8; 40] };
        let names: Vec<Entry> = (1..=256).map(|e| (b"press".to_vec(), machine(e))).collect();
        let all: Vec<u16> = (1..=256).chain([DONE, WITHDRAWN, FAILED]).collect();
        let flow = choice(event(machineless), choice(yields(), throw()));
        let listed = |flow: &Drawing, records: &[u16]| {
            let (section, nodes) = (section_of(&names), flow.table());
            Beginning::enough(Some(&section), &nodes, records, MILLION).listed()
        };
        assert_eq!(listed(&flow, &[]), Next::Listed { numbers: all.clone(), count: 1 });
        assert_eq!(listed(&flow, &[200]), Next::Listed { numbers: vec![DONE], count: 2 });
        let twice = seq(event(machineless), flow);
        assert_eq!(listed(&twice, &[]), Next::Listed { numbers: all[..256].to_vec(), count: 1 });
        assert_eq!(listed(&twice, &[128]), Next::Listed { numbers: all, count: 2 });
    }
}

/// Compensations by the thousand million are not gone through one by one where they are no successors.
#[test]
fn wide_flows() {
    with_deep_stack(|| {
        let withdraw = tower(31, &yieldd(), parallel);
        assert_eq!(line(&withdraw, &[]), "listed 2 1 61441 61442");
        assert_eq!(line(&withdraw, &[WITHDRAWN]), "undecided 0 1000000");
        assert_eq!(line(&withdraw, &[DONE]), "listed 1 2 61441");
        let silent = block(parallel(throww(), tower(30, &yieldd(), parallel)));
        assert_eq!(line(&silent, &[]), "listed 1 1 61441");
        assert_eq!(line(&silent, &[A]), "listed 0 1");
        let twelve = tower(12, &event(A), parallel);
        let all = next(&twelve.table(), &[A; 12], LIST_ROOM, WORK, u32::MAX);
        assert_eq!(all, Next::Listed { numbers: vec![DONE], count: 1_302_061_345 });
        let allowed = |allowance| next(&twelve.table(), &[A; 12], LIST_ROOM, WORK, allowance);
        assert_eq!(allowed(1_302_061_345), all);
        assert_eq!(allowed(1_302_061_344), Next::Undecided { allowance: 1_302_061_344 });
        let thirteen = tower(13, &event(A), parallel);
        assert_eq!(
            next(&thirteen.table(), &[A; 13], LIST_ROOM, WORK, u32::MAX),
            Next::Undecided { allowance: u32::MAX }
        );
    });
}

// ---- with names ----

/// A node without a machine is followed by every entry of its step, and no other is.
#[test]
fn every_entry_of_a_step() {
    assert_eq!(of_presses(&event(PRESS), &[]), "listed 3 1 1 2 3");
    assert_eq!(of_presses(&event(PRESS_P1), &[]), "listed 1 1 2");
    assert_eq!(line(&event(PRESS), &[]), "listed 1 1 1", "without names");
    assert_eq!(of_presses(&event(PRESS), &[PRESS_P2]), "listed 1 2 61441");
    assert_eq!(of_presses(&event(PRESS), &[LIFT]), "listed 0 1");
    assert_eq!(of_presses(&event(PRESS_P1), &[PRESS]), "listed 0 1");
    let names = similar();
    for leaf in 2..=names.len() as u16 {
        assert_eq!(named(&names, &event(leaf), &[]), format!("listed 1 1 {leaf}"));
    }
    assert_eq!(named(&names, &event(PRESS), &[]), "listed 4 1 1 2 3 4");
}

/// Two leaves side by side: what is left depends on which of them took the record, and both ways are listed.
#[test]
fn which_leaf_took_it() {
    let two = parallel(event(PRESS), event(PRESS_P1));
    assert_eq!(of_presses(&two, &[]), "listed 3 1 1 2 3");
    assert_eq!(of_presses(&two, &[PRESS_P2]), "listed 1 2 2");
    assert_eq!(of_presses(&two, &[PRESS_P1]), "listed 3 3 1 2 3");
    assert_eq!(of_presses(&two, &[PRESS_P1, PRESS_P1]), "listed 1 5 61441");
    assert_eq!(of_presses(&two, &[PRESS_P1, PRESS]), "listed 1 4 61441");
    let either = choice(seq(event(PRESS), event(LIFT_P2)), seq(event(PRESS_P1), event(LIFT)));
    assert_eq!(of_presses(&either, &[PRESS_P1]), "listed 3 3 4 5 6");
    assert_eq!(of_presses(&either, &[PRESS_P2]), "listed 1 2 6");
}

#[test]
fn compensations() {
    let undone = block(seq(pair(event(PRESS), event(LIFT)), throww()));
    assert_eq!(of_presses(&undone, &[PRESS_P2]), "listed 3 2 4 5 6");
    assert_eq!(of_presses(&undone, &[PRESS_P2, LIFT_P1]), "listed 1 3 61441");
    let root = pair(event(PRESS), event(LIFT_P1));
    assert_eq!(of_presses(&root, &[PRESS_P1]), "listed 1 2 61441");
    assert_eq!(of_presses(&root, &[PRESS_P1, DONE]), "listed 1 3 5");
    assert_eq!(of_presses(&root, &[PRESS_P1, DONE, LIFT_P1]), "listed 1 4 61441");
    assert_eq!(of_presses(&root, &[PRESS_P1, DONE, LIFT]), "listed 0 3");
    assert_eq!(of_presses(&root, &[PRESS_P1, DONE, LIFT_P1, DONE]), "refused 13 3");
}
