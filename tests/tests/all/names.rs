//! Request Two, a step without a machine: which records a node takes, the request's examples, and the judge with names: its refusals in
//! their order, its limits.

use oracle::cases::calling::Call;
use oracle::cases::lending::{self, presses, similar, LIFT, LIFT_P1, LIFT_P2, PRESS, PRESS_P1, PRESS_P2};
use oracle::cases::writing::FAULTS;
use oracle::cases::{fixed, writing, Case};
use oracle::drawing::*;
use oracle::flowfile::{entry, section_of, Entry, FlowFile};
use oracle::judge::{judge, judge_named, with_deep_stack, Answer, Lent};
use oracle::matching::{same_entry, same_step, Matching};
use oracle::program::program;
use oracle::refusals::Refusal;
use oracle::rng::Rng;
use oracle::term::{DONE, FAILED, WITHDRAWN};
use oracle::writer::write;

const WORK: usize = 40_000;
const ALLOWANCE: u32 = 1_000_000;

// ---- which records a node takes ----

fn by_name(names: &[(&str, &str)]) -> Matching {
    Matching::ByName(names.iter().map(|(step, machine)| entry(step, machine)).collect())
}

#[test]
fn a_node_without_a_machine_takes_every_entry_of_its_step() {
    let presses = by_name(&[("press", ""), ("press", "P1"), ("press", "P2"), ("wash", "P1"), ("wash", "")]);
    assert_eq!(presses.taken_by(1), [1, 2, 3], "its own included");
    assert_eq!(presses.taken_by(5), [4, 5]);
    for node in [2, 3, 4] {
        assert_eq!(presses.taken_by(node), [node], "a node with a machine takes its own entry alone");
    }
}

#[test]
fn matching_is_not_symmetric() {
    let presses = by_name(&[("press", ""), ("press", "P1")]);
    assert!(presses.takes(1, 2));
    assert!(!presses.takes(2, 1), "a record without a machine still matches only a node without one");
    assert!(presses.takes(1, 1) && presses.takes(2, 2));
}

/// The machine's name does not matter, only whether it is empty.
#[test]
fn machines_are_not_compared() {
    for machine in ["P1", "p1", ",", " ", "\0", "press"] {
        let presses = by_name(&[("press", ""), ("press", machine), ("press", "P2")]);
        assert!(presses.takes(1, 2) && !presses.takes(3, 2) && !presses.takes(2, 3) && !presses.takes(2, 1));
    }
}

#[test]
fn steps_are_compared_byte_by_byte() {
    for other in ["pres", "press ", "presS", "Press", "press,", "press,P1", "\0press", "wash", "p"] {
        let names = by_name(&[("press", ""), (other, "P1"), (other, "")]);
        assert_eq!((names.taken_by(1), names.taken_by(3)), (vec![1], vec![2, 3]), "{other}");
        assert!(!same_step(b"press", other.as_bytes()));
    }
    assert!(same_step(b"press", b"press") && same_step(&[0, 255], &[0, 255]));
    assert!(same_entry(&entry("press", "P1"), &entry("press", "P1")));
    assert!(!same_entry(&entry("press", ""), &entry("press", "P1")), "matched, but not the same");
}

#[test]
fn without_names_numbers_decide() {
    let plain = Matching::ByNumber;
    assert!((1..=256).all(|e| plain.takes(e, e) && plain.taken_by(e) == [e]));
    assert!(!plain.takes(1, 2) && !plain.takes(256, 255));
}

/// Nothing takes a closing, and an event without an entry is itself alone.
#[test]
fn other_numbers_are_taken_by_nobody() {
    let presses = by_name(&[("press", ""), ("press", "P1")]);
    for matching in [&presses, &Matching::ByNumber] {
        for number in [0, 257, DONE, WITHDRAWN, FAILED, u16::MAX] {
            assert!(!matching.takes(1, number) && !matching.takes(number, number));
        }
    }
    assert!(!presses.takes(1, 3) && !presses.takes(3, 1) && presses.takes(3, 3));
}

// ---- the request's examples ----

/// Judged with names, as a call and as a file.
fn line(names: &[Entry], flow: &Drawing, records: &[u16]) -> String {
    let file = FlowFile::plain(names.to_vec(), flow.table(), records.to_vec());
    let answer = judge_named(&file.names_section(), &file.nodes, &file.records, WORK, ALLOWANCE);
    assert_eq!(program(&file.bytes()), answer);
    answer.to_string()
}

fn of_presses(flow: &Drawing, records: &[u16]) -> String {
    line(&presses(), flow, records)
}

#[test]
fn any_press() {
    let (any, on_p1) = (event(PRESS), event(PRESS_P1));
    assert_eq!(of_presses(&any, &[PRESS_P2, DONE]), "accepted 0 2 3");
    assert_eq!(of_presses(&any, &[PRESS_P1, DONE]), "accepted 0 2 3");
    assert_eq!(of_presses(&any, &[PRESS, DONE]), "accepted 0 2 3", "its own included");
    assert_eq!(of_presses(&any, &[LIFT, DONE]), "rejected 0 0 1");
    assert_eq!(of_presses(&any, &[LIFT_P1, DONE]), "rejected 0 0 1");
    assert_eq!(of_presses(&on_p1, &[PRESS, DONE]), "rejected 0 0 1", "no machine is not any machine");
    assert_eq!(of_presses(&on_p1, &[PRESS_P2, DONE]), "rejected 0 0 1");
    assert_eq!(of_presses(&on_p1, &[PRESS_P1, DONE]), "accepted 0 2 3");
}

/// Each leaf with each record of twelve similar entries: those that match are counted out here.
#[test]
fn similar_entries() {
    let names = similar();
    let mut matches = vec![];
    for leaf in 1..=names.len() as u16 {
        for record in 1..=names.len() as u16 {
            if line(&names, &event(leaf), &[record, DONE]) == "accepted 0 2 3" {
                matches.push((leaf, record));
            }
        }
    }
    let others = [(1, 2), (1, 3), (1, 4)];
    let mut expected: Vec<(u16, u16)> = (1..=names.len() as u16).map(|e| (e, e)).chain(others).collect();
    expected.sort();
    assert_eq!(matches, expected);
}

/// Two leaves side by side: the first successor first, and every way that is tried is counted.
#[test]
fn side_by_side() {
    let (any, on_p1) = (|| event(PRESS), || event(PRESS_P1));
    let two = parallel(any(), on_p1());
    assert_eq!(of_presses(&two, &[PRESS_P2, PRESS_P1, DONE]), "accepted 0 3 4");
    assert_eq!(of_presses(&two, &[PRESS, PRESS_P1, DONE]), "accepted 0 3 4");
    // The record of P1 goes to the leaf without a machine first, which the other record would need.
    assert_eq!(of_presses(&two, &[PRESS_P1, PRESS_P2, DONE]), "accepted 0 3 5");
    assert_eq!(of_presses(&two, &[PRESS_P1, PRESS_P1, DONE]), "accepted 0 3 4");
    assert_eq!(of_presses(&two, &[PRESS_P1, PRESS_P1, FAILED]), "rejected 0 2 5");
    assert_eq!(of_presses(&two, &[PRESS_P1, PRESS_P2, FAILED]), "rejected 0 2 4");
    assert_eq!(of_presses(&two, &[PRESS_P2, PRESS_P2, DONE]), "rejected 0 1 2");
    assert_eq!(of_presses(&two, &[PRESS_P2, PRESS, DONE]), "rejected 0 1 2");
    let turned = parallel(on_p1(), any());
    assert_eq!(of_presses(&turned, &[PRESS_P1, PRESS_P2, DONE]), "accepted 0 3 4");
    let both_any = parallel(any(), any());
    assert_eq!(of_presses(&both_any, &[PRESS_P2, PRESS_P1, DONE]), "accepted 0 3 4");
    assert_eq!(of_presses(&both_any, &[PRESS_P2, PRESS_P1, FAILED]), "rejected 0 2 5");
}

/// "Counted as one step": by a record that a leaf takes in whatever way it has one successor.
#[test]
fn one_step_for_each_leaf() {
    let (any, on_p1) = (|| event(PRESS), || event(PRESS_P1));
    assert_eq!(of_presses(&any(), &[PRESS_P1, FAILED]), "rejected 0 1 2");
    assert_eq!(of_presses(&any(), &[PRESS, FAILED]), "rejected 0 1 2");
    let either = choice(any(), on_p1());
    assert_eq!(of_presses(&either, &[PRESS_P1, FAILED]), "rejected 0 1 3", "two leaves, two successors");
    assert_eq!(of_presses(&either, &[PRESS_P2, FAILED]), "rejected 0 1 2");
    assert_eq!(of_presses(&either, &[PRESS, FAILED]), "rejected 0 1 2");
    let turned = choice(seq(on_p1(), event(LIFT_P1)), seq(any(), event(LIFT_P2)));
    assert_eq!(of_presses(&turned, &[PRESS_P1, LIFT_P1, DONE]), "accepted 0 3 4");
    assert_eq!(of_presses(&turned, &[PRESS_P1, LIFT_P2, DONE]), "accepted 0 3 5");
    assert_eq!(of_presses(&turned, &[PRESS_P2, LIFT_P2, DONE]), "accepted 0 3 4");
    assert_eq!(of_presses(&turned, &[PRESS_P2, LIFT_P1, DONE]), "rejected 0 1 2");
}

#[test]
fn compensations() {
    let step = |press: u16, lift: u16| pair(event(press), event(lift));
    let undone = |pp: Drawing| block(seq(pp, throww()));
    let any = undone(step(PRESS, LIFT));
    assert_eq!(of_presses(&any, &[PRESS_P1, LIFT_P1, DONE]), "accepted 0 3 4");
    assert_eq!(of_presses(&any, &[PRESS_P1, LIFT_P2, DONE]), "accepted 0 3 4", "each leaf by itself");
    assert_eq!(of_presses(&any, &[PRESS_P1, PRESS_P2, DONE]), "rejected 0 1 2");
    let on_p1 = undone(step(PRESS, LIFT_P1));
    assert_eq!(of_presses(&on_p1, &[PRESS_P2, LIFT_P1, DONE]), "accepted 0 3 4");
    assert_eq!(of_presses(&on_p1, &[PRESS_P2, LIFT, DONE]), "rejected 0 1 2");
    let in_turn = undone(seq(step(PRESS, LIFT), step(PRESS_P1, LIFT_P1)));
    assert_eq!(of_presses(&in_turn, &[PRESS_P2, PRESS_P1, LIFT_P1, LIFT_P2, DONE]), "accepted 0 5 6");
    assert_eq!(of_presses(&in_turn, &[PRESS_P2, PRESS_P1, LIFT_P2, LIFT_P1, DONE]), "rejected 0 2 3");
    assert_eq!(of_presses(&in_turn, &[PRESS_P1, PRESS_P2, LIFT_P1, LIFT, DONE]), "rejected 0 1 2");
    let root = step(PRESS, LIFT);
    assert_eq!(of_presses(&root, &[PRESS_P1, DONE, LIFT_P2, DONE]), "accepted 0 4 5");
    assert_eq!(of_presses(&root, &[PRESS_P1, DONE, PRESS_P1, DONE]), "rejected 0 2 3");
}

/// "Judging without a names section is unchanged."
#[test]
fn judging_without_names() {
    let call = |records: &[u16]| judge(&event(PRESS).table(), records, WORK, ALLOWANCE).to_string();
    assert_eq!(call(&[PRESS, DONE]), "accepted 0 2 3");
    assert_eq!(call(&[PRESS_P1, DONE]), "rejected 0 0 1");
    assert_eq!(call(&[200, DONE]), "rejected 0 0 1", "no event is without an entry");
}

// ---- refusals ----

/// Each fault by its number and place, and of each two the one that comes first: "those of One in One's order", 14 last.
#[test]
fn faults_alone_and_in_pairs() {
    let planned = lending::planned();
    assert_eq!(planned.lent().judged().to_string(), "accepted 0 3 4");
    let all = writing::faults_alone_and_in_pairs(&planned, &FAULTS.each_ref());
    assert_eq!(all.len(), 26 + 26 * 25 / 2);
    for (refusal, call) in all {
        assert_eq!(call.lent().judged(), Answer::Refused(refusal), "{call:?}");
    }
}

#[test]
fn names_come_first_and_records_before_nodes() {
    let section = section_of(&presses());
    let named = |names: &[u8], nodes: &[u16], records: &[u16], work_len| {
        judge_named(names, nodes, records, work_len, ALLOWANCE).to_string()
    };
    assert_eq!(named(&[], &[], &[], 0), "refused 15 0 0");
    assert_eq!(named(&[&section[..], &[9]].concat(), &[], &[], 0), format!("refused 21 {} 0", section.len()));
    assert_eq!(named(&section, &[], &[], 0), "refused 1 0 0");
    assert_eq!(
        named(&section, &[17, 0, 0], &[], 0),
        "refused 10 0 0",
        "with names 10 comes before the nodes"
    );
    assert_eq!(judge(&[17, 0, 0], &[], 0, ALLOWANCE).to_string(), "refused 4 0 0", "and without after them");
    assert_eq!(named(&section, &[17, 0, 0], &[0; 257], 0), "refused 11 0 0");
    assert_eq!(named(&section, &[1, 7, 0], &[8, 0], 0), "refused 12 1 0");
    assert_eq!(named(&section, &[1, 7, 0], &[8, DONE], 0), "refused 19 0 0");
    assert_eq!(named(&section, &[1, 6, 0], &[6, 7, DONE], 0), "refused 20 1 0");
    assert_eq!(named(&section, &[1, 6, 0], &[6, DONE], 5), "refused 14 0 0", "14 comes last");
    assert_eq!(named(&section, &[1, 6, 0], &[6, DONE], 6), "accepted 0 2 3");
    assert_eq!(judge(&[1, 7, 0], &[7, DONE], 6, ALLOWANCE).to_string(), "accepted 0 2 3", "no names, no 19");
}

/// A judge that is lent names refuses what the writer refuses, at the same place; only what each wants to be lent differs.
#[test]
fn refusals_are_those_of_the_writer() {
    with_deep_stack(|| {
        let mut rng = Rng::new(21);
        let mut seen = [0; 24];
        for _ in 0..8_000 {
            let Case::Call(Call { names, nodes, records, sets, .. }) = lending::damaged_case(&mut rng) else {
                unreachable!()
            };
            let lent = Lent { sets: &sets, ..Lent::enough(Some(&names), &nodes, &records, 0) };
            let refusal = match (Lent { work_len: usize::MAX, ..lent }).judged() {
                Answer::Refused(refusal) => Some(refusal),
                _ => None,
            };
            assert_eq!(write(&names, &nodes, &records, &sets, usize::MAX).err(), refusal);
            seen[refusal.map_or(0, |r| r.number as usize)] += 1;
            if refusal.is_none() {
                let short = Lent { work_len: 0, ..lent };
                assert_eq!(short.judged(), Answer::Refused(Refusal { number: 14, place: 0 }));
            }
        }
        seen[14] = 50;
        assert!(seen.iter().all(|n| *n >= 50), "{seen:?}");
    });
}

// ---- limits ----

#[test]
fn limits_of_nodes_and_records() {
    with_deep_stack(|| {
        let section = section_of(&presses());
        let of = |flow: &Drawing, records: &[u16]| {
            judge_named(&section, &flow.table(), records, WORK, ALLOWANCE).to_string()
        };
        let sixty_four = seq(block(skipp()), tower(31, &event(PRESS), seq));
        assert_eq!(sixty_four.size(), 64);
        let pressed = |n: usize| [[PRESS_P1, PRESS_P2, PRESS].repeat(100)[..n].to_vec(), vec![DONE]].concat();
        assert_eq!(of(&sixty_four, &pressed(31)), "accepted 0 32 33");
        assert_eq!(of(&sixty_four, &pressed(255)), "rejected 0 31 32");
        assert_eq!(of(&sixty_four, &pressed(256)), "refused 11 0 0");
        assert_eq!(of(&tower(33, &event(PRESS), seq), &pressed(32)), "refused 3 0 0");
        let nodes = sixty_four.table();
        let with_work =
            |work_len| judge_named(&section, &nodes, &pressed(255), work_len, ALLOWANCE).to_string();
        assert_eq!(with_work(2 * 64 * 257), "rejected 0 31 32");
        assert_eq!(with_work(2 * 64 * 257 - 1), "refused 14 0 0");
    });
}

/// A node that takes any of 256 entries.
#[test]
fn limits_of_names() {
    for machineless in [1u16, 77, 256] {
        let machine = |e: u16| if e == machineless { vec![] } else { vec![e as u8; 40] };
        let names: Vec<Entry> = (1..=256).map(|e| (vec![b'p'; 40], machine(e))).collect();
        for record in 1..=256 {
            assert_eq!(line(&names, &event(machineless), &[record, DONE]), "accepted 0 2 3");
        }
    }
    for (names, expected) in fixed::names_at_the_limits().iter().zip([
        "accepted 0 1 2",
        "accepted 0 1 2",
        "accepted 0 1 2",
        "accepted 0 1 2",
        "refused 16 0 0",
    ]) {
        let answer = judge_named(&section_of(names), &[2, 0, 0], &[DONE], 4, ALLOWANCE);
        assert_eq!(answer.to_string(), expected, "{} names", names.len());
    }
}
