//! Request Four, two lines that meet at the press: flows worked out by hand, the two refusals and their order, the limits, sets looked up by
//! the record's event, and steps that multiply.

use oracle::by_hand::{self, A, A_AND_B, B, C, MILLION, ONLY_A, ONLY_B};
use oracle::cases::calling::Call;
use oracle::cases::lending::{presses, LIFT, PRESS, PRESS_P1, PRESS_P2};
use oracle::cases::meeting::crowds;
use oracle::cases::writing::{self, FAULTS};
use oracle::drawing::*;
use oracle::flowfile::FlowFile;
use oracle::judge::{judge, with_deep_stack, Answer, Lent};
use oracle::matching::Matching;
use oracle::next::Beginning;
use oracle::program::program;
use oracle::sets::{bytes_of, sets_of, EventSet, MOST_SETS, SET_BYTES};
use oracle::term::{kind, set_number, sort_of, Sort, DONE, FAILED, WITHDRAWN};
use oracle::traces::{followed, longest_beginning, meaning};

/// Without names, with the sets of by_hand.
fn line(flow: &Drawing, records: &[u16]) -> String {
    line_within(flow, records, MILLION)
}

fn line_within(flow: &Drawing, records: &[u16], allowance: u32) -> String {
    let (nodes, sets) = (flow.table(), bytes_of(&by_hand::sets()));
    Lent { sets: &sets, ..Lent::enough(None, &nodes, records, allowance) }.judged().to_string()
}

/// What may come next, without names, with the sets of by_hand.
fn next(flow: &Drawing, records: &[u16]) -> String {
    let (nodes, sets) = (flow.table(), bytes_of(&by_hand::sets()));
    Beginning { sets: &sets, ..Beginning::enough(None, &nodes, records, MILLION) }.listed().to_string()
}

// ---- worked out by hand ----

#[test]
fn met_by_hand() {
    let sets = by_hand::sets();
    for case in by_hand::meetings() {
        let (nodes, records) = (case.flow.table(), &case.records);
        let bytes = bytes_of(&sets);
        let lent = Lent { sets: &bytes, ..Lent::enough(None, &nodes, records, case.allowance) };
        let shown = case.flow.show();
        assert_eq!(lent.judged().to_string(), case.line, "{shown} {records:?}");
        assert_eq!(lent.judged_by_lists().to_string(), case.line, "{shown} {records:?}");
        let is_trace = meaning(&nodes, &sets, &Matching::ByNumber, u64::MAX).unwrap().has(records);
        assert_eq!(is_trace, case.line.starts_with("accepted"), "{shown} {records:?}");
        if let Answer::Rejected { place, .. } = lent.judged() {
            let followed = followed(&nodes, &sets, &Matching::ByNumber, u64::MAX).unwrap();
            assert_eq!(longest_beginning(&followed, records), place, "{shown} {records:?}");
        }
    }
}

/// A batch that strands: nothing may come next, and nothing is left out.
#[test]
fn what_may_come_next() {
    let strands = joint(ONLY_B, seq(event(A), event(B)), event(C));
    assert_eq!(next(&strands, &[]), "listed 2 1 1 3");
    assert_eq!(next(&strands, &[A]), "listed 1 2 3", "b waits for the right");
    assert_eq!(next(&strands, &[A, C]), "listed 0 3");
    let press = joint(ONLY_B, seq(event(A), event(B)), seq(event(C), event(B)));
    assert_eq!(next(&press, &[A, C]), "listed 1 3 2");
    assert_eq!(next(&press, &[A, C, B]), "listed 1 4 61441");
    assert_eq!(next(&press, &[C]), "listed 1 2 1");
    let undone = block(seq(joint(A_AND_B, pair(event(A), event(B)), pair(event(A), event(C))), throww()));
    assert_eq!(next(&undone, &[A]), "listed 1 2 3", "the compensations wait for each other at b");
    assert_eq!(next(&undone, &[A, C]), "listed 0 3");
    let each_way = joint(ONLY_A, choice(event(A), event(B)), choice(event(A), event(C)));
    assert_eq!(next(&each_way, &[]), "listed 3 1 1 2 3");
    assert_eq!(next(&each_way, &[B]), "listed 1 2 3");
}

/// The paper's example: [(A÷B1 ‖ A÷B2) ; THROWW] with {A} is A;(B1 ‖ B2).
#[test]
fn the_example_of_the_paper() {
    let (b1, b2) = (|| event(B), || event(C));
    let met = joint(ONLY_A, pair(event(A), b1()), pair(event(A), b2()));
    let (undone, plain) = (block(seq(met, throww())), seq(event(A), parallel(b1(), b2())));
    for records in
        [&[A, B, C, DONE][..], &[A, C, B, DONE], &[A, B, DONE], &[A, A, B, C, DONE], &[B, A, C, DONE]]
    {
        assert_eq!(line(&undone, records), line(&plain, records));
    }
    let dead = joint(A_AND_B, pair(event(A), event(C)), pair(event(B), event(C)));
    assert_eq!(next(&dead, &[]), "listed 0 1", "a deadlock in the forward behaviour");
}

// ---- sets ----

#[test]
fn bits_of_a_set() {
    assert_eq!(EventSet::of(&[1]).0[0], 1);
    assert_eq!(EventSet::of(&[8]).0[0], 128);
    assert_eq!(EventSet::of(&[9]).0[..2], [0, 1]);
    assert_eq!(EventSet::of(&[256]).0[31], 128);
    assert_eq!(EventSet::of(&[249, 256]).0[31], 129);
    for e in 1..=256 {
        let set = EventSet::of(&[e]);
        assert_eq!(set.events(), [e]);
        assert!((1..=256).all(|other| set.has(other) == (other == e)));
    }
    let all = EventSet([255; SET_BYTES]);
    assert_eq!(all.events(), (1..=256).collect::<Vec<u16>>());
    for number in [0, 257, DONE, WITHDRAWN, FAILED, u16::MAX] {
        assert!(!all.has(number), "no event is in no set");
    }
    let sets = vec![EventSet::of(&[1, 9]), EventSet::EMPTY, all];
    assert_eq!(sets_of(&bytes_of(&sets)), sets);
}

#[test]
fn kinds_name_their_sets() {
    for number in 0..16 {
        for (first, sort) in [(256, Sort::Standard), (512, Sort::Compensable)] {
            assert_eq!(set_number(first + number), Some(number as usize));
            assert_eq!(sort_of(first + number), sort);
        }
    }
    for kind in (0..256).chain(272..512).chain(528..=u16::MAX) {
        assert_eq!(set_number(kind), None);
    }
}

/// The same flow with another set of the sixteen at each number.
#[test]
fn each_number_has_its_own_set() {
    for number in 0..16 {
        let mut sets = vec![EventSet::of(&[B]); MOST_SETS];
        sets[number as usize] = EventSet::of(&[A]);
        let (nodes, bytes) = (joint(number, event(A), event(A)).table(), bytes_of(&sets));
        let lent = Lent { sets: &bytes, ..Lent::enough(None, &nodes, &[A, DONE], MILLION) };
        assert_eq!(lent.judged().to_string(), "accepted 0 2 3");
        let other = joint((number + 1) % 16, event(A), event(A)).table();
        assert_eq!(Lent { nodes: &other, ..lent }.judged().to_string(), "rejected 0 1 3");
    }
}

// ---- refusals ----

/// What each of the five calls refuses: with names, without, asked what may come next with names, without, and to write.
fn refusals(nodes: &[u16], records: &[u16], sets: &[u8]) -> [String; 5] {
    let names = [0, 0];
    let judged = |names| {
        let lent = Lent { sets, work_len: 40_000, ..Lent::enough(names, nodes, records, 0) };
        lent.judged().to_string().trim_end_matches(" 0").to_string()
    };
    let listed = |names| {
        let lent = Beginning { sets, work_len: 40_000, ..Beginning::enough(names, nodes, &[], 0) };
        lent.listed().to_string()
    };
    let call = Call::write(names.to_vec(), nodes.to_vec(), records.to_vec()).with_sets(sets.to_vec());
    let written = match call.written() {
        Ok(file) => format!("written {}", file.len()),
        Err(refusal) => format!("refused {} {}", refusal.number, refusal.place),
    };
    [judged(Some(&names)), judged(None), listed(Some(&names)), listed(None), written]
}

/// All five refuse so.
fn assert_refused(nodes: &[u16], records: &[u16], sets: &[u8], number: u32, place: usize) {
    let all = refusals(nodes, records, sets);
    let shown = format!("refused {number} {place}");
    let shown = shown.trim_end_matches(" 0");
    for refusal in all {
        assert_eq!(refusal.trim_end_matches(" 0"), shown, "{nodes:?}, {} bytes of sets", sets.len());
    }
}

fn is_fine(nodes: &[u16], records: &[u16], sets: &[u8]) -> bool {
    refusals(nodes, records, sets).iter().all(|answer| !answer.starts_with("refused"))
}

/// "22, kind with a set number not present, right after 4."
#[test]
fn set_numbers_not_present() {
    let both = |kind: u16| match sort_of(kind) {
        Sort::Standard => (vec![2, 0, 0, 2, 0, 0, kind, 0, 1], vec![DONE]),
        Sort::Compensable => (vec![14, 0, 0, 14, 0, 0, kind, 0, 1], vec![DONE, DONE]),
    };
    for count in 0..=16 {
        let sets = vec![0; SET_BYTES * count];
        for kind in (256..272).chain(512..528) {
            let (nodes, records) = both(kind);
            if set_number(kind).unwrap() < count {
                assert!(is_fine(&nodes, &records, &sets), "kind {kind}, {count} sets");
            } else {
                assert_refused(&nodes, &records, &sets, 22, 2);
            }
        }
        for kind in [0, 17, 255, 272, 273, 511, 528, 768, u16::MAX] {
            let (nodes, records) = both(kind);
            assert_refused(&nodes, &records, &sets, 4, 2);
        }
    }
}

#[test]
fn where_22_stands() {
    let one_set = [0; SET_BYTES];
    assert_refused(&[257, 0, 0], &[DONE], &one_set, 22, 0);
    assert_refused(&[256, 0, 0], &[DONE], &one_set, 6, 0);
    assert_refused(&[2, 0, 0, 257, 0, 0], &[DONE], &one_set, 22, 1);
    assert_refused(&[2, 0, 0, 256, 0, 0], &[DONE], &one_set, 8, 1);
    assert_refused(&[14, 0, 0, 2, 0, 0, 256, 0, 1], &[DONE], &one_set, 7, 2);
    assert_refused(&[2, 0, 0, 2, 0, 0, 512, 0, 1], &[DONE], &one_set, 7, 2);
    assert_refused(&[1, 0, 0, 257, 0, 0], &[DONE], &one_set, 5, 0);
    assert_refused(&[17, 0, 0, 257, 0, 0], &[DONE], &one_set, 4, 0);
    assert_refused(&[2, 0, 0, 2, 0, 0, 2, 0, 0, 257, 0, 1], &[DONE], &one_set, 22, 3);
    assert_refused(&[2, 0, 0, 2, 0, 0, 2, 0, 0, 256, 0, 1], &[DONE], &one_set, 9, 2);
}

/// "With no sets they answer as before", but for these kinds.
#[test]
fn without_sets() {
    assert_eq!(judge(&[2, 0, 0, 2, 0, 0, 256, 0, 1], &[DONE], 100, 9).to_string(), "refused 22 2 0");
    assert_eq!(judge(&[14, 0, 0, 14, 0, 0, 527, 0, 1], &[DONE], 100, 9).to_string(), "refused 22 2 0");
    assert_eq!(judge(&[2, 0, 0, 2, 0, 0, 7, 0, 1], &[DONE], 100, 9).to_string(), "accepted 0 1 2");
}

/// "23, lent sets of a length no multiple of 32 or above 512, place 0, just before the nodes."
#[test]
fn lengths_of_sets() {
    let skip = [2, 0, 0];
    for length in 0..=600 {
        let sets = vec![255; length];
        if length % 32 == 0 && length <= 512 {
            assert!(is_fine(&skip, &[DONE], &sets), "{length} bytes");
        } else {
            assert_refused(&skip, &[DONE], &sets, 23, 0);
            assert_refused(&[17, 0, 0], &[DONE], &sets, 23, 0);
            assert_refused(&[1; 4], &[DONE], &sets, 2, 0);
        }
    }
    let [named, plain, ..] = refusals(&[17, 0, 0], &[], &[0; 31]);
    assert_eq!((&named[..], &plain[..]), ("refused 10", "refused 23"), "without names records come last");
    let [named, plain, ..] = refusals(&[2, 0, 0], &[0; 257], &[0; 31]);
    assert_eq!((&named[..], &plain[..]), ("refused 11", "refused 23"));
}

/// With sets lent, each of the faults by its number and place, and of each two the one that comes first.
#[test]
fn faults_alone_and_in_pairs() {
    for count in [0, 4] {
        let planned = writing::planned().with_sets(vec![1; SET_BYTES * count]);
        // Node 0 names a set that is not there, however many are.
        let not_present = kind::COMP_JOINT + count as u16;
        for (refusal, mut call) in writing::faults_alone_and_in_pairs(&planned, &FAULTS.each_ref()) {
            if call.nodes.first() == Some(&kind::COMP_JOINT) {
                call.nodes[0] = not_present;
            }
            assert_eq!(call.written(), Err(refusal), "{call:?}");
        }
    }
}

// ---- by the record's event ----

fn of_presses(flow: &Drawing, set: &[u16], records: &[u16]) -> String {
    let plain = FlowFile::plain(presses(), flow.table(), records.to_vec());
    let file = FlowFile { sets: vec![EventSet::of(set)], ..plain };
    let (names, sets) = (file.names_section(), file.lent_sets());
    let lent = Lent { sets: &sets, ..Lent::enough(Some(&names), &file.nodes, records, MILLION) };
    assert_eq!(program(&file.bytes()), lent.judged());
    lent.judged().to_string()
}

/// "A node without a machine steps by the record's event, which is looked up in the set."
#[test]
fn any_press() {
    let both_any = joint(0, event(PRESS), event(PRESS));
    assert_eq!(of_presses(&both_any, &[PRESS_P1], &[PRESS_P1, DONE]), "accepted 0 2 3");
    assert_eq!(of_presses(&both_any, &[PRESS_P1], &[PRESS_P2, PRESS_P2, DONE]), "accepted 0 3 4");
    assert_eq!(of_presses(&both_any, &[PRESS_P1], &[PRESS_P2, DONE]), "rejected 0 1 3");
    assert_eq!(of_presses(&both_any, &[PRESS], &[PRESS_P1, DONE]), "rejected 0 1 3", "not the leaf's event");
    assert_eq!(of_presses(&both_any, &[PRESS], &[PRESS, DONE]), "accepted 0 2 3");
    assert_eq!(
        of_presses(&both_any, &[PRESS_P1], &[PRESS_P2, PRESS_P1, DONE]),
        "rejected 0 1 3",
        "one is over"
    );
    let one_on_p1 = joint(0, event(PRESS), event(PRESS_P1));
    assert_eq!(of_presses(&one_on_p1, &[PRESS_P1], &[PRESS_P1, DONE]), "accepted 0 2 3");
    assert_eq!(
        of_presses(&one_on_p1, &[PRESS_P2], &[PRESS_P2, PRESS_P1, DONE]),
        "rejected 0 0 1",
        "each must take it"
    );
    assert_eq!(of_presses(&one_on_p1, &[PRESS_P2], &[PRESS_P1, PRESS_P1, DONE]), "accepted 0 3 4");
    let undone =
        block(seq(joint(0, pair(event(PRESS), event(LIFT)), pair(event(PRESS), event(LIFT))), throww()));
    assert_eq!(of_presses(&undone, &[PRESS_P1, 5], &[PRESS_P1, 5, DONE]), "accepted 0 3 4");
    assert_eq!(of_presses(&undone, &[PRESS_P1, 5], &[PRESS_P1, 6, 6, DONE]), "accepted 0 4 5");
    assert_eq!(of_presses(&undone, &[PRESS_P1, 5], &[PRESS_P1, 6, 5, DONE]), "rejected 0 2 4");
}

// ---- steps that multiply ----

#[test]
fn steps_multiply() {
    let crowd = |n: usize| tower(n, &event(A), choice);
    assert_eq!(line(&joint(ONLY_A, crowd(5), crowd(7)), &[A, FAILED]), "rejected 0 1 36");
    assert_eq!(line_within(&joint(ONLY_A, crowd(5), crowd(7)), &[A, FAILED], 35), "undecided 0 0 35");
    assert_eq!(line(&joint(ONLY_B, crowd(5), crowd(7)), &[A, FAILED]), "rejected 0 1 13");
    let eight = tower(8, &crowd(4), |p, q| joint(ONLY_A, p, q));
    assert_eq!(line(&eight, &[A, FAILED]), "rejected 0 1 65537");
    assert_eq!(line(&eight, &[A, DONE]), "accepted 0 2 3");
}

/// (8!/0!)² + (8!/1!)² + .. states: nearly as many as 32 bits can count.
#[test]
fn nearly_as_many_states_as_can_be_counted() {
    with_deep_stack(|| {
        let below = |n: u64| -> u64 { (1..=n).product() };
        let states = |sides: u32, each: u64| -> u64 {
            (0..=each).map(|left| (below(each) / below(left)).pow(sides)).sum()
        };
        for (sides, each) in [(2, 3), (3, 4), (2, 6), (3, 6), (2, 8)] {
            let (flow, records) = crowds(sides, each as usize);
            let count = states(sides as u32, each);
            assert_eq!(line_within(&flow, &records, u32::MAX), format!("rejected 0 {each} {count}"));
            let short = count as u32 - 1;
            assert_eq!(line_within(&flow, &records, short), format!("undecided 0 0 {short}"));
        }
        assert!(states(2, 8) < u32::MAX as u64 && states(2, 8) > 1 << 31 && states(2, 9) > u32::MAX as u64);
        let (flow, records) = crowds(2, 9);
        assert_eq!(line_within(&flow, &records, u32::MAX), format!("undecided 0 0 {}", u32::MAX));
    });
}

/// Compensations by the million in joint parallels are not gone through one by one where they are no successors.
#[test]
fn compensations_by_the_million() {
    with_deep_stack(|| {
        let meet = |p, q| joint(ONLY_A, p, q);
        let yielding = pair(yields(), event(A));
        let silent = block(meet(throww(), meet(tower(5, &yielding, meet), tower(21, &yieldd(), meet))));
        assert_eq!(silent.size(), 64);
        assert_eq!(line(&silent, &[A, DONE]), "rejected 0 0 1");
        assert_eq!(line(&silent, &[DONE]), "accepted 0 1 2");
        assert_eq!(next(&silent, &[]), "listed 1 1 61441");
        let one_of_many = block(parallel(throww(), tower(14, &yielding, meet)));
        assert_eq!(line(&one_of_many, &[A, DONE]), "accepted 0 2 3", "where all fourteen are done");
        assert_eq!(line(&one_of_many, &[A, A, DONE]), "rejected 0 1 2");
        let withdrawing = tower(31, &yieldd(), meet);
        assert_eq!(line(&withdrawing, &[DONE, DONE]), "accepted 0 2 3");
        assert_eq!(line(&withdrawing, &[WITHDRAWN, FAILED]), "undecided 0 0 1000000");
    });
}
