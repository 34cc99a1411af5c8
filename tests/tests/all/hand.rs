//! "Judged by hand": all seventeen lines, by both searches and by the trace sets, and the limits.

use oracle::by_hand::{self, A, B, C, D, MILLION};
use oracle::drawing::*;
use oracle::judge::{judge, with_deep_stack, Lent};
use oracle::matching::Matching;
use oracle::term::{DONE, FAILED, WITHDRAWN};
use oracle::traces::meaning;

#[test]
fn judged_by_hand() {
    for case in by_hand::table() {
        let (nodes, records) = (case.flow.table(), &case.records);
        let lent = Lent::enough(None, &nodes, records, case.allowance);
        let shown = case.flow.show();
        assert_eq!(lent.judged().to_string(), case.line, "{shown}");
        assert_eq!(lent.judged_by_lists().to_string(), case.line, "{shown}");
        let is_trace = meaning(&nodes, &[], &Matching::ByNumber, u64::MAX).unwrap().has(records);
        assert_eq!(is_trace, case.line.starts_with("accepted"), "{shown}");
    }
}

#[test]
fn sixty_four_nodes_are_judged_and_sixty_five_refused() {
    with_deep_stack(|| {
        let with_block = seq(block(skipp()), tower(31, &skip(), seq));
        assert_eq!(with_block.size(), 64);
        assert_eq!(judge(&with_block.table(), &[DONE], 256, MILLION).to_string(), "accepted 0 1 2");
        let longer = tower(33, &skip(), seq);
        assert_eq!(longer.size(), 65);
        assert_eq!(judge(&longer.table(), &[DONE], 300, MILLION).to_string(), "refused 3 0 0");
    });
}

#[test]
fn two_hundred_and_fifty_six_records_are_judged_and_one_more_refused() {
    let flow = event(A).table();
    let mut records = vec![A; 255];
    records.push(DONE);
    assert_eq!(judge(&flow, &records, 2 * 257, MILLION).to_string(), "rejected 0 1 2");
    assert_eq!(judge(&flow, &records, 2 * 257 - 1, MILLION).to_string(), "refused 14 0 0");
    records.insert(0, A);
    assert_eq!(judge(&flow, &records, 2 * 258, MILLION).to_string(), "refused 11 0 0");
}

/// The count shows which successor was tried first.
#[test]
fn successors_come_in_order() {
    let line = |flow: &Drawing, records: &[u16]| judge(&flow.table(), records, 40_000, MILLION).to_string();

    // "the left or first part's before the right or second part's"
    let two_ways = choice(seq(event(A), event(B)), seq(event(A), event(C)));
    assert_eq!(line(&two_ways, &[A, B, DONE]), "accepted 0 3 4");
    assert_eq!(line(&two_ways, &[A, C, DONE]), "accepted 0 3 5");

    // "for parallel parts a side's order is its endings ✓, ?, !": YIELD÷b leaves b first, then SKIP.
    let yielding = parallel(pair(yields(), event(B)), throww());
    assert_eq!(line(&yielding, &[FAILED, B, DONE]), "accepted 0 3 4");
    assert_eq!(line(&yielding, &[FAILED, DONE]), "accepted 0 2 4");

    // "for PP;QQ, those of an ending within PP come before the combined ones": SKIP, then SKIP;a.
    let yielding_twice = seq(pair(yields(), event(A)), pair(yields(), event(B)));
    assert_eq!(line(&yielding_twice, &[WITHDRAWN, DONE]), "accepted 0 2 3");
    assert_eq!(line(&yielding_twice, &[WITHDRAWN, A, DONE]), "accepted 0 3 5");

    // "combined ones go by the first part's order, then by the second's": c;a, d;a, c;b, d;b.
    let leaves = |e: u16| pair(skip(), event(e));
    let first = || choice(leaves(A), leaves(B));
    let second = || choice(leaves(C), leaves(D));
    let in_turn = seq(first(), second());
    assert_eq!(line(&in_turn, &[DONE, C, A, DONE]), "accepted 0 4 5");
    assert_eq!(line(&in_turn, &[DONE, D, A, DONE]), "accepted 0 4 6");
    assert_eq!(line(&in_turn, &[DONE, C, B, DONE]), "accepted 0 4 8");
    assert_eq!(line(&in_turn, &[DONE, D, B, DONE]), "accepted 0 4 9");
    // a || c, a || d, b || c, b || d.
    let beside = parallel(first(), second());
    assert_eq!(line(&beside, &[DONE, D, A, DONE]), "accepted 0 4 6");
    assert_eq!(line(&beside, &[DONE, C, B, DONE]), "accepted 0 4 8");

    // "Equal successors by different rules count separately": (✓,?), (?,✓), (?,?).
    let three_ways = parallel(yieldd(), yieldd());
    assert_eq!(line(&three_ways, &[WITHDRAWN, FAILED]), "rejected 0 1 4");

    // "the compensations go outermost": both steps of the second part with a held, then both with b held.
    // For b that is the root, two states and their compensations in vain, and then four on the way.
    let twice_by_two =
        seq(choice(leaves(A), leaves(B)), choice(pair(event(C), skip()), pair(event(C), event(D))));
    assert_eq!(line(&twice_by_two, &[C, DONE, A, DONE]), "accepted 0 4 5");
    assert_eq!(line(&twice_by_two, &[C, DONE, D, A, DONE]), "accepted 0 5 8");
    assert_eq!(line(&twice_by_two, &[C, DONE, B, DONE]), "accepted 0 4 9");
}
