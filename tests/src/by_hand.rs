//! The table "Judged by hand" of document 01, line by line, and what may come next in its flows; then flows of two lines that meet.

use crate::drawing::*;
use crate::sets::EventSet;
use crate::term::{DONE, FAILED, WITHDRAWN};

pub const A: u16 = 1;
pub const B: u16 = 2;
pub const C: u16 = 3;
pub const D: u16 = 4;
pub const MILLION: u32 = 1_000_000;

pub struct HandCase {
    pub flow: Drawing,
    pub records: Vec<u16>,
    pub allowance: u32,
    pub line: &'static str,
}

pub fn table() -> Vec<HandCase> {
    let a_b = || pair(event(A), event(B));
    let c_d = || pair(event(C), event(D));
    let undone = || block(seq(a_b(), throww()));
    let throw_beside_yield = || parallel(throw(), seq(yields(), event(A)));
    let undone_in_turn = || block(seq(seq(a_b(), c_d()), throww()));
    let a_beside_a = || parallel(event(A), event(A));
    let lines: [(Drawing, &[u16], u32, &str); 17] = [
        (skip(), &[DONE], MILLION, "accepted 0 1 2"),
        (seq(event(A), event(B)), &[A, B, DONE], MILLION, "accepted 0 3 4"),
        (choice(event(A), event(A)), &[A, FAILED], MILLION, "rejected 0 1 3"),
        (undone(), &[A, B, DONE], MILLION, "accepted 0 3 4"),
        (undone(), &[A, DONE], MILLION, "rejected 0 1 2"),
        (block(yieldd()), &[WITHDRAWN], MILLION, "rejected 0 0 1"),
        (block(yieldd()), &[DONE], MILLION, "accepted 0 1 2"),
        (throw_beside_yield(), &[WITHDRAWN], MILLION, "rejected 0 0 1"),
        (throw_beside_yield(), &[A, FAILED], MILLION, "accepted 0 2 3"),
        (seq(seq(yields(), event(A)), throw()), &[WITHDRAWN], MILLION, "accepted 0 1 2"),
        (undone_in_turn(), &[A, C, D, B, DONE], MILLION, "accepted 0 5 6"),
        (undone_in_turn(), &[A, C, B, D, DONE], MILLION, "rejected 0 2 3"),
        (block(seq(parallel(a_b(), c_d()), throww())), &[A, C, D, B, DONE], MILLION, "accepted 0 5 6"),
        (a_beside_a(), &[A, A, FAILED], 5, "rejected 0 2 5"),
        (a_beside_a(), &[A, A, FAILED], 4, "undecided 0 0 4"),
        (a_b(), &[A, DONE, B, DONE], MILLION, "accepted 0 4 5"),
        (throww(), &[FAILED, DONE], MILLION, "accepted 0 2 3"),
    ];
    lines.map(hand_case).into()
}

fn hand_case((flow, records, allowance, line): (Drawing, &[u16], u32, &'static str)) -> HandCase {
    HandCase { flow, records: records.to_vec(), allowance, line }
}

/// What may come next after beginnings of the table's records, and after some that no run follows; worked out from the rules.
pub fn lists() -> Vec<HandCase> {
    let a_b = || pair(event(A), event(B));
    let c_d = || pair(event(C), event(D));
    let undone = || block(seq(a_b(), throww()));
    let throw_beside_yield = || parallel(throw(), seq(yields(), event(A)));
    let yield_and_throw = || seq(seq(yields(), event(A)), throw());
    let undone_in_turn = || block(seq(seq(a_b(), c_d()), throww()));
    let undone_at_will = || block(seq(parallel(a_b(), c_d()), throww()));
    let a_beside_a = || parallel(event(A), event(A));
    let lines: [(Drawing, &[u16], u32, &str); 59] = [
        (skip(), &[], MILLION, "listed 1 1 61441"),
        (skip(), &[A], MILLION, "listed 0 1"),
        (skip(), &[DONE], MILLION, "refused 13 0"),
        (seq(event(A), event(B)), &[], MILLION, "listed 1 1 1"),
        (seq(event(A), event(B)), &[A], MILLION, "listed 1 2 2"),
        (seq(event(A), event(B)), &[A, B], MILLION, "listed 1 3 61441"),
        (seq(event(A), event(B)), &[B], MILLION, "listed 0 1"),
        (seq(event(A), event(B)), &[A, B, DONE], MILLION, "refused 13 2"),
        (choice(event(A), event(A)), &[], MILLION, "listed 1 1 1"),
        (choice(event(A), event(A)), &[A], MILLION, "listed 1 3 61441"),
        (choice(event(A), event(A)), &[A, FAILED], MILLION, "refused 13 1"),
        (undone(), &[], MILLION, "listed 1 1 1"),
        (undone(), &[A], MILLION, "listed 1 2 2"),
        (undone(), &[A, B], MILLION, "listed 1 3 61441"),
        (undone(), &[A, DONE, B], MILLION, "refused 13 1"),
        (block(yieldd()), &[], MILLION, "listed 1 1 61441"),
        (throw_beside_yield(), &[], MILLION, "listed 2 1 1 61443"),
        (throw_beside_yield(), &[A], MILLION, "listed 1 2 61443"),
        (yield_and_throw(), &[], MILLION, "listed 2 1 1 61442"),
        (yield_and_throw(), &[A], MILLION, "listed 1 2 61443"),
        (undone_in_turn(), &[], MILLION, "listed 1 1 1"),
        (undone_in_turn(), &[A], MILLION, "listed 1 2 3"),
        (undone_in_turn(), &[A, C], MILLION, "listed 1 3 4"),
        (undone_in_turn(), &[A, C, D], MILLION, "listed 1 4 2"),
        (undone_in_turn(), &[A, C, D, B], MILLION, "listed 1 5 61441"),
        (undone_in_turn(), &[A, C, B], MILLION, "listed 0 3"),
        (undone_in_turn(), &[A, C, B, D], MILLION, "listed 0 3"),
        (undone_at_will(), &[], MILLION, "listed 2 1 1 3"),
        (undone_at_will(), &[A], MILLION, "listed 1 2 3"),
        (undone_at_will(), &[A, C], MILLION, "listed 2 3 2 4"),
        (undone_at_will(), &[A, C, B], MILLION, "listed 1 4 4"),
        (undone_at_will(), &[A, C, D], MILLION, "listed 1 4 2"),
        (undone_at_will(), &[A, C, D, B], MILLION, "listed 1 5 61441"),
        (a_beside_a(), &[], MILLION, "listed 1 1 1"),
        (a_beside_a(), &[], 1, "listed 1 1 1"),
        (a_beside_a(), &[], 0, "undecided 0 0"),
        (a_beside_a(), &[A], 3, "listed 1 3 1"),
        (a_beside_a(), &[A], 2, "undecided 0 2"),
        (a_beside_a(), &[A, A], 5, "listed 1 5 61441"),
        (a_beside_a(), &[A, A], 4, "undecided 0 4"),
        (a_beside_a(), &[A, A, A], 5, "listed 0 5"),
        (a_beside_a(), &[A, B], 3, "listed 0 3"),
        (a_beside_a(), &[A, B], 2, "undecided 0 2"),
        (a_beside_a(), &[A, A, FAILED], 4, "refused 13 2"),
        (a_b(), &[], MILLION, "listed 1 1 1"),
        (a_b(), &[A], MILLION, "listed 1 2 61441"),
        (a_b(), &[A, DONE], MILLION, "listed 1 3 2"),
        (a_b(), &[A, DONE, B], MILLION, "listed 1 4 61441"),
        (a_b(), &[A, FAILED], MILLION, "listed 0 2"),
        (a_b(), &[A, DONE, B, DONE], MILLION, "refused 13 3"),
        (throww(), &[], MILLION, "listed 1 1 61443"),
        (throww(), &[FAILED], MILLION, "listed 1 2 61441"),
        (throww(), &[FAILED, DONE], MILLION, "refused 13 1"),
        (yieldd(), &[], MILLION, "listed 2 1 61441 61442"),
        // withdrawn by the left, by the right and by both
        (parallel(yieldd(), yieldd()), &[WITHDRAWN], 4, "listed 1 4 61441"),
        (parallel(yieldd(), yieldd()), &[WITHDRAWN], 3, "undecided 0 3"),
        (parallel(yieldd(), throww()), &[], MILLION, "listed 1 1 61443"),
        (choice(event(B), choice(event(A), yields())), &[], MILLION, "listed 4 1 1 2 61441 61442"),
        (choice(throw(), choice(yields(), event(A))), &[], MILLION, "listed 4 1 1 61441 61442 61443"),
    ];
    lines.map(hand_case).into()
}

/// The sets of the flows below, by their numbers.
pub fn sets() -> Vec<EventSet> {
    vec![EventSet::EMPTY, EventSet::of(&[A]), EventSet::of(&[B]), EventSet::of(&[A, B])]
}
pub const NONE: u16 = 0;
pub const ONLY_A: u16 = 1;
pub const ONLY_B: u16 = 2;
pub const A_AND_B: u16 = 3;

/// Two lines that meet, request Four of document 02, with the sets above; worked out from the rules.
pub fn meetings() -> Vec<HandCase> {
    let (a, b, c) = (|| event(A), || event(B), || event(C));
    let undone = |pp: Drawing| block(seq(pp, throww()));
    let strands = || joint(ONLY_B, seq(a(), b()), c());
    let together = || joint(ONLY_A, a(), a());
    let press = || joint(ONLY_B, seq(a(), b()), seq(c(), b()));
    let two_ways = |p: Drawing, q: Drawing| choice(seq(a(), p), seq(a(), q));
    let four_ways = || joint(ONLY_A, two_ways(b(), c()), two_ways(event(D), event(5)));
    let undone_apart = || undone(joint(ONLY_A, pair(a(), b()), pair(a(), c())));
    let undone_together = || undone(joint(A_AND_B, pair(a(), b()), pair(a(), b())));
    let undone_never = || undone(joint(A_AND_B, pair(a(), b()), pair(a(), c())));
    let root = || joint(A_AND_B, pair(a(), b()), pair(a(), b()));
    let waits = || joint(ONLY_A, a(), skip());
    let twice = || joint(ONLY_A, choice(a(), a()), choice(a(), a()));
    let three = |first, second| joint(second, joint(first, a(), a()), a());
    let lines: [(Drawing, &[u16], u32, &str); 46] = [
        // "a strand: (a;b) synchronised on {b} with c"
        (strands(), &[A, C, DONE], MILLION, "rejected 0 2 3"),
        (strands(), &[C, A, DONE], MILLION, "rejected 0 2 3"),
        (strands(), &[A, B, DONE], MILLION, "rejected 0 1 2"),
        (strands(), &[A, C, B, DONE], MILLION, "rejected 0 2 3"),
        // "an event in the set is one step of both sides"
        (together(), &[A, DONE], MILLION, "accepted 0 2 3"),
        (together(), &[A, A, DONE], MILLION, "rejected 0 1 2"),
        (joint(NONE, a(), a()), &[A, DONE], MILLION, "rejected 0 1 3"),
        (joint(NONE, a(), a()), &[A, A, FAILED], 5, "rejected 0 2 5"),
        (joint(ONLY_B, a(), a()), &[A, A, FAILED], 4, "undecided 0 0 4"),
        (joint(ONLY_A, a(), b()), &[A, DONE], MILLION, "rejected 0 0 1"),
        (joint(ONLY_A, a(), b()), &[B, DONE], MILLION, "rejected 0 1 2"),
        (joint(A_AND_B, a(), b()), &[B, DONE], MILLION, "rejected 0 0 1"),
        (press(), &[A, C, B, DONE], MILLION, "accepted 0 4 5"),
        (press(), &[C, A, B, DONE], MILLION, "accepted 0 4 5"),
        (press(), &[A, B, C, DONE], MILLION, "rejected 0 1 2"),
        (press(), &[A, C, B, B, DONE], MILLION, "rejected 0 3 4"),
        // "by the left's order, then the right's"
        (four_ways(), &[A, B, D, DONE], MILLION, "accepted 0 4 5"),
        (four_ways(), &[A, B, 5, DONE], MILLION, "accepted 0 4 7"),
        (four_ways(), &[A, C, D, DONE], MILLION, "accepted 0 4 7"),
        (four_ways(), &[A, 5, C, DONE], MILLION, "accepted 0 4 9"),
        (twice(), &[A, FAILED], 5, "rejected 0 1 5"),
        (twice(), &[A, FAILED], 4, "undecided 0 0 4"),
        (twice(), &[A, DONE], 3, "accepted 0 2 3"),
        // "closings combine as now"
        (joint(ONLY_A, seq(a(), throw()), seq(a(), yields())), &[A, FAILED], MILLION, "accepted 0 2 3"),
        (joint(ONLY_A, seq(a(), throw()), seq(a(), yields())), &[A, WITHDRAWN], MILLION, "rejected 0 1 2"),
        (joint(ONLY_A, seq(a(), yields()), a()), &[A, WITHDRAWN], MILLION, "accepted 0 2 3"),
        // "for forward steps and for compensations"
        (undone_apart(), &[A, B, C, DONE], MILLION, "accepted 0 4 5"),
        (undone_apart(), &[A, C, B, DONE], MILLION, "accepted 0 4 5"),
        (undone_together(), &[A, B, DONE], MILLION, "accepted 0 3 4"),
        (undone_together(), &[A, B, B, DONE], MILLION, "rejected 0 2 3"),
        (undone_never(), &[A, C, DONE], MILLION, "rejected 0 2 3"),
        (undone_never(), &[A, B, DONE], MILLION, "rejected 0 1 2"),
        (root(), &[A, DONE, B, DONE], MILLION, "accepted 0 4 5"),
        (root(), &[A, DONE, B, B, DONE], MILLION, "rejected 0 3 4"),
        (joint(A_AND_B, pair(a(), b()), pair(b(), a())), &[A, DONE, DONE], MILLION, "rejected 0 0 1"),
        // what is not entered need not go on
        (seq(throw(), waits()), &[FAILED], MILLION, "accepted 0 1 2"),
        (block(pair(skip(), waits())), &[DONE], MILLION, "accepted 0 1 2"),
        (undone(pair(skip(), waits())), &[DONE], MILLION, "rejected 0 0 1"),
        (pair(a(), waits()), &[A, DONE, DONE], MILLION, "rejected 0 2 3"),
        // "SKIP isn't its unit"
        (waits(), &[A, DONE], MILLION, "rejected 0 0 1"),
        (joint(ONLY_B, a(), skip()), &[A, DONE], MILLION, "accepted 0 2 3"),
        // one set throughout, and two
        (three(ONLY_A, ONLY_A), &[A, DONE], MILLION, "accepted 0 2 3"),
        (three(ONLY_A, ONLY_B), &[A, A, DONE], MILLION, "accepted 0 3 4"),
        (three(ONLY_B, ONLY_A), &[A, A, DONE], MILLION, "rejected 0 1 3"),
        (parallel(together(), together()), &[A, A, DONE], MILLION, "accepted 0 3 4"),
        (parallel(together(), together()), &[A, A, FAILED], 5, "rejected 0 2 5"),
    ];
    lines.map(hand_case).into()
}
