//! Flows of equal parts, in which the same states come again and again by different ways. A judge that remembers the states it has gone
//! through, and brings back a wrong count or a wrong place, or what belongs to another state, place or record list, is found out here.

use super::calling::Call;
use super::judging::near;
use super::tandem::{self, Tandem};
use super::{naming, Case, MOST_WORK};
use crate::by_hand::{A, B, C, D};
use crate::drawing::*;
use crate::flowfile::section_of;
use crate::judge::{Effort, Lent};
use crate::matching::Matching;
use crate::measured::withdrawing;
use crate::random;
use crate::refusals::MOST_NODES;
use crate::rng::Rng;
use crate::sets::bytes_of;
use crate::term::{is_event, root, CLOSING_RECORDS, DONE, WITHDRAWN};

const EVENTS: usize = 4;

/// One to three cases of the same flow, to be judged one after the other: the same records again, or others that differ in little.
pub fn cases(rng: &mut Rng) -> Vec<Case> {
    if rng.once_in(20) {
        return cases_with_many_states(rng);
    }
    loop {
        let Tandem { flow, mut sets } =
            if rng.once_in(3) { tandem::of_equal_parts(rng) } else { Tandem::plain(flow(rng)) };
        if flow.size() > MOST_NODES {
            continue;
        }
        let mut nodes = flow.table_in_any_order(rng);
        let some = if rng.once_in(3) {
            let names = naming::named(rng, &mut nodes, &mut sets);
            let (section, events) = (section_of(&names), names.len());
            let run = random::run(rng, &root(&nodes, &sets), &Matching::ByName(names), events);
            let lent = Lent { sets: &bytes_of(&sets), ..Lent::enough(Some(&section), &nodes, &run, 0) };
            around(rng, lent, 3_000, events)
        } else {
            let run = random::run(rng, &root(&nodes, &sets), &Matching::ByNumber, EVENTS);
            let lent = Lent { sets: &bytes_of(&sets), ..Lent::enough(None, &nodes, &run, 0) };
            around(rng, lent, 3_000, EVENTS)
        };
        if !some.is_empty() {
            return some;
        }
    }
}

/// The same of flows with thousands of different states, more than a judge may remember.
fn cases_with_many_states(rng: &mut Rng) -> Vec<Case> {
    loop {
        let stepping = rng.between(2, 3);
        let nodes = withdrawing(stepping, rng.between(10, 12)).table_in_any_order(rng);
        let run = [vec![A; stepping], vec![WITHDRAWN], vec![B; rng.between(0, 2)], vec![DONE]].concat();
        let some = around(rng, Lent::enough(None, &nodes, &run, 0), 25_000, EVENTS);
        if !some.is_empty() {
            return some;
        }
    }
}

/// Cases of what is lent, with records around those of a run. None if the search is not worth it: few states, no equal ones, or more than
/// `most` different ones.
fn around(rng: &mut Rng, lent: Lent, most: usize, events: usize) -> Vec<Case> {
    let Lent { names, nodes, records: run, sets, .. } = lent;
    let (least_entered, most_entered) =
        *rng.pick(&[(24, 1_000), (100, 10_000), (1_000, 100_000), (1_000, 500_000)]);
    let mut all = vec![];
    let mut records = spoiled(rng, run, events);
    for _ in 0..rng.between(1, 3) {
        let lent = Lent { sets, ..Lent::enough(names, nodes, &records, most_entered) };
        match lent.effort_within(most) {
            Some(e) if e.entered >= least_entered && e.entered as usize > e.different + e.different / 4 => {
                all.push(call(rng, lent, e));
            }
            _ => break,
        }
        if rng.once_in(2) {
            records = spoiled(rng, run, events);
        }
    }
    all
}

/// An allowance around the count of a search with equal states.
pub fn allowance(rng: &mut Rng, count: u32) -> u32 {
    match rng.below(16) {
        0..=4 => count,
        5..=7 => count - 1,
        8 => count + 1,
        9 => rng.between(31, 33) as u32,
        10 => rng.between(63, 65) as u32,
        11 => count / 2,
        12 => rng.below(count as usize) as u32,
        _ => u32::MAX,
    }
}

fn call(rng: &mut Rng, lent: Lent, effort: Effort) -> Case {
    let allowance = allowance(rng, effort.entered);
    let work_len = if rng.once_in(8) { near(rng, lent.work_len, MOST_WORK) } else { lent.work_len };
    let (nodes, records) = (lent.nodes.to_vec(), lent.records.to_vec());
    if lent.names.is_none() && lent.sets.is_empty() {
        return Case::Judge { allowance, work_len, nodes, records };
    }
    let call = Call::judge(lent.names.map(<[u8]>::to_vec), nodes, records);
    let (work_len, sets) = (work_len as u32, lent.sets.to_vec());
    Case::Call(Call { allowance, work_len, sets, ..call })
}

/// A run that goes wrong near its end, so that much is tried before it is given up; now and then the run itself.
fn spoiled(rng: &mut Rng, run: &[u16], events: usize) -> Vec<u16> {
    let mut records = run.to_vec();
    let last = records.len() - 1;
    let late: Vec<usize> = (last.saturating_sub(3)..last).filter(|&i| is_event(records[i])).collect();
    match rng.below(8) {
        0 => {}
        1 | 2 if !late.is_empty() => records[*rng.pick(&late)] = rng.between(1, events) as u16,
        3 if !late.is_empty() => drop(records.remove(*rng.pick(&late))),
        4 => records.insert(last, rng.between(1, events) as u16),
        _ => records[last] = *rng.pick(&CLOSING_RECORDS),
    }
    records
}

pub fn flow(rng: &mut Rng) -> Drawing {
    let (few, more) = (rng.between(2, 5), rng.between(3, 10));
    let (p, q, pp, qq) = (part(rng), part(rng), undoable(rng), undoable(rng));
    match rng.below(16) {
        0 | 1 => copies(rng, more, &p, parallel),
        2 => copies(rng, more, &choice(p.clone(), p), seq),
        3 => seq(copies(rng, few, &p, parallel), copies(rng, few, &q, parallel)),
        4 => parallel(copies(rng, few, &p, parallel), copies(rng, few, &q, parallel)),
        5 => handler(seq(copies(rng, few, &p, parallel), throw()), copies(rng, few, &q, parallel)),
        // accepted only after all of the first part was gone through
        6 => {
            let all = copies(rng, few, &p, parallel);
            choice(seq(all.clone(), throw()), all)
        }
        // the same term after different numbers of records
        7 => copies(rng, more, &choice(event(A), seq(event(A), event(A))), seq),
        8 => copies(rng, more, &choice(p.clone(), seq(event(A), p)), seq),
        9 | 10 => block(seq(copies(rng, few, &pp, parallel), throww())),
        11 => block(parallel(throww(), copies(rng, few, &pp, parallel))),
        12 => copies(rng, few, &pp, parallel),
        13 => parallel(copies(rng, few, &pp, parallel), rng.pick(&[yieldd, throww, skipp])()),
        14 => seq(copies(rng, few, &choice(pp.clone(), pp), seq), qq),
        _ => pair(copies(rng, few, &p, parallel), copies(rng, few, &q, parallel)),
    }
}

/// So many copies of a part, grouped in any way.
fn copies(rng: &mut Rng, count: usize, part: &Drawing, join: fn(Drawing, Drawing) -> Drawing) -> Drawing {
    if count == 1 {
        return part.clone();
    }
    let left = *rng.pick(&[1, count / 2, count - 1]);
    join(copies(rng, left, part, join), copies(rng, count - left, part, join))
}

/// A part that steps by a, in one way or more, and then is over or goes on by a or b.
fn part(rng: &mut Rng) -> Drawing {
    let (a, b) = (|| event(A), || event(B));
    match rng.below(14) {
        0..=2 => a(),
        3 => seq(a(), b()),
        4 => choice(a(), a()),
        5 => choice(a(), seq(a(), a())),
        6 => choice(seq(a(), b()), seq(a(), event(C))),
        7 => parallel(a(), b()),
        8 => seq(yields(), a()),
        9 => handler(choice(throw(), a()), a()),
        10 => handler(seq(a(), throw()), b()),
        11 => block(pair(a(), b())),
        12 => block(seq(pair(a(), b()), throww())),
        _ => block(parallel(pair(a(), b()), throww())),
    }
}

/// The same with something to undo.
fn undoable(rng: &mut Rng) -> Drawing {
    let step = || pair(event(A), event(B));
    match rng.below(12) {
        0..=2 => step(),
        3 => pair(event(A), seq(event(B), event(A))),
        4 => pair(seq(event(A), event(A)), event(B)),
        5 => choice(step(), step()),
        6 => choice(step(), pair(event(A), event(C))),
        7 => seq(step(), step()),
        8 => seq(step(), pair(event(C), event(D))),
        9 => seq(step(), yieldd()),
        10 => pair(choice(event(A), yields()), event(B)),
        _ => pair(part(rng), part(rng)),
    }
}
