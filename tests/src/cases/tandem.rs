//! Flows with joint parallels, and the sets that these name: lines that meet as they are drawn, ways that part where they meet, any flow
//! with its parallels made joint, and flows in which two sides have many steps to meet by. `meeting` makes cases of them, and so does all that is lent sets.

use super::{lending, repeating};
use crate::by_hand::{A, B, C, D};
use crate::drawing::*;
use crate::random;
use crate::refusals::MOST_NODES;
use crate::rng::Rng;
use crate::sets::{EventSet, MOST_SETS};
use crate::term::{kind, set_number, sort_of, Sort};

/// A flow, and the sets that its joint parallels name; events are 1 to 4.
#[derive(Clone)]
pub struct Tandem {
    pub flow: Drawing,
    pub sets: Vec<EventSet>,
}

pub const EVENTS: usize = 4;

impl Tandem {
    /// Without sets.
    pub fn plain(flow: Drawing) -> Tandem {
        Tandem { flow, sets: vec![] }
    }
}

/// A flow that is not refused, of any sort.
pub fn any(rng: &mut Rng) -> Tandem {
    let tandem = match rng.below(12) {
        0..=4 => lines(rng),
        5..=7 => forks(rng),
        8 => crowd(rng),
        _ => {
            let flow = lending::any_flow(rng);
            joined(rng, &flow)
        }
    };
    if rng.once_in(3) {
        among_others(rng, tandem)
    } else {
        tandem
    }
}

/// The flow with parallels made joint, and sets for them.
fn joined(rng: &mut Rng, flow: &Drawing) -> Tandem {
    let count = rng.between(1, 3);
    Tandem { flow: random::joined(rng, flow, count), sets: random::sets(rng, count, EVENTS) }
}

/// The same with more sets, up to sixteen, and its own at other numbers.
fn among_others(rng: &mut Rng, tandem: Tandem) -> Tandem {
    let count = *rng.pick(&[tandem.sets.len() + 1, MOST_SETS - 1, MOST_SETS, MOST_SETS]);
    let mut sets = random::sets(rng, count, EVENTS);
    let mut free: Vec<usize> = (0..count).collect();
    let mut numbers = vec![];
    for set in tandem.sets {
        // By preference the last.
        let at = if rng.once_in(3) { free.len() - 1 } else { rng.below(free.len()) };
        let number = free.remove(at);
        sets[number] = set;
        numbers.push(number as u16);
    }
    Tandem { flow: renumbered(&tandem.flow, &numbers), sets }
}

/// Set k becomes the k-th of the numbers.
fn renumbered(flow: &Drawing, numbers: &[u16]) -> Drawing {
    let parts = flow.parts.iter().map(|part| renumbered(part, numbers)).collect();
    let kind = match (set_number(flow.kind), sort_of(flow.kind)) {
        (None, _) => flow.kind,
        (Some(set), Sort::Standard) => kind::JOINT + numbers[set],
        (Some(set), Sort::Compensable) => kind::COMP_JOINT + numbers[set],
    };
    Drawing { kind, event: flow.event, parts }
}

// ---- lines that meet ----

/// What the lines of a plant share: the steps they meet at, in order, and whether they meet again when these are undone.
struct Plan {
    meetings: Vec<u16>,
    undo_meets: bool,
}

/// Two or three lines that meet at a and b, and perhaps at d when they are undone; c is each line's own.
pub fn lines(rng: &mut Rng) -> Tandem {
    loop {
        let meetings = (0..rng.between(1, 3)).map(|_| *rng.pick(&[A, A, B])).collect();
        let plan = Plan { meetings, undo_meets: !rng.once_in(3) };
        let sort = if rng.once_in(2) { Sort::Compensable } else { Sort::Standard };
        let count = if rng.once_in(4) { 3 } else { 2 };
        let sides: Vec<Drawing> = (0..count).map(|_| line(rng, &plan, sort)).collect();
        // A third line meets the others mostly by the same set.
        let mut numbers = [0, rng.once_in(6) as u16].into_iter();
        let met = sides.into_iter().reduce(|all, side| joint(numbers.next().expect("two"), all, side));
        let flow = around(rng, met.expect("two at least"));
        if flow.size() <= MOST_NODES {
            let all = if plan.undo_meets { vec![A, B, D] } else { vec![A, B] };
            let sets = vec![EventSet::of(&all), random::sets(rng, 1, EVENTS)[0]];
            return Tandem { flow, sets };
        }
    }
}

/// The lines alone, or undone, or handled, or with something before, after or beside them.
fn around(rng: &mut Rng, met: Drawing) -> Drawing {
    let fails = |pp: Drawing| block(seq(pp, throww()));
    match (met.sort(), rng.below(10)) {
        (Sort::Standard, 0) => seq(met, event(C)),
        (Sort::Standard, 1) => handler(seq(met, throw()), event(C)),
        (Sort::Standard, 2) => parallel(met, event(A)),
        (Sort::Standard, 3) => choice(seq(met.clone(), throw()), met),
        (Sort::Standard, 4) => pair(met, event(C)),
        // a compensation in which two lines meet
        (Sort::Standard, 5) => fails(pair(event(C), met)),
        (Sort::Standard, _) => met,
        (Sort::Compensable, 0..=4) => fails(met),
        (Sort::Compensable, 5) => block(parallel(throww(), met)),
        (Sort::Compensable, 6) => block(met),
        (Sort::Compensable, 7) => seq(met, pair(event(C), event(C))),
        (Sort::Compensable, _) => met,
    }
}

/// One line: its meetings in their order, with steps of its own between them. Now and then a meeting is missed or the order is another,
/// so that lines wait for each other.
fn line(rng: &mut Rng, plan: &Plan, sort: Sort) -> Drawing {
    let mut meetings = plan.meetings.clone();
    match rng.below(12) {
        0 => meetings.reverse(),
        1 => meetings[0] = *rng.pick(&[A, B, C]),
        _ => {}
    }
    let mut parts = vec![];
    for meeting in meetings {
        if rng.once_in(3) {
            parts.push(own_part(rng, plan, sort));
        }
        parts.push(match sort {
            Sort::Standard => step(rng, meeting),
            Sort::Compensable => undoable(rng, plan, meeting),
        });
    }
    if rng.once_in(3) {
        parts.push(own_part(rng, plan, sort));
    }
    parts.into_iter().reduce(seq).expect("a meeting at least")
}

fn own_part(rng: &mut Rng, plan: &Plan, sort: Sort) -> Drawing {
    match (sort, rng.below(4)) {
        (Sort::Standard, 0) => yields(),
        (Sort::Standard, _) => event(C),
        (Sort::Compensable, 0) => yieldd(),
        (Sort::Compensable, 1) => choice(skipp(), throww()),
        (Sort::Compensable, _) => pair(event(C), undo(rng, plan)),
    }
}

/// A part that steps by this event, in one way or more.
fn step(rng: &mut Rng, meeting: u16) -> Drawing {
    let (e, own) = (event(meeting), || event(C));
    match rng.below(20) {
        0 => choice(e.clone(), e),
        1 => choice(own(), e),
        2 => choice(seq(e.clone(), own()), e),
        3 => parallel(own(), e),
        4 => parallel(e.clone(), e),
        5 => handler(choice(throw(), e.clone()), e),
        6 => block(pair(e, own())),
        7 => block(seq(pair(e, own()), throww())),
        8 => block(seq(pair(own(), e), throww())),
        9 => block(parallel(pair(skip(), e), throww())),
        _ => e,
    }
}

fn undoable(rng: &mut Rng, plan: &Plan, meeting: u16) -> Drawing {
    let (forward, undo) = (if rng.once_in(4) { step(rng, meeting) } else { event(meeting) }, undo(rng, plan));
    match rng.below(8) {
        0 => choice(pair(forward.clone(), undo), pair(forward, event(D))),
        1 => seq(pair(forward, undo), yieldd()),
        _ => pair(forward, undo),
    }
}

/// What undoes a step: where lines meet again, mostly by d.
fn undo(rng: &mut Rng, plan: &Plan) -> Drawing {
    match (plan.undo_meets, rng.below(8)) {
        (_, 0) => step(rng, D),
        (_, 1) => skip(),
        (true, 2..) => event(D),
        (false, 2) => choice(event(C), event(D)),
        (false, _) => event(C),
    }
}

// ---- ways that part where lines meet ----

/// Two or three lines, each with two or three ways that begin by a, where they meet, and then differ: which way is tried first shows in
/// the count.
fn forks(rng: &mut Rng) -> Tandem {
    let sort = if rng.once_in(2) { Sort::Compensable } else { Sort::Standard };
    let lines = if rng.once_in(4) { 3 } else { 2 };
    let sides: Vec<Drawing> = (0..lines).map(|_| fork(rng, sort)).collect();
    let met = sides.into_iter().reduce(|all, side| joint(0, all, side)).expect("two at least");
    // They may meet by some of the events after it too.
    let meetings: [&[u16]; 5] = [&[A], &[A], &[A, B], &[A, D], &[A, B, C, D]];
    let meetings = *rng.pick(&meetings);
    Tandem { flow: around(rng, met), sets: vec![EventSet::of(meetings)] }
}

fn fork(rng: &mut Rng, sort: Sort) -> Drawing {
    let way = |rng: &mut Rng| {
        let then = event(*rng.pick(&[B, C, D]));
        match sort {
            Sort::Standard => seq(event(A), then),
            Sort::Compensable => pair(event(A), then),
        }
    };
    let first = way(rng);
    (0..rng.between(1, 2)).fold(first, |all, _| choice(all, way(rng)))
}

// ---- many steps to meet by ----

/// Sides with many steps, compensations or ways, each of which meets each of the other's: where steps are counted wrongly, gone through
/// one by one or merged, the count or the time shows it. Set 0 has a, set 1 has b, set 2 both, set 3 none.
pub fn crowd(rng: &mut Rng) -> Tandem {
    let sets = vec![EventSet::of(&[A]), EventSet::of(&[B]), EventSet::of(&[A, B]), EventSet::EMPTY];
    loop {
        let flow = any_crowd(rng);
        if flow.size() <= MOST_NODES {
            return Tandem { flow, sets };
        }
    }
}

fn any_crowd(rng: &mut Rng) -> Drawing {
    let number = *rng.pick(&[0, 0, 2, 2, 1, 3]);
    let meet = |p, q| joint(number, p, q);
    let leaves = |e: u16| pair(skip(), event(e));
    let either = || choice(leaves(A), leaves(B));
    let fails = |pp: Drawing| block(seq(pp, throww()));
    let few = rng.between(2, 6);
    let many = rng.between(2, 30);
    let other = rng.between(2, 6);
    match rng.below(16) {
        0 => meet(tower(few, &event(A), parallel), tower(other, &event(A), parallel)),
        1 => meet(tower(few, &event(A), choice), tower(other, &event(A), choice)),
        2 => tower(few, &tower(rng.between(2, 4), &event(A), choice), meet),
        3 => meet(tower(few, &choice(event(A), event(A)), seq), tower(few, &choice(event(A), event(A)), seq)),
        4 => tower(rng.between(2, 4), &tower(rng.between(2, 4), &event(A), parallel), meet),
        5 => meet(tower(few, &choice(event(A), event(B)), seq), tower(few, &choice(event(B), event(A)), seq)),
        // compensations by the thousand million, each a successor
        6 => tower(many, &yieldd(), meet),
        7 => tower(few, &choice(skipp(), either()), meet),
        // the same inside a block, where they are no successors
        8 => block(parallel(throww(), tower(many, &yieldd(), meet))),
        9 => block(meet(throww(), tower(rng.between(2, 14), &pair(yields(), event(A)), meet))),
        10 => fails(tower(few, &either(), meet)),
        11 => fails(meet(tower(few.min(3), &either(), parallel), tower(other.min(3), &either(), parallel))),
        // two blocks that meet in what undoes them
        12 => meet(crowded_block(few, A), crowded_block(other, A)),
        13 => meet(crowded_block(few, A), tower(other, &event(A), choice)),
        // held while the second part runs
        14 => seq(tower(few.min(4), &either(), meet), pair(event(A), event(B))),
        _ => fails(tower(few.min(4), &pair(event(A), event(B)), meet)),
    }
}

/// A block that fails, with two to this many compensations that all step by the event.
pub fn crowded_block(many: usize, e: u16) -> Drawing {
    let withdrawing = tower(many, &yieldd(), parallel);
    block(parallel(throww(), parallel(withdrawing, pair(skip(), event(e)))))
}

/// A flow of equal parts, in which the same states come again and again.
pub fn of_equal_parts(rng: &mut Rng) -> Tandem {
    if rng.once_in(2) {
        return crowd(rng);
    }
    let flow = repeating::flow(rng);
    joined(rng, &flow)
}
