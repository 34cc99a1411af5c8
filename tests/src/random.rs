//! Random flows and record lists.

use crate::drawing::{self, Drawing};
use crate::guided;
use crate::matching::Matching;
use crate::rng::Rng;
use crate::sets::EventSet;
use crate::term::{is_event, kind, Sort, State, CLOSING_RECORDS, MOST_EVENT};
use std::ops::ControlFlow::{Break, Continue};

/// Which kinds a flow is made of; a kind that stands twice is taken twice as often.
pub struct Taste {
    standard_leaves: &'static [u16],
    standard_nodes: &'static [u16],
    compensable_leaves: &'static [u16],
    compensable_nodes: &'static [u16],
    /// Once in so many times a part is a leaf although there is room for more.
    stops_once_in: usize,
}

/// Everything, all alike.
const MIXED: Taste = Taste {
    standard_leaves: &[1, 1, 1, 1, 1, 1, 1, 2, 3, 3, 4, 4],
    standard_nodes: &[5, 5, 6, 7, 7, 8, 9, 9],
    compensable_leaves: &[14, 15, 15, 16, 16],
    compensable_nodes: &[10, 10, 11, 11, 12, 13, 13],
    stops_once_in: 25,
};
/// Many events side by side: long runs and wide searches.
const BUSY: Taste = Taste {
    standard_leaves: &[1, 1, 1, 1, 1, 1, 1, 1, 1, 1, 1, 1, 1, 1, 2, 3, 4],
    standard_nodes: &[5, 5, 6, 7, 7, 7, 7, 8, 9],
    compensable_leaves: &[14, 15, 16],
    compensable_nodes: &[10, 10, 10, 11, 11, 12, 13, 13, 13],
    stops_once_in: 200,
};
/// Many pairs and failures: long undoing.
const UNDOING: Taste = Taste {
    standard_leaves: &[1, 1, 1, 1, 1, 1, 2, 3, 4],
    standard_nodes: &[5, 6, 6, 7, 8, 9, 9, 9],
    compensable_leaves: &[15, 15, 14, 16],
    compensable_nodes: &[10, 10, 10, 10, 11, 11, 11, 12, 13],
    stops_once_in: 60,
};
/// Many ways to end: long lists of compensations.
const ENDING: Taste = Taste {
    standard_leaves: &[1, 2, 3, 4, 4, 4],
    standard_nodes: &[5, 6, 6, 7, 7, 8, 9, 9],
    compensable_leaves: &[14, 15, 16, 16],
    compensable_nodes: &[10, 11, 11, 12, 12, 13, 13],
    stops_once_in: 40,
};

pub const TASTES: [&Taste; 4] = [&MIXED, &BUSY, &UNDOING, &ENDING];

/// A random flow of the sort with at most `room` nodes and events 1 to `events`.
pub fn drawing(rng: &mut Rng, taste: &Taste, sort: Sort, room: usize, events: usize) -> Drawing {
    let (leaves, nodes) = match sort {
        Sort::Standard => (taste.standard_leaves, taste.standard_nodes),
        Sort::Compensable => (taste.compensable_leaves, taste.compensable_nodes),
    };
    let wanted = *rng.pick(nodes);
    let least = if wanted == kind::BLOCK { 2 } else { 3 };
    if room < least || rng.once_in(taste.stops_once_in) {
        return match *rng.pick(leaves) {
            kind::EVENT => drawing::event(rng.between(1, events) as u16),
            other => drawing::leaf(other),
        };
    }
    let sort_of_parts = match wanted {
        kind::BLOCK => Sort::Compensable,
        kind::PAIR => Sort::Standard,
        _ => sort,
    };
    if wanted == kind::BLOCK {
        return drawing::block(drawing(rng, taste, sort_of_parts, room - 1, events));
    }
    let room_of_first = rng.between(1, room - 2);
    let first = drawing(rng, taste, sort_of_parts, room_of_first, events);
    let second = drawing(rng, taste, sort_of_parts, room - 1 - first.size(), events);
    drawing::node(wanted, vec![first, second])
}

/// A random flow with exactly `size` nodes: one that came out smaller is joined with leaves. No compensable
/// flow has two nodes.
pub fn drawing_of_size(rng: &mut Rng, taste: &Taste, sort: Sort, size: usize, events: usize) -> Drawing {
    assert!(size > 2 || sort == Sort::Standard);
    let mut whole = drawing(rng, taste, sort, size, events);
    while (size - whole.size()) % 2 == 1 {
        // A standard leaf becomes a block around a leaf: one node more.
        let mut leaves = whole.paths();
        leaves.retain(|path| whole.at(path).parts.is_empty() && whole.at(path).sort() == Sort::Standard);
        whole = match leaves.first() {
            Some(path) => whole.replaced(path, &drawing::block(drawing::throww())),
            None => drawing(rng, taste, sort, size, events),
        };
    }
    while whole.size() < size {
        let small = drawing(rng, taste, sort, 1, events);
        let join = *rng.pick(&[drawing::seq, drawing::choice, drawing::parallel]);
        whole = if rng.once_in(2) { join(whole, small) } else { join(small, whole) };
    }
    whole
}

/// A random flow that fails in a block after its first part or beside it, so that much is undone.
pub fn undone_drawing(rng: &mut Rng, taste: &Taste, room: usize, events: usize) -> Drawing {
    let pp = drawing(rng, taste, Sort::Compensable, room.saturating_sub(3).max(1), events);
    let fail = drawing::throww();
    drawing::block(match rng.below(4) {
        0 => drawing::parallel(pp, fail),
        1 => drawing::parallel(fail, pp),
        _ => drawing::seq(pp, fail),
    })
}

/// The flow with most of its parallels joint, each with one of so many sets.
pub fn joined(rng: &mut Rng, flow: &Drawing, sets: usize) -> Drawing {
    let parts = flow.parts.iter().map(|part| joined(rng, part, sets)).collect();
    let kind = match flow.kind {
        kind::PARALLEL if !rng.once_in(4) => kind::JOINT + rng.below(sets) as u16,
        kind::COMP_PARALLEL if !rng.once_in(4) => kind::COMP_JOINT + rng.below(sets) as u16,
        other => other,
    };
    Drawing { kind, event: flow.event, parts }
}

/// So many sets of events 1 to `events`: none of them, one, some or all; and now and then others, which no flow has.
pub fn sets(rng: &mut Rng, count: usize, events: usize) -> Vec<EventSet> {
    let one = |_| {
        let mut all: Vec<u16> = match rng.below(6) {
            0 => vec![],
            1 | 2 => vec![any_event(rng, events)],
            3 => (1..=events as u16).collect(),
            _ => (1..=events as u16).filter(|_| rng.once_in(2)).collect(),
        };
        if rng.once_in(4) {
            all.push(rng.between(events, MOST_EVENT as usize) as u16);
        }
        EventSet::of(&all)
    };
    (0..count).map(one).collect()
}

pub fn sort(rng: &mut Rng) -> Sort {
    if rng.once_in(3) {
        Sort::Compensable
    } else {
        Sort::Standard
    }
}

fn any_event(rng: &mut Rng, events: usize) -> u16 {
    rng.between(1, events) as u16
}

/// The records of a random complete run, by preference a long one, of events 1 to `events`, among which are all of the flow's. If a few
/// tries get stuck, then of a run that does, and the closings that the root still needs.
pub fn run(rng: &mut Rng, root: &State, matching: &Matching, events: usize) -> Vec<u16> {
    const TRIES: usize = 4;
    let mut stuck = vec![];
    for _ in 0..TRIES {
        let (mut records, state) = run_until_stuck(rng, root, matching, events);
        let missing = match state {
            State::NothingLeft => return records,
            State::Standard(_) => 1,
            State::Compensable(_) => 2,
        };
        records.extend((0..missing).map(|_| *rng.pick(&CLOSING_RECORDS)));
        stuck = records;
    }
    stuck
}

/// As far as it gets: nothing is left, or it is stuck.
fn run_until_stuck(rng: &mut Rng, root: &State, matching: &Matching, events: usize) -> (Vec<u16>, State) {
    let mut records = vec![];
    let mut state = root.clone();
    while state != State::NothingLeft {
        let can = |list: &mut dyn Iterator<Item = u16>| -> Vec<u16> {
            list.filter(|&r| guided::possible(&state, matching, r)).collect()
        };
        let mut next = can(&mut (1..=events as u16));
        if next.is_empty() || rng.once_in(6) {
            next.extend(can(&mut CLOSING_RECORDS.into_iter()));
        }
        if next.is_empty() {
            break;
        }
        let record = *rng.pick(&next);
        state = any_successor(rng, &state, matching, record);
        records.push(record);
    }
    (records, state)
}

/// One of the first forty successors; there is one.
fn any_successor(rng: &mut Rng, state: &State, matching: &Matching, record: u16) -> State {
    let mut some = vec![];
    let _ = guided::successors(state, matching, record, &mut |s| {
        some.push(s);
        if some.len() < 40 {
            Continue(())
        } else {
            Break(())
        }
    });
    rng.pick(&some).clone()
}

/// Closings as a root of the sort needs them, otherwise at random.
pub fn records(rng: &mut Rng, sort: Sort, events: usize, most_events: usize) -> Vec<u16> {
    let mut all = vec![];
    let halves = if sort == Sort::Standard { 1 } else { 2 };
    for _ in 0..halves {
        for _ in 0..rng.below(most_events + 1) {
            all.push(any_event(rng, events));
        }
        all.push(*rng.pick(&CLOSING_RECORDS));
    }
    all
}

/// One or two small changes after which the closings are still where the root needs them.
pub fn changed(rng: &mut Rng, records: &[u16], events: usize) -> Vec<u16> {
    let mut all = records.to_vec();
    for _ in 0..rng.between(1, 2) {
        let (steps, closings): (Vec<usize>, Vec<usize>) = (0..all.len()).partition(|&i| is_event(all[i]));
        match rng.below(5) {
            0 if !steps.is_empty() => all[*rng.pick(&steps)] = any_event(rng, events),
            1 if !steps.is_empty() => drop(all.remove(*rng.pick(&steps))),
            2 if steps.len() > 1 => all.swap(*rng.pick(&steps), *rng.pick(&steps)),
            3 => all.insert(rng.below(all.len()), any_event(rng, events)),
            _ => all[*rng.pick(&closings)] = *rng.pick(&CLOSING_RECORDS),
        }
    }
    all
}

/// Records for a flow: of a run, of a run with a few changes, or any.
pub fn records_for(rng: &mut Rng, root: &State, matching: &Matching, events: usize) -> Vec<u16> {
    let sort = match root {
        State::Compensable(_) => Sort::Compensable,
        _ => Sort::Standard,
    };
    match rng.below(5) {
        0 | 1 => run(rng, root, matching, events),
        2 | 3 => {
            let good = run(rng, root, matching, events);
            changed(rng, &good, events)
        }
        _ => records(rng, sort, events, 6),
    }
}
