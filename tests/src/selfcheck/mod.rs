//! Checks of this implementation against itself, with names lent and without, and with joint parallels and without. Each answers how
//! many cases it saw, or a text that says what went wrong. The tests call them with small numbers, the command `selfcheck` with any.
//! - `traced`: the search and the lists of what may come next against explicit trace sets, and these against the printed ones.
//! - `searched`: the guided successors against the plain lists, the search that remembers against one that does not, the lists of what
//!   may come next against recursion and against the judge.
//! - `renamed`: leaves without a machine against choices, names that change nothing, and joint parallels of no event.
//! - `redrawn`: the laws of demand 3.
//!
//! This file says what a flow is judged with.

mod redrawn;
mod renamed;
mod searched;
mod traced;

pub use redrawn::*;
pub use renamed::*;
pub use searched::*;
pub use traced::*;

use crate::cases::{naming, tandem};
use crate::drawing::{self, Drawing};
use crate::flowfile::{section_of, Entry};
use crate::judge::{Answer, Lent};
use crate::matching::Matching;
use crate::next::{Beginning, Next};
use crate::random::{self, TASTES};
use crate::rng::Rng;
use crate::sets::{bytes_of, EventSet};
use crate::term::{root, set_number, State};

/// Enough for every search of the small flows here.
const ALLOWANCE: u32 = 1_000_000;

/// So many sets are lent with flows that are drawn at random.
const SETS: usize = 3;

/// What a flow is judged with: names for its events, or none, and the sets of its parallels.
#[derive(Clone)]
pub struct Setting {
    names: Option<Vec<u8>>,
    matching: Matching,
    sets: Vec<EventSet>,
    set_bytes: Vec<u8>,
}

impl Setting {
    pub fn plain() -> Setting {
        Setting { names: None, matching: Matching::ByNumber, sets: vec![], set_bytes: vec![] }
    }

    pub fn named(names: Vec<Entry>) -> Setting {
        let section = section_of(&names);
        Setting { names: Some(section), matching: Matching::ByName(names), ..Setting::plain() }
    }

    pub fn with_sets(self, sets: Vec<EventSet>) -> Setting {
        Setting { set_bytes: bytes_of(&sets), sets, ..self }
    }

    /// Every second time with names for events 1 to `events`; with sets of them.
    fn any(rng: &mut Rng, events: usize) -> Setting {
        let setting =
            if rng.once_in(2) { Setting::plain() } else { Setting::named(naming::names(rng, events)) };
        setting.with_sets(random::sets(rng, SETS, events))
    }

    fn root(&self, nodes: &[u16]) -> State {
        root(nodes, &self.sets)
    }

    fn lent<'a>(&'a self, nodes: &'a [u16], records: &'a [u16]) -> Lent<'a> {
        Lent { sets: &self.set_bytes, ..Lent::enough(self.names.as_deref(), nodes, records, ALLOWANCE) }
    }

    fn beginning<'a>(&'a self, nodes: &'a [u16], records: &'a [u16]) -> Beginning<'a> {
        let beginning = Beginning::enough(self.names.as_deref(), nodes, records, ALLOWANCE);
        Beginning { sets: &self.set_bytes, ..beginning }
    }

    /// The flow, for a text that says what went wrong.
    fn show(&self, nodes: &[u16]) -> String {
        let mut shown = drawing::of_table(nodes).show();
        if let Matching::ByName(names) = &self.matching {
            let entry =
                |(step, machine): &Entry| format!("{}; {}", step.escape_ascii(), machine.escape_ascii());
            shown += &format!(" with names {:?}", names.iter().map(entry).collect::<Vec<_>>());
        }
        if meets(nodes) {
            let events: Vec<Vec<u16>> = self.sets.iter().map(EventSet::events).collect();
            shown += &format!(" with sets {events:?}");
        }
        shown
    }
}

/// Has the table a joint parallel?
fn meets(nodes: &[u16]) -> bool {
    nodes.chunks(3).any(|node| set_number(node[0]).is_some())
}

/// A random flow, every second time with joint parallels; every fourth time one that is undone, every fifth one of lines that meet.
fn any_flow(rng: &mut Rng, most_room: usize, events: usize) -> Drawing {
    if rng.once_in(5) {
        return lines(rng, most_room, events);
    }
    let (taste, sort) = (*rng.pick(&TASTES), random::sort(rng));
    let room = rng.between(1, most_room);
    let flow = match rng.below(4) {
        0 => random::undone_drawing(rng, taste, room, events),
        _ => random::drawing(rng, taste, sort, room, events),
    };
    if rng.once_in(2) {
        random::joined(rng, &flow, SETS)
    } else {
        flow
    }
}

/// Lines that meet, with no other events than these; they name sets 0 and 1. A few nodes more than `most_room` are let pass.
fn lines(rng: &mut Rng, most_room: usize, events: usize) -> Drawing {
    fn folded(flow: &Drawing, events: usize) -> Drawing {
        let parts = flow.parts.iter().map(|part| folded(part, events)).collect();
        let event = if flow.event == 0 { 0 } else { (flow.event - 1) % events as u16 + 1 };
        Drawing { event, parts, ..*flow }
    }
    loop {
        let flow = tandem::lines(rng).flow;
        if flow.size() <= most_room + 6 {
            return folded(&flow, events);
        }
    }
}

#[derive(Default, Debug)]
pub struct Seen {
    pub flows: u64,
    /// Flows with joint parallels, and flows that can get stuck.
    pub meeting: u64,
    pub stuck: u64,
    pub accepted: u64,
    pub rejected: u64,
    /// Lists of what may come next that have numbers, and those that have none.
    pub listed: u64,
    pub empty: u64,
    /// Flows or cases that were too large to decide.
    pub left_out: u64,
}

impl Seen {
    fn count(&mut self, answer: Answer) {
        match answer {
            Answer::Accepted { .. } => self.accepted += 1,
            Answer::Rejected { .. } => self.rejected += 1,
            _ => self.left_out += 1,
        }
    }

    fn count_list(&mut self, next: &Next) {
        match next {
            Next::Listed { numbers, .. } if numbers.is_empty() => self.empty += 1,
            Next::Listed { .. } => self.listed += 1,
            _ => self.left_out += 1,
        }
    }
}
