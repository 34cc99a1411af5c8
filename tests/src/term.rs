//! Terms, closings and states of the search, and the term that a node table means.
//! The rules are in rules.rs; whether a table may be read at all is decided in refusals.rs.

use crate::sets::EventSet;
use std::rc::Rc;

/// The three ways to end, in the order in which a parallel side's endings are gone through.
#[derive(Clone, Copy, PartialEq, Eq, PartialOrd, Ord, Debug)]
pub enum Closing {
    Done,
    Withdrawn,
    Failed,
}
use Closing::*;

pub const DONE: u16 = 61441;
pub const WITHDRAWN: u16 = 61442;
pub const FAILED: u16 = 61443;

pub const CLOSINGS: [Closing; 3] = [Done, Withdrawn, Failed];
pub const CLOSING_RECORDS: [u16; 3] = [DONE, WITHDRAWN, FAILED];

impl Closing {
    pub fn of_record(record: u16) -> Option<Closing> {
        match record {
            DONE => Some(Done),
            WITHDRAWN => Some(Withdrawn),
            FAILED => Some(Failed),
            _ => None,
        }
    }

    /// "Two parallel sides end together: ! if either is !, else ? if either is ?, else ✓."
    pub fn join(self, other: Closing) -> Closing {
        if self == Failed || other == Failed {
            Failed
        } else if self == Withdrawn || other == Withdrawn {
            Withdrawn
        } else {
            Done
        }
    }
}

pub const MOST_EVENT: u16 = 256;

/// "A record is an event 1 to 256 or a closing."
pub fn is_event(number: u16) -> bool {
    (1..=MOST_EVENT).contains(&number)
}

/// The kinds by their names.
pub mod kind {
    pub const EVENT: u16 = 1;
    pub const SKIP: u16 = 2;
    pub const THROW: u16 = 3;
    pub const YIELD: u16 = 4;
    pub const SEQ: u16 = 5;
    pub const CHOICE: u16 = 6;
    pub const PARALLEL: u16 = 7;
    pub const HANDLER: u16 = 8;
    pub const BLOCK: u16 = 9;
    pub const PAIR: u16 = 10;
    pub const COMP_SEQ: u16 = 11;
    pub const COMP_CHOICE: u16 = 12;
    pub const COMP_PARALLEL: u16 = 13;
    pub const SKIPP: u16 = 14;
    pub const THROWW: u16 = 15;
    pub const YIELDD: u16 = 16;
    /// Parallel with set 0, and with set 15: "kinds 256 to 271 are the standard form with set 0 to 15, kinds 512 to 527 the compensable
    /// form" (request Four).
    pub const JOINT: u16 = 256;
    pub const LAST_JOINT: u16 = 271;
    pub const COMP_JOINT: u16 = 512;
    pub const LAST_COMP_JOINT: u16 = 527;
}

/// The number of the set that a kind names; only a joint parallel names one.
pub fn set_number(kind: u16) -> Option<usize> {
    match kind {
        kind::JOINT..=kind::LAST_JOINT => Some((kind - kind::JOINT) as usize),
        kind::COMP_JOINT..=kind::LAST_COMP_JOINT => Some((kind - kind::COMP_JOINT) as usize),
        _ => None,
    }
}

/// "Kinds 1 to 9 are standard", 10 to 16 compensable, and joint parallels are of both sorts.
#[derive(Clone, Copy, PartialEq, Eq, Debug)]
pub enum Sort {
    Standard,
    Compensable,
}

pub fn sort_of(kind: u16) -> Sort {
    match kind {
        0..=kind::BLOCK | kind::JOINT..=kind::LAST_JOINT => Sort::Standard,
        _ => Sort::Compensable,
    }
}

#[derive(PartialEq, Eq, Hash, Debug)]
pub enum Standard {
    Event(u16),
    Skip,
    Throw,
    Yield,
    Seq(Std, Std),
    Choice(Std, Std),
    /// With the set of events that both sides do together, perhaps empty.
    Parallel(EventSet, Std, Std),
    Handler(Std, Std),
    Block(Comp),
}

/// `Held(QQ, R)` stands in states only: QQ runs and R is held until QQ ends (002's auxiliary form).
#[derive(PartialEq, Eq, Hash, Debug)]
pub enum Compensable {
    Pair(Std, Std),
    Seq(Comp, Comp),
    Choice(Comp, Comp),
    Parallel(EventSet, Comp, Comp),
    Skipp,
    Throww,
    Yieldd,
    Held(Comp, Std),
}

pub type Std = Rc<Standard>;
pub type Comp = Rc<Compensable>;

pub fn skip() -> Std {
    Rc::new(Standard::Skip)
}

pub fn seq(p: Std, q: Std) -> Std {
    Rc::new(Standard::Seq(p, q))
}

pub fn parallel(set: EventSet, p: Std, q: Std) -> Std {
    Rc::new(Standard::Parallel(set, p, q))
}

pub fn comp_parallel(set: EventSet, pp: Comp, qq: Comp) -> Comp {
    Rc::new(Compensable::Parallel(set, pp, qq))
}

pub fn held(qq: Comp, r: Std) -> Comp {
    Rc::new(Compensable::Held(qq, r))
}

/// "A state (a term, or nothing left)."
#[derive(Clone, PartialEq, Eq, Hash, Debug)]
pub enum State {
    Standard(Std),
    Compensable(Comp),
    NothingLeft,
}

/// The term of a table that is not refused, with these sets: that of its last node.
pub fn root(nodes: &[u16], sets: &[EventSet]) -> State {
    let table = Table { nodes, sets };
    let last = nodes.len() / 3 - 1;
    match sort_of(nodes[3 * last]) {
        Sort::Standard => State::Standard(table.standard(last)),
        Sort::Compensable => State::Compensable(table.compensable(last)),
    }
}

struct Table<'a> {
    nodes: &'a [u16],
    sets: &'a [EventSet],
}

impl Table<'_> {
    fn node(&self, i: usize) -> (u16, u16, u16) {
        (self.nodes[3 * i], self.nodes[3 * i + 1], self.nodes[3 * i + 2])
    }

    /// Kinds 7 and 13 have the empty set.
    fn set(&self, kind: u16) -> EventSet {
        set_number(kind).map_or(EventSet::EMPTY, |number| self.sets[number])
    }

    fn standard(&self, i: usize) -> Std {
        let (kind, first, second) = self.node(i);
        let part = |child: u16| self.standard(child as usize);
        Rc::new(match kind {
            kind::EVENT => Standard::Event(first),
            kind::SKIP => Standard::Skip,
            kind::THROW => Standard::Throw,
            kind::YIELD => Standard::Yield,
            kind::SEQ => Standard::Seq(part(first), part(second)),
            kind::CHOICE => Standard::Choice(part(first), part(second)),
            kind::PARALLEL | kind::JOINT..=kind::LAST_JOINT => {
                Standard::Parallel(self.set(kind), part(first), part(second))
            }
            kind::HANDLER => Standard::Handler(part(first), part(second)),
            kind::BLOCK => Standard::Block(self.compensable(first as usize)),
            other => unreachable!("kind {other} where a standard part stands"),
        })
    }

    fn compensable(&self, i: usize) -> Comp {
        let (kind, first, second) = self.node(i);
        let part = |child: u16| self.compensable(child as usize);
        Rc::new(match kind {
            kind::PAIR => Compensable::Pair(self.standard(first as usize), self.standard(second as usize)),
            kind::COMP_SEQ => Compensable::Seq(part(first), part(second)),
            kind::COMP_CHOICE => Compensable::Choice(part(first), part(second)),
            kind::COMP_PARALLEL | kind::COMP_JOINT..=kind::LAST_COMP_JOINT => {
                Compensable::Parallel(self.set(kind), part(first), part(second))
            }
            kind::SKIPP => Compensable::Skipp,
            kind::THROWW => Compensable::Throww,
            kind::YIELDD => Compensable::Yieldd,
            other => unreachable!("kind {other} where a compensable part stands"),
        })
    }
}
