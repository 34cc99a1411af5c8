//! What may come next, request Three of document 02: the numbers that can follow a beginning of a record list. All states that one
//! number of records leads to are kept together, equal ones once with the number of ways to them, and the next record is followed from
//! each; so this is not the search of judge.rs, and the two are held against each other by the tests.

use crate::guided::{self, Visit};
use crate::judge::Effort;
use crate::matching::Matching;
use crate::reader::lent_matching;
use crate::refusals::{refuse, work_length, work_wanted, Records, Refusal};
use crate::rules;
use crate::term::{kind, root, State, CLOSING_RECORDS, MOST_EVENT};
use std::collections::{BTreeSet, HashMap};
use std::fmt;
use std::ops::ControlFlow::{Break, Continue};

/// "A lent table of at least 259 numbers."
pub const LIST_ROOM: usize = 259;

#[derive(Clone, PartialEq, Eq, Debug)]
pub enum Next {
    /// "Each once, in rising order of its number"; and the count.
    Listed {
        numbers: Vec<u16>,
        count: u32,
    },
    Undecided {
        allowance: u32,
    },
    Refused(Refusal),
}

/// "The answer gives the list's length and the count (undecided: 0 and the allowance)"; here the list stands behind.
impl fmt::Display for Next {
    fn fmt(&self, f: &mut fmt::Formatter) -> fmt::Result {
        match self {
            Next::Listed { numbers, count } => {
                write!(f, "listed {} {count}", numbers.len())?;
                numbers.iter().try_for_each(|number| write!(f, " {number}"))
            }
            Next::Undecided { allowance } => write!(f, "undecided 0 {allowance}"),
            Next::Refused(r) => write!(f, "refused {} {}", r.number, r.place),
        }
    }
}

/// The list after a beginning, lent no sets, a table of so many numbers and so many work bytes.
pub fn next(nodes: &[u16], records: &[u16], list_room: usize, work_len: usize, allowance: u32) -> Next {
    Beginning { names: None, nodes, records, sets: &[], list_room, work_len, allowance }.listed()
}

/// The same, lent a names section too: "as in Two".
pub fn next_named(
    names: &[u8],
    nodes: &[u16],
    records: &[u16],
    list_room: usize,
    work_len: usize,
    allowance: u32,
) -> Next {
    Beginning { names: Some(names), nodes, records, sets: &[], list_room, work_len, allowance }.listed()
}

/// A flow and a beginning of a record list, and what else is lent.
#[derive(Clone, Copy, Debug)]
pub struct Beginning<'a> {
    pub names: Option<&'a [u8]>,
    pub nodes: &'a [u16],
    pub records: &'a [u16],
    /// Bytes, 32 to a set.
    pub sets: &'a [u8],
    pub list_room: usize,
    pub work_len: usize,
    pub allowance: u32,
}

impl<'a> Beginning<'a> {
    /// With just the table and the work bytes that are wanted, and no sets.
    pub fn enough(
        names: Option<&'a [u8]>,
        nodes: &'a [u16],
        records: &'a [u16],
        allowance: u32,
    ) -> Beginning<'a> {
        let work_len = work_wanted(nodes, records);
        Beginning { names, nodes, records, sets: &[], list_room: LIST_ROOM, work_len, allowance }
    }

    /// The refusal, or who takes which record, and the flow. 14 comes last, for the table as for the work bytes.
    fn checked(&self) -> Result<(Matching, State), Refusal> {
        let (matching, sets) =
            lent_matching(self.names, self.nodes, self.records, self.sets, Records::Beginning)?;
        if self.list_room < LIST_ROOM {
            return refuse(14, 0);
        }
        work_length(self.nodes, self.records, self.work_len)?;
        Ok((matching, root(self.nodes, &sets)))
    }

    pub fn listed(&self) -> Next {
        self.listed_within(u32::MAX).expect("no search enters more than its allowance")
    }

    /// The same, but None where more states than `patience` would have to be entered to know.
    pub fn listed_within(&self, patience: u32) -> Option<Next> {
        let (matching, flow) = match self.checked() {
            Ok(checked) => checked,
            Err(refusal) => return Some(Next::Refused(refusal)),
        };
        match reached(flow, &matching, self.records, self.allowance.min(patience), usize::MAX) {
            Some(reached) => Some(reached.listed(self.nodes, &matching)),
            None if self.allowance <= patience => Some(Next::Undecided { allowance: self.allowance }),
            None => None,
        }
    }

    /// By a search that goes through every state it enters, by the plain lists of rules.rs, and asks its last states for every number
    /// there is: for small flows only.
    pub fn listed_by_lists(&self) -> Next {
        match self.checked() {
            Err(refusal) => Next::Refused(refusal),
            Ok((matching, flow)) => {
                let mut walk = Walk { matching, allowed: self.allowance, count: 0, numbers: BTreeSet::new() };
                match walk.enter(&flow, self.records) {
                    Break(()) => Next::Undecided { allowance: self.allowance },
                    Continue(()) => {
                        Next::Listed { numbers: walk.numbers.into_iter().collect(), count: walk.count }
                    }
                }
            }
        }
    }

    /// How many states the search of what is not refused enters, and how many of them differ. None if there are more than allowed, or
    /// more different ones than these.
    pub fn effort_within(&self, most_different: usize) -> Option<Effort> {
        let (matching, flow) = self.checked().expect("not refused");
        let reached = reached(flow, &matching, self.records, self.allowance, most_different)?;
        Some(Effort { entered: reached.entered, different: reached.different })
    }
}

/// What the search of all runs of a beginning has found.
struct Reached {
    /// The different states that the whole beginning leads to.
    last: Vec<State>,
    entered: u32,
    different: usize,
}

/// "All runs of the beginning are searched, the count is of states entered in it, root included." None if that is above what is allowed.
fn reached(
    flow: State,
    matching: &Matching,
    records: &[u16],
    allowed: u32,
    most_different: usize,
) -> Option<Reached> {
    let allowed = allowed as u64;
    let mut ways: HashMap<State, u64> = HashMap::from([(flow, 1)]);
    let (mut entered, mut different) = (1, 1);
    if entered > allowed || different > most_different {
        return None;
    }
    for &record in records {
        let mut further: HashMap<State, u64> = HashMap::new();
        for (state, ways) in &ways {
            let visit = guided::successors(state, matching, record, &mut |successor| {
                entered += ways;
                *further.entry(successor).or_default() += ways;
                if entered > allowed || different + further.len() > most_different {
                    return Break(());
                }
                Continue(())
            });
            if visit.is_break() {
                return None;
            }
        }
        different += further.len();
        ways = further;
    }
    Some(Reached { last: ways.into_keys().collect(), entered: entered as u32, different })
}

impl Reached {
    /// "A number is listed exactly if some run follows the beginning and then that record." An event that no leaf takes follows nothing.
    fn listed(&self, nodes: &[u16], matching: &Matching) -> Next {
        let leaves = nodes.chunks(3).filter(|node| node[0] == kind::EVENT).map(|node| node[1]);
        let taken: BTreeSet<u16> = leaves.flat_map(|leaf| matching.taken_by(leaf)).collect();
        let follows = |number: &u16| self.last.iter().any(|state| guided::possible(state, matching, *number));
        let numbers = taken.into_iter().chain(CLOSING_RECORDS).filter(follows).collect();
        Next::Listed { numbers, count: self.entered }
    }
}

/// The same by plain recursion.
struct Walk {
    matching: Matching,
    allowed: u32,
    count: u32,
    numbers: BTreeSet<u16>,
}

impl Walk {
    /// Enters a state and all that the rest of the beginning leads to. Break: one state too many.
    fn enter(&mut self, state: &State, rest: &[u16]) -> Visit {
        if self.count == self.allowed {
            return Break(());
        }
        self.count += 1;
        match rest {
            [record, rest @ ..] => {
                let successors = rules::successors(state, &self.matching, *record);
                successors.iter().try_for_each(|successor| self.enter(successor, rest))
            }
            [] => {
                let follows = |number: &u16| !rules::successors(state, &self.matching, *number).is_empty();
                self.numbers.extend((1..=MOST_EVENT).chain(CLOSING_RECORDS).filter(follows));
                Continue(())
            }
        }
    }
}
