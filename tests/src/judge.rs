//! The counted search and the answer of the judge. What follows a state depends on the state and the records left alone, so a state
//! that was gone through without finding an end is only counted when it comes again.

use crate::guided::{self, Visit};
use crate::matching::Matching;
use crate::reader::lent_matching;
use crate::refusals::{work_length, work_wanted, Records, Refusal};
use crate::rules;
use crate::term::{root, State};
use std::collections::HashMap;
use std::fmt;
use std::ops::ControlFlow::{Break, Continue};

/// "An answer is one of four, each with its own numbers."
#[derive(Clone, Copy, PartialEq, Eq, Debug)]
pub enum Answer {
    Accepted { place: usize, count: u32 },
    Rejected { place: usize, count: u32 },
    Undecided { allowance: u32 },
    Refused(Refusal),
}

/// "The verdict word, refusal number or 0, place, count."
impl fmt::Display for Answer {
    fn fmt(&self, f: &mut fmt::Formatter) -> fmt::Result {
        match self {
            Answer::Accepted { place, count } => write!(f, "accepted 0 {place} {count}"),
            Answer::Rejected { place, count } => write!(f, "rejected 0 {place} {count}"),
            Answer::Undecided { allowance } => write!(f, "undecided 0 0 {allowance}"),
            Answer::Refused(r) => write!(f, "refused {} {} 0", r.number, r.place),
        }
    }
}

/// The judge of document 01, lent no sets. Deep flows want room on the stack: see `with_deep_stack`.
pub fn judge(nodes: &[u16], records: &[u16], work_len: usize, allowance: u32) -> Answer {
    Lent { names: None, nodes, records, sets: &[], work_len, allowance }.judged()
}

/// The same, lent a names section too: request Two of document 02.
pub fn judge_named(names: &[u8], nodes: &[u16], records: &[u16], work_len: usize, allowance: u32) -> Answer {
    Lent { names: Some(names), nodes, records, sets: &[], work_len, allowance }.judged()
}

/// What a judge is called with. Without names and sets it is the judge of document 01.
#[derive(Clone, Copy, Debug)]
pub struct Lent<'a> {
    pub names: Option<&'a [u8]>,
    pub nodes: &'a [u16],
    pub records: &'a [u16],
    /// Bytes, 32 to a set.
    pub sets: &'a [u8],
    pub work_len: usize,
    pub allowance: u32,
}

impl<'a> Lent<'a> {
    /// With just the work bytes that are wanted, and no sets.
    pub fn enough(names: Option<&'a [u8]>, nodes: &'a [u16], records: &'a [u16], allowance: u32) -> Lent<'a> {
        Lent { names, nodes, records, sets: &[], work_len: work_wanted(nodes, records), allowance }
    }

    /// The refusal, 14 last, or who takes which record, and the flow.
    fn checked(&self) -> Result<(Matching, State), Refusal> {
        let (matching, sets) =
            lent_matching(self.names, self.nodes, self.records, self.sets, Records::Whole)?;
        work_length(self.nodes, self.records, self.work_len)?;
        Ok((matching, root(self.nodes, &sets)))
    }

    /// What the judge answers.
    pub fn judged(&self) -> Answer {
        self.judged_within(u32::MAX).expect("no search enters more than its allowance")
    }

    /// The same, but None where more states than `patience` would have to be entered to know.
    pub fn judged_within(&self, patience: u32) -> Option<Answer> {
        let (matching, flow) = match self.checked() {
            Ok(checked) => checked,
            Err(refusal) => return Some(Answer::Refused(refusal)),
        };
        let allowed = self.allowance.min(patience);
        let found = Search::remembering(&matching, self.records, allowed).answer(&flow);
        let undecided = Answer::Undecided { allowance: self.allowance };
        found.or(if self.allowance <= patience { Some(undecided) } else { None })
    }

    /// By a judge that goes through every state it enters, equal ones too: for searches of some million states.
    pub fn judged_without_memory(&self) -> Answer {
        self.judged_by(guided::successors)
    }

    /// That once more by the plain lists of rules.rs, for small flows only.
    pub fn judged_by_lists(&self) -> Answer {
        fn listed(
            state: &State,
            matching: &Matching,
            record: u16,
            each: &mut dyn FnMut(State) -> Visit,
        ) -> Visit {
            rules::successors(state, matching, record).into_iter().try_for_each(each)
        }
        self.judged_by(listed)
    }

    fn judged_by(&self, successors: Successors) -> Answer {
        match self.checked() {
            Err(refusal) => Answer::Refused(refusal),
            Ok((matching, flow)) => {
                let mut search = Search::new(&matching, self.records, self.allowance, successors);
                search.answer(&flow).unwrap_or(Answer::Undecided { allowance: self.allowance })
            }
        }
    }

    /// The effort of judging what is not refused, or of using up the allowance.
    pub fn effort(&self) -> Effort {
        let (matching, flow) = self.checked().expect("not refused");
        let mut search = Search::remembering(&matching, self.records, self.allowance);
        match search.answer(&flow) {
            Some(_) => search.effort(),
            None => Effort { entered: self.allowance, ..search.effort() },
        }
    }

    /// The same, but None if the allowance is used up, or if more different states than these would be entered.
    pub fn effort_within(&self, most_different: usize) -> Option<Effort> {
        let (matching, flow) = self.checked().expect("not refused");
        let mut search = Search::remembering(&matching, self.records, self.allowance);
        search.most_different = most_different;
        search.answer(&flow).map(|_| search.effort())
    }
}

/// How many states a search enters, and how many of them differ: as terms, or by how many records led to them.
#[derive(Clone, Copy, PartialEq, Eq, Debug)]
pub struct Effort {
    pub entered: u32,
    pub different: usize,
}

/// Calls the last argument with the successors of a state by a record, in order.
type Successors = fn(&State, &Matching, u16, &mut dyn FnMut(State) -> Visit) -> Visit;

/// What a state without an end below it adds to the search, every time that the same records lead to it.
#[derive(Clone, Copy)]
struct Sight {
    entered: u32,
    furthest: usize,
}

struct Search<'a> {
    matching: &'a Matching,
    records: &'a [u16],
    allowed: u32,
    successors: Successors,
    /// For each place the states that were gone through there. None: each is gone through as often as it is entered.
    memory: Option<Vec<HashMap<State, Sight>>>,
    count: u32,
    different: usize,
    most_different: usize,
    furthest: usize,
    accepted: bool,
}

impl<'a> Search<'a> {
    fn new(matching: &'a Matching, records: &'a [u16], allowed: u32, successors: Successors) -> Search<'a> {
        Search {
            matching,
            records,
            allowed,
            successors,
            memory: None,
            count: 0,
            different: 0,
            most_different: usize::MAX,
            furthest: 0,
            accepted: false,
        }
    }

    fn remembering(matching: &'a Matching, records: &'a [u16], allowed: u32) -> Search<'a> {
        let memory = Some(vec![HashMap::new(); records.len() + 1]);
        Search { memory, ..Search::new(matching, records, allowed, guided::successors) }
    }

    /// With a memory only: without one, equal states are not told from different ones.
    fn effort(&self) -> Effort {
        Effort { entered: self.count, different: self.different }
    }

    /// "The search goes to the first successor first and stops at the first state with nothing left and no
    /// records." None if it would enter more states than allowed.
    fn answer(&mut self, root: &State) -> Option<Answer> {
        match self.enter(root, 0) {
            Break(()) if self.accepted => {
                Some(Answer::Accepted { place: self.records.len(), count: self.count })
            }
            Break(()) => None,
            Continue(()) => Some(Answer::Rejected { place: self.furthest, count: self.count }),
        }
    }

    /// Enters a state that the first `place` records have led to, and then all that follow it.
    /// Break: accepted, or one state too many.
    fn enter(&mut self, state: &State, place: usize) -> Visit {
        if let Some(seen) = self.memory.as_ref().and_then(|memory| memory[place].get(state)) {
            if seen.entered > self.allowed - self.count {
                return Break(());
            }
            self.count += seen.entered;
            self.furthest = self.furthest.max(seen.furthest);
            return Continue(());
        }
        if self.count == self.allowed || self.different == self.most_different {
            return Break(());
        }
        let (count, furthest) = (self.count, self.furthest);
        self.count += 1;
        self.different += 1;
        self.furthest = place;
        self.follow(state, place)?;
        let seen = Sight { entered: self.count - count, furthest: self.furthest };
        if let Some(memory) = &mut self.memory {
            memory[place].insert(state.clone(), seen);
        }
        self.furthest = seen.furthest.max(furthest);
        Continue(())
    }

    fn follow(&mut self, state: &State, place: usize) -> Visit {
        if place < self.records.len() {
            let (matching, record) = (self.matching, self.records[place]);
            (self.successors)(state, matching, record, &mut |next| self.enter(&next, place + 1))
        } else if *state == State::NothingLeft {
            self.accepted = true;
            Break(())
        } else {
            Continue(())
        }
    }
}

/// Runs something on a thread with a stack deep enough for 256 records and 64 nodes.
pub fn with_deep_stack<T: Send + 'static>(what: impl FnOnce() -> T + Send + 'static) -> T {
    let builder = std::thread::Builder::new().stack_size(1 << 29);
    builder.spawn(what).expect("a thread").join().unwrap_or_else(|panic| std::panic::resume_unwind(panic))
}
