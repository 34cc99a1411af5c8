//! The trace semantics as explicit sets, for small flows, in the form that request Four of document 02 gives it: "flows may now get
//! stuck, so a trace of a second part is asked for only where the run enters it, and a compensation is kept as the set of its traces,
//! perhaps empty". For flows without joint parallels it means what printed.rs has. Nothing of rules.rs is used: this reads the node table
//! and builds sets from sets. Where names are lent, a leaf without a machine is read "as the choice of all those entries" (request Two).
//!
//! The meaning has complete traces alone. Where a run of a flow that gets stuck may lead is asked for by the same sets with 001's partial
//! behaviours: traces that are cut short anywhere. They are used to check places and lists, which speak of runs that need not end.

use crate::matching::Matching;
use crate::sets::EventSet;
use crate::term::{is_event, kind, set_number, sort_of, Sort, DONE, FAILED, WITHDRAWN};
use std::collections::BTreeSet;

/// Events, then one closing.
pub type Trace = Vec<u16>;
pub type Traces = BTreeSet<Trace>;

/// Stands where a partial trace has its closing: 001's ⊥.
const CUT: u16 = 0;

#[derive(Clone, PartialEq, Eq, Debug)]
pub enum Meaning {
    Standard(Traces),
    /// Forward traces, each with the traces of a compensation that it leaves.
    Compensable(BTreeSet<(Trace, Traces)>),
}

/// The meaning of a table that is not refused; None if it takes more than `patience` steps to write down.
pub fn meaning(nodes: &[u16], sets: &[EventSet], matching: &Matching, patience: u64) -> Option<Meaning> {
    Build { nodes, sets, matching, partial: false, patience }.meaning()
}

/// Every list of records that some run of the flow follows, up to and with the last closing; patience as above.
pub fn followed(nodes: &[u16], sets: &[EventSet], matching: &Matching, patience: u64) -> Option<Traces> {
    let partial = Build { nodes, sets, matching, partial: true, patience }.meaning()?;
    Some(
        partial
            .lists()
            .into_iter()
            .map(|list| list.into_iter().take_while(|r| *r != CUT).collect())
            .collect(),
    )
}

impl Meaning {
    /// Every trace as one list; that of a compensable part is a forward and then a compensation trace.
    pub fn lists(&self) -> Traces {
        match self {
            Meaning::Standard(traces) => traces.clone(),
            Meaning::Compensable(pairs) => {
                pairs.iter().flat_map(|(forward, undo)| undo.iter().map(|c| joined(forward, c))).collect()
            }
        }
    }

    /// Are these records, whose closings are as the root needs them, a trace?
    pub fn has(&self, records: &[u16]) -> bool {
        match self {
            Meaning::Standard(traces) => traces.contains(records),
            Meaning::Compensable(pairs) => {
                let first_closing = records.iter().position(|r| !is_event(*r)).expect("two closings");
                let (forward, compensation) = records.split_at(first_closing + 1);
                pairs.iter().any(|(f, undo)| f == forward && undo.contains(compensation))
            }
        }
    }
}

/// The longest beginning of the records that is one of some list.
pub fn longest_beginning(lists: &Traces, records: &[u16]) -> usize {
    let common = |list: &Trace| list.iter().zip(records).take_while(|(a, b)| a == b).count();
    lists.iter().map(common).max().unwrap_or(0)
}

// ---- operations on single traces ----

pub fn closing(trace: &Trace) -> u16 {
    *trace.last().expect("a trace ends by a closing")
}

pub fn before_closing(trace: &Trace) -> &[u16] {
    &trace[..trace.len() - 1]
}

pub fn joined(first: &[u16], second: &[u16]) -> Trace {
    [first, second].concat()
}

/// The printed table of ω1 & ω2; a cut one is cut with every other.
pub fn joint_closing(first: u16, second: u16) -> u16 {
    match (first, second) {
        (DONE, DONE) => DONE,
        (DONE, WITHDRAWN) | (WITHDRAWN, DONE) | (WITHDRAWN, WITHDRAWN) => WITHDRAWN,
        (DONE, FAILED) | (FAILED, DONE) => FAILED,
        (FAILED, FAILED) | (FAILED, WITHDRAWN) | (WITHDRAWN, FAILED) => FAILED,
        (CUT, _) | (_, CUT) => CUT,
        other => unreachable!("{other:?} are not two closings"),
    }
}

// ---- sets from sets ----

struct Build<'a> {
    nodes: &'a [u16],
    sets: &'a [EventSet],
    matching: &'a Matching,
    /// Whether traces may be cut short.
    partial: bool,
    patience: u64,
}

impl Build<'_> {
    fn meaning(mut self) -> Option<Meaning> {
        let last = self.nodes.len() / 3 - 1;
        match sort_of(self.nodes[3 * last]) {
            Sort::Standard => self.standard(last).map(Meaning::Standard),
            Sort::Compensable => self.compensable(last).map(Meaning::Compensable),
        }
    }

    fn spend(&mut self) -> Option<()> {
        self.patience = self.patience.checked_sub(1)?;
        Some(())
    }

    fn node(&self, i: usize) -> (u16, u16, u16) {
        (self.nodes[3 * i], self.nodes[3 * i + 1], self.nodes[3 * i + 2])
    }

    /// The set of a parallel: the empty one for kinds 7 and 13.
    fn set(&self, kind: u16) -> EventSet {
        set_number(kind).map_or(EventSet::EMPTY, |number| self.sets[number])
    }

    /// The traces of a basic part, and what is left of them when they are cut short.
    fn basic(&self, traces: &[Trace]) -> Traces {
        let mut all: Traces = traces.iter().cloned().collect();
        if self.partial {
            let cuts = traces.iter().flat_map(|t| (0..t.len()).map(|length| joined(&t[..length], &[CUT])));
            all.extend(cuts);
        }
        all
    }

    fn standard(&mut self, i: usize) -> Option<Traces> {
        let (kind, first, second) = self.node(i);
        let (left, right) = (first as usize, second as usize);
        Some(match kind {
            kind::EVENT => {
                let taken = self.matching.taken_by(first);
                self.basic(&taken.into_iter().map(|event| vec![event, DONE]).collect::<Vec<_>>())
            }
            kind::SKIP => self.basic(&[vec![DONE]]),
            kind::THROW => self.basic(&[vec![FAILED]]),
            kind::YIELD => self.basic(&[vec![WITHDRAWN], vec![DONE]]),
            kind::SEQ => {
                let (ps, qs) = (self.standard(left)?, self.standard(right)?);
                self.then(&ps, DONE, &qs)?
            }
            kind::HANDLER => {
                let (ps, qs) = (self.standard(left)?, self.standard(right)?);
                self.then(&ps, FAILED, &qs)?
            }
            kind::CHOICE => &self.standard(left)? | &self.standard(right)?,
            kind::PARALLEL | kind::JOINT..=kind::LAST_JOINT => {
                let (ps, qs) = (self.standard(left)?, self.standard(right)?);
                self.beside(&self.set(kind), &ps, &qs)?
            }
            kind::BLOCK => {
                let mut all = BTreeSet::new();
                for (forward, undo) in self.compensable(left)? {
                    self.spend()?;
                    match closing(&forward) {
                        DONE | CUT => drop(all.insert(forward)),
                        FAILED => all.extend(self.then(&Traces::from([forward]), FAILED, &undo)?),
                        _ => {}
                    }
                }
                all
            }
            other => unreachable!("kind {other} where a standard part stands"),
        })
    }

    fn compensable(&mut self, i: usize) -> Option<BTreeSet<(Trace, Traces)>> {
        let (kind, first, second) = self.node(i);
        let (left, right) = (first as usize, second as usize);
        let mut all = BTreeSet::new();
        match kind {
            kind::PAIR => {
                let (ps, undo) = (self.standard(left)?, self.standard(right)?);
                all = self.pair(&ps, &undo);
            }
            kind::SKIPP => all = self.pair(&self.basic(&[vec![DONE]]), &self.basic(&[vec![DONE]])),
            kind::THROWW => all = self.pair(&self.basic(&[vec![FAILED]]), &self.basic(&[vec![DONE]])),
            kind::YIELDD => {
                all = self.pair(&self.basic(&[vec![WITHDRAWN], vec![DONE]]), &self.basic(&[vec![DONE]]))
            }
            kind::COMP_SEQ => {
                let (pps, qqs) = (self.compensable(left)?, self.compensable(right)?);
                for (p, undo_p) in pps {
                    if closing(&p) != DONE {
                        all.insert((p, undo_p));
                        continue;
                    }
                    for (q, undo_q) in &qqs {
                        let undo = self.then(undo_q, DONE, &undo_p)?;
                        all.insert((joined(before_closing(&p), q), undo));
                    }
                }
            }
            kind::COMP_CHOICE => all = &self.compensable(left)? | &self.compensable(right)?,
            kind::COMP_PARALLEL | kind::COMP_JOINT..=kind::LAST_COMP_JOINT => {
                let (pps, qqs) = (self.compensable(left)?, self.compensable(right)?);
                let set = self.set(kind);
                for (p, undo_p) in &pps {
                    for (q, undo_q) in &qqs {
                        let forward = self.merged(&set, p, q)?;
                        // Two traces that fail to meet leave nothing to undo.
                        if !forward.is_empty() {
                            let undo = self.beside(&set, undo_p, undo_q)?;
                            all.extend(forward.into_iter().map(|f| (f, undo.clone())));
                        }
                    }
                }
            }
            other => unreachable!("kind {other} where a compensable part stands"),
        }
        Some(all)
    }

    /// p÷Q leaves the traces of Q where p ends ✓, else that of SKIP.
    fn pair(&self, ps: &Traces, undo: &Traces) -> BTreeSet<(Trace, Traces)> {
        let left = |p: &Trace| if closing(p) == DONE { undo.clone() } else { self.basic(&[vec![DONE]]) };
        ps.iter().map(|p| (p.clone(), left(p))).collect()
    }

    /// P;Q for `on` = ✓ and P▷Q for `on` = !: a trace of Q is asked for only where one of P has ended so.
    fn then(&mut self, ps: &Traces, on: u16, qs: &Traces) -> Option<Traces> {
        let mut all = Traces::new();
        for p in ps {
            if closing(p) != on {
                self.spend()?;
                all.insert(p.clone());
                continue;
            }
            for q in qs {
                self.spend()?;
                all.insert(joined(before_closing(p), q));
            }
        }
        Some(all)
    }

    /// P ‖X Q: every trace of one side merged with every one of the other.
    fn beside(&mut self, set: &EventSet, ps: &Traces, qs: &Traces) -> Option<Traces> {
        let mut all = Traces::new();
        for p in ps {
            for q in qs {
                all.extend(self.merged(set, p, q)?);
            }
        }
        Some(all)
    }

    /// p ‖X q: the events merged, then the joint closing.
    fn merged(&mut self, set: &EventSet, p: &Trace, q: &Trace) -> Option<Vec<Trace>> {
        let end = joint_closing(closing(p), closing(q));
        let orders = self.merged_events(set, before_closing(p), before_closing(q))?;
        Some(orders.into_iter().map(|order| joined(&order, &[end])).collect())
    }

    /// After 001: two equal events of the set become one, and where they differ or one is missing nothing comes of it; all others come in
    /// any order.
    fn merged_events(&mut self, set: &EventSet, p: &[u16], q: &[u16]) -> Option<Vec<Trace>> {
        self.spend()?;
        let mut all = vec![];
        let mut after =
            |event: u16, rests: Vec<Trace>| all.extend(rests.iter().map(|rest| joined(&[event], rest)));
        match (p, q) {
            ([], []) => return Some(vec![vec![]]),
            ([a, p @ ..], [b, q @ ..]) if a == b && set.has(*a) => after(*a, self.merged_events(set, p, q)?),
            _ => {}
        }
        if let [a, rest @ ..] = p {
            if !set.has(*a) {
                after(*a, self.merged_events(set, rest, q)?);
            }
        }
        if let [b, rest @ ..] = q {
            if !set.has(*b) {
                after(*b, self.merged_events(set, p, rest)?);
            }
        }
        Some(all)
    }
}
