//! The published trace semantics as explicit sets, for small flows without joint parallels: Fig. 1 of 000 and Fig. 3 of 001 as
//! document 01 settles them (no extra pair trace, no partial behaviours, compensation traces combined with compensation traces, no trace
//! of a block whose inside ends ?). As in the figures, a trace of a second part is always drawn, and a compensable part means "a set of
//! pairs, forward and compensation trace". traces.rs has the form that also speaks of flows that get stuck; the tests hold the two
//! together.

use crate::matching::Matching;
use crate::term::{kind, sort_of, Sort, DONE, FAILED, WITHDRAWN};
use crate::traces::{before_closing, closing, joined, joint_closing, Trace, Traces};
use std::collections::BTreeSet;

/// Every trace of a table that is not refused, as one list; that of a compensable part is its forward and then its compensation trace.
/// None if it takes more than `patience` steps to write down.
pub fn lists(nodes: &[u16], matching: &Matching, patience: u64) -> Option<Traces> {
    let mut build = Build { nodes, matching, patience };
    let last = nodes.len() / 3 - 1;
    match sort_of(nodes[3 * last]) {
        Sort::Standard => build.standard(last),
        Sort::Compensable => {
            Some(build.compensable(last)?.iter().map(|(forward, undo)| joined(forward, undo)).collect())
        }
    }
}

// ---- operations on single traces ----

/// p;q for `on` = ✓ and p▷q for `on` = !: q goes on where p has ended so.
fn then(p: &Trace, on: u16, q: &Trace) -> Trace {
    if closing(p) == on {
        joined(before_closing(p), q)
    } else {
        p.clone()
    }
}

/// p÷q.
fn pair(p: &Trace, q: &Trace) -> (Trace, Trace) {
    let left = if closing(p) == DONE { q.clone() } else { vec![DONE] };
    (p.clone(), left)
}

/// (p, p') ; (q, q').
fn comp_then(p: &(Trace, Trace), q: &(Trace, Trace)) -> (Trace, Trace) {
    if closing(&p.0) == DONE {
        (joined(before_closing(&p.0), &q.0), then(&q.1, DONE, &p.1))
    } else {
        p.clone()
    }
}

// ---- sets from sets ----

struct Build<'a> {
    nodes: &'a [u16],
    matching: &'a Matching,
    patience: u64,
}

impl Build<'_> {
    fn spend(&mut self) -> Option<()> {
        self.patience = self.patience.checked_sub(1)?;
        Some(())
    }

    fn node(&self, i: usize) -> (u16, u16, u16) {
        (self.nodes[3 * i], self.nodes[3 * i + 1], self.nodes[3 * i + 2])
    }

    fn standard(&mut self, i: usize) -> Option<Traces> {
        let (kind, first, second) = self.node(i);
        let (left, right) = (first as usize, second as usize);
        Some(match kind {
            kind::EVENT => self.matching.taken_by(first).into_iter().map(|event| vec![event, DONE]).collect(),
            kind::SKIP => BTreeSet::from([vec![DONE]]),
            kind::THROW => BTreeSet::from([vec![FAILED]]),
            kind::YIELD => BTreeSet::from([vec![WITHDRAWN], vec![DONE]]),
            kind::SEQ => {
                let (ps, qs) = (self.standard(left)?, self.standard(right)?);
                self.every(&ps, &qs, |p, q| then(p, DONE, q))?
            }
            kind::HANDLER => {
                let (ps, qs) = (self.standard(left)?, self.standard(right)?);
                self.every(&ps, &qs, |p, q| then(p, FAILED, q))?
            }
            kind::CHOICE => &self.standard(left)? | &self.standard(right)?,
            kind::PARALLEL => {
                let (ps, qs) = (self.standard(left)?, self.standard(right)?);
                let mut all = BTreeSet::new();
                for p in &ps {
                    for q in &qs {
                        all.extend(self.side_by_side(p, q)?);
                    }
                }
                all
            }
            kind::BLOCK => {
                let mut all = BTreeSet::new();
                for (forward, compensation) in self.compensable(left)? {
                    self.spend()?;
                    match closing(&forward) {
                        DONE => drop(all.insert(forward)),
                        FAILED => drop(all.insert(joined(before_closing(&forward), &compensation))),
                        _ => {}
                    }
                }
                all
            }
            other => unreachable!("kind {other} where a standard part stands"),
        })
    }

    fn compensable(&mut self, i: usize) -> Option<BTreeSet<(Trace, Trace)>> {
        let (kind, first, second) = self.node(i);
        let (left, right) = (first as usize, second as usize);
        let skip = BTreeSet::from([vec![DONE]]);
        match kind {
            kind::PAIR => {
                let (ps, qs) = (self.standard(left)?, self.standard(right)?);
                self.every(&ps, &qs, pair)
            }
            kind::SKIPP => self.every(&skip, &skip, pair),
            kind::THROWW => self.every(&BTreeSet::from([vec![FAILED]]), &skip, pair),
            kind::YIELDD => self.every(&BTreeSet::from([vec![WITHDRAWN], vec![DONE]]), &skip, pair),
            kind::COMP_SEQ => {
                let (ps, qs) = (self.compensable(left)?, self.compensable(right)?);
                self.every(&ps, &qs, comp_then)
            }
            kind::COMP_CHOICE => Some(&self.compensable(left)? | &self.compensable(right)?),
            kind::COMP_PARALLEL => {
                let (ps, qs) = (self.compensable(left)?, self.compensable(right)?);
                let mut all = BTreeSet::new();
                for p in &ps {
                    for q in &qs {
                        let forward = self.side_by_side(&p.0, &q.0)?;
                        let compensation = self.side_by_side(&p.1, &q.1)?;
                        all.extend(self.every(&forward, &compensation, |f, c| (f.clone(), c.clone()))?);
                    }
                }
                Some(all)
            }
            other => unreachable!("kind {other} where a compensable part stands"),
        }
    }

    /// { combine p q | p in ps, q in qs }.
    fn every<T, U, V: Ord>(
        &mut self,
        ps: &BTreeSet<T>,
        qs: &BTreeSet<U>,
        combine: impl Fn(&T, &U) -> V,
    ) -> Option<BTreeSet<V>> {
        let mut all = BTreeSet::new();
        for p in ps {
            for q in qs {
                self.spend()?;
                all.insert(combine(p, q));
            }
        }
        Some(all)
    }

    /// p || q: the interleavings of the events, then the joint closing.
    fn side_by_side(&mut self, p: &Trace, q: &Trace) -> Option<Traces> {
        let end = joint_closing(closing(p), closing(q));
        let orders = self.interleavings(before_closing(p), before_closing(q))?;
        Some(orders.into_iter().map(|order| joined(&order, &[end])).collect())
    }

    fn interleavings(&mut self, p: &[u16], q: &[u16]) -> Option<Vec<Trace>> {
        self.spend()?;
        if p.is_empty() || q.is_empty() {
            return Some(vec![joined(p, q)]);
        }
        let after_p = self.interleavings(&p[1..], q)?;
        let after_q = self.interleavings(p, &q[1..])?;
        let by_p = after_p.iter().map(|rest| joined(&p[..1], rest));
        let by_q = after_q.iter().map(|rest| joined(&q[..1], rest));
        Some(by_p.chain(by_q).collect())
    }
}
