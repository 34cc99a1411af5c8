//! "The rules" and the order of "The search that is counted", written down as plain lists, sentence by
//! sentence. A list can be as long as 2 to the number of nodes: use this on small flows, and guided.rs,
//! which gives the same lists one by one, on any. The tests compare the two.

use crate::matching::{Asked, Matching};
use crate::term::*;
use std::rc::Rc;
use Closing::*;

/// The steps of a standard term by a record, in order.
pub fn steps(p: &Std, asked: Asked) -> Vec<Std> {
    match &**p {
        // "an event steps to SKIP"; one that takes several entries is "counted as one step"
        Standard::Event(e) if asked.is_taken_by(*e) => vec![skip()],
        Standard::Event(_) | Standard::Skip | Standard::Throw | Standard::Yield => vec![],
        // "P;Q steps by P, or by Q where P can end ✓"
        Standard::Seq(p, q) => {
            let mut all: Vec<Std> = steps(p, asked).into_iter().map(|p| seq(p, q.clone())).collect();
            if ends(p, Done) {
                all.extend(steps(q, asked));
            }
            all
        }
        // "Choice steps by either side and drops the other"
        Standard::Choice(p, q) => {
            let mut all = steps(p, asked);
            all.extend(steps(q, asked));
            all
        }
        Standard::Parallel(set, p, q) => {
            let steps = [steps(p, asked), steps(q, asked)];
            beside(set.has(asked.record), [p, q], steps, |p, q| parallel(*set, p, q))
        }
        // "P▷Q steps by P, or by Q where P can end !"
        Standard::Handler(p, q) => {
            let inside = steps(p, asked).into_iter();
            let mut all: Vec<Std> = inside.map(|p| Rc::new(Standard::Handler(p, q.clone()))).collect();
            if ends(p, Failed) {
                all.extend(steps(q, asked));
            }
            all
        }
        // "[PP] steps by PP, or by a compensation with which PP can end !"
        Standard::Block(pp) => {
            let inside = comp_steps(pp, asked).into_iter();
            let mut all: Vec<Std> = inside.map(|pp| Rc::new(Standard::Block(pp))).collect();
            all.extend(compensations(pp, Failed).iter().flat_map(|r| steps(r, asked)));
            all
        }
    }
}

/// The steps of two parallel sides of either sort, made from those of each. "Parallel steps by either side", but "an event in the set is
/// one step of both sides (by the left's order, then the right's)".
fn beside<T: Clone>(joint: bool, sides: [&T; 2], steps: [Vec<T>; 2], parallel: impl Fn(T, T) -> T) -> Vec<T> {
    let ([p, q], [ps, qs]) = (sides, steps);
    if joint {
        ps.iter().flat_map(|p| qs.iter().map(|q| parallel(p.clone(), q.clone()))).collect()
    } else {
        let left = ps.into_iter().map(|p| parallel(p, q.clone()));
        let right = qs.into_iter().map(|q| parallel(p.clone(), q));
        left.chain(right).collect()
    }
}

/// Can a standard term end so?
pub fn ends(p: &Std, by: Closing) -> bool {
    match &**p {
        Standard::Event(_) => false,
        // "SKIP ✓; THROW !; YIELD ✓ or ?"
        Standard::Skip => by == Done,
        Standard::Throw => by == Failed,
        Standard::Yield => by == Done || by == Withdrawn,
        // "P;Q ends as P does by ! or ?, and as Q does where P can end ✓"
        Standard::Seq(p, q) => (by != Done && ends(p, by)) || (ends(p, Done) && ends(q, by)),
        // "P▷Q ends as P does by ✓ or ?, and as Q does where P can end !"
        Standard::Handler(p, q) => (by != Failed && ends(p, by)) || (ends(p, Failed) && ends(q, by)),
        // "Choice ends as either side does"
        Standard::Choice(p, q) => ends(p, by) || ends(q, by),
        // "Two parallel sides end together"
        Standard::Parallel(_, p, q) => {
            CLOSINGS.iter().any(|&x| ends(p, x) && CLOSINGS.iter().any(|&y| x.join(y) == by && ends(q, y)))
        }
        // "[PP] ends ✓ where PP can, and as the compensation does where PP ends !"
        Standard::Block(pp) => {
            (by == Done && !compensations(pp, Done).is_empty())
                || compensations(pp, Failed).iter().any(|r| ends(r, by))
        }
    }
}

/// The steps of a compensable term by a record, in order.
pub fn comp_steps(pp: &Comp, asked: Asked) -> Vec<Comp> {
    match &**pp {
        // "P÷Q steps by P"
        Compensable::Pair(p, q) => {
            steps(p, asked).into_iter().map(|p| Rc::new(Compensable::Pair(p, q.clone()))).collect()
        }
        // SKIP, THROW, YIELD paired with SKIP: none of them steps.
        Compensable::Skipp | Compensable::Throww | Compensable::Yieldd => vec![],
        // "PP;QQ steps by PP; or, for a compensation R with which PP ends ✓, by QQ, and R is held"
        Compensable::Seq(pp, qq) => {
            let inside = comp_steps(pp, asked).into_iter();
            let mut all: Vec<Comp> = inside.map(|pp| Rc::new(Compensable::Seq(pp, qq.clone()))).collect();
            for r in compensations(pp, Done) {
                all.extend(comp_steps(qq, asked).into_iter().map(|qq| held(qq, r.clone())));
            }
            all
        }
        Compensable::Choice(pp, qq) => {
            let mut all = comp_steps(pp, asked);
            all.extend(comp_steps(qq, asked));
            all
        }
        Compensable::Parallel(set, pp, qq) => {
            let steps = [comp_steps(pp, asked), comp_steps(qq, asked)];
            beside(set.has(asked.record), [pp, qq], steps, |pp, qq| comp_parallel(*set, pp, qq))
        }
        Compensable::Held(qq, r) => comp_steps(qq, asked).into_iter().map(|qq| held(qq, r.clone())).collect(),
    }
}

/// The compensations with which a compensable term can end so, in order, equal ones again and again.
pub fn compensations(pp: &Comp, by: Closing) -> Vec<Std> {
    let paired_with_skip = |p: Standard| compensations(&Rc::new(Compensable::Pair(Rc::new(p), skip())), by);
    match &**pp {
        // "P÷Q ends as P does"; it "that ends ✓ leaves Q; by ! or ? it leaves SKIP"
        Compensable::Pair(p, q) if ends(p, by) => vec![if by == Done { q.clone() } else { skip() }],
        Compensable::Pair(_, _) => vec![],
        Compensable::Skipp => paired_with_skip(Standard::Skip),
        Compensable::Throww => paired_with_skip(Standard::Throw),
        Compensable::Yieldd => paired_with_skip(Standard::Yield),
        // "PP;QQ that ends within PP by ! or ? leaves PP's; else QQ's first and then R"
        Compensable::Seq(pp, qq) => {
            let mut all = if by == Done { vec![] } else { compensations(pp, by) };
            for r in compensations(pp, Done) {
                all.extend(compensations(qq, by).into_iter().map(|q| seq(q, r.clone())));
            }
            all
        }
        // "Choice leaves the taken side's"
        Compensable::Choice(pp, qq) => {
            let mut all = compensations(pp, by);
            all.extend(compensations(qq, by));
            all
        }
        // "Parallel leaves both in parallel", "for forward steps and for compensations" with the same set; "a side's order is its
        // endings ✓, ?, !, and within an ending its compensations"; "combined ones go by the first part's order, then by the
        // second's"
        Compensable::Parallel(set, pp, qq) => {
            let in_order = |side: &Comp| -> Vec<(Closing, Std)> {
                CLOSINGS
                    .iter()
                    .flat_map(|&c| compensations(side, c).into_iter().map(move |r| (c, r)))
                    .collect()
            };
            let (left, right) = (in_order(pp), in_order(qq));
            let mut all = vec![];
            for (x, p) in &left {
                for (y, q) in &right {
                    if x.join(*y) == by {
                        all.push(parallel(*set, p.clone(), q.clone()));
                    }
                }
            }
            all
        }
        Compensable::Held(qq, r) => compensations(qq, by).into_iter().map(|q| seq(q, r.clone())).collect(),
    }
}

/// The successors of a state by the next record, in order.
pub fn successors(state: &State, matching: &Matching, record: u16) -> Vec<State> {
    let asked = Asked { matching, record };
    match (state, Closing::of_record(record)) {
        (State::NothingLeft, _) => vec![],
        (State::Standard(p), None) => steps(p, asked).into_iter().map(State::Standard).collect(),
        (State::Compensable(pp), None) => comp_steps(pp, asked).into_iter().map(State::Compensable).collect(),
        // "one successor, nothing left, if it can end so"
        (State::Standard(p), Some(by)) if ends(p, by) => vec![State::NothingLeft],
        (State::Standard(_), Some(_)) => vec![],
        // "one successor per compensation"
        (State::Compensable(pp), Some(by)) => {
            compensations(pp, by).into_iter().map(State::Standard).collect()
        }
    }
}
