//! The successors of rules.rs, in the same order, given one at a time, and never a long wait between two
//! of them: before compensations are gone through it is worked out which of them can lead anywhere. So a
//! block with 2 to the 31 compensations, none of which steps by the record, costs no more than another.
//!
//! For that a term is described by its outlook: whether it steps by the record in question, and how it can
//! end. The outlook of P;Q, P▷Q, a choice or a parallel follows from the outlooks of its two parts, so the
//! outlooks that occur among many compensations are a set of at most sixteen.

use crate::matching::{Asked, Matching};
use crate::term::*;
use std::ops::ControlFlow::{self, Continue};
use std::rc::Rc;
use Closing::*;

/// Break: the one who asked wants no more.
pub type Visit = ControlFlow<()>;
type Each<'a, T> = &'a mut dyn FnMut(T) -> Visit;

/// Calls `each` with the successors of a state by the next record, in order.
pub fn successors(state: &State, matching: &Matching, record: u16, each: Each<State>) -> Visit {
    // A closing, which no leaf takes, is asked about in the same way.
    let asked = Asked { matching, record };
    match (state, Closing::of_record(record)) {
        (State::NothingLeft, _) => Continue(()),
        (State::Standard(p), None) => steps(p, asked, &mut |p| each(State::Standard(p))),
        (State::Compensable(pp), None) => comp_steps(pp, asked, &mut |pp| each(State::Compensable(pp))),
        (State::Standard(p), Some(by)) if outlook(p, asked).ends[by as usize] => each(State::NothingLeft),
        (State::Standard(_), Some(_)) => Continue(()),
        (State::Compensable(pp), Some(by)) => {
            compensations(pp, by, asked, Outlooks::ALL, &mut |r, _| each(State::Standard(r)))
        }
    }
}

/// Is there a successor at all?
pub fn possible(state: &State, matching: &Matching, record: u16) -> bool {
    successors(state, matching, record, &mut |_| ControlFlow::Break(())).is_break()
}

// ---- outlooks ----

#[derive(Clone, Copy, PartialEq, Eq, Debug)]
struct Outlook {
    steps: bool,
    ends: [bool; 3],
}

impl Outlook {
    const NOTHING: Outlook = Outlook { steps: false, ends: [false; 3] };

    fn ending(by: &[Closing]) -> Outlook {
        let mut o = Outlook::NOTHING;
        by.iter().for_each(|&c| o.ends[c as usize] = true);
        o
    }

    /// P;Q for `on` = ✓, P▷Q for `on` = !.
    fn then(self, on: Closing, second: Outlook) -> Outlook {
        let passed = self.ends[on as usize];
        let mut o = Outlook { steps: self.steps || (passed && second.steps), ends: [false; 3] };
        for by in CLOSINGS {
            let b = by as usize;
            o.ends[b] = (by != on && self.ends[b]) || (passed && second.ends[b]);
        }
        o
    }

    fn or(self, other: Outlook) -> Outlook {
        let mut o = Outlook { steps: self.steps || other.steps, ends: self.ends };
        (0..3).for_each(|b| o.ends[b] |= other.ends[b]);
        o
    }

    /// Two sides in parallel, by a record that they take together or not.
    fn beside(self, joint: bool, other: Outlook) -> Outlook {
        let mut o = Outlook { steps: either_or_both(joint, self.steps, other.steps), ends: [false; 3] };
        for x in CLOSINGS {
            for y in CLOSINGS {
                o.ends[x.join(y) as usize] |= self.ends[x as usize] && other.ends[y as usize];
            }
        }
        o
    }

    /// One of sixteen numbers.
    fn index(self) -> u16 {
        self.steps as u16
            | (self.ends[0] as u16) << 1
            | (self.ends[1] as u16) << 2
            | (self.ends[2] as u16) << 3
    }

    fn of_index(i: u16) -> Outlook {
        let bit = |k: u16| i >> k & 1 == 1;
        Outlook { steps: bit(0), ends: [bit(1), bit(2), bit(3)] }
    }
}

/// Whether two sides step, by a record that they take together or not.
fn either_or_both(joint: bool, left: bool, right: bool) -> bool {
    if joint {
        left && right
    } else {
        left || right
    }
}

/// A set of outlooks, a bit for each.
#[derive(Clone, Copy, PartialEq, Eq, Debug)]
struct Outlooks(u16);

impl Outlooks {
    const NONE: Outlooks = Outlooks(0);
    const ALL: Outlooks = Outlooks(u16::MAX);

    fn one(o: Outlook) -> Outlooks {
        Outlooks(1 << o.index())
    }

    fn is_empty(self) -> bool {
        self.0 == 0
    }

    fn has(self, o: Outlook) -> bool {
        self.0 >> o.index() & 1 == 1
    }

    fn with(self, other: Outlooks) -> Outlooks {
        Outlooks(self.0 | other.0)
    }

    fn iter(self) -> impl Iterator<Item = Outlook> {
        (0..16).filter(move |i| self.0 >> i & 1 == 1).map(Outlook::of_index)
    }

    /// Those for which `keep` holds.
    fn filter(self, keep: impl Fn(Outlook) -> bool) -> Outlooks {
        self.iter().filter(|&o| keep(o)).fold(Outlooks::NONE, |s, o| s.with(Outlooks::one(o)))
    }

    /// Every one of these combined with every one of the others.
    fn product(self, others: Outlooks, combine: impl Fn(Outlook, Outlook) -> Outlook) -> Outlooks {
        let mut s = Outlooks::NONE;
        for a in self.iter() {
            for b in others.iter() {
                s = s.with(Outlooks::one(combine(a, b)));
            }
        }
        s
    }
}

fn outlook(p: &Std, asked: Asked) -> Outlook {
    match &**p {
        Standard::Event(e) => Outlook { steps: asked.is_taken_by(*e), ends: [false; 3] },
        Standard::Skip => Outlook::ending(&[Done]),
        Standard::Throw => Outlook::ending(&[Failed]),
        Standard::Yield => Outlook::ending(&[Done, Withdrawn]),
        Standard::Seq(p, q) => outlook(p, asked).then(Done, outlook(q, asked)),
        Standard::Handler(p, q) => outlook(p, asked).then(Failed, outlook(q, asked)),
        Standard::Choice(p, q) => outlook(p, asked).or(outlook(q, asked)),
        Standard::Parallel(set, p, q) => outlook(p, asked).beside(set.has(asked.record), outlook(q, asked)),
        Standard::Block(pp) => {
            let inside = prospect(pp, asked);
            let undone = inside.left_by(Failed).iter().fold(Outlook::NOTHING, Outlook::or);
            let forward =
                Outlook { steps: inside.steps, ends: [!inside.left_by(Done).is_empty(), false, false] };
            forward.or(undone)
        }
    }
}

/// What a compensable term can do: whether it steps by the record, and the outlooks of the compensations
/// that it leaves by each closing.
struct Prospect {
    steps: bool,
    left: [Outlooks; 3],
}

impl Prospect {
    fn left_by(&self, by: Closing) -> Outlooks {
        self.left[by as usize]
    }

    /// A pair: it steps and ends as its forward part does; ✓ leaves `undo`, the other closings leave SKIP.
    fn of_pair(forward: Outlook, undo: Outlook) -> Prospect {
        let leave = |by: Closing, r: Outlook| {
            if forward.ends[by as usize] {
                Outlooks::one(r)
            } else {
                Outlooks::NONE
            }
        };
        let skip = Outlook::ending(&[Done]);
        Prospect {
            steps: forward.steps,
            left: [leave(Done, undo), leave(Withdrawn, skip), leave(Failed, skip)],
        }
    }
}

/// Q;R: the second part's compensation and then the first part's.
fn undone_after(q: Outlook, r: Outlook) -> Outlook {
    q.then(Done, r)
}

fn prospect(pp: &Comp, asked: Asked) -> Prospect {
    let skip = Outlook::ending(&[Done]);
    match &**pp {
        Compensable::Pair(p, q) => Prospect::of_pair(outlook(p, asked), outlook(q, asked)),
        Compensable::Skipp => Prospect::of_pair(skip, skip),
        Compensable::Throww => Prospect::of_pair(Outlook::ending(&[Failed]), skip),
        Compensable::Yieldd => Prospect::of_pair(Outlook::ending(&[Done, Withdrawn]), skip),
        Compensable::Seq(pp, qq) => {
            let (a, b) = (prospect(pp, asked), prospect(qq, asked));
            let r = a.left_by(Done);
            let combined = |by: Closing| b.left_by(by).product(r, undone_after);
            Prospect {
                steps: a.steps || (!r.is_empty() && b.steps),
                left: [
                    combined(Done),
                    a.left_by(Withdrawn).with(combined(Withdrawn)),
                    a.left_by(Failed).with(combined(Failed)),
                ],
            }
        }
        Compensable::Choice(pp, qq) => {
            let (a, b) = (prospect(pp, asked), prospect(qq, asked));
            let mut both = Prospect { steps: a.steps || b.steps, left: a.left };
            (0..3).for_each(|by| both.left[by] = both.left[by].with(b.left[by]));
            both
        }
        Compensable::Parallel(set, pp, qq) => {
            let (a, b) = (prospect(pp, asked), prospect(qq, asked));
            let joint = set.has(asked.record);
            let mut both =
                Prospect { steps: either_or_both(joint, a.steps, b.steps), left: [Outlooks::NONE; 3] };
            for x in CLOSINGS {
                for y in CLOSINGS {
                    let more = a.left_by(x).product(b.left_by(y), |p, q| p.beside(joint, q));
                    let by = x.join(y) as usize;
                    both.left[by] = both.left[by].with(more);
                }
            }
            both
        }
        Compensable::Held(qq, r) => {
            let (b, r) = (prospect(qq, asked), Outlooks::one(outlook(r, asked)));
            Prospect { steps: b.steps, left: b.left.map(|q| q.product(r, undone_after)) }
        }
    }
}

// ---- the lists of rules.rs, one by one ----

fn steps(p: &Std, asked: Asked, each: Each<Std>) -> Visit {
    match &**p {
        Standard::Event(e) if asked.is_taken_by(*e) => each(skip()),
        Standard::Event(_) | Standard::Skip | Standard::Throw | Standard::Yield => Continue(()),
        Standard::Seq(p, q) => {
            steps(p, asked, &mut |p| each(seq(p, q.clone())))?;
            if outlook(p, asked).ends[Done as usize] {
                steps(q, asked, each)?;
            }
            Continue(())
        }
        Standard::Handler(p, q) => {
            steps(p, asked, &mut |p| each(Rc::new(Standard::Handler(p, q.clone()))))?;
            if outlook(p, asked).ends[Failed as usize] {
                steps(q, asked, each)?;
            }
            Continue(())
        }
        Standard::Choice(p, q) => {
            steps(p, asked, each)?;
            steps(q, asked, each)
        }
        Standard::Parallel(set, p, q) if set.has(asked.record) => {
            // None of the left's steps is one if the right has none.
            if !outlook(q, asked).steps {
                return Continue(());
            }
            steps(p, asked, &mut |p| steps(q, asked, &mut |q| each(parallel(*set, p.clone(), q))))
        }
        Standard::Parallel(set, p, q) => {
            steps(p, asked, &mut |p| each(parallel(*set, p, q.clone())))?;
            steps(q, asked, &mut |q| each(parallel(*set, p.clone(), q)))
        }
        Standard::Block(pp) => {
            comp_steps(pp, asked, &mut |pp| each(Rc::new(Standard::Block(pp))))?;
            let stepping = Outlooks::ALL.filter(|o| o.steps);
            compensations(pp, Failed, asked, stepping, &mut |r, _| steps(&r, asked, each))
        }
    }
}

fn comp_steps(pp: &Comp, asked: Asked, each: Each<Comp>) -> Visit {
    match &**pp {
        Compensable::Pair(p, q) => steps(p, asked, &mut |p| each(Rc::new(Compensable::Pair(p, q.clone())))),
        Compensable::Skipp | Compensable::Throww | Compensable::Yieldd => Continue(()),
        Compensable::Seq(pp, qq) => {
            comp_steps(pp, asked, &mut |pp| each(Rc::new(Compensable::Seq(pp, qq.clone()))))?;
            if !prospect(qq, asked).steps {
                return Continue(());
            }
            compensations(pp, Done, asked, Outlooks::ALL, &mut |r, _| {
                comp_steps(qq, asked, &mut |qq| each(held(qq, r.clone())))
            })
        }
        Compensable::Choice(pp, qq) => {
            comp_steps(pp, asked, each)?;
            comp_steps(qq, asked, each)
        }
        Compensable::Parallel(set, pp, qq) if set.has(asked.record) => {
            if !prospect(qq, asked).steps {
                return Continue(());
            }
            comp_steps(pp, asked, &mut |pp| {
                comp_steps(qq, asked, &mut |qq| each(comp_parallel(*set, pp.clone(), qq)))
            })
        }
        Compensable::Parallel(set, pp, qq) => {
            comp_steps(pp, asked, &mut |pp| each(comp_parallel(*set, pp, qq.clone())))?;
            comp_steps(qq, asked, &mut |qq| each(comp_parallel(*set, pp.clone(), qq)))
        }
        Compensable::Held(qq, r) => comp_steps(qq, asked, &mut |qq| each(held(qq, r.clone()))),
    }
}

/// Calls `each` with the compensations by a closing whose outlook is a wanted one, in order, each with its
/// outlook. The first part of a combined one is asked only for what some second part makes wanted.
fn compensations(
    pp: &Comp,
    by: Closing,
    asked: Asked,
    wanted: Outlooks,
    each: &mut dyn FnMut(Std, Outlook) -> Visit,
) -> Visit {
    if wanted.is_empty() {
        return Continue(());
    }
    let mut pair = |forward: Outlook, undo: &Std| {
        let left = if by == Done { undo.clone() } else { skip() };
        let o = outlook(&left, asked);
        if forward.ends[by as usize] && wanted.has(o) {
            each(left, o)
        } else {
            Continue(())
        }
    };
    match &**pp {
        Compensable::Pair(p, q) => pair(outlook(p, asked), q),
        Compensable::Skipp => pair(Outlook::ending(&[Done]), &skip()),
        Compensable::Throww => pair(Outlook::ending(&[Failed]), &skip()),
        Compensable::Yieldd => pair(Outlook::ending(&[Done, Withdrawn]), &skip()),
        Compensable::Choice(pp, qq) => {
            compensations(pp, by, asked, wanted, each)?;
            compensations(qq, by, asked, wanted, each)
        }
        Compensable::Held(qq, r) => {
            let or = outlook(r, asked);
            let wanted_of_q = Outlooks::ALL.filter(|oq| wanted.has(undone_after(oq, or)));
            compensations(qq, by, asked, wanted_of_q, &mut |q, oq| {
                each(seq(q, r.clone()), undone_after(oq, or))
            })
        }
        Compensable::Seq(pp, qq) => {
            if by != Done {
                compensations(pp, by, asked, wanted, each)?;
            }
            let second = prospect(qq, asked).left_by(by);
            let completes = |or: Outlook| second.filter(|oq| wanted.has(undone_after(oq, or)));
            let wanted_of_r = Outlooks::ALL.filter(|or| !completes(or).is_empty());
            compensations(pp, Done, asked, wanted_of_r, &mut |r, or| {
                compensations(qq, by, asked, completes(or), &mut |q, oq| {
                    each(seq(q, r.clone()), undone_after(oq, or))
                })
            })
        }
        Compensable::Parallel(set, pp, qq) => {
            let second = prospect(qq, asked);
            let joint = set.has(asked.record);
            let completes =
                |op: Outlook, y: Closing| second.left_by(y).filter(|oq| wanted.has(op.beside(joint, oq)));
            for x in CLOSINGS {
                let partners: Vec<Closing> = CLOSINGS.into_iter().filter(|&y| x.join(y) == by).collect();
                let wanted_of_p =
                    Outlooks::ALL.filter(|op| partners.iter().any(|&y| !completes(op, y).is_empty()));
                compensations(pp, x, asked, wanted_of_p, &mut |p, op| {
                    for &y in &partners {
                        compensations(qq, y, asked, completes(op, y), &mut |q, oq| {
                            each(parallel(*set, p.clone(), q), op.beside(joint, oq))
                        })?;
                    }
                    Continue(())
                })?;
            }
            Continue(())
        }
    }
}
