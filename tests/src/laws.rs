//! "The laws of demand 3", each as two patterns, and exchanges of one side for the other at any depth.

use crate::drawing::{self, Drawing};
use crate::random::{self, Taste};
use crate::rng::Rng;
use crate::term::{kind, set_number, sort_of, Sort};

/// One side of a law. A letter that stands in both sides is the same part in both.
#[derive(Clone, Debug)]
pub enum Pattern {
    /// P, Q, R or PP, QQ, RR.
    Any(Sort, usize),
    /// The single event a.
    Event,
    Node(u16, Vec<Pattern>),
    /// Parallel with the set X, which stands for any set, or with Y; both letters may stand for no set at all, kind 7 or 13.
    Parallel(Sort, usize, Vec<Pattern>),
}
use Pattern::{Any, Event, Node, Parallel};

/// The two letters for sets.
const X: usize = 0;
const Y: usize = 1;

pub struct Law {
    pub name: String,
    pub left: Pattern,
    pub right: Pattern,
}

/// What the letters of a law stand for.
#[derive(Clone, Default)]
struct Letters {
    parts: [[Option<Drawing>; 3]; 2],
    event: Option<u16>,
    sets: [Option<SetLetter>; 2],
}

/// The number of a set, or that there is none.
type SetLetter = Option<usize>;

/// What a parallel of this sort has for its set; None if the kind is no such parallel.
fn set_letter(kind: u16, sort: Sort) -> Option<SetLetter> {
    let is_parallel = set_number(kind).is_some() || matches!(kind, kind::PARALLEL | kind::COMP_PARALLEL);
    Some(set_number(kind)).filter(|_| is_parallel && sort_of(kind) == sort)
}

fn parallel_kind(set: SetLetter, sort: Sort) -> u16 {
    let (plain, first_joint) = match sort {
        Sort::Standard => (kind::PARALLEL, kind::JOINT),
        Sort::Compensable => (kind::COMP_PARALLEL, kind::COMP_JOINT),
    };
    set.map_or(plain, |number| first_joint + number as u16)
}

impl Pattern {
    pub fn sort(&self) -> Sort {
        match self {
            Any(sort, _) => *sort,
            Event => Sort::Standard,
            Node(kind, _) => sort_of(*kind),
            Parallel(sort, _, _) => *sort,
        }
    }

    fn fits(&self, part: &Drawing, letters: &mut Letters) -> bool {
        match self {
            Any(sort, i) => {
                let letter = &mut letters.parts[*sort as usize][*i];
                part.sort() == *sort && letter.get_or_insert_with(|| part.clone()) == part
            }
            Event => part.kind == kind::EVENT && *letters.event.get_or_insert(part.event) == part.event,
            Node(kind, inside) => part.kind == *kind && all_fit(inside, part, letters),
            Parallel(sort, letter, inside) => {
                let Some(set) = set_letter(part.kind, *sort) else { return false };
                *letters.sets[*letter].get_or_insert(set) == set && all_fit(inside, part, letters)
            }
        }
    }

    /// The drawing; letters that stand for nothing yet get parts from `fresh`.
    fn draw(&self, letters: &mut Letters, fresh: &mut Fresh) -> Drawing {
        match self {
            Any(sort, i) => {
                let letter = &mut letters.parts[*sort as usize][*i];
                letter.get_or_insert_with(|| fresh.part(*sort)).clone()
            }
            Event => drawing::event(*letters.event.get_or_insert_with(|| fresh.event())),
            Node(kind, inside) => drawing::node(*kind, draw_all(inside, letters, fresh)),
            Parallel(sort, letter, inside) => {
                let set = *letters.sets[*letter].get_or_insert_with(|| fresh.set());
                drawing::node(parallel_kind(set, *sort), draw_all(inside, letters, fresh))
            }
        }
    }
}

fn all_fit(inside: &[Pattern], part: &Drawing, letters: &mut Letters) -> bool {
    inside.iter().zip(&part.parts).all(|(p, part)| p.fits(part, letters))
}

fn draw_all(inside: &[Pattern], letters: &mut Letters, fresh: &mut Fresh) -> Vec<Drawing> {
    inside.iter().map(|p| p.draw(letters, fresh)).collect()
}

/// Where new parts come from.
pub struct Fresh<'a> {
    pub rng: &'a mut Rng,
    pub taste: &'a Taste,
    pub room: usize,
    pub events: usize,
    pub sets: usize,
}

impl Fresh<'_> {
    fn part(&mut self, sort: Sort) -> Drawing {
        let room = self.rng.between(1, self.room);
        let part = random::drawing(self.rng, self.taste, sort, room, self.events);
        random::joined(self.rng, &part, self.sets)
    }

    fn set(&mut self) -> SetLetter {
        (0..self.sets).nth(self.rng.below(self.sets + 1))
    }

    fn event(&mut self) -> u16 {
        self.rng.between(1, self.events) as u16
    }
}

impl Law {
    fn sides(&self, forward: bool) -> (&Pattern, &Pattern) {
        if forward {
            (&self.left, &self.right)
        } else {
            (&self.right, &self.left)
        }
    }

    /// Both sides with the same new parts.
    pub fn instance(&self, fresh: &mut Fresh) -> (Drawing, Drawing) {
        let mut letters = Letters::default();
        let left = self.left.draw(&mut letters, fresh);
        (left, self.right.draw(&mut letters, fresh))
    }

    /// The flow after one exchange by this law at a random place; None if it fits nowhere.
    pub fn exchange(&self, flow: &Drawing, forward: bool, fresh: &mut Fresh) -> Option<Drawing> {
        let (from, to) = self.sides(forward);
        let mut found: Vec<(Vec<usize>, Letters)> = vec![];
        for path in flow.paths() {
            let mut letters = Letters::default();
            if from.fits(flow.at(&path), &mut letters) {
                found.push((path, letters));
            }
        }
        if found.is_empty() {
            return None;
        }
        let (path, mut letters) = fresh.rng.pick(&found).clone();
        let new = to.draw(&mut letters, fresh);
        Some(flow.replaced(&path, &new))
    }
}

/// Every law of the list.
pub fn laws() -> Vec<Law> {
    let mut all = vec![];
    both_sorts(Sort::Standard, &mut all);
    both_sorts(Sort::Compensable, &mut all);
    let mut law =
        |name: &str, left: Pattern, right: Pattern| all.push(Law { name: name.into(), left, right });

    let [p, q, r] = [0, 1, 2].map(|i| Any(Sort::Standard, i));
    let handler = |p: &Pattern, q: &Pattern| Node(kind::HANDLER, vec![p.clone(), q.clone()]);
    let (skip, throw) = (Node(kind::SKIP, vec![]), Node(kind::THROW, vec![]));
    law("(P▷Q)▷R = P▷(Q▷R)", handler(&handler(&p, &q), &r), handler(&p, &handler(&q, &r)));
    law("P▷THROW = P", handler(&p, &throw), p.clone());
    law("THROW▷P = P", handler(&throw, &p), p.clone());
    law("SKIP▷P = SKIP", handler(&skip, &p), skip.clone());

    let block = |pp: Pattern| Node(kind::BLOCK, vec![pp]);
    let [skipp, throww, yieldd] = [kind::SKIPP, kind::THROWW, kind::YIELDD].map(|k| Node(k, vec![]));
    law("[SKIPP] = SKIP", block(skipp.clone()), skip.clone());
    law("[THROWW] = SKIP", block(throww.clone()), skip.clone());
    law("[YIELDD] = SKIP", block(yieldd.clone()), skip.clone());
    law("[SKIPP] = [THROWW]", block(skipp), block(throww.clone()));
    law("[THROWW] = [YIELDD]", block(throww.clone()), block(yieldd));
    let [pp, qq] = [0, 1].map(|i| Any(Sort::Compensable, i));
    law(
        "[PP choice QQ] = [PP] choice [QQ]",
        block(Node(kind::COMP_CHOICE, vec![pp.clone(), qq.clone()])),
        Node(kind::CHOICE, vec![block(pp), block(qq)]),
    );
    law(
        "[a÷Q;THROWW] = a;Q",
        block(Node(kind::COMP_SEQ, vec![Node(kind::PAIR, vec![Event, q.clone()]), throww])),
        Node(kind::SEQ, vec![Event, q]),
    );
    all
}

/// The laws that standard and compensable parts share.
fn both_sorts(sort: Sort, all: &mut Vec<Law>) {
    let kinds = match sort {
        Sort::Standard => [kind::SEQ, kind::CHOICE, kind::PARALLEL, kind::SKIP, kind::THROW],
        Sort::Compensable => {
            [kind::COMP_SEQ, kind::COMP_CHOICE, kind::COMP_PARALLEL, kind::SKIPP, kind::THROWW]
        }
    };
    let [p, q, r] = [0, 1, 2].map(|i| Any(sort, i));
    let seq = |p: &Pattern, q: &Pattern| Node(kinds[0], vec![p.clone(), q.clone()]);
    let choice = |p: &Pattern, q: &Pattern| Node(kinds[1], vec![p.clone(), q.clone()]);
    // "The new form's symmetry, and its associativity with one set throughout"; a choice at a side is taken before it steps
    let parallel = |p: &Pattern, q: &Pattern| Parallel(sort, X, vec![p.clone(), q.clone()]);
    // "SKIP isn't its unit"
    let plain_parallel = |p: &Pattern, q: &Pattern| Node(kinds[2], vec![p.clone(), q.clone()]);
    let (skip, throw) = (Node(kinds[3], vec![]), Node(kinds[4], vec![]));
    let mut law = |name: &str, left: Pattern, right: Pattern| {
        all.push(Law { name: format!("{sort:?}: {name}"), left, right })
    };
    law("(P;Q);R = P;(Q;R)", seq(&seq(&p, &q), &r), seq(&p, &seq(&q, &r)));
    law("SKIP;P = P", seq(&skip, &p), p.clone());
    law("P;SKIP = P", seq(&p, &skip), p.clone());
    law("THROW;P = THROW", seq(&throw, &p), throw.clone());
    law("choice commutative", choice(&p, &q), choice(&q, &p));
    law("choice associative", choice(&choice(&p, &q), &r), choice(&p, &choice(&q, &r)));
    law("P choice P = P", choice(&p, &p), p.clone());
    law("parallel commutative", parallel(&p, &q), parallel(&q, &p));
    law("parallel associative", parallel(&parallel(&p, &q), &r), parallel(&p, &parallel(&q, &r)));
    law("SKIP parallel P = P", plain_parallel(&skip, &p), p.clone());
    law("P parallel SKIP = P", plain_parallel(&p, &skip), p.clone());
    law("(P choice Q);R", seq(&choice(&p, &q), &r), choice(&seq(&p, &r), &seq(&q, &r)));
    law("P;(Q choice R)", seq(&p, &choice(&q, &r)), choice(&seq(&p, &q), &seq(&p, &r)));
    law(
        "(P choice Q) parallel R",
        parallel(&choice(&p, &q), &r),
        choice(&parallel(&p, &r), &parallel(&q, &r)),
    );
    law(
        "P parallel (Q choice R)",
        parallel(&p, &choice(&q, &r)),
        choice(&parallel(&p, &q), &parallel(&p, &r)),
    );
}

/// Statements that look like laws and are none; a check of the laws is worth something if it finds them.
pub fn errors_that_look_right() -> Vec<Law> {
    let mut all = vec![];
    let mut law =
        |name: &str, left: Pattern, right: Pattern| all.push(Law { name: name.into(), left, right });
    let node = |kind: u16, parts: &[&Pattern]| Node(kind, parts.iter().map(|&p| p.clone()).collect());
    let [p, q, r] = [0, 1, 2].map(|i| Any(Sort::Standard, i));
    let [pp, qq] = [0, 1].map(|i| Any(Sort::Compensable, i));
    let (skip, throw) = (Node(kind::SKIP, vec![]), Node(kind::THROW, vec![]));
    let (throww, yieldd) = (Node(kind::THROWW, vec![]), Node(kind::YIELDD, vec![]));

    law("THROW parallel P = P;THROW", node(kind::PARALLEL, &[&throw, &p]), node(kind::SEQ, &[&p, &throw]));
    law("P;Q = Q;P", node(kind::SEQ, &[&p, &q]), node(kind::SEQ, &[&q, &p]));
    law("P;THROW = THROW", node(kind::SEQ, &[&p, &throw]), throw.clone());
    law("SKIP▷P = P", node(kind::HANDLER, &[&skip, &p]), p.clone());
    law("P▷SKIP = P", node(kind::HANDLER, &[&p, &skip]), p.clone());
    law(
        "(P choice Q)▷R = (P▷R) choice Q",
        node(kind::HANDLER, &[&node(kind::CHOICE, &[&p, &q]), &r]),
        node(kind::CHOICE, &[&node(kind::HANDLER, &[&p, &r]), &q]),
    );
    let pair = node(kind::PAIR, &[&p, &q]);
    law("[P÷Q] = P", node(kind::BLOCK, &[&pair]), p.clone());
    law(
        "[P÷Q;THROWW] = P;Q",
        node(kind::BLOCK, &[&node(kind::COMP_SEQ, &[&pair, &throww])]),
        node(kind::SEQ, &[&p, &q]),
    );
    law(
        "PP parallel THROWW = PP;THROWW",
        node(kind::COMP_PARALLEL, &[&pp, &throww]),
        node(kind::COMP_SEQ, &[&pp, &throww]),
    );
    for (sort, skip) in [(Sort::Standard, kind::SKIP), (Sort::Compensable, kind::SKIPP)] {
        let [p, q, r] = [0, 1, 2].map(|i| Any(sort, i));
        let beside = |set: usize, p: &Pattern, q: &Pattern| Parallel(sort, set, vec![p.clone(), q.clone()]);
        let skip = Node(skip, vec![]);
        law(&format!("{sort:?}: SKIP parallel with X P = P"), beside(X, &skip, &p), p.clone());
        law(&format!("{sort:?}: P parallel with X SKIP = P"), beside(X, &p, &skip), p.clone());
        law(
            &format!("{sort:?}: parallel with X and Y associative"),
            beside(Y, &beside(X, &p, &q), &r),
            beside(X, &p, &beside(Y, &q, &r)),
        );
        law(
            &format!("{sort:?}: P parallel with X Q = P parallel with Y Q"),
            beside(X, &p, &q),
            beside(Y, &p, &q),
        );
    }
    law("YIELDD;PP = PP", node(kind::COMP_SEQ, &[&yieldd, &pp]), pp.clone());
    law("PP;QQ = PP parallel QQ", node(kind::COMP_SEQ, &[&pp, &qq]), node(kind::COMP_PARALLEL, &[&pp, &qq]));
    all
}
