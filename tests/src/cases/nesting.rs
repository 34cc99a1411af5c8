//! Blocks in blocks: what undoes a step is a block that fails and is undone, and so on, up to as many levels as there is room for. On the
//! way stand choices of pairs that are held while more runs, or undone already while more is undone around them, and parallels that meet.
//! Where what is kept of one level is taken for another's, or is not made anew when what stands in it was undone, it shows here.
//! Only fresh cases are of these: the stored ones are older.

use super::tandem::{Tandem, EVENTS};
use super::{judging, lending, listing, naming, Case};
use crate::by_hand::{A, B, C, D};
use crate::drawing::*;
use crate::flowfile::FlowFile;
use crate::random;
use crate::refusals::MOST_NODES;
use crate::rng::Rng;
use crate::sets::EventSet;
use crate::term::{kind, MOST_EVENT};

/// A call of the judge or one that asks what may come next, with names and without, or a file.
pub fn case(rng: &mut Rng) -> Case {
    let tandem = any(rng);
    let named = rng.once_in(3) && tandem.flow.leaves(kind::EVENT) > 0;
    let file = match named {
        true => naming::file_of_machines(rng, &tandem),
        false => judging::records_of_flow(rng, &tandem, EVENTS, MOST_EVENT as usize),
    };
    match (named, rng.below(6)) {
        (true, 0) => Case::File(file.bytes()),
        (_, 1) => listing::case_of(rng, file, named),
        (true, _) => lending::near_its_count(rng, lending::judge_of(file)),
        (false, _) if file.sets.is_empty() => {
            let FlowFile { nodes, records, .. } = file;
            judging::around_the_count(rng, PATIENCE, nodes, records)
        }
        (false, _) => lending::near_its_count(rng, lending::judge_of(file).nameless()),
    }
}

/// The count of a search is looked for among this many states.
const PATIENCE: u32 = 60_000;

/// A flow within the limit of nodes, with the sets of its joint parallels.
pub fn any(rng: &mut Rng) -> Tandem {
    loop {
        let flow = match rng.below(3) {
            0 => levels(rng),
            1 => held(rng),
            _ => crowded(rng),
        };
        if flow.size() > MOST_NODES {
            continue;
        }
        if rng.once_in(2) {
            return Tandem::plain(flow);
        }
        let sets = match rng.below(4) {
            0 => random::sets(rng, 2, EVENTS),
            _ => vec![EventSet::of(&[A]), EventSet::of(&[B, D])],
        };
        return Tandem { flow: random::joined(rng, &flow, sets.len()), sets };
    }
}

// ---- levels ----

/// Up to nine levels around something that steps and is undone; now and then without its outermost block, so that the root compensates.
fn levels(rng: &mut Rng) -> Drawing {
    let deep = if rng.once_in(3) { rng.between(4, 9) } else { rng.between(1, 4) };
    let within = small(rng);
    let whole = (0..deep).fold(within, |inner, _| level(rng, inner));
    match rng.below(4) {
        0 => open(rng, whole),
        1 => seq(whole, event(C)),
        _ => whole,
    }
}

/// A block that fails, in which a step is undone by this part, or is this part.
fn level(rng: &mut Rng, inner: Drawing) -> Drawing {
    let pp = match rng.below(10) {
        0 => pair(inner, step(rng)),
        1 => choice(pair(step(rng), inner), short_pair(rng)),
        2 => choice(short_pair(rng), pair(step(rng), inner)),
        3 => seq(short_pair(rng), pair(step(rng), inner)),
        4 => seq(pair(step(rng), inner), short_pair(rng)),
        5 => parallel(short_pair(rng), pair(step(rng), inner)),
        _ => pair(step(rng), inner),
    };
    failing(rng, pp)
}

/// A block in which this part fails, or something behind or beside it; now and then nothing does.
fn failing(rng: &mut Rng, pp: Drawing) -> Drawing {
    block(match rng.below(10) {
        0..=3 => seq(pp, throww()),
        4 | 5 => parallel(throww(), pp),
        6 => parallel(pp, throww()),
        7 => seq(parallel(pp, yieldd()), throww()),
        8 => seq(pp, choice(skipp(), throww())),
        _ => pp,
    })
}

/// A block without its sign, or a pair of what is standard.
fn open(rng: &mut Rng, mut whole: Drawing) -> Drawing {
    if whole.kind == kind::BLOCK && !rng.once_in(4) {
        return whole.parts.remove(0);
    }
    match rng.below(3) {
        0 => pair(whole, step(rng)),
        1 => seq(pair(step(rng), whole), throww()),
        _ => pair(step(rng), whole),
    }
}

fn any_event(rng: &mut Rng) -> Drawing {
    event(*rng.pick(&[A, A, B, C, D]))
}

/// What a step forward is: mostly nothing or an event, so that runs get far.
fn step(rng: &mut Rng) -> Drawing {
    match rng.below(10) {
        0..=2 => skip(),
        3 => yields(),
        4 => choice(any_event(rng), skip()),
        _ => any_event(rng),
    }
}

fn short_pair(rng: &mut Rng) -> Drawing {
    match rng.below(6) {
        0 => yieldd(),
        1 => pair(yields(), any_event(rng)),
        2 => pair(skip(), any_event(rng)),
        _ => pair(any_event(rng), any_event(rng)),
    }
}

/// A standard part of a few nodes.
fn small(rng: &mut Rng) -> Drawing {
    match rng.below(6) {
        0 => any_event(rng),
        1 => parallel(any_event(rng), any_event(rng)),
        2 => choice(any_event(rng), seq(any_event(rng), any_event(rng))),
        3 => {
            let withdrawing = rng.between(1, 4);
            let crowd = (0..withdrawing).fold(short_pair(rng), |all, _| parallel(all, short_pair(rng)));
            failing(rng, crowd)
        }
        _ => {
            let pp = choices(rng);
            failing(rng, pp)
        }
    }
}

// ---- choices that are held, or undone ----

/// Two or three pairs to choose from, which may begin alike and are undone otherwise.
fn choice_of_pairs(rng: &mut Rng) -> Drawing {
    let first = step(rng);
    let one = pair(first.clone(), any_event(rng));
    let other = match rng.below(3) {
        0 => short_pair(rng),
        _ => pair(first, any_event(rng)),
    };
    if rng.once_in(4) {
        choice(choice(one, other), short_pair(rng))
    } else {
        choice(one, other)
    }
}

/// Choices one behind the other: what was chosen is held while the next one runs.
fn choices(rng: &mut Rng) -> Drawing {
    let more = rng.between(0, 2);
    (0..more).fold(choice_of_pairs(rng), |all, _| {
        let next = if rng.once_in(3) { short_pair(rng) } else { choice_of_pairs(rng) };
        if rng.once_in(4) {
            seq(next, all)
        } else {
            seq(all, next)
        }
    })
}

/// Choices in a sequence in a block; that block is a step, or what undoes one, behind or before other choices in a block around it, which
/// fails too: so what is held in the one is undone while what is held in the other waits, or is undone already.
fn held(rng: &mut Rng) -> Drawing {
    let deep = rng.between(1, 3);
    let pp = choices(rng);
    let whole = (0..deep).fold(failing(rng, pp), |inner, _| {
        let with_inner = match rng.below(4) {
            0 => pair(inner, any_event(rng)),
            1 => choice(pair(step(rng), inner), short_pair(rng)),
            _ => pair(step(rng), inner),
        };
        let around = choices(rng);
        let pp = match rng.below(5) {
            0 => seq(with_inner, around),
            1 => parallel(around, with_inner),
            2 => seq(seq(choice_of_pairs(rng), with_inner), yieldd()),
            _ => seq(around, with_inner),
        };
        failing(rng, pp)
    });
    if rng.once_in(4) {
        open(rng, whole)
    } else {
        whole
    }
}

// ---- parallels in parallels ----

/// Parallels of pairs, choices and blocks in every grouping, undone, and once more in what undoes a block around them; most become joint.
fn crowded(rng: &mut Rng) -> Drawing {
    let many = rng.between(2, 6);
    let crowd = crowd(rng, many);
    let inner = failing(rng, crowd);
    match rng.below(5) {
        0 => open(rng, inner),
        1 | 2 => {
            let few = rng.between(1, 3);
            let beside = self::crowd(rng, few);
            let undone = pair(step(rng), inner);
            let pp = if rng.once_in(2) { parallel(undone, beside) } else { seq(beside, undone) };
            failing(rng, pp)
        }
        3 => {
            let again = level(rng, inner);
            level(rng, again)
        }
        _ => level(rng, inner),
    }
}

fn crowd(rng: &mut Rng, many: usize) -> Drawing {
    if many == 1 {
        return match rng.below(8) {
            0 => yieldd(),
            1 => choice_of_pairs(rng),
            2 => seq(short_pair(rng), short_pair(rng)),
            3 => pair(step(rng), failing_pair(rng)),
            _ => pair(event(*rng.pick(&[A, B])), event(*rng.pick(&[A, B, D]))),
        };
    }
    let left = rng.between(1, many - 1);
    parallel(crowd(rng, left), crowd(rng, many - left))
}

fn failing_pair(rng: &mut Rng) -> Drawing {
    let pp = short_pair(rng);
    failing(rng, pp)
}
