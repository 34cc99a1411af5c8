//! Flows with many runs, many equal successors, or many compensations: where a search that tries the wrong
//! one first, merges two, or goes through all of them, is found out by its count or its time.

use super::{judging, Case};
use crate::by_hand::{A, B, C};
use crate::drawing::*;
use crate::matching::Matching;
use crate::random;
use crate::refusals::MOST_NODES;
use crate::rng::Rng;
use crate::term::root;

pub fn case(rng: &mut Rng) -> Case {
    let flow = flow(rng);
    let nodes = flow.table_in_any_order(rng);
    let records = match rng.below(3) {
        0 => only_a(rng, &flow),
        _ => random::records_for(rng, &root(&nodes, &[]), &Matching::ByNumber, 3),
    };
    judging::around_the_count(rng, 60_000, nodes, records)
}

/// Some times a and then closings.
fn only_a(rng: &mut Rng, flow: &Drawing) -> Vec<u16> {
    let most = rng.between(1, 9);
    random::records(rng, flow.sort(), 1, most)
}

/// A flow within the limit of nodes.
pub fn flow(rng: &mut Rng) -> Drawing {
    loop {
        let flow = any_flow(rng);
        if flow.size() <= MOST_NODES {
            return flow;
        }
    }
}

fn any_flow(rng: &mut Rng) -> Drawing {
    let leaves = |e: u16| pair(skip(), event(e));
    let either = || choice(leaves(B), leaves(C));
    let undone = |pp: Drawing| block(seq(pp, throww()));
    let few = rng.between(1, 8);
    let many = rng.between(1, 31);
    match rng.below(16) {
        // as many orders as there are of equal events
        0 => tower(few, &event(A), parallel),
        1 => tower(rng.between(1, 14), &choice(event(A), event(A)), seq),
        2 => tower(few, &choice(event(A), seq(event(A), event(B))), parallel),
        // compensations by the thousand million, each a successor
        3 => tower(many, &yieldd(), parallel),
        4 => tower(many, &choice(skipp(), skipp()), seq),
        5 => tower(rng.between(1, 10), &either(), parallel),
        // the same inside a block, where they are no successors
        6 => block(parallel(throww(), tower(many, &yieldd(), parallel))),
        7 => undone(tower(rng.between(1, 7), &either(), seq)),
        8 => undone(tower(rng.between(1, 7), &either(), parallel)),
        // held while the second part runs
        9 => seq(tower(rng.between(1, 6), &either(), seq), pair(event(A), event(A))),
        10 => undone(tower(few.min(5), &pair(event(A), event(B)), parallel)),
        11 => undone(tower(few, &pair(event(A), event(B)), seq)),
        // blocks in compensations in blocks
        12 => (0..few).fold(event(B), |inner, _| undone(pair(event(A), inner))),
        13 => (0..few).fold(skipp(), |inner, _| seq(pair(event(A), block(inner)), yieldd())),
        // failures passed on and handled
        14 => (0..few).fold(event(A), |inner, _| handler(choice(throw(), inner), choice(event(B), throw()))),
        _ => parallel(
            tower(few.min(4), &seq(yields(), event(A)), parallel),
            tower(few.min(4), &handler(throw(), event(B)), parallel),
        ),
    }
}
