//! Small flows that are all about compensations: pairs whose undoing can step, end in several ways, or step
//! in several ways, put together and then made to fail. Here a wrong list of compensations shows at once.

use super::{judging, Case};
use crate::by_hand::{A, B};
use crate::drawing::*;
use crate::matching::Matching;
use crate::random;
use crate::rng::Rng;
use crate::term::root;

pub fn case(rng: &mut Rng) -> Case {
    let flow = flow(rng);
    let nodes = flow.table_in_any_order(rng);
    let records = random::records_for(rng, &root(&nodes, &[]), &Matching::ByNumber, 2);
    judging::around_the_count(rng, 60_000, nodes, records)
}

pub fn flow(rng: &mut Rng) -> Drawing {
    let pairs = rng.between(1, 4);
    let pp = compensable(rng, pairs);
    match rng.below(8) {
        0 | 1 => block(seq(pp, throww())),
        2 => block(parallel(pp, throww())),
        3 => block(parallel(throww(), pp)),
        4 => pair(block(pp), block(seq(pair(standard(rng), standard(rng)), throww()))),
        5 => handler(block(seq(pp, throww())), standard(rng)),
        _ => pp,
    }
}

/// So many pairs, in sequence, choice and parallel.
fn compensable(rng: &mut Rng, pairs: usize) -> Drawing {
    if pairs == 1 {
        return match rng.below(12) {
            0 => skipp(),
            1 => throww(),
            2 => yieldd(),
            3..=7 => pair(event(either(rng)), standard(rng)),
            _ => pair(standard(rng), standard(rng)),
        };
    }
    let left = rng.between(1, pairs - 1);
    let join = *rng.pick(&[seq, seq, choice, parallel]);
    let (pp, qq) = (compensable(rng, left), compensable(rng, pairs - left));
    join(pp, qq)
}

fn either(rng: &mut Rng) -> u16 {
    *rng.pick(&[A, B])
}

/// A part of one to five nodes: it steps in no way, one or two, and ends now in every combination of ways.
fn standard(rng: &mut Rng) -> Drawing {
    let (e, f) = (event(either(rng)), event(either(rng)));
    match rng.below(20) {
        0 | 1 => skip(),
        2 => throw(),
        3 => yields(),
        4..=7 => e,
        8 => choice(e, skip()),
        9 => choice(throw(), e),
        10 => choice(yields(), e),
        11 => choice(yields(), throw()),
        12 => choice(e, f),
        13 => parallel(e, f),
        14 => parallel(yields(), choice(throw(), e)),
        15 => seq(e, f),
        16 => seq(e, yields()),
        17 => seq(yields(), e),
        18 => handler(choice(throw(), e), f),
        _ => block(seq(pair(e, f), choice(throww(), skipp()))),
    }
}
