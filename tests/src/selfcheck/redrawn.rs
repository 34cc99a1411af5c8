//! The laws of demand 3: flows that are equal by them are judged alike and list the same, whatever they are judged with.

use super::{meets, Seen, Setting, SETS};
use crate::drawing::Drawing;
use crate::judge::Answer;
use crate::laws::{Fresh, Law};
use crate::next::Next;
use crate::random::{self, TASTES};
use crate::refusals::MOST_NODES;
use crate::rng::Rng;

/// What two flows that are equal by the laws have in common, looked for in a setting and with records of its own choosing; the number is
/// that of their events.
pub type Alike = fn(&mut Rng, &Drawing, &Drawing, usize, &mut Seen) -> Result<(), String>;

/// Two flows that are equal by the laws get the same verdict and the same place, whatever the records.
pub fn judged_alike(
    rng: &mut Rng,
    x: &Drawing,
    y: &Drawing,
    events: usize,
    seen: &mut Seen,
) -> Result<(), String> {
    let tables = [x, y].map(|flow| flow.table_in_any_order(rng));
    let setting = Setting::any(rng, events);
    let roots = [&tables[0], &tables[1]].map(|nodes| setting.root(nodes));
    for _ in 0..4 {
        let either = rng.below(2);
        let records = random::records_for(rng, &roots[either], &setting.matching, events);
        let answers =
            [&tables[0], &tables[1]].map(|nodes| setting.lent(nodes, &records).judged_within(20_000));
        let alike = match answers {
            [Some(Answer::Accepted { .. }), Some(Answer::Accepted { .. })] => true,
            [Some(Answer::Rejected { place: p, .. }), Some(Answer::Rejected { place: q, .. })] => p == q,
            [None, _] | [_, None] => true,
            _ => false,
        };
        if !alike {
            let shown = format!("{} and {}, records {records:?}", x.show(), setting.show(&tables[1]));
            return Err(format!("{shown}: {:?}", answers.map(|a| a.map(|a| a.to_string()))));
        }
        match answers {
            [Some(a), Some(_)] => seen.count(a),
            _ => seen.left_out += 1,
        }
    }
    seen.flows += 1;
    seen.meeting += meets(&tables[0]) as u64;
    Ok(())
}

/// The same may come next in both, after any beginning.
pub fn listed_alike(
    rng: &mut Rng,
    x: &Drawing,
    y: &Drawing,
    events: usize,
    seen: &mut Seen,
) -> Result<(), String> {
    let tables = [x, y].map(|flow| flow.table_in_any_order(rng));
    let setting = Setting::any(rng, events);
    let roots = [&tables[0], &tables[1]].map(|nodes| setting.root(nodes));
    for _ in 0..4 {
        let either = rng.below(2);
        let records = random::records_for(rng, &roots[either], &setting.matching, events);
        let records = &records[..rng.below(records.len())];
        let listed = |nodes: &[u16]| match setting.beginning(nodes, records).listed_within(20_000) {
            Some(Next::Listed { numbers, .. }) => Some(numbers),
            _ => None,
        };
        match [&tables[0], &tables[1]].map(|nodes| listed(nodes)) {
            [Some(numbers), Some(others)] if numbers == others => {
                seen.count_list(&Next::Listed { numbers, count: 0 })
            }
            [Some(numbers), Some(others)] => {
                let shown = format!("{} and {}, beginning {records:?}", x.show(), setting.show(&tables[1]));
                return Err(format!("{shown}: {numbers:?} and {others:?}"));
            }
            _ => seen.left_out += 1,
        }
    }
    seen.flows += 1;
    seen.meeting += meets(&tables[0]) as u64;
    Ok(())
}

/// Each law by itself, its sides put into random surroundings, `pairs` times.
pub fn single_exchanges(laws: &[Law], alike: Alike, pairs: u64, seed: u64) -> Result<Seen, String> {
    let mut rng = Rng::new(seed);
    let mut seen = Seen::default();
    for law in laws {
        let mut done = 0;
        while done < pairs {
            let taste = *rng.pick(&TASTES);
            let events = rng.between(1, 3);
            let room = rng.between(1, 6);
            let mut fresh = Fresh { rng: &mut rng, taste, room, events, sets: SETS };
            let (left, right) = law.instance(&mut fresh);
            let sort = random::sort(&mut rng);
            let size = rng.between(1, 12);
            let around = random::drawing(&mut rng, taste, sort, size, events);
            let around = random::joined(&mut rng, &around, SETS);
            let mut places = around.paths();
            places.retain(|path| around.at(path).sort() == left.sort());
            if places.is_empty() {
                continue;
            }
            let path = rng.pick(&places).clone();
            let (x, y) = (around.replaced(&path, &left), around.replaced(&path, &right));
            if x.size().max(y.size()) > MOST_NODES {
                continue;
            }
            done += 1;
            alike(&mut rng, &x, &y, events, &mut seen).map_err(|e| format!("{}: {e}", law.name))?;
        }
    }
    Ok(seen)
}

/// Chains of exchanges by any laws, in both directions, at any depth. "Forms in between may pass the limits."
pub fn chains_of_exchanges(laws: &[Law], alike: Alike, chains: u64, seed: u64) -> Result<Seen, String> {
    let mut rng = Rng::new(seed);
    let mut seen = Seen::default();
    while seen.flows < chains {
        let (taste, sort) = (*rng.pick(&TASTES), random::sort(&mut rng));
        let events = rng.between(1, 3);
        let size = rng.between(3, 20);
        let first = random::drawing(&mut rng, taste, sort, size, events);
        let first = random::joined(&mut rng, &first, SETS);
        let mut flow = first.clone();
        let mut used = vec![];
        for _ in 0..rng.between(1, 40) {
            let law = rng.pick(laws);
            let forward = rng.once_in(2);
            let mut fresh = Fresh { rng: &mut rng, taste, room: 4, events, sets: SETS };
            if let Some(next) = law.exchange(&flow, forward, &mut fresh) {
                if next.size() <= 2 * MOST_NODES {
                    flow = next;
                    used.push(format!("{}{}", law.name, if forward { "" } else { " backwards" }));
                }
            }
        }
        if flow.size() > MOST_NODES {
            seen.left_out += 1;
            continue;
        }
        alike(&mut rng, &first, &flow, events, &mut seen).map_err(|e| format!("after {used:?}: {e}"))?;
    }
    Ok(seen)
}
