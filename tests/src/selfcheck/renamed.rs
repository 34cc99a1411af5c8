//! The same flow otherwise named: leaves without a machine as choices, names that change nothing, and joint parallels of no event.

use super::{any_flow, meets, Seen, Setting, SETS};
use crate::cases::naming;
use crate::drawing::{self, Drawing};
use crate::matching::Matching;
use crate::random;
use crate::refusals::MOST_NODES;
use crate::rng::Rng;
use crate::sets::EventSet;
use crate::term::{kind, set_number, sort_of, Sort};
use crate::traces::meaning;

/// Trace sets that take longer to write down are left out.
const PATIENCE: u64 = 300_000;

/// Two flows, each with what it is judged with, have the same traces and get the same answers, count and all: to records that fit the
/// first and to beginnings of them.
fn same_answers(
    rng: &mut Rng,
    [(setting, nodes), (other, other_nodes)]: [(&Setting, &[u16]); 2],
    events: usize,
    seen: &mut Seen,
) -> Result<(), String> {
    seen.flows += 1;
    seen.meeting += meets(nodes) as u64;
    let wrong =
        |what: String| Err(format!("{} and {}: {what}", setting.show(nodes), other.show(other_nodes)));
    if let Some(means) = meaning(nodes, &setting.sets, &setting.matching, PATIENCE) {
        let others = meaning(other_nodes, &other.sets, &other.matching, u64::MAX);
        if others.as_ref() != Some(&means) {
            return wrong(format!("traces {means:?} and {others:?}"));
        }
    }
    for _ in 0..4 {
        let records = random::records_for(rng, &setting.root(nodes), &setting.matching, events);
        let Some(answer) = setting.lent(nodes, &records).judged_within(20_000) else {
            seen.left_out += 1;
            continue;
        };
        let others = other.lent(other_nodes, &records).judged();
        if answer != others {
            return wrong(format!("records {records:?}: {answer} and {others}"));
        }
        seen.count(answer);
        let some = &records[..rng.below(records.len())];
        let next = setting.beginning(nodes, some).listed();
        let others = other.beginning(other_nodes, some).listed();
        if next != others {
            return wrong(format!("beginning {some:?}: {next} and {others}"));
        }
        seen.count_list(&next);
    }
    Ok(())
}

/// A leaf without a machine is read "as the choice of all those entries, counted as one step": a flow with names is judged as the flow
/// whose leaves are such choices is judged by number. In both it is the record's event that is looked up in a set.
pub fn machineless_against_choices(flows: u64, seed: u64) -> Result<Seen, String> {
    let mut rng = Rng::new(seed);
    let mut seen = Seen::default();
    while seen.flows < flows {
        let events = rng.between(2, 4);
        let flow = any_flow(&mut rng, 16, events);
        let sets = random::sets(&mut rng, SETS, events);
        let setting = Setting::named(naming::names(&mut rng, events)).with_sets(sets.clone());
        let chosen = as_choices(&flow, &setting.matching);
        if chosen == flow || chosen.size() > MOST_NODES {
            continue;
        }
        let (nodes, choices) = (flow.table_in_any_order(&mut rng), chosen.table_in_any_order(&mut rng));
        let by_number = Setting::plain().with_sets(sets);
        same_answers(&mut rng, [(&setting, &nodes), (&by_number, &choices)], events, &mut seen)?;
    }
    Ok(seen)
}

/// The flow with a choice of all events that it takes in the place of each leaf.
fn as_choices(flow: &Drawing, matching: &Matching) -> Drawing {
    let leaves = flow.paths().into_iter().filter(|path| flow.at(path).kind == kind::EVENT);
    leaves.fold(flow.clone(), |whole, path| {
        let taken = matching.taken_by(flow.at(&path).event);
        let choice = taken.into_iter().map(drawing::event).reduce(drawing::choice);
        whole.replaced(&path, &choice.expect("its own event at least"))
    })
}

/// Names that all have a machine, or no step name twice, change nothing.
pub fn names_that_change_nothing(flows: u64, seed: u64) -> Result<Seen, String> {
    let mut rng = Rng::new(seed);
    let mut seen = Seen::default();
    while seen.flows < flows {
        let events = rng.between(1, 4);
        let mut names = naming::names(&mut rng, events);
        if rng.once_in(2) {
            names.iter_mut().filter(|name| name.1.is_empty()).for_each(|name| name.1 = b"the one".to_vec());
        } else {
            names.iter_mut().zip(b'a'..).for_each(|(name, letter)| name.0[0] = letter);
        }
        let nodes = any_flow(&mut rng, 20, events).table_in_any_order(&mut rng);
        let sets = random::sets(&mut rng, SETS, events);
        let settings = [Setting::plain(), Setting::named(names)].map(|s| s.with_sets(sets.clone()));
        same_answers(&mut rng, [(&settings[0], &nodes), (&settings[1], &nodes)], events, &mut seen)?;
    }
    Ok(seen)
}

/// Kinds 7 and 13 are the parallels of the empty set, and a set is the same under any number.
pub fn sets_that_change_nothing(flows: u64, seed: u64) -> Result<Seen, String> {
    let mut rng = Rng::new(seed);
    let mut seen = Seen::default();
    while seen.flows < flows {
        let events = rng.between(1, 4);
        let flow = any_flow(&mut rng, 20, events);
        let mut sets = random::sets(&mut rng, SETS, events);
        sets[0] = EventSet::EMPTY;
        let nodes = flow.table_in_any_order(&mut rng);
        // Number 0 is left out, and the others stand in another order.
        let others = vec![sets[2], sets[1]];
        let mut other_nodes = nodes.clone();
        for node in other_nodes.chunks_mut(3) {
            let (plain, first_joint) = match sort_of(node[0]) {
                Sort::Standard => (kind::PARALLEL, kind::JOINT),
                Sort::Compensable => (kind::COMP_PARALLEL, kind::COMP_JOINT),
            };
            node[0] = match set_number(node[0]) {
                None => node[0],
                Some(0) => plain,
                Some(number) => first_joint + (SETS - 1 - number) as u16,
            };
        }
        let setting = Setting::any(&mut rng, events).with_sets(sets);
        let other = setting.clone().with_sets(others);
        same_answers(&mut rng, [(&setting, &nodes), (&other, &other_nodes)], events, &mut seen)?;
    }
    Ok(seen)
}
