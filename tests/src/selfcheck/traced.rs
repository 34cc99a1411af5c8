//! The search and the lists of what may come next against explicit trace sets, and the sets of traces.rs against those of printed.rs.

use super::{any_flow, meets, Seen, Setting};
use crate::drawing::{self, Drawing};
use crate::judge::Answer;
use crate::next::Next;
use crate::printed;
use crate::random;
use crate::rng::Rng;
use crate::term::{kind, Sort, CLOSING_RECORDS};
use crate::traces::{followed, longest_beginning, meaning, Meaning, Trace, Traces};
use std::collections::BTreeSet;

/// Trace sets that take longer to write down are left out.
const PATIENCE: u64 = 300_000;

/// A flow, what it is judged with, its meaning, and every list of records that some run follows.
struct Traced<'a> {
    setting: &'a Setting,
    nodes: &'a [u16],
    meaning: Meaning,
    followed: Traces,
}

impl Traced<'_> {
    /// None if it takes more than `patience` steps to write down. A flow without joint parallels means what is printed, and never gets
    /// stuck: a run follows just the beginnings of traces.
    fn of<'a>(setting: &'a Setting, nodes: &'a [u16], patience: u64) -> Result<Option<Traced<'a>>, String> {
        let Setting { sets, matching, .. } = setting;
        let Some(meaning) = meaning(nodes, sets, matching, patience) else { return Ok(None) };
        let Some(followed) = followed(nodes, sets, matching, patience) else { return Ok(None) };
        let traces = meaning.lists();
        if !meets(nodes) {
            let Some(printed) = printed::lists(nodes, matching, patience) else { return Ok(None) };
            let beginnings: Traces =
                printed.iter().flat_map(|t| (0..=t.len()).map(|length| t[..length].to_vec())).collect();
            if traces != printed || followed != beginnings {
                return Err(format!("{}: traces {traces:?}, printed {printed:?}", setting.show(nodes)));
            }
        }
        if !traces.is_subset(&followed) {
            return Err(format!("{}: traces {traces:?}, followed {followed:?}", setting.show(nodes)));
        }
        Ok(Some(Traced { setting, nodes, meaning, followed }))
    }

    /// "Accepted exactly if its records are .. one of its traces", and the place of a rejection is "the longest beginning of the records
    /// that some run follows".
    fn judges(&self, records: &[u16]) -> Result<Answer, String> {
        let answer = self.setting.lent(self.nodes, records).judged();
        let right = match answer {
            Answer::Accepted { place, .. } => self.meaning.has(records) && place == records.len(),
            Answer::Rejected { place, .. } => {
                !self.meaning.has(records) && place == longest_beginning(&self.followed, records)
            }
            // Traces say nothing of how long the search is.
            Answer::Undecided { .. } => true,
            Answer::Refused(_) => false,
        };
        if right {
            return Ok(answer);
        }
        let flow = self.setting.show(self.nodes);
        Err(format!("{flow}, records {records:?}: {answer}, but traces {:?}", self.meaning.lists()))
    }

    /// "A number is listed exactly if some run follows the beginning and then that record."
    fn lists(&self, beginning: &[u16]) -> Result<Next, String> {
        let next = self.setting.beginning(self.nodes, beginning).listed();
        let after = self.followed.iter().filter_map(|list| list.strip_prefix(beginning)?.first().copied());
        let expected: Vec<u16> = after.collect::<BTreeSet<u16>>().into_iter().collect();
        let right = match &next {
            Next::Listed { numbers, .. } => *numbers == expected,
            // Traces say nothing of how long the search is.
            Next::Undecided { .. } => true,
            Next::Refused(_) => false,
        };
        if right {
            return Ok(next);
        }
        let flow = self.setting.show(self.nodes);
        Err(format!("{flow}, beginning {beginning:?}: {next}, but runs follow {:?}", self.followed))
    }

    /// Is there a run that no trace begins with?
    fn gets_stuck(&self) -> bool {
        let traces = self.meaning.lists();
        self.followed.iter().any(|list| !traces.iter().any(|trace| trace.starts_with(list)))
    }

    /// Records of a run, of a trace, changed ones or random ones.
    fn any_records(&self, rng: &mut Rng, events: usize) -> Vec<u16> {
        let traces: Vec<Trace> = self.meaning.lists().into_iter().collect();
        match rng.below(3) {
            0 if !traces.is_empty() => rng.pick(&traces).clone(),
            1 if !traces.is_empty() => {
                let trace = rng.pick(&traces).clone();
                random::changed(rng, &trace, events)
            }
            _ => random::records_for(rng, &self.setting.root(self.nodes), &self.setting.matching, events),
        }
    }
}

/// Flows of one to three events whose traces can be written down, each with what `check` makes of it; the number is that of the events.
fn random_flows(
    flows: u64,
    seed: u64,
    check: impl Fn(&mut Rng, &Traced, usize, &mut Seen) -> Result<(), String>,
) -> Result<Seen, String> {
    let mut rng = Rng::new(seed);
    let mut seen = Seen::default();
    while seen.flows < flows {
        let events = rng.between(1, 3);
        let most_room = if rng.once_in(10) { 24 } else { 13 };
        let nodes = any_flow(&mut rng, most_room, events).table_in_any_order(&mut rng);
        let setting = Setting::any(&mut rng, events);
        let Some(traced) = Traced::of(&setting, &nodes, PATIENCE)? else {
            seen.left_out += 1;
            continue;
        };
        seen.flows += 1;
        seen.meeting += meets(&nodes) as u64;
        seen.stuck += traced.gets_stuck() as u64;
        check(&mut rng, &traced, events, &mut seen)?;
    }
    Ok(seen)
}

pub fn random_flows_against_traces(flows: u64, seed: u64) -> Result<Seen, String> {
    random_flows(flows, seed, |rng, traced, events, seen| {
        for _ in 0..8 {
            let records = traced.any_records(rng, events);
            seen.count(traced.judges(&records)?);
        }
        Ok(())
    })
}

/// The same for what may come next, after every beginning of such records.
pub fn random_lists_against_traces(flows: u64, seed: u64) -> Result<Seen, String> {
    random_flows(flows, seed, |rng, traced, events, seen| {
        for _ in 0..3 {
            let records = traced.any_records(rng, events);
            for length in 0..records.len() {
                seen.count_list(&traced.lists(&records[..length])?);
            }
        }
        Ok(())
    })
}

/// Every flow of at most `most_nodes` nodes over two events and the setting's sets, each with what `check` makes of it.
fn every_small_flow(
    setting: &Setting,
    most_nodes: usize,
    check: impl Fn(&Traced, Sort, &mut Seen) -> Result<(), String>,
) -> Result<Seen, String> {
    let mut seen = Seen::default();
    for sort in [Sort::Standard, Sort::Compensable] {
        for flow in (1..=most_nodes).flat_map(|size| every_flow(sort, size, setting.sets.len())) {
            let nodes = flow.table();
            let traced = Traced::of(setting, &nodes, u64::MAX)?.expect("patience without end");
            seen.flows += 1;
            seen.meeting += meets(&nodes) as u64;
            seen.stuck += traced.gets_stuck() as u64;
            check(&traced, sort, &mut seen)?;
        }
    }
    Ok(seen)
}

/// With every record list of at most so many events before each closing.
pub fn every_small_flow_against_traces(
    setting: &Setting,
    most_nodes: usize,
    most_events: usize,
) -> Result<Seen, String> {
    let lists = [Sort::Standard, Sort::Compensable].map(|sort| every_record_list(sort, most_events));
    every_small_flow(setting, most_nodes, |traced, sort, seen| {
        for records in &lists[sort as usize] {
            seen.count(traced.judges(records)?);
        }
        Ok(())
    })
}

/// The same for what may come next, after every beginning of at most so many events before each closing.
pub fn every_small_list_against_traces(
    setting: &Setting,
    most_nodes: usize,
    most_events: usize,
) -> Result<Seen, String> {
    let beginnings = [Sort::Standard, Sort::Compensable].map(|sort| every_beginning(sort, most_events));
    every_small_flow(setting, most_nodes, |traced, sort, seen| {
        for beginning in &beginnings[sort as usize] {
            seen.count_list(&traced.lists(beginning)?);
        }
        Ok(())
    })
}

fn every_event_list(most_events: usize) -> Vec<Vec<u16>> {
    let mut events: Vec<Vec<u16>> = vec![vec![]];
    let mut longest = events.clone();
    for _ in 0..most_events {
        longest = longest.iter().flat_map(|l| [1, 2].map(|e| [&l[..], &[e]].concat())).collect();
        events.extend(longest.clone());
    }
    events
}

fn closed(lists: &[Vec<u16>]) -> Vec<Vec<u16>> {
    lists.iter().flat_map(|l| CLOSING_RECORDS.map(|c| [&l[..], &[c]].concat())).collect()
}

fn every_beginning(sort: Sort, most_events: usize) -> Vec<Vec<u16>> {
    let events = every_event_list(most_events);
    match sort {
        Sort::Standard => events,
        Sort::Compensable => {
            let after_closing =
                |f: &Vec<u16>| events.iter().map(|c| [&f[..], c].concat()).collect::<Vec<_>>();
            events.iter().cloned().chain(closed(&events).iter().flat_map(after_closing)).collect()
        }
    }
}

fn every_record_list(sort: Sort, most_events: usize) -> Vec<Vec<u16>> {
    let closed = closed(&every_event_list(most_events));
    match sort {
        Sort::Standard => closed,
        Sort::Compensable => {
            closed.iter().flat_map(|f| closed.iter().map(|c| [&f[..], c].concat())).collect()
        }
    }
}

/// With parallels of each of so many sets.
fn every_flow(sort: Sort, size: usize, sets: usize) -> Vec<Drawing> {
    let mut all = vec![];
    if size == 1 {
        return match sort {
            Sort::Standard => {
                vec![
                    drawing::event(1),
                    drawing::event(2),
                    drawing::skip(),
                    drawing::throw(),
                    drawing::yields(),
                ]
            }
            Sort::Compensable => vec![drawing::skipp(), drawing::throww(), drawing::yieldd()],
        };
    }
    let (kinds, first_joint) = match sort {
        Sort::Standard => ([kind::SEQ, kind::CHOICE, kind::PARALLEL, kind::HANDLER], kind::JOINT),
        Sort::Compensable => {
            ([kind::PAIR, kind::COMP_SEQ, kind::COMP_CHOICE, kind::COMP_PARALLEL], kind::COMP_JOINT)
        }
    };
    if sort == Sort::Standard {
        all.extend(every_flow(Sort::Compensable, size - 1, sets).into_iter().map(drawing::block));
    }
    for kind in kinds.into_iter().chain(first_joint..first_joint + sets as u16) {
        let sort_of_parts = if kind == kind::PAIR { Sort::Standard } else { sort };
        for left_size in 1..size - 1 {
            let right = every_flow(sort_of_parts, size - 1 - left_size, sets);
            for p in every_flow(sort_of_parts, left_size, sets) {
                all.extend(right.iter().map(|q| drawing::node(kind, vec![p.clone(), q.clone()])));
            }
        }
    }
    all
}
