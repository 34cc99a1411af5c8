//! Calls of the judge on flows that are not refused, or only for want of work bytes, with allowances and
//! work lengths at their boundaries; and calls at the limits of 64 nodes and 256 records.

use super::tandem::Tandem;
use super::{Case, MOST_NUMBERS, MOST_WORK};
use crate::drawing::Drawing;
use crate::flowfile::FlowFile;
use crate::judge::{Answer, Lent};
use crate::matching::Matching;
use crate::random::{self, TASTES};
use crate::refusals::{work_wanted, MOST_NODES, MOST_RECORDS};
use crate::rng::Rng;
use crate::sets::EventSet;
use crate::term::{is_event, kind, root, Sort, CLOSING_RECORDS, MOST_EVENT};

/// The count of a search is looked for among this many states; a longer one is only ever undecided.
const PATIENCE: u32 = 30_000;

pub fn case(rng: &mut Rng) -> Case {
    let FlowFile { nodes, records, .. } = flow_and_records(rng, MOST_EVENT as usize);
    around_the_count(rng, PATIENCE, nodes, records)
}

/// A node table and records that fit its root, without names or sets; events are numbers up to `most_event`, few different ones.
pub fn flow_and_records(rng: &mut Rng, most_event: usize) -> FlowFile {
    let events = rng.between(1, 4.min(most_event));
    let flow = flow(rng, events);
    records_of_flow(rng, &Tandem::plain(flow), events, most_event)
}

/// The same of this flow, which has events 1 to `events`, with its sets.
pub fn records_of_flow(rng: &mut Rng, tandem: &Tandem, events: usize, most_event: usize) -> FlowFile {
    let nodes = tandem.flow.table_in_any_order(rng);
    let records = random::records_for(rng, &root(&nodes, &tandem.sets), &Matching::ByNumber, events);
    let mut file = FlowFile { names: vec![], nodes, records, sets: tandem.sets.clone() };
    if rng.once_in(2) {
        let numbers = different_numbers(rng, events, most_event);
        rename(&mut file, &numbers);
    }
    file
}

pub fn flow(rng: &mut Rng, events: usize) -> Drawing {
    let (taste, sort) = (*rng.pick(&TASTES), random::sort(rng));
    let room = if rng.once_in(6) { rng.between(15, MOST_NODES) } else { rng.between(1, 14) };
    match rng.below(12) {
        0 => random::drawing_of_size(rng, taste, sort, MOST_NODES, events),
        1..=3 => random::undone_drawing(rng, taste, room, events),
        _ => random::drawing(rng, taste, sort, room, events),
    }
}

/// Different events, by preference ones whose bytes are easily mixed up.
pub fn different_numbers(rng: &mut Rng, how_many: usize, most: usize) -> Vec<u16> {
    let mut numbers: Vec<u16> = vec![];
    while numbers.len() < how_many {
        let number = match rng.below(3) {
            0 => *rng.pick(&[1, 2, 127, 128, 255, 256]),
            _ => rng.between(1, most) as u16,
        };
        if number as usize <= most && !numbers.contains(&number) {
            numbers.push(number);
        }
    }
    numbers
}

/// Event k becomes the k-th of the numbers.
pub fn rename(file: &mut FlowFile, numbers: &[u16]) {
    let new = |event: u16| numbers[event as usize - 1];
    for node in file.nodes.chunks_mut(3).filter(|node| node[0] == kind::EVENT) {
        node[1] = new(node[1]);
    }
    for record in file.records.iter_mut().filter(|record| is_event(**record)) {
        *record = new(*record);
    }
    for set in &mut file.sets {
        // Events in a set that the flow does not have stay, but where one has got their number.
        let (own, others): (Vec<u16>, Vec<u16>) =
            set.events().iter().partition(|event| **event as usize <= numbers.len());
        let others = others.into_iter().filter(|other| !numbers.contains(other));
        *set = EventSet::of(&own.into_iter().map(new).chain(others).collect::<Vec<_>>());
    }
}

/// The call with an allowance near the count of its search and a work length near the one wanted.
pub fn around_the_count(rng: &mut Rng, patience: u32, nodes: Vec<u16>, records: Vec<u16>) -> Case {
    let count = count_within(patience, Lent::enough(None, &nodes, &records, u32::MAX));
    let allowance = near_the_count(rng, patience, count);
    let work_len = near(rng, work_wanted(&nodes, &records), MOST_WORK);
    Case::Judge { allowance, work_len, nodes, records }
}

/// The count of a search, if it has one that is not above `patience`.
pub fn count_within(patience: u32, lent: Lent) -> Option<u32> {
    match lent.judged_within(patience) {
        Some(Answer::Accepted { count, .. } | Answer::Rejected { count, .. }) => Some(count),
        _ => None,
    }
}

/// An allowance near the count of the search, or any below `patience` where there is none within that.
pub fn near_the_count(rng: &mut Rng, patience: u32, count: Option<u32>) -> u32 {
    match count {
        Some(count) => match rng.below(12) {
            0 | 1 => count - 1,
            2..=5 => count,
            6..=8 => count + 1,
            9 if rng.once_in(2) => 0,
            9 => rng.below(count as usize) as u32,
            10 => u32::MAX,
            _ => 1_000_000,
        },
        None => rng.below(patience as usize) as u32,
    }
}

/// Mostly the length wanted, one less or one more; also none, half or the most that `replay` has.
pub fn near(rng: &mut Rng, wanted: usize, most: usize) -> usize {
    let length = match rng.below(40) {
        0 | 1 => wanted - 1,
        2 => wanted / 2,
        3 => 0,
        4..=9 => wanted + 1,
        10 => wanted + rng.below(2_000),
        11 => most,
        _ => wanted,
    };
    length.min(most)
}

/// 63 to 65 nodes, or 255 to 257 records, or both, and the most numbers that `replay` takes.
pub fn case_at_limits(rng: &mut Rng) -> Case {
    let (taste, sort) = (*rng.pick(&TASTES), random::sort(rng));
    let events = rng.between(1, 3);
    let size = match rng.below(4) {
        0 => rng.between(3, 8),
        1 => MOST_NODES + 1,
        2 => rng.between(MOST_NODES - 1, MOST_NODES + 1),
        _ => MOST_NODES,
    };
    let flow = random::drawing_of_size(rng, taste, sort, size, events);
    let mut nodes = flow.table_in_any_order(rng);
    let mut records = random::records_for(rng, &root(&nodes, &[]), &Matching::ByNumber, events);
    if rng.once_in(2) {
        let length = match rng.below(6) {
            0 => MOST_NUMBERS,
            1 => rng.between(MOST_RECORDS + 1, MOST_NUMBERS),
            _ => rng.between(MOST_RECORDS - 1, MOST_RECORDS + 1),
        };
        lengthen(rng, &mut records, length, sort, events);
    }
    if rng.once_in(8) {
        let length = *rng.pick(&[190, 191, 193, 194, 195, 196, 198, 398, 399, 400]);
        nodes.resize(length, rng.below(17) as u16);
    }
    around_the_count(rng, PATIENCE, nodes, records)
}

/// Records of this length: more events before the last closing, or now and then the closings anywhere.
fn lengthen(rng: &mut Rng, records: &mut Vec<u16>, length: usize, sort: Sort, events: usize) {
    let before = records.len() - 1;
    while records.len() < length {
        records.insert(before, rng.between(1, events) as u16);
    }
    if rng.once_in(4) {
        let closings = if sort == Sort::Standard { 1 } else { 2 };
        for _ in 0..closings {
            let at = rng.below(records.len());
            records[at] = *rng.pick(&CLOSING_RECORDS);
        }
    }
}
