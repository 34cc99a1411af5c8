//! Names: entries that are easily mixed up, steps without a machine among steps on one, and flows whose leaves carry them.

use super::judging::{different_numbers, rename};
use super::tandem::Tandem;
use crate::flowfile::{Entry, FlowFile};
use crate::matching::Matching;
use crate::random;
use crate::reader::MOST_NAMES;
use crate::rng::Rng;
use crate::sets::EventSet;
use crate::term::{kind, root};

/// The flow as a file with names for its events, few of which differ, and records that fit: of a run that follows the names, of one with
/// a few changes, or any.
pub fn file(rng: &mut Rng, tandem: &Tandem) -> FlowFile {
    let style = any_style(rng);
    file_in_style(rng, tandem, style)
}

/// The same with steps of which some have no machine, so that much hangs on the names.
pub fn file_of_machines(rng: &mut Rng, tandem: &Tandem) -> FlowFile {
    let style = *rng.pick(&[any_machine, any_machine, any_machine, similar_steps]);
    file_in_style(rng, tandem, style)
}

fn file_in_style(rng: &mut Rng, tandem: &Tandem, style: Style) -> FlowFile {
    let (mut nodes, mut sets) = (tandem.flow.table_in_any_order(rng), tandem.sets.clone());
    let names = named_in_style(rng, &mut nodes, &mut sets, style);
    let matching = Matching::ByName(names.clone());
    let records = random::records_for(rng, &root(&nodes, &sets), &matching, names.len());
    let mut file = FlowFile { names, nodes, records, sets };
    if rng.once_in(2) {
        among_others(rng, &mut file);
    }
    file
}

/// Names for a table that has few different events, which its leaves and its sets get others for.
pub fn named(rng: &mut Rng, nodes: &mut [u16], sets: &mut [EventSet]) -> Vec<Entry> {
    named_in_style(rng, nodes, sets, any_machine)
}

/// Up to six names. Leaves that had the same event get one of those with the same step name, by preference the one without a machine:
/// all of them the same, or each its own. A set with that event gets all those with the same step name, or some of them.
fn named_in_style(rng: &mut Rng, nodes: &mut [u16], sets: &mut [EventSet], style: Style) -> Vec<Entry> {
    let count = if rng.once_in(8) { rng.between(1, 2) } else { rng.between(3, 6) };
    let names = more_names(rng, &[], count, style);
    let steps = events_by_step(&names);
    let one_of = |rng: &mut Rng, event: u16| {
        let events = &steps[(event as usize - 1) % steps.len()];
        let machineless = events.iter().find(|&&e| names[e as usize - 1].1.is_empty());
        *machineless.filter(|_| !rng.once_in(3)).unwrap_or(rng.pick(events))
    };
    let all_the_same: Option<Vec<u16>> =
        if rng.once_in(2) { Some((1..=6).map(|event| one_of(rng, event)).collect()) } else { None };
    for node in nodes.chunks_mut(3).filter(|node| node[0] == kind::EVENT) {
        node[1] = match &all_the_same {
            Some(events) => events[(node[1] as usize - 1) % events.len()],
            None => one_of(rng, node[1]),
        };
    }
    for set in sets {
        let of_step = |event: &u16| steps[(*event as usize - 1) % steps.len()].clone();
        let mut events: Vec<u16> = set.events().iter().flat_map(of_step).collect();
        if rng.once_in(3) {
            events.retain(|_| rng.once_in(2));
        }
        *set = EventSet::of(&events);
    }
    names
}

/// The events of each step name.
fn events_by_step(names: &[Entry]) -> Vec<Vec<u16>> {
    let mut steps: Vec<Vec<u16>> = vec![];
    for (i, (step, _)) in names.iter().enumerate() {
        let event = i as u16 + 1;
        match steps.iter_mut().find(|events| names[events[0] as usize - 1].0 == *step) {
            Some(events) => events.push(event),
            None => steps.push(vec![event]),
        }
    }
    steps
}

/// The same file with more names, which nothing has to do with, and its events at other numbers.
fn among_others(rng: &mut Rng, file: &mut FlowFile) {
    let most = if rng.once_in(20) { MOST_NAMES } else { 9 };
    let count = rng.between(file.names.len(), most);
    let numbers = different_numbers(rng, file.names.len(), count);
    rename(file, &numbers);
    let style = any_style(rng);
    let others = more_names(rng, &file.names, count, style).split_off(file.names.len());
    let named = std::mem::replace(&mut file.names, others);
    let mut places: Vec<(u16, Entry)> = numbers.into_iter().zip(named).collect();
    places.sort();
    places.into_iter().for_each(|(event, entry)| file.names.insert(event as usize - 1, entry));
}

// ---- entries ----

/// So many different entries, all in one style.
pub fn names(rng: &mut Rng, count: usize) -> Vec<Entry> {
    let style = any_style(rng);
    more_names(rng, &[], count, style)
}

type Style = fn(&mut Rng) -> Entry;

fn any_style(rng: &mut Rng) -> Style {
    *rng.pick(&[
        any_machine,
        any_machine,
        any_machine,
        similar_steps,
        similar_steps,
        plant_entry,
        split_entry,
        other_machine,
        any_bytes,
        long_entry,
    ])
}

/// These entries and behind them others in a style, so many in all.
fn more_names(rng: &mut Rng, some: &[Entry], count: usize, style: Style) -> Vec<Entry> {
    let mut all = some.to_vec();
    let mut tries = 0;
    while all.len() < count {
        let style = if tries < 4 * count { style } else { any_bytes };
        let entry = style(rng);
        if !all.contains(&entry) {
            all.push(entry);
        }
        tries += 1;
    }
    all
}

/// Two steps, each without a machine and on several.
fn any_machine(rng: &mut Rng) -> Entry {
    let step = *rng.pick(&["press", "press", "press", "wash"]);
    let machine = *rng.pick(&["", "", "P1", "P2", "P1,2"]);
    (step.into(), machine.into())
}

/// Steps that differ in a byte, in a letter's case or in length, mostly without a machine.
fn similar_steps(rng: &mut Rng) -> Entry {
    let step = *rng.pick(&["press", "press", "pres", "presS", "Press", "press ", "press,", "\0ress"]);
    let machine = *rng.pick(&["", "", "P1", "P2", ",", "p1"]);
    (step.into(), machine.into())
}

/// As a plant would name them, commas and all.
fn plant_entry(rng: &mut Rng) -> Entry {
    let step = *rng.pick(&["wash", "hold hot", "dry", "book van", "unload", "drain", "2,wash", "wash,W1"]);
    let machine = *rng.pick(&["", "W1", "W2", "W1,2", "2", "1,2", "D1", ",", ",,", "W1,", "w1", "W1 "]);
    (step.into(), machine.into())
}

/// The same bytes split at different places, so that only the lengths tell entries apart.
fn split_entry(rng: &mut Rng) -> Entry {
    let bytes = b"W1,2,W1,2,W1,2,W1,2,W1,2,W1,2,W1,2,W1,2,W1,2,W1,2,W1,2,W1,2,";
    let (step, machine) = (rng.between(1, 40), rng.between(0, 20));
    (bytes[..step].to_vec(), bytes[step..step + machine].to_vec())
}

/// One step without a machine, and on machines that differ in a byte or in length only.
fn other_machine(rng: &mut Rng) -> Entry {
    let length = if rng.once_in(4) { 0 } else { rng.between(1, 40) };
    let mut machine = vec![b'W'; length];
    if length > 0 && rng.once_in(2) {
        machine[rng.below(length)] = rng.byte();
    }
    (b"wash".to_vec(), machine)
}

/// Every byte value.
fn any_bytes(rng: &mut Rng) -> Entry {
    let lengths = [rng.between(1, 40), rng.between(0, 40)];
    let [step, machine] = lengths.map(|length| (0..length).map(|_| rng.byte()).collect());
    (step, machine)
}

/// Names at their longest, or nearly, that differ in the first or the last byte only; or no machine.
fn long_entry(rng: &mut Rng) -> Entry {
    let mut entry = (vec![0; rng.between(39, 40)], vec![255; *rng.pick(&[0, 39, 40])]);
    let name = if entry.1.is_empty() || rng.once_in(2) { &mut entry.0 } else { &mut entry.1 };
    let at = if rng.once_in(2) { 0 } else { name.len() - 1 };
    let any = rng.byte();
    name[at] = *rng.pick(&[0, 1, any]);
    entry
}
