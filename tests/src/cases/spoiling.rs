//! A damage for each refusal of a node table or record list. What comes of it is for the oracle to say: the
//! damage aimed at one number may meet the condition of another first, all the more if two are done at once.

use super::{judging, Case, MOST_NUMBERS, MOST_SET_BYTES, MOST_WORK};
use crate::drawing::children;
use crate::flowfile::FlowFile;
use crate::random::{self, TASTES};
use crate::refusals::{work_wanted, MOST_NODES, MOST_RECORDS};
use crate::rng::Rng;
use crate::sets::{MOST_SETS, SET_BYTES};
use crate::term::{is_event, kind, set_number, sort_of, Sort, CLOSING_RECORDS, MOST_EVENT};

/// The numbers aimed at, 1 to 14 and 22; those that a damage easily misses stand here more often.
pub const AIMS: [u32; 24] =
    [1, 2, 3, 4, 5, 6, 7, 7, 7, 8, 8, 8, 9, 9, 10, 10, 11, 12, 12, 13, 13, 14, 22, 22];

/// A call of the judge with one or two damages.
pub fn judge_case(rng: &mut Rng) -> Case {
    let FlowFile { mut nodes, mut records, .. } = judging::flow_and_records(rng, MOST_EVENT as usize);
    let mut short_work = false;
    for _ in 0..if rng.once_in(3) { 2 } else { 1 } {
        match *rng.pick(&AIMS) {
            14 => short_work = true,
            number => spoil(rng, number, &mut nodes, &mut records, &mut vec![]),
        }
    }
    nodes.truncate(MOST_NUMBERS);
    records.truncate(MOST_NUMBERS);
    let wanted = work_wanted(&nodes, &records);
    let work_len = if short_work { rng.below(wanted.max(1)) } else { wanted + rng.below(2) };
    Case::Judge { allowance: rng.below(300) as u32, work_len: work_len.min(MOST_WORK), nodes, records }
}

/// A damage aimed at this number, 1 to 13, 22 or 23. It does nothing where the table has no place for it.
pub fn spoil(rng: &mut Rng, number: u32, nodes: &mut Vec<u16>, records: &mut Vec<u16>, sets: &mut Vec<u8>) {
    match number {
        1 => nodes.clear(),
        2 => odd_length(rng, nodes),
        3 => *nodes = too_many_nodes(rng),
        4 => change_field(rng, nodes, |_, _| true, 0, &[0, 17, 18, 255, 272, 511, 528, 4096, 65535]),
        5 => wrong_field(rng, nodes),
        6 => child_not_lower(rng, nodes),
        7 => child_of_the_wrong_sort(rng, nodes),
        8 => child_taken_already(rng, nodes),
        9 => child_of_nobody(rng, nodes),
        10 => records.clear(),
        11 => too_many_records(rng, records),
        12 => neither_event_nor_closing(rng, records),
        13 => misplaced_closing(rng, records),
        22 => set_not_present(rng, nodes, sets),
        23 => wrong_length_of_sets(rng, sets),
        other => unreachable!("refusal {other} has no damage"),
    }
}

/// The nodes of a table for which `fits` holds.
fn nodes_where(nodes: &[u16], fits: impl Fn(&[u16], usize) -> bool) -> Vec<usize> {
    (0..nodes.len() / 3).filter(|&i| fits(nodes, i)).collect()
}

/// One field of a node for which `fits` holds becomes one of the values.
fn change_field(
    rng: &mut Rng,
    nodes: &mut [u16],
    fits: impl Fn(&[u16], usize) -> bool,
    field: usize,
    values: &[u16],
) {
    let places = nodes_where(nodes, fits);
    if !places.is_empty() {
        nodes[3 * *rng.pick(&places) + field] = *rng.pick(values);
    }
}

fn odd_length(rng: &mut Rng, nodes: &mut Vec<u16>) {
    if rng.once_in(2) {
        nodes.truncate(nodes.len().saturating_sub(rng.between(1, 2)));
    } else {
        let length = nodes.len() + rng.between(1, 2);
        nodes.resize(length, rng.below(20) as u16);
    }
    if rng.once_in(6) {
        nodes.resize(*rng.pick(&[193, 194, 196, 398, 400]), 0);
    }
}

fn too_many_nodes(rng: &mut Rng) -> Vec<u16> {
    let size = if rng.once_in(2) { MOST_NODES + 1 } else { rng.between(MOST_NODES + 1, MOST_NUMBERS / 3) };
    let (taste, sort) = (*rng.pick(&TASTES), random::sort(rng));
    random::drawing_of_size(rng, taste, sort, size, 3).table_in_any_order(rng)
}

fn is_leaf(nodes: &[u16], i: usize) -> bool {
    nodes[3 * i] != kind::EVENT && children(nodes, i).count() == 0
}

/// "Event out of 1 to 256, or an unused field not 0."
fn wrong_field(rng: &mut Rng, nodes: &mut [u16]) {
    let of_kind = |kind: u16| move |nodes: &[u16], i: usize| nodes[3 * i] == kind;
    let not_zero = [1, 2, 64, 256, 65535];
    match rng.below(5) {
        0 => change_field(rng, nodes, of_kind(kind::EVENT), 1, &[0, 257, 258, 512, 61441, 65535]),
        1 => change_field(rng, nodes, of_kind(kind::EVENT), 2, &not_zero),
        2 => change_field(rng, nodes, is_leaf, 1, &not_zero),
        3 => change_field(rng, nodes, is_leaf, 2, &not_zero),
        _ => change_field(rng, nodes, of_kind(kind::BLOCK), 2, &not_zero),
    }
}

fn has_children(nodes: &[u16], i: usize) -> bool {
    children(nodes, i).count() > 0
}

/// One of a node's children becomes the node itself or one above it.
fn child_not_lower(rng: &mut Rng, nodes: &mut [u16]) {
    let places = nodes_where(nodes, has_children);
    if places.is_empty() {
        return;
    }
    let i = *rng.pick(&places);
    let which = rng.below(children(nodes, i).count());
    let own = i as u16;
    nodes[3 * i + 1 + which] = *rng.pick(&[own, own + 1, (nodes.len() / 3) as u16, 255, 256, 65535]);
}

/// A node becomes its fellow of the other sort, or a child a lower node of the other sort.
fn child_of_the_wrong_sort(rng: &mut Rng, nodes: &mut [u16]) {
    let fellows = [
        (5, 11),
        (6, 12),
        (7, 13),
        (8, 10),
        (2, 14),
        (3, 15),
        (4, 16),
        (10, 11),
        (10, 12),
        (10, 13),
        (5, 10),
    ];
    if rng.once_in(2) {
        let i = rng.below(nodes.len().max(3) / 3);
        let other = |k: u16| {
            fellows.iter().find_map(|&(s, c)| {
                if k == s {
                    Some(c)
                } else if k == c {
                    Some(s)
                } else {
                    None
                }
            })
        };
        if let Some(k) = nodes.get(3 * i).and_then(|&k| other(k)) {
            nodes[3 * i] = k;
        }
        return;
    }
    let places = nodes_where(nodes, has_children);
    if places.is_empty() {
        return;
    }
    let i = *rng.pick(&places);
    let which = rng.below(children(nodes, i).count());
    let wanted = if matches!(nodes[3 * i], 9 | 11..=13) { Sort::Compensable } else { Sort::Standard };
    let others: Vec<usize> = (0..i).filter(|&c| sort_of(nodes[3 * c]) != wanted).collect();
    if !others.is_empty() {
        nodes[3 * i + 1 + which] = *rng.pick(&others) as u16;
    }
}

/// The same child twice, or a child of a lower parent; by preference one of the right sort.
fn child_taken_already(rng: &mut Rng, nodes: &mut [u16]) {
    let places = nodes_where(nodes, |nodes, i| children(nodes, i).count() == 2);
    if places.is_empty() {
        return;
    }
    let i = *rng.pick(&places);
    let which = rng.below(2);
    if rng.once_in(3) {
        nodes[3 * i + 1 + which] = nodes[3 * i + 2 - which];
        return;
    }
    let sort = sort_of(nodes[3 * nodes[3 * i + 1] as usize % nodes.len()]);
    let taken: Vec<usize> = (0..i)
        .flat_map(|parent| children(nodes, parent).collect::<Vec<_>>())
        .filter(|&c| c < i && sort_of(nodes[3 * c]) == sort)
        .collect();
    if !taken.is_empty() {
        nodes[3 * i + 1 + which] = *rng.pick(&taken) as u16;
    }
}

/// A leaf that nobody has, anywhere, or at the end, where it is the root of nothing.
fn child_of_nobody(rng: &mut Rng, nodes: &mut Vec<u16>) {
    let count = nodes.len() / 3;
    let at = rng.below(count + 1);
    for i in 0..count {
        let its_children = children(nodes, i).count();
        for child in &mut nodes[3 * i + 1..3 * i + 1 + its_children] {
            if *child as usize >= at {
                *child = child.saturating_add(1);
            }
        }
    }
    let leaf = *rng.pick(&[kind::SKIP, kind::THROW, kind::YIELD, kind::SKIPP, kind::THROWW]);
    nodes.splice(3 * at..3 * at, [leaf, 0, 0]);
}

/// A set fewer than a node names, or a node with the number of a set that is not there, by preference the first such; of a node with two
/// children, if there is one.
fn set_not_present(rng: &mut Rng, nodes: &mut [u16], sets: &mut Vec<u8>) {
    let joint = nodes_where(nodes, |nodes, i| set_number(nodes[3 * i]).is_some());
    if !joint.is_empty() && rng.once_in(2) {
        let number = set_number(nodes[3 * *rng.pick(&joint)]).expect("a joint one");
        sets.truncate(SET_BYTES * rng.between(number.saturating_sub(1), number));
        return;
    }
    let mut places = nodes_where(nodes, |nodes, i| children(nodes, i).count() == 2);
    if places.is_empty() {
        places = nodes_where(nodes, |_, _| true);
    }
    if places.is_empty() {
        return;
    }
    let kind = &mut nodes[3 * *rng.pick(&places)];
    let first = match sort_of(*kind) {
        Sort::Standard => kind::JOINT,
        Sort::Compensable => kind::COMP_JOINT,
    };
    let count = sets.len() / SET_BYTES;
    let any = rng.below(MOST_SETS);
    let number = *rng.pick(&[count, count, MOST_SETS - 1, any]);
    *kind = first + number.min(MOST_SETS - 1) as u16;
}

/// A byte too few or too many, or any length that is none of 1 to 16 sets.
fn wrong_length_of_sets(rng: &mut Rng, sets: &mut Vec<u8>) {
    let length = match rng.below(4) {
        0 => sets.len() + 1,
        1 => sets.len().max(SET_BYTES) - 1,
        2 => *rng.pick(&[1, 31, 33, 511, 513, 543, 544, 545, 576, 599, MOST_SET_BYTES]),
        _ => rng.between(1, MOST_SET_BYTES),
    };
    sets.resize(length.min(MOST_SET_BYTES), rng.byte());
}

fn too_many_records(rng: &mut Rng, records: &mut Vec<u16>) {
    let length = if rng.once_in(2) { MOST_RECORDS + 1 } else { rng.between(MOST_RECORDS + 1, MOST_NUMBERS) };
    while records.len() < length {
        records.insert(0, rng.between(1, 3) as u16);
    }
}

fn neither_event_nor_closing(rng: &mut Rng, records: &mut [u16]) {
    for _ in 0..rng.between(1, 2) {
        if !records.is_empty() {
            let at = rng.below(records.len());
            let any = rng.number();
            records[at] = *rng.pick(&[0, 257, 258, 512, 61440, 61444, 61697, 65535, any]);
        }
    }
}

/// A closing too few, too many, or too early.
fn misplaced_closing(rng: &mut Rng, records: &mut Vec<u16>) {
    let closings: Vec<usize> = (0..records.len()).filter(|&i| !is_event(records[i])).collect();
    match rng.below(5) {
        0 if !closings.is_empty() => records[*rng.pick(&closings)] = rng.between(1, 3) as u16,
        1 => drop(records.pop()),
        2 => records.push(rng.between(1, 3) as u16),
        3 => records.push(*rng.pick(&CLOSING_RECORDS)),
        _ => records.insert(rng.below(records.len() + 1), *rng.pick(&CLOSING_RECORDS)),
    }
}
