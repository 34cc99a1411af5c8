//! Flow files: whole ones, files cut at every kind of item, damaged ones, and files at the limits.

use super::spoiling::spoil;
use super::tandem::{self, Tandem};
use super::{judging, naming};
use crate::flowfile::{FlowFile, Item, ItemKind};
use crate::matching::Matching;
use crate::random::{self, TASTES};
use crate::reader::MOST_NAMES;
use crate::refusals::{MOST_NODES, MOST_RECORDS};
use crate::rng::Rng;
use crate::sets::{sets_of, MOST_SETS};
use crate::term::{kind, root, MOST_EVENT};

/// A file that the reader takes, whatever comes of its judging.
pub fn whole(rng: &mut Rng) -> FlowFile {
    if rng.once_in(3) {
        let tandem = tandem::any(rng);
        return naming::file(rng, &tandem);
    }
    let events = rng.between(1, 4);
    let flow = judging::flow(rng, events);
    naming::file(rng, &Tandem::plain(flow))
}

/// The events of nodes.
fn events(nodes: &[u16]) -> Vec<u16> {
    nodes.chunks(3).filter(|node| node[0] == kind::EVENT).map(|node| node[1]).collect()
}

// ---- cuts ----

/// A good file cut before or within an item of any kind.
pub fn cut(rng: &mut Rng) -> Vec<u8> {
    let items = whole(rng).items();
    let kinds: Vec<ItemKind> = {
        let mut kinds: Vec<ItemKind> = items.iter().map(|item| item.kind).collect();
        kinds.sort();
        kinds.dedup();
        kinds
    };
    let kind = *rng.pick(&kinds);
    let of_kind: Vec<usize> = (0..items.len()).filter(|&i| items[i].kind == kind).collect();
    let at = *rng.pick(&of_kind);
    let mut file = bytes(&items[..at]);
    file.extend(&items[at].bytes[..rng.below(items[at].bytes.len())]);
    file
}

pub fn bytes(items: &[Item]) -> Vec<u8> {
    items.iter().flat_map(|item| item.bytes.clone()).collect()
}

// ---- damages ----

#[derive(Clone, Copy, PartialEq, Eq)]
pub enum Damage {
    /// 4 to 9, 12, 13, 22.
    Tables,
    /// 18.
    EqualEntry,
    /// 19.
    FewerNames,
    /// 20.
    RecordBeyondNames,
    /// 16, 17, 17, 1 and 3, 10 and 11, 23: a count or length out of range.
    OutOfRange(ItemKind),
    /// A count that is one off, so that everything after it is read as something else.
    CountOffByOne,
    /// 21, or where there are no sets 15 or 23.
    MoreBytes,
    ChangedBytes,
    MissingByte,
}

const DAMAGES: [Damage; 21] = [
    Damage::Tables,
    Damage::Tables,
    Damage::Tables,
    Damage::EqualEntry,
    Damage::EqualEntry,
    Damage::FewerNames,
    Damage::FewerNames,
    Damage::RecordBeyondNames,
    Damage::RecordBeyondNames,
    Damage::OutOfRange(ItemKind::NameCount),
    Damage::OutOfRange(ItemKind::StepLength),
    Damage::OutOfRange(ItemKind::MachineLength),
    Damage::OutOfRange(ItemKind::NodeCount),
    Damage::OutOfRange(ItemKind::RecordCount),
    Damage::OutOfRange(ItemKind::SetCount),
    Damage::OutOfRange(ItemKind::SetCount),
    Damage::CountOffByOne,
    Damage::MoreBytes,
    Damage::MoreBytes,
    Damage::ChangedBytes,
    Damage::MissingByte,
];

/// A file with one or two damages: to its lists, to its items, or to its bytes.
pub fn damaged(rng: &mut Rng) -> Vec<u8> {
    let mut file = whole(rng);
    let two = rng.once_in(3);
    let damages: Vec<Damage> = (0..if two { 2 } else { 1 }).map(|_| *rng.pick(&DAMAGES)).collect();
    damages.iter().for_each(|&damage| damage_lists(rng, damage, &mut file));
    let mut items = file.items();
    damages.iter().for_each(|&damage| damage_items(rng, damage, &mut items));
    let mut bytes = bytes(&items);
    damages.iter().for_each(|&damage| damage_bytes(rng, damage, &mut bytes));
    bytes
}

pub fn damage_lists(rng: &mut Rng, damage: Damage, file: &mut FlowFile) {
    match damage {
        Damage::Tables => {
            let number = *rng.pick(&[4, 5, 6, 7, 7, 8, 8, 9, 12, 13, 22, 22]);
            let mut sets = file.lent_sets();
            spoil(rng, number, &mut file.nodes, &mut file.records, &mut sets);
            file.sets = sets_of(&sets);
        }
        Damage::EqualEntry if !file.names.is_empty() => {
            let copied = rng.pick(&file.names).clone();
            let at = rng.below(file.names.len() + 1);
            file.names.insert(at, copied);
            file.names.truncate(MOST_NAMES);
        }
        Damage::FewerNames => {
            let asked = events(&file.nodes);
            if !asked.is_empty() {
                let event = *rng.pick(&asked) as usize;
                file.names.truncate(rng.below(event.max(1)));
            }
        }
        Damage::RecordBeyondNames => {
            let event = (file.names.len() + rng.between(1, 2)).min(MOST_EVENT as usize) as u16;
            file.records.insert(rng.below(file.records.len().max(1)), event);
        }
        _ => {}
    }
}

pub fn damage_items(rng: &mut Rng, damage: Damage, items: &mut [Item]) {
    let kinds = match damage {
        Damage::OutOfRange(kind) => vec![kind],
        Damage::CountOffByOne => {
            vec![ItemKind::NameCount, ItemKind::NodeCount, ItemKind::RecordCount, ItemKind::SetCount]
        }
        _ => return,
    };
    let of_kinds: Vec<usize> = (0..items.len()).filter(|&i| kinds.contains(&items[i].kind)).collect();
    if of_kinds.is_empty() {
        return;
    }
    let Item { kind, bytes } = &mut items[*rng.pick(&of_kinds)];
    if damage == Damage::CountOffByOne {
        bytes[0] = if rng.once_in(2) { bytes[0].wrapping_add(1) } else { bytes[0].wrapping_sub(1) };
        return;
    }
    let values: &[u16] = match kind {
        ItemKind::NameCount => &[257, 258, 512, 65535],
        ItemKind::StepLength => &[0, 41, 42, 64, 127, 255],
        ItemKind::MachineLength => &[41, 42, 64, 128, 255],
        ItemKind::NodeCount => &[0, 65, 66, 256, 65535],
        ItemKind::SetCount => &[0, 0, 17, 17, 18, 256, 257, 65535],
        _ => &[0, 257, 258, 512, 65535],
    };
    let length = bytes.len();
    *bytes = rng.pick(values).to_le_bytes()[..length].to_vec();
}

pub fn damage_bytes(rng: &mut Rng, damage: Damage, bytes: &mut Vec<u8>) {
    match damage {
        Damage::MoreBytes => (0..rng.between(1, 4)).for_each(|_| bytes.push(rng.byte())),
        Damage::ChangedBytes => {
            for _ in 0..rng.between(1, 3) {
                let at = rng.below(bytes.len());
                bytes[at] = if rng.once_in(2) { rng.byte() } else { bytes[at].wrapping_add(1) };
            }
        }
        Damage::MissingByte => drop(bytes.remove(rng.below(bytes.len()))),
        _ => {}
    }
}

// ---- limits ----

/// 255 to 257 names, 63 to 65 nodes, 255 to 257 records, 15 to 17 sets, alone or together.
pub fn at_limits(rng: &mut Rng) -> FlowFile {
    let (taste, sort) = (*rng.pick(&TASTES), random::sort(rng));
    let size = if rng.once_in(2) { rng.between(MOST_NODES - 1, MOST_NODES + 1) } else { rng.between(3, 20) };
    let mut flow = random::drawing_of_size(rng, taste, sort, size, 3);
    let mut sets = vec![];
    if rng.once_in(2) {
        flow = random::joined(rng, &flow, MOST_SETS);
        sets = random::sets(rng, MOST_SETS + 1, 3);
    }
    let nodes = flow.table_in_any_order(rng);
    let count = if rng.once_in(2) { rng.between(MOST_NAMES - 1, MOST_NAMES + 1) } else { 3 };
    let names = naming::names(rng, count);
    let mut records = random::records_for(rng, &root(&nodes, &sets), &Matching::ByName(names.clone()), 3);
    sets.truncate(*rng.pick(&[MOST_SETS - 1, MOST_SETS, MOST_SETS, MOST_SETS, MOST_SETS + 1]));
    if rng.once_in(2) {
        let length = rng.between(MOST_RECORDS - 1, MOST_RECORDS + 1);
        while records.len() < length {
            records.insert(records.len() - 1, rng.between(1, 3) as u16);
        }
    }
    FlowFile { names, nodes, records, sets }
}

/// The same, now and then with bytes after the end.
pub fn at_limits_or_longer(rng: &mut Rng) -> Vec<u8> {
    let mut file = at_limits(rng).bytes();
    if rng.once_in(4) {
        let more = *rng.pick(&[1, 2, 1000, 30_000]);
        file.extend(vec![rng.byte(); more]);
    }
    file
}
