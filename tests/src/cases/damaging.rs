//! A names section, nodes, records and sets, lent one by one to whatever takes them: with one or two damages, or at the limits.

use super::spoiling::{spoil, AIMS};
use super::{filing, MOST_NUMBERS, MOST_SET_BYTES};
use crate::flowfile::{FlowFile, ItemKind};
use crate::rng::Rng;
use crate::term::DONE;

pub struct Lists {
    pub names: Vec<u8>,
    pub nodes: Vec<u16>,
    pub records: Vec<u16>,
    pub sets: Vec<u8>,
    /// Whether the room or the work bytes are to be too short.
    pub short: bool,
}

#[derive(Clone, Copy)]
enum Damage {
    /// Aimed at one of 1 to 13, 22 or 23.
    Tables(u32),
    /// 14.
    Short,
    /// 15.
    Cut,
    /// 15 to 20, and 21 for bytes after the section, as in files.
    Names(filing::Damage),
}

const DAMAGES_TO_NAMES: [Damage; 18] = [
    Damage::Cut,
    Damage::Cut,
    Damage::Names(filing::Damage::EqualEntry),
    Damage::Names(filing::Damage::EqualEntry),
    Damage::Names(filing::Damage::FewerNames),
    Damage::Names(filing::Damage::FewerNames),
    Damage::Names(filing::Damage::RecordBeyondNames),
    Damage::Names(filing::Damage::RecordBeyondNames),
    Damage::Names(filing::Damage::OutOfRange(ItemKind::NameCount)),
    Damage::Names(filing::Damage::OutOfRange(ItemKind::StepLength)),
    Damage::Names(filing::Damage::OutOfRange(ItemKind::MachineLength)),
    Damage::Names(filing::Damage::CountOffByOne),
    Damage::Names(filing::Damage::CountOffByOne),
    Damage::Names(filing::Damage::MoreBytes),
    Damage::Names(filing::Damage::MoreBytes),
    Damage::Names(filing::Damage::ChangedBytes),
    Damage::Names(filing::Damage::ChangedBytes),
    Damage::Names(filing::Damage::MissingByte),
];

fn any_damage(rng: &mut Rng) -> Damage {
    if rng.once_in(2) {
        return *rng.pick(&DAMAGES_TO_NAMES);
    }
    if rng.once_in(8) {
        return Damage::Tables(23);
    }
    match *rng.pick(&AIMS) {
        14 => Damage::Short,
        number => Damage::Tables(number),
    }
}

/// What stands in a file, with one or two damages.
pub fn lists(rng: &mut Rng, mut file: FlowFile) -> Lists {
    let two = rng.once_in(2);
    let damages: Vec<Damage> = (0..if two { 2 } else { 1 }).map(|_| any_damage(rng)).collect();
    let of_names = |damage: &Damage| match damage {
        Damage::Names(damage) => Some(*damage),
        _ => None,
    };
    let to_names: Vec<filing::Damage> = damages.iter().filter_map(of_names).collect();
    to_names.iter().for_each(|&damage| filing::damage_lists(rng, damage, &mut file));
    let mut items = file.names_items();
    to_names.iter().for_each(|&damage| filing::damage_items(rng, damage, &mut items));
    let mut names = filing::bytes(&items);
    to_names.iter().for_each(|&damage| filing::damage_bytes(rng, damage, &mut names));
    let mut sets = file.lent_sets();
    let (mut nodes, mut records) = (file.nodes, file.records);
    for damage in &damages {
        match damage {
            Damage::Tables(number) => spoil(rng, *number, &mut nodes, &mut records, &mut sets),
            Damage::Cut => names.truncate(rng.below(names.len().max(1))),
            Damage::Short | Damage::Names(_) => {}
        }
    }
    nodes.truncate(MOST_NUMBERS);
    records.truncate(MOST_NUMBERS);
    sets.truncate(MOST_SET_BYTES);
    let short = damages.iter().any(|damage| matches!(damage, Damage::Short));
    Lists { names, nodes, records, sets, short }
}

/// 255 to 257 names, 63 to 65 nodes, 255 to 257 records, 15 to 17 sets, alone or together, and the most numbers that `replay` takes.
pub fn at_limits(rng: &mut Rng) -> FlowFile {
    let mut file = filing::at_limits(rng);
    if rng.once_in(6) {
        let length = *rng.pick(&[190, 191, 193, 194, 195, 196, 198, 398, 399, 400]);
        file.nodes.resize(length, rng.below(17) as u16);
    }
    if rng.once_in(6) {
        file.records.resize(*rng.pick(&[258, 300, 399, 400]), DONE);
    }
    file
}
