//! Calls of the reader itself: lent tables that are just long enough, too short or longer, and files of every sort.

use super::writing::{planned, FAULTS};
use super::{filing, fixed, Case};
use crate::flowfile::{self, FlowFile};
use crate::reader::{NODE_ROOM, RECORD_ROOM};
use crate::rng::Rng;
use crate::term::DONE;

// ---- the fixed ones ----

pub fn fixed() -> Vec<Case> {
    [rooms(), faults(), limits()].concat()
}

/// With the rooms that the reader needs.
pub fn read(file: Vec<u8>) -> Case {
    Case::Read { node_room: NODE_ROOM as u16, record_room: RECORD_ROOM as u16, file }
}

/// The worked file with every sort of room, and no file at all: 14 comes before 15.
fn rooms() -> Vec<Case> {
    let rooms = [0, 1, 191, 192, 193, 255, 256, 257, 65_535];
    let mut all = vec![];
    for node_room in rooms {
        for record_room in rooms {
            all.push(Case::Read { node_room, record_room, file: flowfile::worked().bytes() });
        }
    }
    for node_room in [191, 192] {
        for record_room in [255, 256] {
            all.push(Case::Read { node_room, record_room, file: vec![] });
        }
    }
    all
}

/// Each fault that a writer finds, in a file, and files that are cut or too long; then all of them with too little room, which is found
/// first.
fn faults() -> Vec<Case> {
    let mut files = vec![];
    for fault in FAULTS {
        let mut call = planned();
        (fault.damage)(&mut call);
        files.push(call.file());
    }
    let worked = flowfile::worked().bytes();
    files.extend([1, 2, 3, 8, 20, 46, 58].map(|less| worked[..worked.len() - less].to_vec()));
    files.extend([1, 2, 300].map(|more| [&worked[..], &vec![0; more]].concat()));
    let enough = files.clone().into_iter().map(read);
    let short = files.into_iter().map(|file| Case::Read { node_room: 191, record_room: 256, file });
    enough.chain(short).collect()
}

/// 64 and 65 nodes, 256 and 257 records, 256 and 257 names, names of 40 and 41 bytes, the longest file and longer ones.
fn limits() -> Vec<Case> {
    let mut all = vec![];
    for flow in fixed::flows_at_the_limits() {
        for length in [255, 256, 257] {
            let (nodes, records) = (flow.table(), fixed::records_of_length(&flow, length));
            all.push(read(FlowFile::plain(fixed::four_names(), nodes, records).bytes()));
        }
    }
    for names in fixed::names_at_the_limits() {
        all.push(read(FlowFile::plain(names, vec![2, 0, 0], vec![DONE]).bytes()));
    }
    let longest = fixed::longest().bytes();
    all.extend([0, 1, 65_535 - 21_894].map(|more| read([&longest[..], &vec![7; more]].concat())));
    all
}

// ---- random ones ----

/// A file of any sort, and mostly room enough.
pub fn case(rng: &mut Rng) -> Case {
    let file = match rng.below(20) {
        0..=6 => filing::whole(rng).bytes(),
        7..=9 => filing::cut(rng),
        10..=18 => filing::damaged(rng),
        _ => filing::at_limits_or_longer(rng),
    };
    Case::Read { node_room: room(rng, NODE_ROOM), record_room: room(rng, RECORD_ROOM), file }
}

fn room(rng: &mut Rng, wanted: usize) -> u16 {
    let room = match rng.below(40) {
        0 | 1 => wanted - 1,
        2 => rng.below(wanted),
        3 => 0,
        4..=9 => wanted + 1,
        10 => wanted + rng.below(400),
        11 => rng.number() as usize,
        12 => u16::MAX as usize,
        _ => wanted,
    };
    room as u16
}
