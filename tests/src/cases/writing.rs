//! Calls of the writer: whole files taken apart, with one or two damages to the names section's bytes, the nodes, the records, the sets or
//! the room, and calls at the limits. The faults here are planned for everything that is lent these lists.

use super::calling::Call;
use super::damaging::{self, Lists};
use super::judging::near;
use super::{filing, fixed, Case, MOST_ROOM};
use crate::drawing::{event, pair, skip, Drawing};
use crate::flowfile::{self, entry, Entry, FlowFile};
use crate::refusals::Refusal;
use crate::rng::Rng;
use crate::term::{is_event, kind, DONE};

/// A write of what stands in a file.
pub fn write_of(file: FlowFile) -> Call {
    let (names, sets) = (file.names_section(), file.lent_sets());
    Call::write(names, file.nodes, file.records).with_sets(sets)
}

fn write(names: &[Entry], flow: &Drawing, records: &[u16]) -> Call {
    write_of(FlowFile::plain(names.to_vec(), flow.table(), records.to_vec()))
}

// ---- the fixed ones ----

pub fn fixed() -> Vec<Case> {
    let mut calls = rooms();
    calls.push(planned());
    let faults = faults_alone_and_in_pairs(&planned(), &FAULTS.each_ref());
    calls.extend(faults.into_iter().map(|(_, call)| call));
    calls.extend(lower_nodes_first());
    calls.extend(sections());
    calls.extend(lengths());
    calls.extend(missing_names());
    calls.extend(limits());
    calls.into_iter().map(Case::Call).collect()
}

/// The worked file with every sort of room, and with anything in the fields that a write does not use.
fn rooms() -> Vec<Call> {
    let worked = || write_of(flowfile::worked());
    let rooms = [65, 64, 66, 0, 1, 32, 255, 256, 21_894, 65_535, 65_536, 69_999, MOST_ROOM as u32];
    let mut all: Vec<Call> = rooms.map(|room| Call { room, ..worked() }).into();
    for edition in [0, 2, 255] {
        for allowance in [0, u32::MAX] {
            for work_len in [40_000, 40_001, u32::MAX] {
                all.push(Call { edition, allowance, work_len, ..worked() });
            }
        }
    }
    all
}

/// The worked file with a third entry (dry; D1). Its names section has 26 bytes, with entries at 2, 12 and 19.
pub fn planned() -> Call {
    let mut file = flowfile::worked();
    file.names.push(entry("dry", "D1"));
    write_of(file)
}

/// A damage to `planned`, and the refusal that it alone leads to.
pub struct Fault {
    pub refusal: Refusal,
    pub damage: fn(&mut Call),
}

impl Fault {
    /// Whether only those who are lent names can find it.
    pub fn is_about_names(&self) -> bool {
        (15..=21).contains(&self.refusal.number)
    }
}

pub const fn fault(number: u32, place: usize, damage: fn(&mut Call)) -> Fault {
    Fault { refusal: Refusal { number, place }, damage }
}

/// In the order in which the writer, or a judge that is lent names, is to find them. Done one upon the other, the last first, they leave
/// the first to be found.
pub const FAULTS: [Fault; 26] = [
    fault(15, 0, |call| call.names.truncate(1)),
    fault(16, 0, |call| call.names[..2].copy_from_slice(&[1, 1])),
    fault(17, 2, |call| call.names[2] = 0),
    fault(17, 7, |call| call.names[7] = 41),
    fault(15, 8, |call| call.names.truncate(11)),
    fault(18, 12, |call| {
        let first = call.names[2..12].to_vec();
        call.names.splice(12..19, first);
    }),
    fault(15, 24, |call| call.names.truncate(25)),
    fault(21, 26, |call| call.names.push(0)),
    fault(1, 0, |call| call.nodes.clear()),
    fault(2, 0, |call| call.nodes.truncate(17)),
    fault(3, 0, |call| call.nodes.resize(195, 0)),
    fault(10, 0, |call| call.records.clear()),
    fault(11, 0, |call| call.records.resize(257, 1)),
    fault(23, 0, |call| call.sets.resize(33, 0)),
    fault(4, 0, |call| call.nodes[0] = 17),
    fault(22, 0, |call| call.nodes[0] = kind::COMP_JOINT),
    fault(5, 0, |call| call.nodes[2] = 1),
    fault(6, 2, |call| call.nodes[7] = 2),
    fault(7, 2, |call| call.nodes[6] = 11),
    fault(8, 2, |call| call.nodes[8] = 0),
    fault(9, 2, |call| call.nodes[12..15].copy_from_slice(&[14, 0, 0])),
    fault(12, 0, |call| call.records[0] = 0),
    fault(13, 3, |call| call.records.push(1)),
    fault(19, 0, |call| call.nodes[1] = 4),
    fault(20, 1, |call| call.records[1] = 4),
    fault(14, 0, |call| {
        call.room = call.room.saturating_sub(1);
        call.work_len = call.work_len.saturating_sub(1);
    }),
];

/// A planned call with each fault and with each two of them, and what is to be found if they stand in their order.
pub fn faults_alone_and_in_pairs(planned: &Call, faults: &[&Fault]) -> Vec<(Refusal, Call)> {
    let mut all = vec![];
    for (i, fault) in faults.iter().enumerate() {
        let later = faults[i + 1..].iter().map(Some);
        for other in [None].into_iter().chain(later) {
            let mut call = planned.clone();
            other.iter().for_each(|other| (other.damage)(&mut call));
            (fault.damage)(&mut call);
            all.push((fault.refusal, call));
        }
    }
    all
}

/// A fault with a lower number in a higher node, which is not found.
pub fn lower_nodes_first() -> Vec<Call> {
    let tables: [&[u16]; 6] = [
        &[1, 0, 0, 17, 0, 0],
        &[5, 0, 0, 17, 0, 0],
        &[2, 0, 0, 9, 0, 0, 1, 0, 0],
        &[2, 0, 0, 5, 0, 0, 5, 7, 7],
        &[2, 0, 0, 2, 0, 0, 17, 0, 0],
        &[9, 7, 1],
    ];
    tables.map(|nodes| Call::write(vec![0, 0], nodes.to_vec(), vec![DONE])).into()
}

/// The worked names section: every cut of it, every byte of it exchanged, and bytes after it.
pub fn sections() -> Vec<Call> {
    let file = flowfile::worked();
    let names = file.names_section();
    let mut sections: Vec<Vec<u8>> = (0..names.len()).map(|length| names[..length].to_vec()).collect();
    for at in 0..names.len() {
        for byte in [names[at].wrapping_add(1), names[at].wrapping_sub(1), 255] {
            let mut names = names.clone();
            names[at] = byte;
            sections.push(names);
        }
    }
    sections.extend([1, 2, 3, 65_535 - names.len()].map(|more| [&names[..], &vec![1; more]].concat()));
    sections.extend((0..4).map(|more| [&[0, 0][..], &[1; 3][..more]].concat()));
    let write = |names| Call::write(names, file.nodes.clone(), file.records.clone());
    sections.into_iter().map(write).collect()
}

/// Node numbers and records of many lengths: 1 only for no node number, then 2 for any length that is no multiple of 3, then 3.
pub fn lengths() -> Vec<Call> {
    let mut all = vec![];
    for length in (0..=9).chain(187..=200).chain([300, 398, 399, 400]) {
        let nodes = [2, 0, 0].repeat(134)[..length].to_vec();
        all.push(Call::write(vec![0, 0], nodes, vec![DONE]));
    }
    for length in [0, 1, 2, 3, 254, 255, 256, 257, 258, 300, 399, 400] {
        let records = [vec![1; length], vec![DONE]].concat()[1..].to_vec();
        all.push(Call::write(vec![1, 0, 1, b'a', 0], vec![2, 0, 0], records));
    }
    all
}

/// Events of nodes and of records just within the names and just beyond them.
pub fn missing_names() -> Vec<Call> {
    let mut all = vec![];
    for count in [0, 1, 2, 255, 256] {
        let names: Vec<Entry> = (0..count).map(|i| (vec![i as u8], vec![])).collect();
        all.push(write(&names, &skip(), &[DONE]));
        for e in [count as u16, count as u16 + 1].into_iter().filter(|e| is_event(*e)) {
            all.push(write(&names, &skip(), &[e, DONE]));
            all.push(write(&names, &event(e), &[DONE]));
            all.push(write(&names, &pair(event(1), event(e)), &[1, DONE, e, DONE]));
        }
    }
    all
}

/// 64 and 65 nodes, 256 and 257 records, 256 and 257 names, names of 40 and 41 bytes, and the longest file.
fn limits() -> Vec<Call> {
    let mut all = vec![];
    for flow in fixed::flows_at_the_limits() {
        for length in [255, 256, 257, 400] {
            all.push(write(&fixed::four_names(), &flow, &fixed::records_of_length(&flow, length)));
        }
    }
    for names in fixed::names_at_the_limits() {
        all.push(write(&names, &skip(), &[DONE]));
    }
    let longest = || write_of(fixed::longest());
    all.push(longest());
    all.extend([21_893, 0].map(|room| Call { room, ..longest() }));
    all.push(Call { room: MOST_ROOM as u32, ..longest() });
    all
}

// ---- random ones ----

/// A file that the reader takes, in its parts.
pub fn case(rng: &mut Rng) -> Case {
    let call = write_of(filing::whole(rng));
    around_the_room(rng, call)
}

/// The call with room near what is wanted.
fn around_the_room(rng: &mut Rng, call: Call) -> Case {
    let room = near(rng, call.room as usize, MOST_ROOM);
    with_room(rng, call, room)
}

/// The call with this room, and anything in the fields that a write does not use.
fn with_room(rng: &mut Rng, call: Call, room: usize) -> Case {
    let (allowance, work_len) = (rng.turn() as u32, rng.turn() as u32);
    Case::Call(Call { edition: rng.byte(), allowance, work_len, room: room as u32, ..call })
}

/// A call with one or two damages.
pub fn damaged_case(rng: &mut Rng) -> Case {
    let file = filing::whole(rng);
    let Lists { names, nodes, records, sets, short } = damaging::lists(rng, file);
    let call = Call::write(names, nodes, records).with_sets(sets);
    if short {
        let room = rng.below(call.room as usize);
        return with_room(rng, call, room);
    }
    around_the_room(rng, call)
}

/// 255 to 257 names, 63 to 65 nodes, 255 to 257 records, 15 to 17 sets, alone or together, and the most numbers that `replay` takes.
pub fn case_at_limits(rng: &mut Rng) -> Case {
    let call = write_of(damaging::at_limits(rng));
    around_the_room(rng, call)
}
