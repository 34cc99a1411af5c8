//! What is no case: `replay` says `bad case` to it, and ends.

use super::calling::Call;
use super::{Case, MOST_ROOM};
use crate::sets::EventSet;
use crate::term::DONE;

pub struct Malformed {
    pub what: &'static str,
    pub bytes: Vec<u8>,
    /// Whether the input simply ends too early, so that nothing can follow.
    pub cut: bool,
}

/// SKIP that is done: a good case.
pub fn good_case() -> Case {
    Case::Judge { allowance: 2, work_len: 4, nodes: vec![2, 0, 0], records: vec![DONE] }
}

/// What is all there, but no case.
fn whole(what: &'static str, bytes: Vec<u8>) -> Malformed {
    Malformed { what, bytes, cut: false }
}

/// Every beginning of a good case.
fn cuts(what: &'static str, good: Case) -> Vec<Malformed> {
    let good = good.bytes();
    (1..good.len()).map(|length| Malformed { what, bytes: good[..length].to_vec(), cut: true }).collect()
}

pub fn malformed() -> Vec<Malformed> {
    let letters = [
        ("a zero", 0),
        ("a line feed", b'\n'),
        ("a small letter", b'j'),
        ("a small letter", b'c'),
        ("a small letter", b'r'),
        ("an I", b'I'),
    ];
    let mut all: Vec<Malformed> = letters.map(|(what, byte)| whole(what, vec![byte])).into();
    all.extend(calls_of_the_judge());
    let file = vec![0, 0, 1, 0, 2, 0, 0, 0, 0, 0, 1, 0, 1, 240];
    all.extend(cuts("a cut file", Case::File(file.clone())));
    all.extend(cuts("a cut file to be read", Case::Read { node_room: 192, record_room: 256, file }));
    all.extend(calls());
    all
}

fn calls_of_the_judge() -> Vec<Malformed> {
    let judge = |work_len: usize, nodes: usize, records: usize| Case::Judge {
        allowance: 9,
        work_len,
        nodes: vec![2; nodes],
        records: vec![DONE; records],
    };
    let mut all = vec![
        whole("too many work bytes", judge(40_001, 3, 1).bytes()),
        whole("far too many work bytes", judge(u32::MAX as usize, 3, 1).bytes()),
        whole("too many node numbers", judge(40_000, 401, 1).bytes()),
        whole("too many records", judge(40_000, 3, 401).bytes()),
    ];
    all.extend(cuts("a cut call of the judge", judge(40_000, 3, 2)));
    all
}

/// Calls with everything that may be lent.
fn calls() -> Vec<Malformed> {
    let write = || Call::write(vec![0, 0], vec![2, 0, 0], vec![DONE]);
    let judge = || Call::judge(Some(vec![0, 0]), vec![2, 0, 0], vec![DONE]);
    let plain = || Call::judge(None, vec![2, 0, 0], vec![DONE]);
    let next = || Call::next(Some(vec![0, 0]), vec![2, 0, 0], vec![1]);
    let plain_next = || Call::next(None, vec![2, 0, 0], vec![]);
    let call = |what, call: Call| whole(what, call.bytes());
    let mut all = vec![
        call("function 2, not there yet", Call { function: 2, work_len: 40_000, ..write() }),
        call("function 4", Call { function: 4, ..write() }),
        call("function 255", Call { function: 255, ..judge() }),
        call("a write that is lent no names", Call { names_lent: 0, names: vec![], ..write() }),
        call("a write that is lent no names but has some", Call { names_lent: 0, ..write() }),
        call("too much room", Call { room: MOST_ROOM as u32 + 1, ..write() }),
        call("far too much room", Call { room: u32::MAX, ..write() }),
        call("a judge that is lent no names but has some", Call { names_lent: 0, ..judge() }),
        call("a judge that is lent no names but a byte", Call { names: vec![0], ..plain() }),
        call("edition 0", Call { edition: 0, ..judge() }),
        call("edition 2, not there yet", Call { edition: 2, ..judge() }),
        call("edition 2 without names", Call { edition: 2, ..plain() }),
        call("edition 255", Call { edition: 255, ..judge() }),
        call("too many work bytes in a call", Call { work_len: 40_001, ..judge() }),
        call("too many work bytes without names", Call { work_len: 40_001, ..plain() }),
        call("far too many work bytes in a call", Call { work_len: u32::MAX, ..judge() }),
        call("a next that is lent no names but has some", Call { names_lent: 0, ..next() }),
        call("a next that is lent no names but a byte", Call { names: vec![0], ..plain_next() }),
        call("a next of edition 0", Call { edition: 0, ..next() }),
        call("a next of edition 2, not there yet", Call { edition: 2, ..next() }),
        call("a next of edition 2 without names", Call { edition: 2, ..plain_next() }),
        call("a next of edition 255", Call { edition: 255, ..plain_next() }),
        call("too many work bytes in a next", Call { work_len: 40_001, ..next() }),
        call("too many work bytes in a next without names", Call { work_len: 40_001, ..plain_next() }),
        call("far too many work bytes in a next", Call { work_len: u32::MAX, ..next() }),
        call("too long a list", Call { room: MOST_ROOM as u32 + 1, ..next() }),
        call("too long a list without names", Call { room: MOST_ROOM as u32 + 1, ..plain_next() }),
        call("far too long a list", Call { room: u32::MAX, ..next() }),
    ];
    for good in [write(), judge(), plain(), next(), plain_next()] {
        let of = |change: fn(&mut Call)| {
            let mut call = good.clone();
            change(&mut call);
            call
        };
        all.extend([
            call("names lent twice", of(|call| call.names_lent = 2)),
            call("names lent often", of(|call| call.names_lent = 255)),
            call("too many node numbers in a call", of(|call| call.nodes = vec![2; 401])),
            call("too many records in a call", of(|call| call.records = vec![DONE; 401])),
            call("too many bytes of sets", of(|call| call.sets = vec![0; 601])),
            call("too many sets", of(|call| call.sets = vec![0; 608])),
            call("far too many bytes of sets", of(|call| call.sets = vec![0; 65_535])),
        ]);
    }
    all.extend(cuts("a cut call of the writer", Case::Call(write())));
    all.extend(cuts("a cut call of the judge with names", Case::Call(judge())));
    all.extend(cuts("a cut call of the judge without names", Case::Call(plain())));
    all.extend(cuts("a cut call of next with names", Case::Call(next())));
    all.extend(cuts("a cut call of next without names", Case::Call(plain_next())));
    for good in [write(), judge(), plain(), next(), plain_next()] {
        let with_a_set = good.with_sets(EventSet::of(&[1, 256]).0.to_vec());
        all.extend(cuts("a cut call with a set", Case::Call(with_a_set)).split_off(24));
    }
    all
}
