//! The reader: the worked file, every cut of it, each refusal and the order among them.

use oracle::cases::Case;
use oracle::drawing::{block, skip, skipp, tower};
use oracle::flowfile::{self, FlowFile};
use oracle::judge::with_deep_stack;
use oracle::program::{program, PROGRAM_READS};
use oracle::reader::{read_into, NODE_ROOM, RECORD_ROOM};
use oracle::sets::EventSet;
use oracle::term::DONE;

fn worked() -> Vec<u8> {
    flowfile::worked().bytes()
}

/// What the reader answers: the three counts, and offset and count of the sets; or number and place.
fn answer(bytes: &[u8]) -> String {
    let case =
        Case::Read { node_room: NODE_ROOM as u16, record_room: RECORD_ROOM as u16, file: bytes.to_vec() };
    case.reply(0).expect("no search").to_string()
}

/// The worked file with other bytes from an offset on.
fn with(at: usize, bytes: &[u8]) -> Vec<u8> {
    let mut file = worked();
    file[at..at + bytes.len()].copy_from_slice(bytes);
    file
}

#[test]
fn worked_file() {
    assert_eq!(worked().len(), 65);
    assert_eq!(answer(&worked()), "read 2 6 3 65 0");
    assert_eq!(program(&worked()).to_string(), "accepted 0 3 4");
}

#[test]
fn every_cut_of_the_worked_file() {
    let mut items = vec![0, 2, 3, 7, 8, 12, 13, 18, 19];
    items.extend((0..18).map(|number| 21 + 2 * number));
    items.extend([57, 59, 61, 63]);
    for length in 0..65 {
        let cut = items.iter().rev().find(|&&item| item <= length).unwrap();
        assert_eq!(answer(&worked()[..length]), format!("refused 15 {cut}"), "cut to {length} bytes");
    }
}

#[test]
fn refusals_of_the_file() {
    assert_eq!(answer(&[]), "refused 15 0");
    assert_eq!(answer(&[1]), "refused 15 0");
    assert_eq!(answer(&with(0, &[1, 1])), "refused 16 0");
    assert_eq!(answer(&with(2, &[0])), "refused 17 2");
    assert_eq!(answer(&with(2, &[41])), "refused 17 2");
    assert_eq!(answer(&with(7, &[41])), "refused 17 7");
    assert_eq!(answer(&with(18, &[255])), "refused 17 18");
    assert_eq!(answer(&with(19, &[0])), "refused 1 19");
    assert_eq!(answer(&with(19, &[65])), "refused 3 19");
    assert_eq!(answer(&with(57, &[0])), "refused 10 57");
    assert_eq!(answer(&with(57, &[1, 1])), "refused 11 57");
}

/// After the records: nothing, or a count of 1 to 16 and so many sets.
#[test]
fn refusals_of_the_sets() {
    let with_more = |more: &[u8]| answer(&[&worked()[..], more].concat());
    assert_eq!(with_more(&[0]), "refused 15 65", "half a count");
    assert_eq!(with_more(&[1]), "refused 15 65");
    assert_eq!(with_more(&[0, 0]), "refused 23 65");
    assert_eq!(with_more(&[17, 0]), "refused 23 65", "23 comes before the sets are cut");
    assert_eq!(with_more(&[0, 1]), "refused 23 65");
    let sets = |count: u8, bytes: usize| with_more(&[&[count, 0][..], &vec![255; bytes]].concat());
    assert_eq!(sets(1, 0), "refused 15 67");
    assert_eq!(sets(1, 31), "refused 15 67", "a set is one item");
    assert_eq!(sets(1, 32), "read 2 6 3 67 1");
    assert_eq!(sets(1, 33), "refused 21 99", "21 follows the sets");
    assert_eq!(sets(2, 32), "refused 15 99");
    assert_eq!(sets(2, 63), "refused 15 99");
    assert_eq!(sets(2, 64), "read 2 6 3 67 2");
    assert_eq!(sets(16, 511), "refused 15 547");
    assert_eq!(sets(16, 512), "read 2 6 3 67 16");
    assert_eq!(sets(16, 544), "refused 21 579");
    assert_eq!(sets(17, 544), "refused 23 65");
}

/// "21 now follows the sets", and the nodes come after it.
#[test]
fn sets_come_before_the_nodes() {
    let with_kind = |kind: u16, more: &[u8]| answer(&[&with(21, &kind.to_le_bytes())[..], more].concat());
    let one_set = [&[1, 0][..], &[0; 32]].concat();
    assert_eq!(with_kind(0, &[0]), "refused 15 65");
    assert_eq!(with_kind(0, &[0, 0]), "refused 23 65");
    assert_eq!(with_kind(0, &[&one_set[..], &[0]].concat()), "refused 21 99");
    assert_eq!(with_kind(0, &one_set), "refused 4 0");
    assert_eq!(with_kind(256, &[]), "refused 22 0");
    assert_eq!(with_kind(257, &one_set), "refused 22 0");
    assert_eq!(
        with_kind(256, &one_set),
        "refused 6 0",
        "the set is present, and the first child is not lower"
    );
    assert_eq!(with_kind(255, &one_set), "refused 4 0");
    assert_eq!(with_kind(272, &one_set), "refused 4 0");
}

#[test]
fn refusals_of_the_tables() {
    assert_eq!(answer(&with(21, &[0])), "refused 4 0");
    assert_eq!(answer(&with(59, &[0])), "refused 12 0");
    assert_eq!(answer(&with(63, &[1, 0])), "refused 13 3");
    assert_eq!(answer(&with(59, &[1, 240])), "refused 13 1");
    assert_eq!(answer(&with(23, &[3])), "refused 19 0");
    assert_eq!(answer(&with(61, &[3])), "refused 20 1");
    let mut both = with(29, &[3]);
    both[59] = 3;
    assert_eq!(answer(&both), "refused 19 1", "19 comes before 20");
    both[64] = 0;
    assert_eq!(answer(&both), "refused 13 3", "13 comes before 19");
}

#[test]
fn names_are_compared_byte_by_byte() {
    let two = |first: &[u8], second: &[u8]| {
        let rest = [1, 0, 2, 0, 0, 0, 0, 0, 1, 0, 1, 240];
        let answer = answer(&[&[2, 0], first, second, &rest].concat());
        answer.split(' ').take(4).collect::<Vec<_>>().join(" ")
    };
    assert_eq!(two(b"\x01a\x01b", b"\x01a\x01b"), "refused 18 6");
    assert_eq!(two(b"\x01a\x01b", b"\x01a\x00"), "read 2 1 1");
    assert_eq!(two(b"\x02ab\x00", b"\x01a\x01b"), "read 2 1 1", "the same bytes, split elsewhere");
    assert_eq!(two(b"\x01a\x04W1,2", b"\x04a,W1\x012"), "read 2 1 1", "the same joined by a comma");
    assert_eq!(two(b"\x01a\x00", b"\x01A\x00"), "read 2 1 1");
    assert_eq!(two(b"\x01\x00\x00", b"\x02\x00\x00\x00"), "read 2 1 1");
}

#[test]
fn an_equal_entry_is_refused_before_what_follows() {
    assert_eq!(answer(b"\x03\x00\x01a\x00\x01a\x00\x00"), "refused 18 5");
    assert_eq!(answer(b"\x03\x00\x01a\x00\x01a\x00"), "refused 18 5");
    assert_eq!(answer(b"\x03\x00\x01a\x01b\x01a\x01"), "refused 15 9", "but not before it is read");
}

#[test]
fn no_names_are_allowed() {
    assert_eq!(program(&[0, 0, 1, 0, 2, 0, 0, 0, 0, 0, 1, 0, 1, 240]).to_string(), "accepted 0 1 2");
    assert_eq!(answer(&[0, 0, 1, 0, 1, 0, 1, 0, 0, 0, 1, 0, 1, 240]), "refused 19 0");
    assert_eq!(answer(&[0, 0, 1, 0, 2, 0, 0, 0, 0, 0, 2, 0, 1, 0, 1, 240]), "refused 20 0");
}

#[test]
fn the_longest_file() {
    with_deep_stack(|| {
        let long_name = |i: usize| ([&[i as u8][..], &[b'x'; 39]].concat(), vec![b','; 40]);
        let nodes = oracle::drawing::seq(block(skipp()), tower(31, &skip(), oracle::drawing::seq)).table();
        let mut records = vec![256; 255];
        records.push(DONE);
        let mut file = FlowFile::plain((0..256).map(long_name).collect(), nodes, records);
        assert_eq!(file.bytes().len(), 21_894);
        assert_eq!(program(&file.bytes()).to_string(), "rejected 0 0 1");
        file.sets = vec![EventSet::of(&[256]); 16];
        let mut file = file.bytes();
        assert_eq!(file.len(), 22_408);
        assert_eq!(program(&file).to_string(), "rejected 0 0 1");
        file.push(7);
        assert_eq!(file.len(), PROGRAM_READS);
        assert_eq!(program(&file).to_string(), "refused 21 22408 0");
        file.extend([7; 1000]);
        assert_eq!(program(&file).to_string(), "refused 21 22408 0");
    });
}

#[test]
fn lent_tables_are_checked_first() {
    let number = |nodes, records| read_into(nodes, records, &[]).unwrap_err().number;
    assert_eq!(number(NODE_ROOM - 1, RECORD_ROOM), 14);
    assert_eq!(number(NODE_ROOM, RECORD_ROOM - 1), 14);
    assert_eq!(number(NODE_ROOM, RECORD_ROOM), 15);
}
