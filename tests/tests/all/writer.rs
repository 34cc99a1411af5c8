//! The writer: the worked file, each refusal and the order among them, the limits, and that writing and reading undo each other.

use oracle::cases::calling::Call;
use oracle::cases::{filing, fixed, writing, Case};
use oracle::drawing::Drawing;
use oracle::flowfile::{self, section_of, Entry, FlowFile};
use oracle::judge::with_deep_stack;
use oracle::reader::read;
use oracle::refusals::Refusal;
use oracle::rng::Rng;
use oracle::sets::SET_BYTES;
use oracle::term::DONE;
use oracle::writer::write;

const ROOM: usize = 70_000;

/// What the writer answers: the length, or number and place.
fn answer(names: &[u8], nodes: &[u16], records: &[u16], room: usize) -> String {
    match write(names, nodes, records, &[], room) {
        Ok(file) => format!("written {}", file.len()),
        Err(r) => format!("refused {} {}", r.number, r.place),
    }
}

/// The same for the names section alone, with SKIP that is done.
fn of_names(names: &[u8]) -> String {
    answer(names, &[2, 0, 0], &[DONE], ROOM)
}

/// The same for nodes and records alone, with four names.
fn of_lists(nodes: &[u16], records: &[u16]) -> String {
    let names = section_of(&fixed::four_names());
    answer(&names, nodes, records, ROOM)
}

fn write_file(file: &FlowFile) -> Result<Vec<u8>, Refusal> {
    write(&file.names_section(), &file.nodes, &file.records, &file.lent_sets(), ROOM)
}

#[test]
fn worked_file() {
    let worked = flowfile::worked();
    assert_eq!(write_file(&worked), Ok(worked.bytes()));
    let with_room = |room| answer(&worked.names_section(), &worked.nodes, &worked.records, room);
    assert_eq!(with_room(66), "written 65");
    assert_eq!(with_room(65), "written 65", "room exactly enough");
    assert_eq!(with_room(64), "refused 14 0", "one short");
    assert_eq!(with_room(0), "refused 14 0");
}

/// Each of the 26 faults by its number and place, and of each two the one that comes first.
#[test]
fn faults_alone_and_in_pairs() {
    let whole = writing::planned();
    assert_eq!((whole.names.len(), whole.written().map(|file| file.len())), (26, Ok(72)));
    let mut numbers: Vec<u32> = writing::FAULTS.iter().map(|fault| fault.refusal.number).collect();
    numbers.dedup();
    assert_eq!(
        numbers,
        [15, 16, 17, 15, 18, 15, 21, 1, 2, 3, 10, 11, 23, 4, 22, 5, 6, 7, 8, 9, 12, 13, 19, 20, 14]
    );
    let all = writing::faults_alone_and_in_pairs(&whole, &writing::FAULTS.each_ref());
    assert_eq!(all.len(), 26 + 26 * 25 / 2);
    for (refusal, call) in all {
        assert_eq!(call.written(), Err(refusal), "{call:?}");
    }
}

#[test]
fn every_cut_of_the_worked_names() {
    let names = flowfile::worked().names_section();
    let items = [0, 2, 3, 7, 8, 12, 13, 18];
    for length in 0..19 {
        let cut = items.iter().rev().find(|&&item| item <= length).unwrap();
        assert_eq!(of_names(&names[..length]), format!("refused 15 {cut}"), "cut to {length} bytes");
    }
    assert_eq!(of_names(&names), "written 31");
}

#[test]
fn refusals_of_the_names() {
    assert_eq!(of_names(&[]), "refused 15 0");
    assert_eq!(of_names(&[1, 1]), "refused 16 0", "16 comes before the first entry");
    assert_eq!(of_names(b"\x01\x00\x00"), "refused 17 2");
    assert_eq!(of_names(b"\x01\x00\x29"), "refused 17 2", "17 comes before the name is cut");
    assert_eq!(of_names(b"\x01\x00\x01a\x29"), "refused 17 4");
    assert_eq!(of_names(b"\x03\x00\x01a\x00\x01a\x00\x00"), "refused 18 5", "18 comes before the next entry");
    assert_eq!(of_names(b"\x02\x00\x01a\x01b\x01a\x01"), "refused 15 9", "but not before it is read");
    assert_eq!(of_names(b"\x02\x00\x02ab\x00\x01a\x01b"), "written 22", "the same bytes, split elsewhere");
}

/// "21 right after its last entry."
#[test]
fn bytes_after_the_names() {
    assert_eq!(of_names(&[0, 0]), "written 14");
    assert_eq!(of_names(&[0, 0, 0]), "refused 21 2");
    assert_eq!(of_names(&[0, 0, 1, b'a', 0]), "refused 21 2", "an entry that is not counted");
    assert_eq!(of_names(b"\x01\x00\x01a\x00\x01b\x00"), "refused 21 5");
    assert_eq!(of_names(b"\x01\x00\x01a\x00\x01a\x00"), "refused 21 5", "no matter which");
    assert_eq!(of_names(&[&[0, 0][..], &[7; 65_533]].concat()), "refused 21 2");
    assert_eq!(answer(&[0, 0, 0], &[], &[], 0), "refused 21 2", "21 comes before the nodes");
    let whole = flowfile::worked().bytes();
    assert_eq!(of_names(&whole), "refused 21 19", "a whole file is no names section");
}

/// "2 stands between 1 and 3."
#[test]
fn node_counts() {
    assert_eq!(of_lists(&[], &[]), "refused 1 0");
    for length in [1, 2, 4, 5, 191, 193, 194, 200, 400] {
        assert_eq!(of_lists(&vec![0; length], &[]), "refused 2 0", "{length} node numbers");
    }
    for length in [195, 198, 399] {
        assert_eq!(of_lists(&vec![0; length], &[]), "refused 3 0", "{length} node numbers");
    }
    assert_eq!(of_lists(&[0; 192], &[DONE]), "refused 4 0");
    assert_eq!(of_lists(&[0; 192], &[]), "refused 10 0", "10 comes before the nodes");
    assert_eq!(of_lists(&[0; 192], &[0; 257]), "refused 11 0", "and so does 11");
}

/// The place is the node's, whatever stands before it.
#[test]
fn lower_nodes_come_first() {
    assert_eq!(of_lists(&[1, 0, 0, 17, 0, 0], &[DONE]), "refused 5 0");
    assert_eq!(of_lists(&[2, 0, 0, 2, 0, 0, 17, 0, 0], &[DONE]), "refused 4 2", "9 comes after all nodes");
    assert_eq!(of_lists(&[2, 0, 0, 5, 0, 0, 5, 7, 7], &[DONE]), "refused 8 1");
    assert_eq!(of_lists(&[2, 0, 0, 1, 5, 0, 5, 0, 1], &[DONE]), "refused 19 1");
    assert_eq!(of_lists(&[2, 0, 0, 1, 4, 0, 5, 0, 1], &[4, 5, 256, DONE]), "refused 20 1");
}

#[test]
fn limits_of_nodes_and_records() {
    let flows = fixed::flows_at_the_limits();
    let of = |flow: &Drawing, length| of_lists(&flow.table(), &fixed::records_of_length(flow, length));
    let mut seen = vec![];
    for flow in &flows {
        for length in [255, 256, 257] {
            let expected = match (flow.size(), length) {
                (65, _) => "refused 3 0".to_string(),
                (_, 257) => "refused 11 0".to_string(),
                (size, _) => format!("written {}", 35 + 2 + 6 * size + 2 + 2 * length),
            };
            assert_eq!(of(flow, length), expected);
        }
        seen.push(flow.size());
    }
    assert!([63, 64, 65].iter().all(|size| seen.contains(size)));
    assert_eq!(of_lists(&[2, 0, 0], &[]), "refused 10 0");
    assert_eq!(of_lists(&[2, 0, 0], &[0]), "refused 12 0");
}

#[test]
fn limits_of_names() {
    let of = |names: &[Entry]| of_names(&section_of(names));
    let different =
        |count: usize| -> Vec<Entry> { (0..count).map(|i| (vec![i as u8], vec![b'x'; i / 256])).collect() };
    assert_eq!(of(&different(255)), format!("written {}", 14 + 3 * 255));
    assert_eq!(of(&different(256)), format!("written {}", 14 + 3 * 256));
    assert_eq!(of(&different(257)), "refused 16 0");
    let lengths = |step, machine| of(&[(vec![b's'; step], vec![b'm'; machine])]);
    assert_eq!(lengths(1, 0), "written 17");
    assert_eq!(lengths(40, 40), "written 96");
    assert_eq!(lengths(0, 0), "refused 17 2");
    assert_eq!(lengths(41, 0), "refused 17 2");
    assert_eq!(lengths(40, 41), "refused 17 43");
}

#[test]
fn the_longest_file() {
    let longest = fixed::longest();
    let (names, nodes, records) = (longest.names_section(), &longest.nodes, &longest.records);
    assert_eq!(answer(&names, nodes, records, 21_894), "written 21894");
    assert_eq!(answer(&names, nodes, records, 21_893), "refused 14 0");
    assert_eq!(write_file(&longest), Ok(longest.bytes()));
    assert_eq!(read(&longest.bytes()), Ok(longest));
}

/// Files of every sort, and calls of every sort.
fn random_files(count: usize, seed: u64) -> Vec<Vec<u8>> {
    let mut rng = Rng::new(seed);
    let mut any = |i: usize| match i % 8 {
        0..=3 => filing::whole(&mut rng).bytes(),
        4 => filing::cut(&mut rng),
        5 | 6 => filing::damaged(&mut rng),
        _ => filing::at_limits_or_longer(&mut rng),
    };
    (0..count).map(&mut any).collect()
}

fn random_calls(count: usize, seed: u64) -> Vec<Call> {
    let mut rng = Rng::new(seed);
    let any = |i: usize| match i % 8 {
        0 | 1 => writing::case(&mut rng),
        7 => writing::case_at_limits(&mut rng),
        _ => writing::damaged_case(&mut rng),
    };
    let call = |case| match case {
        Case::Call(call) => call,
        other => unreachable!("{other:?}"),
    };
    (0..count).map(any).map(call).collect()
}

/// "Writing what was read gives the same bytes."
#[test]
fn what_was_read_is_written_as_it_was() {
    with_deep_stack(|| {
        let mut seen = 0;
        for bytes in random_files(4_000, 11) {
            let Ok(file) = read(&bytes) else { continue };
            let (names, sets) = (file.names_section(), file.lent_sets());
            let written = write(&names, &file.nodes, &file.records, &sets, bytes.len());
            assert_eq!(written, Ok(bytes));
            seen += 1;
        }
        assert!(seen > 2_000, "{seen}");
    });
}

/// "What it writes the reader reads back as the same three lists", and the same sets, and it is the file that flowfile.rs puts together.
#[test]
fn what_is_written_is_read_back() {
    with_deep_stack(|| {
        let mut seen = 0;
        for call in random_calls(4_000, 12) {
            let Ok(file) = call.written() else { continue };
            let back = read(&file).unwrap();
            assert_eq!(
                (&back.names_section(), &back.nodes, &back.records, &back.lent_sets()),
                (&call.names, &call.nodes, &call.records, &call.sets)
            );
            assert_eq!(back.bytes(), file);
            assert!(file.len() <= call.room as usize);
            seen += 1;
        }
        assert!(seen > 1_000, "{seen}");
    });
}

/// "Refused by the reader's own numbers and in its order": the reader refuses the file that would be written by the same number, at
/// the same place but for 1, 3, 10, 11 and 23, which it has at the count. It does not know 2 and 14 of a writer, nor sets that are no
/// whole ones, and 15 and 21 are about the section's end, which in a file is elsewhere.
#[test]
fn refusals_are_those_of_the_reader() {
    with_deep_stack(|| {
        let mut seen = [0; 24];
        for call in random_calls(12_000, 13) {
            let Err(refusal) = call.written() else { continue };
            seen[refusal.number as usize] += 1;
            let place = match refusal.number {
                2 | 14 | 15 | 21 => continue,
                1 | 3 => call.names.len(),
                10 | 11 => call.names.len() + 2 + 2 * call.nodes.len(),
                23 if !call.sets.len().is_multiple_of(SET_BYTES) => continue,
                23 => call.file().len() - call.sets.len() - 2,
                _ => refusal.place,
            };
            let of_reader = read(&call.file()).unwrap_err();
            assert_eq!(of_reader, Refusal { place, ..refusal }, "{call:?}");
        }
        assert!(seen[1..].iter().all(|n| *n >= 50), "{seen:?}");
    });
}
