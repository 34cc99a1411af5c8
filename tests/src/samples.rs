//! The sample flow files that people can try, each with what it shows and the line it gives. The command
//! `samples DIR` writes them with expected.txt and README.md; a test keeps the lines true.

use crate::drawing::*;
use crate::flowfile::{entry, worked, Entry, FlowFile};
use crate::sets::EventSet;
use crate::term::{DONE, FAILED, WITHDRAWN};
use std::fmt::Write;
use std::io;
use std::path::Path;

pub struct Sample {
    pub name: &'static str,
    pub shows: &'static str,
    pub bytes: Vec<u8>,
    pub line: &'static str,
}

// The theatre linen's route: events 1 to 8.
const WASH: u16 = 1;
const HOLD_HOT: u16 = 2;
const DRY: u16 = 3;
const BOOK_VAN: u16 = 4;
const UNLOAD: u16 = 5;
const COOL_DOWN: u16 = 6;
const TAKE_OUT: u16 = 7;
const CANCEL_VAN: u16 = 8;

fn route_names() -> Vec<Entry> {
    vec![
        entry("wash", "W1"),
        entry("hold hot", "W1"),
        entry("dry", "D1"),
        entry("book van", ""),
        entry("unload", "W1"),
        entry("cool down", "W1"),
        entry("take out", "D1"),
        entry("cancel van", ""),
    ]
}

/// wash÷unload, hold hot÷cool down, dry÷take out, and then the van is booked or the batch is given up.
fn route() -> Drawing {
    let undoable = |step, undo| pair(event(step), event(undo));
    let washed = seq(undoable(WASH, UNLOAD), undoable(HOLD_HOT, COOL_DOWN));
    let dried = seq(washed, undoable(DRY, TAKE_OUT));
    block(seq(dried, choice(undoable(BOOK_VAN, CANCEL_VAN), throww())))
}

fn on_the_route(records: &[u16]) -> Vec<u8> {
    file(route_names(), &route(), records)
}

fn file(names: Vec<Entry>, flow: &Drawing, records: &[u16]) -> Vec<u8> {
    FlowFile::plain(names, flow.table(), records.to_vec()).bytes()
}

/// Two lines, each wash÷unload and then dry÷take out, and one van for both: events 1 to 4 and 5 to 8.
fn two_lines(records: &[u16]) -> Vec<u8> {
    let line = |first: u16| {
        let wash = pair(event(first), event(first + 1));
        seq(wash, pair(event(first + 2), event(first + 3)))
    };
    let names = [("W1", "D1"), ("W2", "D2")]
        .iter()
        .flat_map(|(washer, dryer)| {
            [entry("wash", washer), entry("unload", washer), entry("dry", dryer), entry("take out", dryer)]
        })
        .chain([entry("book van", ""), entry("cancel van", "")])
        .collect();
    let flow = block(seq(parallel(line(1), line(5)), pair(event(9), event(10))));
    file(names, &flow, records)
}

/// Washer "W1,2" beside drum 2 of washer "W1", each to wash and to hold hot, and then both unloaded. Joined
/// by commas, machine first, both holds would be called `W1,2,hold hot`.
fn two_washers(records: &[u16]) -> Vec<u8> {
    let names = vec![
        entry("wash", "W1,2"),
        entry("hold hot", "W1,2"),
        entry("2,wash", "W1"),
        entry("2,hold hot", "W1"),
        entry("unload", ""),
    ];
    let washer = seq(event(1), event(2));
    let drum = seq(event(3), event(4));
    file(names, &seq(parallel(washer, drum), event(5)), records)
}

/// A wash, and two loads side by side that are pressed on any press, or the second on press P1 alone; then both are folded.
fn pressed(second: u16, records: &[u16]) -> Vec<u8> {
    let names = vec![
        entry("wash", "W1"),
        entry("press", ""),
        entry("press", "P1"),
        entry("press", "P2"),
        entry("fold", "F1"),
    ];
    let presses = parallel(event(2), event(second));
    file(names, &seq(seq(event(1), presses), event(5)), records)
}

/// A tandem plant: each line washes, and both meet at the press P1, which takes the linen of both at once, and at the folder F1. The van is
/// booked by the office, whatever the lines do.
fn tandem(second_folds_first: bool, records: &[u16]) -> Vec<u8> {
    let names = vec![
        entry("wash", "W1"),
        entry("wash", "W2"),
        entry("press", "P1"),
        entry("fold", "F1"),
        entry("book van", ""),
    ];
    let (press, fold) = (event(3), event(4));
    let line =
        |washer: u16, first: &Drawing, then: &Drawing| seq(seq(event(washer), first.clone()), then.clone());
    let first = line(1, &press, &fold);
    let second = if second_folds_first { line(2, &fold, &press) } else { line(2, &press, &fold) };
    let flow = parallel(joint(0, first, second), event(5));
    let plain = FlowFile::plain(names, flow.table(), records.to_vec());
    FlowFile { sets: vec![EventSet::of(&[3, 4])], ..plain }.bytes()
}

pub fn all() -> Vec<Sample> {
    let sample = |name, line, shows, bytes| Sample { name, shows, bytes, line };
    let clean = on_the_route(&[WASH, HOLD_HOT, DRY, BOOK_VAN, DONE]);
    let half = clean[..clean.len() - 3].to_vec();
    let trolleys = tower(10, &event(1), parallel);
    vec![
        sample(
            "clean-route.flow",
            "accepted 0 5 6",
            "Theatre linen is washed, held hot, dried, and its van is booked: the batch ran as drawn.",
            clean,
        ),
        sample(
            "hot-hold-missed.flow",
            "rejected 0 1 2",
            "The same route, but the linen was dried without the hot hold: no run goes on after the wash.",
            on_the_route(&[WASH, DRY, BOOK_VAN, DONE]),
        ),
        sample(
            "undone-in-order.flow",
            "accepted 0 7 8",
            "The batch is given up after drying and undone last step first: take out, cool down, unload.",
            on_the_route(&[WASH, HOLD_HOT, DRY, TAKE_OUT, COOL_DOWN, UNLOAD, DONE]),
        ),
        sample(
            "undone-out-of-order.flow",
            "rejected 0 3 4",
            "The batch is given up after drying, but the washer was unloaded before the dryer was emptied.",
            on_the_route(&[WASH, HOLD_HOT, DRY, UNLOAD, COOL_DOWN, TAKE_OUT, DONE]),
        ),
        sample(
            "two-lines.flow",
            "accepted 0 6 7",
            "Two lines wash and dry side by side, the second overtakes the first, and one van is booked for both.",
            two_lines(&[1, 5, 7, 3, 9, DONE]),
        ),
        sample(
            "van-too-early.flow",
            "rejected 0 3 4",
            "The same two lines, but the van was booked before the first line was dry.",
            two_lines(&[1, 5, 7, 9, 3, DONE]),
        ),
        sample(
            "comma-washer.flow",
            "accepted 0 6 7",
            "Washer \"W1,2\" and drum 2 on washer \"W1\" both wash and both hold hot: two machines, two holds.",
            two_washers(&[1, 3, 2, 4, 5, DONE]),
        ),
        sample(
            "comma-washer-confused.flow",
            "rejected 0 3 4",
            "The hold of washer \"W1,2\" is recorded twice and that of drum 2 on \"W1\" is missing: one doesn't cover the other.",
            two_washers(&[1, 3, 2, 2, 5, DONE]),
        ),
        sample(
            "any-press.flow",
            "accepted 0 5 6",
            "Two loads are drawn with \"press\" and no machine; one was pressed on P2 and one on P1: any press will do.",
            pressed(2, &[1, 4, 3, 5, DONE]),
        ),
        sample(
            "press-not-said.flow",
            "rejected 0 2 3",
            "The second load is drawn on press P1, but its record names no press: such a record fits only a step drawn without a machine.",
            pressed(3, &[1, 4, 2, 5, DONE]),
        ),
        sample(
            "meet-at-the-press.flow",
            "accepted 0 6 7",
            "A tandem plant: two lines wash on their own, then meet at press P1 and at folder F1, so one pressing and one folding count for both.",
            tandem(false, &[2, 1, 3, 5, 4, DONE]),
        ),
        sample(
            "stranded-at-the-press.flow",
            "rejected 0 2 3",
            "The second line is drawn to fold before it is pressed: after both washes each line waits for the other, only the van may still be booked, and the batch can never be closed.",
            tandem(true, &[1, 2, 3, 4, 5, DONE]),
        ),
        sample(
            "handed-back.flow",
            "accepted 0 2 3",
            "After the wash the line may yield, and this batch was withdrawn there, before drying.",
            file(route_names(), &seq(seq(event(WASH), yields()), event(DRY)), &[WASH, WITHDRAWN]),
        ),
        sample(
            "open-booking.flow",
            "accepted 0 4 5",
            "A flow with no block around it: the van is booked and that is done, then it is cancelled and that is done.",
            file(route_names(), &pair(event(BOOK_VAN), event(CANCEL_VAN)), &[BOOK_VAN, DONE, CANCEL_VAN, DONE]),
        ),
        sample(
            "too-many-orders.flow",
            "undecided 0 0 1000000",
            "Ten trolleys are unloaded in any order and the batch is closed as failed: more than a million states to try.",
            file(vec![entry("unload", "")], &trolleys, &[vec![1; 10], vec![FAILED]].concat()),
        ),
        sample(
            "cut-short.flow",
            "refused 15 204 0",
            "The clean route's file, cut in the middle of its last record but one.",
            half,
        ),
        sample(
            "named-twice.flow",
            "refused 18 10 0",
            "Two entries have the same step name and the same machine name.",
            file(vec![entry("wash", "W1"), entry("wash", "W1")], &event(1), &[1, DONE]),
        ),
        sample(
            "worked.flow",
            "accepted 0 3 4",
            "The file of 65 bytes that document 01 works through: a wash that fails is drained.",
            worked().bytes(),
        ),
    ]
}

/// Writes every sample, expected.txt (file name and line to a row) and README.md into a folder.
pub fn write(folder: &str) -> io::Result<String> {
    let folder = Path::new(folder);
    std::fs::create_dir_all(folder)?;
    for sample in all() {
        std::fs::write(folder.join(sample.name), &sample.bytes)?;
    }
    std::fs::write(folder.join("expected.txt"), expected())?;
    std::fs::write(folder.join("README.md"), readme())?;
    Ok(expected())
}

pub fn expected() -> String {
    all().iter().map(|sample| format!("{} {}\n", sample.name, sample.line)).collect()
}

pub fn readme() -> String {
    let mut text = String::from(
        "# Sample flow files

Give one to `./judge`; it prints the line shown. `./judge samples/*.flow` prints the list of all. The line is
the verdict, the refusal number or 0, the place, and the number of states the search entered. `expected.txt`
has the same lines for the gate, and `docs/FLOWS.md` takes `worked.flow` apart byte by byte.

This folder is written by `oracle samples DIR` (see `tests/`): change a sample there.

",
    );
    for sample in all() {
        writeln!(text, "- `{}`: `{}`\n  {}", sample.name, sample.line, sample.shows).unwrap();
    }
    text
}
