//! Flows for measuring the search, beside the four that were drawn by hand: `flows DIR` writes their files. What each is about:
//! how many states it enters, and how many of them differ, or how long a state takes. And batches that a panel follows, asking after each
//! record what may come next.

use crate::by_hand::{A, B};
use crate::drawing::*;
use crate::flowfile::{entry, Entry, FlowFile};
use crate::sets::EventSet;
use crate::term::{is_event, kind, DONE, FAILED, WITHDRAWN};
use std::io;
use std::ops::RangeInclusive;
use std::path::Path;

pub fn all() -> Vec<(&'static str, FlowFile)> {
    let undone = [A, FAILED];
    let mut all = vec![
        ("seven", file(&seven().0, &seven().1)),
        ("twelve", file(&tower(12, &event(A), parallel), &[vec![A; 12], vec![FAILED]].concat())),
        ("fourteen", file(&tower(14, &event(A), parallel), &[vec![A; 14], vec![FAILED]].concat())),
        ("lines", file(&lines().0, &lines().1)),
        ("pairs", file(&withdrawing(3, 12), &[A, A, A, WITHDRAWN, B, FAILED])),
        ("throww", file(&beside(throww(), 30, &yieldd()), &[FAILED, WITHDRAWN])),
        ("nestp", file(&nested(4, 21), &undone)),
        (
            "c3s12",
            FlowFile {
                sets: vec![EventSet::of(&[A]), EventSet::of(&[A, B])],
                ..file(&crowded_meetings(), &undone)
            },
        ),
        ("bad11", table_file(&ELEVEN_AMONG_OTHERS, &[vec![A; 11], vec![FAILED]].concat())),
    ];
    all.extend(
        [("levels2", 2), ("levels4", 4), ("levels8", 8)]
            .map(|(name, levels)| (name, file(&at_level(levels), &undone))),
    );
    all
}

// ---- flows whose states take long ----

/// Blocks in what undoes a block, so many one in the other. The innermost fails beside so many parts that may withdraw or not: as many
/// ways to undo it as there are choices among these, and each is found anew.
pub fn nested(levels: usize, withdrawing: usize) -> Drawing {
    let innermost = parallel(beside(throww(), withdrawing, &yieldd()), pair(skip(), event(A)));
    (1..levels).fold(block(innermost), |inner, _| block(parallel(throww(), pair(skip(), inner))))
}

/// The same search at any level: eleven parts that may withdraw, and steps behind the whole that are never reached, for 63 nodes.
fn at_level(levels: usize) -> Drawing {
    const NODES: usize = 63;
    let flow = nested(levels, 11);
    let steps = (NODES - flow.size()) / 2;
    (0..steps).fold(flow, |all, _| seq(all, event(B)))
}

/// A step that can be undone and many parts that withdraw or not behind it, some meeting at a and b: found by a search for slow flows.
fn crowded_meetings() -> Drawing {
    let (d, s) = (yieldd, skipp);
    let (a, ab) = (|p, q| joint(0, p, q), |p, q| joint(1, p, q));
    let early = parallel(parallel(d(), ab(d(), s())), ab(ab(d(), s()), d()));
    let both = parallel(parallel(ab(d(), d()), d()), parallel(ab(s(), d()), d()));
    let late = parallel(s(), ab(d(), parallel(a(d(), s()), both)));
    let some = parallel(parallel(d(), parallel(d(), parallel(early, late))), parallel(d(), s()));
    let more = (0..4).fold(some, |all, _| parallel(d(), all));
    let four = parallel(d(), parallel(d(), parallel(d(), d())));
    let crowd = parallel(ab(four, parallel(more, d())), throww());
    block(seq(pair(yields(), event(A)), crowd))
}

/// Eleven equal events beside parts that do nothing, as nodes: where a sum of the nodes' numbers told states apart, these were alike.
const ELEVEN_AMONG_OTHERS: [u16; 189] = [
    2, 0, 0, 2, 0, 0, 7, 0, 1, 1, 1, 0, 7, 2, 3, 2, 0, 0, 7, 4, 5, 2, 0, 0, 7, 6, 7, 2, 0, 0, 7, 8, 9, 2, 0,
    0, 1, 1, 0, 1, 1, 0, 7, 12, 13, 7, 11, 14, 7, 10, 15, 2, 0, 0, 7, 16, 17, 2, 0, 0, 7, 18, 19, 2, 0, 0, 7,
    20, 21, 2, 0, 0, 7, 22, 23, 2, 0, 0, 7, 24, 25, 1, 1, 0, 7, 26, 27, 2, 0, 0, 7, 28, 29, 2, 0, 0, 1, 1, 0,
    7, 31, 32, 7, 30, 33, 2, 0, 0, 1, 1, 0, 7, 35, 36, 7, 34, 37, 2, 0, 0, 7, 38, 39, 1, 1, 0, 7, 40, 41, 2,
    0, 0, 7, 42, 43, 2, 0, 0, 7, 44, 45, 2, 0, 0, 7, 46, 47, 1, 1, 0, 7, 48, 49, 2, 0, 0, 7, 50, 51, 2, 0, 0,
    7, 52, 53, 1, 1, 0, 1, 1, 0, 1, 1, 0, 7, 56, 57, 7, 55, 58, 7, 54, 59, 2, 0, 0, 7, 60, 61,
];

/// `first`, and so many copies of a part beside it.
fn beside(first: Drawing, copies: usize, part: &Drawing) -> Drawing {
    (0..copies).fold(first, |all, _| parallel(all, part.clone()))
}

/// Pairs side by side of which some have a step and the others withdraw or not: as many compensations as there are choices among
/// these, and the same ones after each order of the steps. With ten or more there are thousands.
pub fn withdrawing(stepping: usize, withdrawing: usize) -> Drawing {
    beside(tower(stepping, &pair(event(A), event(B)), parallel), withdrawing, &pair(yields(), event(B)))
}

/// No two states are equal: each of seven steps can be undone in two ways, and all is undone in the first ways but for the last record.
pub fn seven() -> (Drawing, Vec<u16>) {
    let step = |e: u16| choice(pair(event(e), event(7 + e)), pair(event(e), event(14 + e)));
    let steps = (2..=7).fold(step(1), |all, e| seq(all, step(e)));
    let records = (1..=7).chain((9..=14).rev()).chain([1, DONE]).collect();
    (block(seq(steps, throww())), records)
}

/// Three equal lines of three steps, gone through and undone in rounds; the last record is a slip.
pub fn lines() -> (Drawing, Vec<u16>) {
    let step = |e: u16| pair(event(e), event(3 + e));
    let line = seq(seq(step(1), step(2)), step(3));
    let rounds = [1, 2, 3, 6, 5].iter().flat_map(|e| [*e; 3]);
    (block(seq(tower(3, &line, parallel), throww())), rounds.chain([4, 4, 1, DONE]).collect())
}

// ---- batches for a panel ----

/// Batches of 256 records on flows of 64 nodes, which a panel follows: it asks after each record what may come next. No run of such a flow
/// has so many records. The first thirty or so are a run's, and then they come again, and no run follows; but all runs are searched again.
pub fn batches() -> Vec<(&'static str, FlowFile)> {
    let undone = || batch(undone_lines(), &[up(5), down(10, 6)].concat());
    let batches = vec![
        ("panel-route", batch(seq(block(skipp()), in_turn(1..=31)), &(1..=31).collect::<Vec<_>>())),
        ("panel-lines", batch(lines_of_ten(), &up(10))),
        ("panel-undone", undone()),
        ("panel-machines", on_machines(undone())),
    ];
    assert!(batches.iter().all(|(_, file)| (file.nodes.len(), file.records.len()) == (3 * 64, 256)));
    batches
}

/// The run again and again, 255 records long, and done.
fn batch(flow: Drawing, run: &[u16]) -> FlowFile {
    let records: Vec<u16> = run.iter().copied().cycle().take(255).chain([DONE]).collect();
    file(&flow, &records)
}

/// Events one after the other.
fn in_turn(events: RangeInclusive<u16>) -> Drawing {
    events.map(event).reduce(seq).expect("one at least")
}

/// The same record on each of three lines, for one step after the other.
fn up(last: u16) -> Vec<u16> {
    (1..=last).flat_map(|e| [e; 3]).collect()
}

fn down(first: u16, last: u16) -> Vec<u16> {
    (last..=first).rev().flat_map(|e| [e; 3]).collect()
}

/// Three equal lines of ten steps.
fn lines_of_ten() -> Drawing {
    seq(skip(), seq(block(skipp()), tower(3, &in_turn(1..=10), parallel)))
}

/// Three equal lines of five steps that fail and are undone.
fn undone_lines() -> Drawing {
    let line = (1..=5).map(|e| pair(event(e), event(5 + e))).reduce(seq).expect("five");
    block(seq(seq(skipp(), tower(3, &line, parallel)), throww()))
}

/// The same batch of steps that are drawn without a machine and recorded on one of three, in turn: forty names for ten steps.
fn on_machines(file: FlowFile) -> FlowFile {
    let machines = ["", "M1", "M2", "M3"];
    let named = |e: u16| machines.map(|machine| entry(&format!("s{e}"), machine));
    let on = |e: u16, machine: u16| 4 * (e - 1) + 1 + machine;
    let mut nodes = file.nodes;
    nodes.chunks_mut(3).filter(|node| node[0] == kind::EVENT).for_each(|node| node[1] = on(node[1], 0));
    let recorded = |(r, turn): (u16, u16)| if is_event(r) { on(r, 1 + turn % 3) } else { r };
    let records = file.records.into_iter().zip(0..).map(recorded).collect();
    FlowFile::plain((1..=10).flat_map(named).collect(), nodes, records)
}

// ---- their files ----

fn file(flow: &Drawing, records: &[u16]) -> FlowFile {
    table_file(&flow.table(), records)
}

fn table_file(nodes: &[u16], records: &[u16]) -> FlowFile {
    FlowFile::plain(plain_names(nodes, records), nodes.to_vec(), records.to_vec())
}

/// A name for every event, each a step of its own.
fn plain_names(nodes: &[u16], records: &[u16]) -> Vec<Entry> {
    let of_nodes = nodes.chunks(3).filter(|node| node[0] == kind::EVENT).map(|node| node[1]);
    let events = of_nodes.chain(records.iter().copied().filter(|r| is_event(*r))).max().unwrap_or(0);
    (1..=events).map(|e| entry(&format!("s{e}"), "")).collect()
}

/// Each file's name and bytes.
pub fn files() -> Vec<(String, Vec<u8>)> {
    let files = all().into_iter().chain(batches());
    files.map(|(name, file)| (format!("{name}.flow"), file.bytes())).collect()
}

pub fn write(folder: &str) -> io::Result<String> {
    let files = files();
    files.iter().try_for_each(|(name, bytes)| std::fs::write(Path::new(folder).join(name), bytes))?;
    Ok(format!("{} flow files\n", files.len()))
}
