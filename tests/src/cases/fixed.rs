//! The cases that every stream begins with, whatever its seed: those of document 01 and one or more for
//! each boundary that chance might miss.

use super::{lending, listing, meeting, reading, writing, Case, MOST_WORK};
use crate::by_hand::{self, A, B, C, MILLION};
use crate::drawing::*;
use crate::flowfile::{self, entry, Entry, FlowFile};
use crate::judge::Lent;
use crate::measured::{lines, seven, withdrawing};
use crate::refusals::work_wanted;
use crate::term::{is_event, Sort, DONE, FAILED, WITHDRAWN};

pub fn cases() -> Vec<(&'static str, Case)> {
    let mut all = vec![];
    let mut add = |family: &'static str, cases: Vec<Case>| all.extend(cases.into_iter().map(|c| (family, c)));
    add("fixed: by hand", judged_by_hand());
    add("fixed: limits", limits());
    add("fixed: every node", every_node());
    add("fixed: every record list", every_record_list());
    add("fixed: boundaries", boundaries());
    add("fixed: wide", wide());
    add("fixed: equal parts", equal_parts());
    add("fixed: worked file", worked_file());
    add("fixed: names", similar_names());
    add("fixed: names", missing_names());
    add("fixed: long files", long_files());
    add("fixed: reading", reading::fixed());
    add("fixed: writing", writing::fixed());
    add("fixed: any machine", lending::fixed());
    add("fixed: any machine", lending::files());
    add("fixed: next", listing::fixed());
    add("fixed: meeting", meeting::fixed());
    all
}

fn judge(flow: &Drawing, records: &[u16], allowance: u32) -> Case {
    let nodes = flow.table();
    let work_len = work_wanted(&nodes, records).min(MOST_WORK);
    Case::Judge { allowance, work_len, nodes, records: records.to_vec() }
}

/// "Judged by hand", as calls of the judge and as files.
fn judged_by_hand() -> Vec<Case> {
    let table = by_hand::table();
    let calls = table.iter().map(|case| judge(&case.flow, &case.records, case.allowance));
    let files = table.iter().map(|case| file(four_names(), &case.flow, &case.records));
    calls.chain(files).collect()
}

pub fn four_names() -> Vec<Entry> {
    vec![entry("wash", "W1"), entry("wash", "W1,2"), entry("dry", ""), entry("2,wash", "W1")]
}

fn file(names: Vec<Entry>, flow: &Drawing, records: &[u16]) -> Case {
    Case::File(FlowFile::plain(names, flow.table(), records.to_vec()).bytes())
}

/// "64 nodes are judged, 65 refused 3; 256 records, 257 refused 11", as calls and as files.
fn limits() -> Vec<Case> {
    let mut all = vec![];
    for flow in flows_at_the_limits() {
        for length in [1, 32, 33, 34, 255, 256, 257, 258, 400] {
            let records = records_of_length(&flow, length);
            all.push(judge(&flow, &records, 1_000));
            if length <= 258 {
                all.push(file(four_names(), &flow, &records));
            }
        }
    }
    all
}

/// Of 63 to 65 nodes, of both sorts.
pub fn flows_at_the_limits() -> Vec<Drawing> {
    vec![
        seq(block(skipp()), tower(31, &skip(), seq)),
        tower(33, &skip(), seq),
        tower(32, &event(A), seq),
        tower(32, &event(A), |p, q| seq(q, p)),
        block(tower(32, &throww(), parallel)),
        tower(32, &yieldd(), seq),
        tower(33, &yieldd(), seq),
    ]
}

/// Events, and as many closings as the flow needs.
pub fn records_of_length(flow: &Drawing, length: usize) -> Vec<u16> {
    let closings = if flow.sort() == Sort::Standard { 1 } else { 2 };
    [vec![A; length.saturating_sub(closings)], vec![DONE; closings]].concat()
}

/// As many entries as there may be, one less and one more; and names as long as they may be, longer, and shorter.
pub fn names_at_the_limits() -> Vec<Vec<Entry>> {
    let different = |i: usize| (vec![i as u8], vec![b'x'; i / 256]);
    let mut all: Vec<Vec<Entry>> =
        [0, 1, 255, 256, 257].map(|count| (0..count).map(different).collect()).into();
    for (step, machine) in
        [(0, 0), (1, 0), (39, 39), (40, 40), (40, 0), (1, 40), (41, 40), (40, 41), (41, 41), (255, 255)]
    {
        all.push(vec![(vec![b's'; step], vec![b'm'; machine])]);
    }
    all
}

/// Every kind and some that are none with many fields, alone and above every pair of leaves.
fn every_node() -> Vec<Case> {
    let mut all = vec![];
    let below: [&[u16]; 4] = [&[], &[2, 0, 0, 2, 0, 0], &[14, 0, 0, 14, 0, 0], &[2, 0, 0, 14, 0, 0]];
    for leaves in below {
        let fields: &[u16] = if leaves.is_empty() { &[0, 1, 256, 257] } else { &[0, 1, 2] };
        for kind in 0..=18 {
            for first in fields {
                for second in fields {
                    let nodes = [leaves, &[kind, *first, *second]].concat();
                    let records = if (10..=16).contains(&kind) { vec![DONE, DONE] } else { vec![DONE] };
                    all.push(Case::Judge { allowance: 9, work_len: 18, nodes, records });
                }
            }
        }
    }
    all
}

/// Every list of at most so many of event, closings and 0.
pub fn short_record_lists(most: usize) -> Vec<Vec<u16>> {
    let mut lists: Vec<Vec<u16>> = vec![vec![]];
    let mut longest = lists.clone();
    for _ in 0..most {
        let longer = |list: &Vec<u16>| [A, DONE, WITHDRAWN, 0].map(|r| [&list[..], &[r]].concat());
        longest = longest.iter().flat_map(longer).collect();
        lists.extend(longest.clone());
    }
    lists
}

/// A flow of each sort that can step and end in two ways.
pub fn roots_of_both_sorts() -> [Drawing; 2] {
    [choice(event(A), yields()), pair(choice(event(A), yields()), event(A))]
}

/// Every list of at most four, for both sorts of root.
fn every_record_list() -> Vec<Case> {
    let lists = short_record_lists(4);
    let of_root = |root: Drawing| lists.iter().map(move |records| judge(&root, records, 9));
    roots_of_both_sorts().into_iter().flat_map(of_root).collect()
}

/// Allowances and work lengths on both sides of what is needed, in one small flow.
fn boundaries() -> Vec<Case> {
    let nodes = block(seq(pair(event(A), event(B)), throww())).table();
    let mut all = vec![];
    for records in [[A, B, DONE], [A, B, FAILED], [B, A, DONE], [A, 0, DONE], [A, DONE, B]] {
        let wanted = work_wanted(&nodes, &records);
        for work_len in [0, 1, wanted - 1, wanted, wanted + 1, MOST_WORK] {
            for allowance in [0, 1, 2, 3, 4, 5, u32::MAX] {
                let (nodes, records) = (nodes.clone(), records.to_vec());
                all.push(Case::Judge { allowance, work_len, nodes, records });
            }
        }
    }
    for length in 0..=9 {
        let nodes = [2, 0, 0, 2, 0, 0, 5, 0, 1][..length].to_vec();
        all.push(Case::Judge { allowance: 9, work_len: 100, nodes, records: vec![DONE] });
    }
    all
}

/// Searches of about a million states, and blocks with thousands of millions of compensations.
fn wide() -> Vec<Case> {
    let (nine, ten, seven) = (orders(9), orders(10), orders(7));
    let late = choice(seq(orders(8).0, throw()), tower(8, &event(A), seq));
    let silent = block(parallel(throww(), tower(30, &yieldd(), parallel)));
    let leaves = |e: u16| pair(skip(), event(e));
    let undone = block(seq(tower(7, &choice(leaves(B), leaves(C)), parallel), throww()));
    vec![
        file(four_names(), &nine.0, &nine.1),
        file(four_names(), &ten.0, &ten.1),
        file(four_names(), &late, &a_times(8, DONE)),
        judge(&seven.0, &seven.1, 13_699),
        judge(&seven.0, &seven.1, 13_700),
        judge(&tower(16, &choice(event(A), event(A)), seq), &a_times(16, FAILED), MILLION),
        judge(&tower(31, &yieldd(), parallel), &[WITHDRAWN, FAILED], 50_000),
        judge(&tower(16, &choice(skipp(), skipp()), seq), &[DONE, FAILED], u32::MAX),
        judge(&silent, &[DONE], 10),
        judge(&silent, &[WITHDRAWN], 10),
        judge(&silent, &[A, DONE], 10),
        judge(&undone, &[C, B, C, B, C, B, C, DONE], MILLION),
        judge(&undone, &[B, B, B, A, DONE], MILLION),
    ]
}

/// So many equal events side by side, and as many records that close wrongly.
pub fn orders(n: usize) -> (Drawing, Vec<u16>) {
    (tower(n, &event(A), parallel), [vec![A; n], vec![FAILED]].concat())
}

fn count(flow: &Drawing, records: &[u16]) -> u32 {
    Lent::enough(None, &flow.table(), records, u32::MAX).effort().entered
}

/// One a or two.
fn one_or_two() -> Drawing {
    choice(event(A), seq(event(A), event(A)))
}

fn a_times(n: usize, closing: u16) -> Vec<u16> {
    [vec![A; n], vec![closing]].concat()
}

/// Flows and records for them, in whose searches the same states come again.
pub fn flows_of_equal_parts() -> Vec<(Drawing, Vec<u16>)> {
    let side_by_side = |n: usize| tower(n, &event(A), parallel);
    let a_b = pair(event(A), event(B));
    let again = handler(seq(side_by_side(5), throw()), side_by_side(5));
    let late = choice(seq(side_by_side(7), throw()), side_by_side(7));
    let undone = block(seq(tower(4, &a_b, parallel), throww()));
    let two_kinds = parallel(tower(6, &event(A), parallel), tower(6, &event(B), parallel));
    let twice = parallel(tower(3, &choice(a_b.clone(), a_b.clone()), parallel), yieldd());
    vec![
        orders(8),
        seven(),
        lines(),
        (again, a_times(10, FAILED)),
        (late, a_times(7, DONE)),
        (tower(12, &choice(event(A), event(A)), seq), a_times(12, FAILED)),
        (tower(9, &one_or_two(), seq), a_times(13, FAILED)),
        (undone, [vec![A; 4], vec![B; 3], vec![C, DONE]].concat()),
        (pair(side_by_side(5), side_by_side(5)), [a_times(5, DONE), a_times(5, FAILED)].concat()),
        (twice, [a_times(3, WITHDRAWN), vec![B, B, B, FAILED]].concat()),
        (two_kinds, [[A, B].repeat(6), vec![FAILED]].concat()),
        (withdrawing(2, 10), [a_times(2, WITHDRAWN), vec![B, FAILED]].concat()),
    ]
}

/// These with allowances on both sides of what is needed and of powers of two; and record lists that differ in one slip, one after the
/// other.
fn equal_parts() -> Vec<Case> {
    let mut all = vec![];
    for (flow, records) in &flows_of_equal_parts() {
        let count = count(flow, records);
        for allowance in [31, 32, 33, 64, 65, count / 2, count - 1, count, count + 1] {
            all.push(judge(flow, records, allowance));
        }
    }
    for later in [1, 2, 4, 8, 16] {
        // The same term comes after so many records more, which leaves fewer for what follows.
        let first = choice(event(A), tower(1 + later, &event(A), seq));
        let (flow, records) = (seq(first, tower(4, &one_or_two(), seq)), a_times(later + 6, FAILED));
        let count = count(&flow, &records);
        all.extend([count - 1, count].map(|allowance| judge(&flow, &records, allowance)));
    }
    let (flow, records) = lines();
    for at in 8..records.len() - 1 {
        let mut records = records.clone();
        records[at] = C;
        all.push(judge(&flow, &records, MILLION));
    }
    let (flow, records) = orders(10);
    all.extend([9_864_100, 9_864_101].map(|allowance| judge(&flow, &records, allowance)));
    all
}

/// Six equal lines of three steps, gone through in rounds.
pub fn six_lines() -> (Drawing, Vec<u16>) {
    let line = seq(seq(event(A), event(B)), event(C));
    let rounds = [vec![A; 6], vec![B; 6], vec![C; 6], vec![FAILED]].concat();
    (tower(6, &line, parallel), rounds)
}

/// Searches of thousands of millions of states of which some thousand differ: in no stream, because a judge that goes through equal states
/// again would take hours.
pub fn long() -> Vec<Case> {
    let mut all = [listing::long(), meeting::long()].concat();
    for (flow, records) in [orders(12), six_lines()] {
        let count = count(&flow, &records);
        all.extend([1 << 31, count - 1, count, u32::MAX].map(|allowance| judge(&flow, &records, allowance)));
    }
    for n in [13, 14, 16] {
        let (flow, records) = orders(n);
        all.extend([u32::MAX - 1, u32::MAX].map(|allowance| judge(&flow, &records, allowance)));
    }
    all
}

/// The worked file, every cut of it, and every byte of it exchanged.
fn worked_file() -> Vec<Case> {
    let worked = flowfile::worked().bytes();
    let cuts = (0..=worked.len()).map(|length| Case::File(worked[..length].to_vec()));
    let exchanged = (0..worked.len()).flat_map(|at| {
        [worked[at].wrapping_add(1), worked[at].wrapping_sub(1), 255].map(|byte| {
            let mut file = worked.clone();
            file[at] = byte;
            Case::File(file)
        })
    });
    let longer = Case::File([&worked[..], &[0]].concat());
    cuts.chain([longer]).chain(exchanged).collect()
}

/// Two entries that differ in little, or not at all.
fn similar_names() -> Vec<Case> {
    let pairs = [
        (entry("wash", "W1,2"), entry("wash", "W1")),
        (entry("wash", "W1,2"), entry("wash,W1", "2")),
        (entry("hold hot", "W1,2"), entry("2,hold hot", "W1")),
        (entry("wash", "W1,2"), entry("wash", "W1,2")),
        (entry("wash", ""), entry("wash", "W")),
        (entry("wash", ""), entry("wash", "")),
        (entry("wash", "W1"), entry("Wash", "W1")),
        (entry("wash", "W1"), entry("wash", "w1")),
        (entry("wash", "W1"), entry("wash ", "W1")),
        (entry("a", "b"), entry("ab", "")),
        (entry("\0", ""), entry("\0\0", "")),
        (entry("\0", "\0"), entry("\0", "\0")),
    ];
    let mut all = vec![];
    for (first, second) in pairs {
        for records in [[A, DONE], [B, DONE]] {
            all.push(file(vec![first.clone(), second.clone()], &event(A), &records));
        }
    }
    let every_byte: Vec<Entry> = (0..=255).map(|byte| (vec![byte], vec![255 - byte])).collect();
    all.push(file(every_byte.clone(), &event(256), &[256, DONE]));
    for (at, equal_to) in [(255, 0), (255, 254), (1, 0), (128, 127)] {
        let mut names = every_byte.clone();
        names[at] = names[equal_to].clone();
        all.push(file(names, &event(256), &[256, DONE]));
    }
    all
}

/// Events of nodes and of records just within the names and just beyond them; none at all is allowed too.
fn missing_names() -> Vec<Case> {
    let mut all = vec![];
    for count in [0, 1, 2, 255, 256] {
        let names: Vec<Entry> = (0..count).map(|i| (vec![i as u8], vec![])).collect();
        let beyond = [1, 2, count as u16, count as u16 + 1];
        for e in beyond.into_iter().filter(|e| is_event(*e)) {
            all.push(file(names.clone(), &skip(), &[DONE]));
            all.push(file(names.clone(), &skip(), &[e, DONE]));
            all.push(file(names.clone(), &event(e), &[DONE]));
            all.push(file(names.clone(), &seq(skip(), event(e)), &[DONE, e]));
            all.push(file(names.clone(), &seq(skip(), event(e)), &[1, e, DONE]));
            all.push(file(names.clone(), &pair(event(1), event(e)), &[1, DONE, e, DONE]));
        }
    }
    all
}

/// The longest file there is.
pub fn longest() -> FlowFile {
    let long_name = |i: usize| ([&[i as u8][..], &[b'x'; 39]].concat(), vec![b','; 40]);
    let flow = seq(block(skipp()), tower(31, &event(256), seq));
    let records = [vec![256; 255], vec![DONE]].concat();
    FlowFile::plain((0..256).map(long_name).collect(), flow.table(), records)
}

/// The longest file, one byte more, many bytes more, and one cut near its end.
fn long_files() -> Vec<Case> {
    let longest = longest().bytes();
    assert_eq!(longest.len(), 21_894);
    let with = |more: usize| Case::File([&longest[..], &vec![7; more]].concat());
    let cut = |less: usize| Case::File(longest[..longest.len() - less].to_vec());
    vec![with(0), with(1), with(2), with(65_535 - 21_894), cut(1), cut(2), cut(3), cut(512), cut(900)]
}
