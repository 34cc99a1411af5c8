//! Two lines that meet at the press, request Four of document 02: the fixed cases of everything that is lent sets or reads them, and calls of
//! the judge without names on flows of `tandem`. With names they are in `lending`, of other functions in `listing` and `writing`, in
//! files in `filing`.

use super::calling::Call;
use super::lending::{self, presses, LIFT, LIFT_P1, LIFT_P2, PRESS, PRESS_P1, PRESS_P2};
use super::spoiling::{spoil, AIMS};
use super::tandem::{self, crowded_block, EVENTS};
use super::{fixed, judging, reading, writing, Case, MOST_NUMBERS, MOST_SET_BYTES, MOST_WORK};
use crate::by_hand::{self, A, B, C, MILLION};
use crate::drawing::*;
use crate::flowfile::{entry, Entry, FlowFile};
use crate::judge::Lent;
use crate::rng::Rng;
use crate::sets::{bytes_of, EventSet, MOST_SETS, SET_BYTES};
use crate::term::{kind, Sort, DONE, FAILED, MOST_EVENT, WITHDRAWN};

fn judge(flow: &Drawing, sets: &[EventSet], records: &[u16]) -> Call {
    Call::judge(None, flow.table(), records.to_vec()).with_sets(bytes_of(sets))
}

fn file(names: &[Entry], flow: &Drawing, sets: &[EventSet], records: &[u16]) -> FlowFile {
    FlowFile { sets: sets.to_vec(), ..FlowFile::plain(names.to_vec(), flow.table(), records.to_vec()) }
}

/// Events a to e.
fn five_names() -> Vec<Entry> {
    [fixed::four_names(), vec![entry("press", "P1")]].concat()
}

/// The same lists lent to everything that takes them: to a judge and to a list of what may come next, with names and without, and to the
/// writer. A beginning has no last record.
fn every_call(call: &Call) -> Vec<Call> {
    let Call { names, nodes, records, sets, .. } = call;
    let before_last = records[..records.len().saturating_sub(1)].to_vec();
    let judge = Call::judge(Some(names.clone()), nodes.clone(), records.clone());
    let next = Call::next(Some(names.clone()), nodes.clone(), before_last);
    let write = Call::write(names.clone(), nodes.clone(), records.clone());
    let calls = [judge.clone(), judge.nameless(), next.clone(), next.nameless(), write];
    calls.into_iter().map(|call| call.with_sets(sets.clone())).collect()
}

/// These calls, and the file of each for the reader and for the program.
fn every_case(call: &Call) -> Vec<Case> {
    let calls = every_call(call).into_iter().map(Case::Call);
    calls.chain([reading::read(call.file()), Case::File(call.file())]).collect()
}

// ---- the fixed ones ----

pub fn fixed() -> Vec<Case> {
    let mut cases = met_by_hand();
    cases.extend(numbers_of_sets());
    cases.extend(lengths_of_sets());
    cases.extend(sections());
    cases.extend(longest());
    cases.extend(every_bit());
    let mut calls = faults();
    calls.extend(any_press());
    calls.extend(any_press_undone());
    calls.extend(limits());
    calls.extend(wide());
    calls.extend(equal_parts());
    calls.extend(one_after_the_other());
    cases.extend(calls.into_iter().map(Case::Call));
    cases
}

/// Worked out by hand: judged with names and without, as files, written, read, and listed after every beginning.
fn met_by_hand() -> Vec<Case> {
    let mut all = vec![];
    for case in by_hand::meetings() {
        let file = file(&five_names(), &case.flow, &by_hand::sets(), &case.records);
        let call = Call { allowance: case.allowance, ..lending::judge_of(file.clone()) };
        all.extend([call.clone(), call.nameless(), writing::write_of(file.clone())].map(Case::Call));
        all.extend([reading::read(file.bytes()), Case::File(file.bytes())]);
        for length in 0..=case.records.len() {
            let beginning = case.records[..length].to_vec();
            let next = Call::next(None, file.nodes.clone(), beginning).with_sets(file.lent_sets());
            all.push(Case::Call(Call { allowance: case.allowance, ..next }));
        }
    }
    all
}

/// A parallel of two leaves that are done, of this kind.
fn of_kind(kind: u16) -> Call {
    let (leaf, records) = match crate::term::sort_of(kind) {
        Sort::Standard => (kind::SKIP, vec![DONE]),
        Sort::Compensable => (kind::SKIPP, vec![DONE, DONE]),
    };
    Call::write(vec![0, 0], vec![leaf, 0, 0, leaf, 0, 0, kind, 0, 1], records)
}

/// 22: set numbers that are just present and just not, for no sets, one, two, fifteen and sixteen; and kinds beside those of joint
/// parallels, which are 4 as ever. Then 22 among the other refusals of a node.
fn numbers_of_sets() -> Vec<Case> {
    let mut all = vec![];
    let some_sets = |count: usize| vec![255; SET_BYTES * count];
    for first in [kind::JOINT, kind::COMP_JOINT] {
        for count in [0, 1, 2, 15, 16] {
            let mut numbers = vec![0, count.max(1) - 1, count, 15];
            numbers.dedup();
            for number in numbers.into_iter().filter(|number| *number < MOST_SETS) {
                all.extend(every_case(&of_kind(first + number as u16).with_sets(some_sets(count))));
            }
        }
        for kind in [first - 1, first + 16, first + 17, first + 256 + 255] {
            all.extend(every_case(&of_kind(kind).with_sets(some_sets(16))));
        }
    }
    // 22 before 5 to 8 of the same node, after 4 to 8 of a lower one, and before 9; with one set lent
    let tables: [&[u16]; 12] = [
        &[257, 0, 0],
        &[256, 0, 0],
        &[527, 7, 7],
        &[2, 0, 0, 257, 0, 0],
        &[2, 0, 0, 256, 0, 0],
        &[14, 0, 0, 2, 0, 0, 257, 0, 1],
        &[14, 0, 0, 2, 0, 0, 256, 0, 1],
        &[2, 0, 0, 2, 0, 0, 512, 0, 1],
        &[17, 0, 0, 257, 0, 0],
        &[1, 0, 0, 257, 0, 0],
        &[2, 0, 0, 2, 0, 0, 2, 0, 0, 513, 0, 1],
        &[2, 0, 0, 2, 0, 0, 2, 0, 0, 256, 0, 1],
    ];
    for nodes in tables {
        all.extend(every_case(&Call::write(vec![0, 0], nodes.to_vec(), vec![DONE]).with_sets(some_sets(1))));
    }
    all
}

/// 23 for lengths that are no multiple of 32 or above 512, with a flow that names no set and with one that names the first; and with a
/// node that is refused too, or a name.
fn lengths_of_sets() -> Vec<Case> {
    let lengths = [0, 1, 31, 32, 33, 63, 64, 65, 480, 511, 512, 513, 543, 544, 545, 576, 599, MOST_SET_BYTES];
    let mut all = vec![];
    for length in lengths {
        for kind in [kind::PARALLEL, kind::JOINT, kind::LAST_COMP_JOINT] {
            let call = of_kind(kind).with_sets(vec![0; length]);
            all.extend(every_call(&call).into_iter().map(Case::Call));
        }
    }
    for length in [31, 32, 544] {
        let unknown = Call { names: vec![0, 0, 0], ..of_kind(17) }.with_sets(vec![0; length]);
        all.extend(every_call(&unknown).into_iter().map(Case::Call));
        let no_nodes = Call { nodes: vec![], ..of_kind(17) }.with_sets(vec![0; length]);
        all.extend(every_call(&no_nodes).into_iter().map(Case::Call));
        let no_records = Call { records: vec![], ..of_kind(17) }.with_sets(vec![0; length]);
        all.extend(every_call(&no_records).into_iter().map(Case::Call));
    }
    all
}

/// Two lines that meet at the second of their steps, as a file with two sets.
fn pressed() -> FlowFile {
    let flow = joint(1, seq(event(A), event(B)), seq(event(C), event(B)));
    let sets = [EventSet::of(&[A]), EventSet::of(&[B, MOST_EVENT])];
    file(&five_names(), &flow, &sets, &[A, C, B, DONE])
}

/// The fourth section of a file: every cut from the last record on, every count, bytes after it, and every byte exchanged.
fn sections() -> Vec<Case> {
    let file = pressed();
    let whole = file.bytes();
    let records_end = FlowFile { sets: vec![], ..file }.bytes().len();
    let mut files: Vec<Vec<u8>> =
        (records_end - 2..=whole.len()).map(|length| whole[..length].to_vec()).collect();
    for count in [0u16, 1, 2, 3, 15, 16, 17, 18, 255, 256, 257, 512, 65_535] {
        for bytes in [0, 1, 31, 32, 33, 64, 512, 544, SET_BYTES * count as usize % 4_096] {
            let sets = [&count.to_le_bytes()[..], &vec![2; bytes]].concat();
            files.push([&whole[..records_end], &sets].concat());
        }
    }
    files.extend([1, 2, 32, 300].map(|more| [&whole[..], &vec![0; more]].concat()));
    for at in records_end..whole.len() {
        for byte in [whole[at].wrapping_add(1), 255] {
            let mut file = whole.clone();
            file[at] = byte;
            files.push(file);
        }
    }
    files.into_iter().flat_map(|file| [Case::File(file.clone()), reading::read(file)]).collect()
}

/// The longest file there is, one byte more, many more, and cut near its end; judged, listed and written.
fn longest() -> Vec<Case> {
    let flow = joint(15, block(skipp()), tower(31, &event(MOST_EVENT), |p, q| joint(15, p, q)));
    let sets = vec![EventSet([255; SET_BYTES]); MOST_SETS];
    let longest = FlowFile { nodes: flow.table(), sets, ..fixed::longest() };
    let bytes = longest.bytes();
    assert_eq!(bytes.len(), 22_408);
    let mut files: Vec<Vec<u8>> =
        [0, 1, 2, 65_535 - 22_408].map(|more| [&bytes[..], &vec![7; more]].concat()).into();
    files.extend([1, 31, 32, 33, 512, 513, 514, 515].map(|less| bytes[..bytes.len() - less].to_vec()));
    let mut all: Vec<Case> =
        files.into_iter().flat_map(|file| [Case::File(file.clone()), reading::read(file)]).collect();
    let write = writing::write_of(longest.clone());
    let rooms = [22_407, 22_408];
    all.extend(rooms.map(|room| Case::Call(Call { room, ..write.clone() })));
    let calls = every_call(&write).into_iter().filter(|call| call.function != write.function);
    all.extend(calls.map(Case::Call));
    all
}

/// "Event k at bit (k-1) mod 8 of byte (k-1)/8": lines that meet at k alone, and at all but k.
fn every_bit() -> Vec<Case> {
    let mut all = vec![];
    for e in [1, 2, 7, 8, 9, 15, 16, 17, 64, 65, 127, 128, 129, 136, 192, 193, 248, 249, 255, 256] {
        let others: Vec<u16> = (1..=MOST_EVENT).filter(|other| *other != e).collect();
        for flow in
            [joint(0, event(e), event(e)), joint(0, pair(event(e), event(e)), pair(event(e), event(e)))]
        {
            for set in [EventSet::of(&[e]), EventSet::of(&others)] {
                for times in [1, 2] {
                    let half = [vec![e; times], vec![DONE]].concat();
                    let records = if flow.sort() == Sort::Standard { half } else { half.repeat(2) };
                    all.push(Case::Call(judge(&flow, &[set], &records)));
                }
            }
        }
    }
    all
}

/// Each of the planned faults together with one of the two about sets, done to a call that is lent sets.
fn faults() -> Vec<Call> {
    let planned = writing::planned().with_sets(bytes_of(&by_hand::sets()));
    let faulty = writing::faults_alone_and_in_pairs(&planned, &writing::FAULTS.each_ref());
    let about_sets =
        |call: &Call| call.sets.len() != planned.sets.len() || call.nodes.first() == Some(&kind::COMP_JOINT);
    faulty.into_iter().map(|(_, call)| call).filter(about_sets).collect()
}

/// "A node without a machine steps by the record's event, which is looked up in the set", and of two sides each must take it.
fn any_press() -> Vec<Call> {
    let each = [PRESS, PRESS_P1, PRESS_P2];
    let mut lists: Vec<Vec<u16>> = each.map(|one| vec![one]).into();
    lists.extend(each.iter().flat_map(|one| each.map(|other| vec![*one, other])));
    let sets: [&[u16]; 6] = [&[], &[PRESS], &[PRESS_P1], &[PRESS_P2], &[PRESS_P1, PRESS_P2], &each];
    let leaves = [(PRESS, PRESS), (PRESS, PRESS_P1), (PRESS_P1, PRESS), (PRESS_P1, PRESS_P2)];
    let mut all = vec![];
    for set in sets {
        for (left, right) in leaves {
            let flow = joint(0, event(left), event(right));
            let call =
                |records: &[u16]| lending::judge_of(file(&presses(), &flow, &[EventSet::of(set)], records));
            for list in &lists {
                all.push(call(&[&list[..], &[DONE]].concat()));
                let Call { names, nodes, sets, .. } = call(list);
                all.push(Call::next(Some(names), nodes, list.clone()).with_sets(sets));
            }
            all.push(call(&[PRESS_P1, DONE]).nameless());
        }
    }
    all
}

/// The same in what undoes a pressing, in a block that fails and left behind by a compensable root.
fn any_press_undone() -> Vec<Call> {
    let step = |press: u16, lift: u16| pair(event(press), event(lift));
    let sets: [&[u16]; 4] = [&[PRESS_P1], &[PRESS_P1, LIFT_P1], &[PRESS_P1, LIFT_P1, LIFT_P2], &[LIFT_P1]];
    let mut all = vec![];
    for set in sets {
        for (left, right) in [(LIFT, LIFT), (LIFT, LIFT_P1), (LIFT_P2, LIFT)] {
            let met = joint(0, step(PRESS, left), step(PRESS, right));
            for lifts in
                [&[LIFT_P1][..], &[LIFT_P2], &[LIFT_P1, LIFT_P1], &[LIFT_P2, LIFT_P1], &[LIFT_P1, LIFT]]
            {
                let presses_taken = if set.contains(&PRESS_P1) { 1 } else { 2 };
                let pressed = vec![PRESS_P1; presses_taken];
                let call = |flow: &Drawing, records: &[u16]| {
                    lending::judge_of(file(&presses(), flow, &[EventSet::of(set)], records))
                };
                let undone = block(seq(met.clone(), throww()));
                all.push(call(&undone, &[&pressed[..], lifts, &[DONE]].concat()));
                all.push(call(&met, &[&pressed[..], &[DONE], lifts, &[DONE]].concat()));
            }
        }
    }
    all
}

/// 64 nodes and 65, 256 records and 257, all of them of lines that meet; and the work bytes wanted, one less and one more.
fn limits() -> Vec<Call> {
    let meet = |p, q| joint(15, p, q);
    let sets = vec![EventSet::of(&[A]); MOST_SETS];
    let flows = [
        joint(15, block(skipp()), tower(31, &event(A), meet)),
        tower(32, &event(A), meet),
        tower(33, &event(A), meet),
        tower(32, &event(A), |p, q| meet(q, p)),
        tower(32, &yieldd(), meet),
        joint(15, tower(16, &event(A), seq), tower(16, &event(A), seq)),
        block(joint(0, tower(10, &pair(event(A), event(A)), seq), tower(5, &pair(event(A), event(A)), seq))),
    ];
    let mut all = vec![];
    for flow in &flows {
        for length in [2, 17, 255, 256, 257] {
            let records = fixed::records_of_length(flow, length);
            let call = Call { allowance: 1_000, ..judge(flow, &sets, &records) };
            let wanted = call.work_len;
            if length == 256 {
                let near = [wanted.saturating_sub(1), (wanted + 1).min(MOST_WORK as u32)];
                all.extend(near.map(|work_len| Call { work_len, ..call.clone() }));
            }
            all.push(Call { records: records[..length - 1].to_vec(), ..next_of(&call) });
            all.push(call);
        }
    }
    all
}

/// The same lists asked for what may come next.
fn next_of(call: &Call) -> Call {
    let next = Call::next(None, call.nodes.clone(), call.records.clone()).with_sets(call.sets.clone());
    Call { allowance: call.allowance, ..next }
}

/// Steps that multiply where lines meet, and blocks of 64 nodes with millions of compensations in joint parallels, few of which step:
/// answered at once.
fn wide() -> Vec<Call> {
    let sets = by_hand::sets();
    let meet_a = |p, q| joint(by_hand::ONLY_A, p, q);
    let meet_b = |p, q| joint(by_hand::ONLY_B, p, q);
    let yielding = pair(yields(), event(A));
    // 2^26 compensations, of which none steps by a, since YIELDD leaves SKIP: a meets nobody
    let silent = block(meet_a(throww(), meet_a(tower(5, &yielding, meet_a), tower(21, &yieldd(), meet_a))));
    // 2^21 of them step by a: all five have to be done
    let together =
        block(parallel(throww(), parallel(tower(5, &yielding, meet_a), tower(21, &yieldd(), meet_a))));
    // 2^14 compensations, of which one steps by a
    let one_of_many = block(meet_a(throww(), tower(14, &yielding, meet_a)));
    let one_beside = block(parallel(throww(), tower(14, &yielding, meet_a)));
    // and by b nothing has to meet: each a is a step of its own
    let apart = block(parallel(throww(), tower(9, &yielding, meet_b)));
    let blocks = |left: usize, right: usize| meet_a(crowded_block(left, A), crowded_block(right, A));
    let withdrawing = tower(31, &yieldd(), meet_a);
    let choices = tower(8, &tower(4, &event(A), choice), meet_a);
    assert!([&silent, &together].iter().all(|flow| flow.size() == 64));
    let closings: [&[u16]; 4] = [&[DONE], &[A, DONE], &[B, DONE], &[WITHDRAWN]];
    let mut all = vec![];
    let mut add = |flow: &Drawing, records: &[u16], allowance: u32| {
        all.push(Call { allowance, ..judge(flow, &sets, records) });
    };
    for records in closings {
        add(&silent, records, MILLION);
        add(&one_of_many, records, MILLION);
        add(&one_beside, records, MILLION);
        add(&together, records, 100);
    }
    add(&one_beside, &[A, A, DONE], MILLION);
    add(&one_beside, &[A, FAILED], u32::MAX);
    for records in [&[A, A, A, DONE][..], &[A, B, DONE], &[A, FAILED]] {
        add(&apart, records, MILLION);
    }
    // 2^6, 2^16, and up to 2^25 successors by one record
    for allowance in [64, 65, 66, MILLION] {
        add(&blocks(3, 3), &[A, FAILED], allowance);
    }
    for allowance in [65_536, 65_537] {
        add(&blocks(8, 8), &[A, FAILED], allowance);
    }
    for (left, right) in [(10, 13), (12, 12), (12, 13)] {
        add(&blocks(left, right), &[A, DONE], 100);
        add(&blocks(left, right), &[A, A, DONE], 20_000);
        add(&blocks(left, right), &[B, DONE], u32::MAX);
    }
    add(&withdrawing, &[WITHDRAWN, FAILED], 50_000);
    add(&withdrawing, &[DONE, FAILED], 50_000);
    add(&withdrawing, &[DONE, A, DONE], 50_000);
    for allowance in [65_536, 65_537, 65_538] {
        add(&choices, &[A, FAILED], allowance);
        add(&choices, &[A, DONE], allowance);
    }
    let lists: Vec<Call> = all
        .iter()
        .map(|call| {
            let next = next_of(call);
            Call { records: next.records[..next.records.len() - 1].to_vec(), ..next }
        })
        .collect();
    [all, lists].concat()
}

/// Two crowds that meet by a, so many on each side, and records that close wrongly: with eight on each side the search enters nearly as many
/// states as 32 bits can count.
pub fn crowds(sides: usize, each: usize) -> (Drawing, Vec<u16>) {
    let crowd = tower(each, &event(A), parallel);
    (tower(sides, &crowd, |p, q| joint(by_hand::ONLY_A, p, q)), [vec![A; each], vec![FAILED]].concat())
}

fn count(call: &Call) -> u32 {
    Lent { allowance: u32::MAX, ..call.lent() }.effort().entered
}

/// Flows and records for them, in whose searches the same states come again, with allowances on both sides of what is needed.
fn equal_parts() -> Vec<Call> {
    let meet = |set: u16| move |p, q| joint(set, p, q);
    let step = pair(event(A), event(B));
    let line = seq(seq(event(A), event(B)), event(C));
    let undone = |set: u16| block(seq(tower(3, &parallel(step.clone(), step.clone()), meet(set)), throww()));
    let flows: Vec<(Drawing, Vec<u16>)> = vec![
        crowds(2, 4),
        crowds(3, 3),
        crowds(2, 5),
        (tower(4, &line, meet(by_hand::ONLY_B)), [vec![A; 4], vec![B], vec![C; 4], vec![FAILED]].concat()),
        (
            parallel(tower(3, &line, meet(by_hand::A_AND_B)), tower(3, &event(C), parallel)),
            vec![A, B, C, C, C, C, C, C, FAILED],
        ),
        (undone(by_hand::ONLY_A), vec![A, A, B, B, B, B, B, A, DONE]),
        (undone(by_hand::A_AND_B), vec![A, A, B, B, FAILED]),
        (undone(by_hand::ONLY_B), vec![A, A, A, A, A, A, B, B, FAILED]),
        (tower(6, &choice(event(A), event(A)), meet(by_hand::ONLY_A)), vec![A, FAILED]),
    ];
    let mut all = vec![];
    for (flow, records) in flows {
        let call = judge(&flow, &by_hand::sets(), &records);
        let count = count(&call);
        for allowance in [31, 32, 33, 64, count / 2, count - 1, count, count + 1] {
            all.push(Call { allowance, ..call.clone() });
        }
        let listed = next_of(&call);
        let listed = Call { records: listed.records[..listed.records.len() - 1].to_vec(), ..listed };
        all.extend([count - 1, count].map(|allowance| Call { allowance, ..listed.clone() }));
    }
    all
}

/// The same nodes and records with other sets, one after the other: what was found with some sets is nothing for others.
fn one_after_the_other() -> Vec<Call> {
    let step = |e: u16| pair(event(e), event(e));
    let undone = block(seq(joint(0, parallel(step(A), step(B)), joint(0, step(A), step(B))), throww()));
    let crowd = joint(0, tower(4, &event(A), parallel), tower(4, &event(A), parallel));
    let sets = [&[][..], &[A], &[B], &[A, B], &[], &[B], &[A]];
    let mut all = vec![];
    for (flow, records) in [(undone, vec![A, B, A, B, FAILED]), (crowd, vec![A, A, A, A, FAILED])] {
        for set in sets {
            let call = judge(&flow, &[EventSet::of(set)], &records);
            all.extend([call.clone(), next_of(&Call { records: records[..4].to_vec(), ..call })]);
        }
    }
    all
}

/// Searches of up to thousands of millions of states of which a thousand or so differ, for `fixed::long`: one crowd after another, counted
/// to the end and given up.
pub fn long() -> Vec<Case> {
    let crowd = |each: usize| crowds(2, each).0;
    let after = |first: usize, second: usize| {
        let records = [vec![A; first + second], vec![FAILED]].concat();
        judge(&seq(crowd(first), crowd(second)), &by_hand::sets(), &records)
    };
    let beginning = |call: &Call| {
        let records = call.records[..call.records.len() - 1].to_vec();
        next_of(&Call { records, ..call.clone() })
    };
    let counted = after(6, 4);
    let count = count(&counted);
    let mut all = vec![];
    for call in [counted.clone(), beginning(&counted)] {
        all.extend([count - 1, count, 1 << 31, u32::MAX].map(|allowance| Call { allowance, ..call.clone() }));
    }
    let given_up = Call { allowance: u32::MAX, ..after(6, 5) };
    all.extend([beginning(&given_up), given_up]);
    all.into_iter().map(Case::Call).collect()
}

// ---- random ones ----

/// A flow of lines that meet, and its records; without names.
fn any_file(rng: &mut Rng) -> FlowFile {
    let tandem = tandem::any(rng);
    judging::records_of_flow(rng, &tandem, EVENTS, MOST_EVENT as usize)
}

/// A call of the judge without names.
pub fn case(rng: &mut Rng) -> Case {
    let file = any_file(rng);
    lending::near_its_count(rng, lending::judge_of(file).nameless())
}

/// The same with one or two damages, every second one to the sets.
pub fn damaged_case(rng: &mut Rng) -> Case {
    let file = any_file(rng);
    let mut sets = file.lent_sets();
    let FlowFile { mut nodes, mut records, .. } = file;
    let mut short = false;
    for _ in 0..rng.between(1, 2) {
        let aim = if rng.once_in(2) { *rng.pick(&[22, 23]) } else { *rng.pick(&AIMS) };
        match aim {
            14 => short = true,
            number => spoil(rng, number, &mut nodes, &mut records, &mut sets),
        }
    }
    nodes.truncate(MOST_NUMBERS);
    records.truncate(MOST_NUMBERS);
    lending::with_work(rng, Call::judge(None, nodes, records).with_sets(sets), short)
}
