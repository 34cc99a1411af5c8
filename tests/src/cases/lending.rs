//! Calls of the judge with everything that may be lent: with names, and without.

use super::calling::Call;
use super::damaging::{self, Lists};
use super::judging::{count_within, near, near_the_count};
use super::tandem::{self, Tandem};
use super::writing::{self, Fault, FAULTS};
use super::{filing, fixed, judging, naming, undoing, wide, Case, MOST_WORK};
use crate::by_hand;
use crate::drawing::*;
use crate::flowfile::{entry, Entry, FlowFile};
use crate::judge::Lent;
use crate::refusals::work_wanted;
use crate::rng::Rng;
use crate::term::{kind, DONE, FAILED, WITHDRAWN};

/// Pressing and what undoes it, without a machine and on either of two: events 1 to 6.
pub fn presses() -> Vec<Entry> {
    vec![
        entry("press", ""),
        entry("press", "P1"),
        entry("press", "P2"),
        entry("lift", ""),
        entry("lift", "P1"),
        entry("lift", "P2"),
    ]
}
pub const PRESS: u16 = 1;
pub const PRESS_P1: u16 = 2;
pub const PRESS_P2: u16 = 3;
pub const LIFT: u16 = 4;
pub const LIFT_P1: u16 = 5;
pub const LIFT_P2: u16 = 6;

/// Step names that differ in a byte, in a letter's case, in length or by a comma; and machine names that matter only by being none.
pub fn similar() -> Vec<Entry> {
    vec![
        entry("press", ""),
        entry("press", "P1"),
        entry("press", "P2"),
        entry("press", ","),
        entry("pres", ""),
        entry("presS", ""),
        entry("Press", "P1"),
        entry("press,", ""),
        entry("press,P1", ""),
        entry("\0press", "P1"),
        entry("wash", ""),
        entry("p", "ress"),
    ]
}

fn judge(names: &[Entry], flow: &Drawing, records: &[u16]) -> Call {
    judge_of(FlowFile::plain(names.to_vec(), flow.table(), records.to_vec()))
}

/// A judging of what stands in a file, with its names and its sets.
pub fn judge_of(file: FlowFile) -> Call {
    let (names, sets) = (file.names_section(), file.lent_sets());
    Call::judge(Some(names), file.nodes, file.records).with_sets(sets)
}

// ---- the fixed ones ----

pub fn fixed() -> Vec<Case> {
    let mut calls = judged_by_hand();
    calls.extend(every_leaf_with_every_record());
    calls.extend(in_every_place());
    calls.extend(undone());
    calls.extend(faults());
    calls.extend(lists_of_the_writer());
    calls.extend(limits());
    calls.extend(boundaries());
    calls.extend(equal_parts());
    calls.extend(one_after_the_other());
    calls.into_iter().map(Case::Call).collect()
}

/// Files whose verdicts hang on their names: the first five leaves with every record, some that are undone, and many presses.
pub fn files() -> Vec<Case> {
    let named = |call: &Call| call.names_lent == 1;
    let single = every_leaf_with_every_record().into_iter().filter(named);
    let mut calls: Vec<Call> = single.take(5 * similar().len()).collect();
    calls.extend(undone().into_iter().step_by(5));
    calls.extend(presses_at_the_limit());
    calls.iter().map(|call| Case::File(call.file())).collect()
}

/// "Judged by hand", with names and without.
fn judged_by_hand() -> Vec<Call> {
    let call = |case: by_hand::HandCase| {
        let call = judge(&fixed::four_names(), &case.flow, &case.records);
        let call = Call { allowance: case.allowance, ..call };
        [call.clone(), call.nameless()]
    };
    by_hand::table().into_iter().flat_map(call).collect()
}

/// A single leaf and a single record, with names and, for the first of them, without.
fn every_leaf_with_every_record() -> Vec<Call> {
    let names = similar();
    let events = 1..=names.len() as u16;
    let mut all = vec![];
    for leaf in events.clone() {
        for record in events.clone() {
            let call = judge(&names, &event(leaf), &[record, DONE]);
            if leaf <= 3 && record <= 3 {
                all.push(call.clone().nameless());
            }
            all.push(call);
        }
    }
    all
}

/// Leaves with and without a machine in every kind of standard part.
pub fn flows_in_every_place() -> [Drawing; 8] {
    let (any, on_p1) = (|| event(PRESS), || event(PRESS_P1));
    [
        parallel(any(), on_p1()),
        parallel(on_p1(), any()),
        parallel(any(), any()),
        // "counted as one step": by a record of P1 one successor for each leaf, so two of the choice
        choice(any(), on_p1()),
        choice(seq(any(), any()), seq(on_p1(), event(PRESS_P2))),
        seq(any(), on_p1()),
        handler(seq(any(), throw()), any()),
        seq(yields(), block(pair(any(), on_p1()))),
    ]
}

/// These with every list of at most two records of pressing.
fn in_every_place() -> Vec<Call> {
    let each = [PRESS, PRESS_P1, PRESS_P2];
    let mut lists: Vec<Vec<u16>> = each.map(|one| vec![one]).into();
    lists.extend(each.iter().flat_map(|one| each.map(|other| vec![*one, other])));
    let mut all = vec![];
    for flow in &flows_in_every_place() {
        for list in &lists {
            let closed = |closing| judge(&presses(), flow, &[&list[..], &[closing]].concat());
            all.extend([DONE, FAILED].map(closed));
        }
    }
    all
}

/// Compensations with and without a machine: run, undone in order and out of order, and left behind by a compensable root.
fn undone() -> Vec<Call> {
    let names = presses();
    let step = |press: u16, lift: u16| pair(event(press), event(lift));
    let (any, on_p1) = (|| step(PRESS, LIFT), || step(PRESS_P1, LIFT_P1));
    let fails = |pp: Drawing| block(seq(pp, throww()));
    let (presses, lifts) = ([PRESS, PRESS_P1, PRESS_P2], [LIFT, LIFT_P1, LIFT_P2]);
    let mut all = vec![];
    let each = presses.iter().flat_map(|press| lifts.map(|lift| (*press, lift)));
    for (press, lift) in each {
        for pp in [any(), on_p1(), step(PRESS, LIFT_P1), step(PRESS_P1, LIFT), choice(any(), on_p1())] {
            all.push(judge(&names, &fails(pp.clone()), &[press, lift, DONE]));
            all.push(judge(&names, &pp, &[press, DONE, lift, DONE]));
        }
        let withdrawn = parallel(any(), yieldd());
        all.push(judge(&names, &withdrawn, &[press, WITHDRAWN, lift, DONE]));
        all.push(judge(&names, &withdrawn, &[press, WITHDRAWN, lift, FAILED]));
        for pressed in [[PRESS_P1, press], [press, PRESS_P2]] {
            for lifted in [[LIFT_P1, lift], [lift, LIFT_P1]] {
                let records = [&pressed[..], &lifted, &[DONE]].concat();
                all.push(judge(&names, &fails(seq(any(), on_p1())), &records));
                all.push(judge(&names, &fails(parallel(any(), on_p1())), &records));
            }
        }
    }
    all
}

/// What the planned faults are done to: a judging of the same three lists.
pub fn planned() -> Call {
    let Call { names, nodes, records, .. } = writing::planned();
    Call::judge(Some(names), nodes, records)
}

/// Each fault and each two of them: "those of One in One's order", 14 for the work last. Then those that are not about names, without
/// names: here 10 and 11 come after the nodes.
fn faults() -> Vec<Call> {
    let with_names = writing::faults_alone_and_in_pairs(&planned(), &FAULTS.each_ref());
    let others: Vec<&Fault> = FAULTS.iter().filter(|fault| !fault.is_about_names()).collect();
    let without = writing::faults_alone_and_in_pairs(&planned().nameless(), &others);
    let faulty = with_names.into_iter().chain(without).map(|(_, call)| call);
    [planned(), planned().nameless()].into_iter().chain(faulty).collect()
}

/// The lists that the writer's fixed cases are about: cut and changed names, lengths, events without a name.
fn lists_of_the_writer() -> Vec<Call> {
    let calls =
        [writing::sections(), writing::lengths(), writing::lower_nodes_first(), writing::missing_names()];
    let judged = |call: Call| Call::judge(Some(call.names), call.nodes, call.records);
    calls.concat().into_iter().map(judged).collect()
}

/// 64 and 65 nodes, 256 and 257 records, 256 and 257 names, names of 40 and 41 bytes, and every sort of room, at which a judge does not
/// look.
fn limits() -> Vec<Call> {
    let mut all = vec![];
    for flow in fixed::flows_at_the_limits() {
        for length in [255, 256, 257, 400] {
            let call = judge(&fixed::four_names(), &flow, &fixed::records_of_length(&flow, length));
            all.push(Call { allowance: 1_000, ..call });
        }
    }
    for names in fixed::names_at_the_limits() {
        all.push(judge(&names, &skip(), &[DONE]));
    }
    all.push(judge_of(fixed::longest()));
    let most_work = judge_of(fixed::longest()).work_len;
    all.extend(
        [most_work - 1, most_work + 1].map(|work_len| Call { work_len, ..judge_of(fixed::longest()) }),
    );
    all.extend(presses_at_the_limit());
    for room in [1, 70_000, 70_001, u32::MAX] {
        all.push(Call { room, ..planned() });
        all.push(Call { room, ..planned().nameless() });
    }
    all
}

/// 256 entries of one step, one of them without a machine, which stands first, last or between; 64 nodes and 256 records that all match.
fn presses_at_the_limit() -> Vec<Call> {
    let mut all = vec![];
    for machineless in [1, 128, 256] {
        let machine = |e: u16| if e == machineless { vec![] } else { vec![b'P', e as u8] };
        let names: Vec<Entry> = (1..=256).map(|e| (b"press".to_vec(), machine(e))).collect();
        for record in [1, 2, 128, 255, 256] {
            all.push(judge(&names, &event(machineless), &[record, DONE]));
        }
        let in_turn = seq(block(skipp()), tower(31, &event(machineless), seq));
        let every_eighth: Vec<u16> = (1..=31).map(|i| 8 * i).collect();
        all.push(judge(&names, &in_turn, &[&every_eighth[..], &[DONE]].concat()));
        all.push(judge(&names, &in_turn, &[(1..=255).collect(), vec![DONE]].concat()));
        all.push(judge(&names, &in_turn, &[(1..=256).collect(), vec![DONE]].concat()));
    }
    all
}

/// Allowances and work lengths on both sides of what is needed, with names and without.
fn boundaries() -> Vec<Call> {
    let flow = block(seq(pair(event(PRESS), event(LIFT)), throww()));
    let mut all = vec![];
    for records in [[PRESS_P2, LIFT_P1, DONE], [PRESS_P2, PRESS, DONE], [PRESS, LIFT, FAILED]] {
        let call = judge(&presses(), &flow, &records);
        let wanted = call.work_len;
        for work_len in [0, 1, wanted - 1, wanted, wanted + 1, MOST_WORK as u32] {
            for allowance in [0, 1, 2, 3, 4, 5, u32::MAX] {
                all.push(Call { allowance, work_len, ..call.clone() });
            }
        }
        all.push(Call { work_len: wanted - 1, ..call.clone() }.nameless());
        all.push(call.nameless());
    }
    all
}

/// These leaves side by side, and records that close wrongly.
fn side_by_side(leaves: &[u16], records: &[u16]) -> (Drawing, Vec<u16>) {
    let rest = leaves[1..].iter().map(|e| event(*e));
    (rest.fold(event(leaves[0]), parallel), [records, &[FAILED]].concat())
}

/// Flows of presses and records for them, in whose searches the same states come again.
pub fn flows_of_equal_parts() -> Vec<(Drawing, Vec<u16>)> {
    vec![
        side_by_side(&[PRESS; 7], &[PRESS_P1, PRESS_P2, PRESS, PRESS_P1, PRESS_P2, PRESS, PRESS_P1]),
        side_by_side(&[PRESS, PRESS, PRESS, PRESS_P1, PRESS_P1, PRESS_P1], &[PRESS_P1; 6]),
        side_by_side(&[PRESS, PRESS_P1, PRESS, PRESS_P2, PRESS, PRESS_P1], &[PRESS_P1, PRESS_P2].repeat(3)),
        (
            block(seq(tower(4, &pair(event(PRESS), event(LIFT)), parallel), throww())),
            vec![PRESS_P1, PRESS_P2, PRESS, PRESS_P1, LIFT, LIFT_P2, LIFT_P1, PRESS, DONE],
        ),
        (tower(10, &choice(event(PRESS), event(PRESS_P1)), seq), [vec![PRESS_P1; 10], vec![FAILED]].concat()),
    ]
}

/// These with allowances on both sides of what is needed.
fn equal_parts() -> Vec<Call> {
    let mut all = vec![];
    for (flow, records) in &flows_of_equal_parts() {
        let call = judge(&presses(), flow, records);
        let count = Lent { allowance: u32::MAX, ..call.lent() }.effort().entered;
        for allowance in [31, 33, 64, count / 2, count - 1, count, count + 1] {
            all.push(Call { allowance, ..call.clone() });
        }
    }
    let (nine, records) = side_by_side(&[PRESS; 9], &[PRESS_P1, PRESS_P2, PRESS].repeat(3));
    all.push(judge(&presses(), &nine, &records));
    all
}

/// Names for pressing and lifting under which the same events match otherwise.
pub fn other_presses() -> [Vec<Entry>; 5] {
    let swapped = |i: usize, j: usize| {
        let mut names = presses();
        names.swap(i, j);
        names
    };
    let mut on_machines = presses();
    on_machines[0] = entry("press", "P3");
    on_machines[3] = entry("lift", "P3");
    [presses(), on_machines, swapped(0, 1), swapped(0, 3), swapped(2, 5)]
}

/// The same nodes and records under other names, and under none, one after the other: what was found with some names is nothing for
/// others.
fn one_after_the_other() -> Vec<Call> {
    let named = other_presses();
    let (six, pressed) = side_by_side(&[PRESS, PRESS, PRESS, PRESS, PRESS_P1, PRESS_P1], &[PRESS_P1; 6]);
    let undone = block(seq(tower(3, &pair(event(PRESS), event(LIFT)), parallel), throww()));
    let lifted = vec![PRESS_P1, PRESS, PRESS_P1, LIFT_P2, LIFT, LIFT_P2, FAILED];
    let mut all = vec![];
    for (flow, records) in [(six, pressed), (undone, lifted)] {
        for names in named.iter().chain(&named) {
            let call = judge(names, &flow, &records);
            all.extend([call.clone(), call.nameless()]);
        }
    }
    all
}

// ---- random ones ----

/// The count of a search is looked for among this many states; a longer one is only ever undecided.
const PATIENCE: u32 = 30_000;

/// A flow of any sort, but with events, with names that much hangs on; or now and then without the names that its records follow.
pub fn case(rng: &mut Rng) -> Case {
    let tandem = if rng.once_in(3) { tandem::any(rng) } else { Tandem::plain(any_flow(rng)) };
    let file = naming::file_of_machines(rng, &tandem);
    around_the_count(rng, file)
}

/// A flow of any sort with at least one of events 1 to 4.
pub fn any_flow(rng: &mut Rng) -> Drawing {
    loop {
        let flow = match rng.below(6) {
            0 | 1 => undoing::flow(rng),
            2 => wide::flow(rng),
            _ => judging::flow(rng, 4),
        };
        if flow.leaves(kind::EVENT) > 0 {
            return flow;
        }
    }
}

/// 255 to 257 names, 63 to 65 nodes, 255 to 257 records, 15 to 17 sets, alone or together, and the most numbers that `replay` takes.
pub fn case_at_limits(rng: &mut Rng) -> Case {
    let file = damaging::at_limits(rng);
    around_the_count(rng, file)
}

/// What stands in a file, now and then without its names.
fn around_the_count(rng: &mut Rng, file: FlowFile) -> Case {
    let call = if rng.once_in(8) { judge_of(file).nameless() } else { judge_of(file) };
    near_its_count(rng, call)
}

/// The call with an allowance near the count of its search and a work length near the one wanted.
pub fn near_its_count(rng: &mut Rng, call: Call) -> Case {
    let count = count_within(PATIENCE, Lent { allowance: u32::MAX, ..call.lent() });
    let allowance = near_the_count(rng, PATIENCE, count);
    let work_len = near(rng, work_wanted(&call.nodes, &call.records), MOST_WORK) as u32;
    Case::Call(Call { allowance, work_len, room: rng.turn() as u32, ..call })
}

/// A call with one or two damages.
pub fn damaged_case(rng: &mut Rng) -> Case {
    let file = filing::whole(rng);
    let Lists { names, nodes, records, sets, short } = damaging::lists(rng, file);
    let call = Call::judge(Some(names), nodes, records).with_sets(sets);
    with_work(rng, call, short)
}

/// The call with just the work bytes that are wanted, or one more, or too few; and now and then without its names.
pub fn with_work(rng: &mut Rng, call: Call, short: bool) -> Case {
    let wanted = call.work_len as usize;
    let work_len = if short { rng.below(wanted.max(1)) } else { wanted + rng.below(2) };
    let work_len = work_len.min(MOST_WORK) as u32;
    let call = Call { allowance: rng.below(300) as u32, work_len, room: rng.turn() as u32, ..call };
    Case::Call(if rng.once_in(12) { call.nameless() } else { call })
}
