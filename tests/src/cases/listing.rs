//! Calls that ask what may come next, with names and without.

use super::calling::Call;
use super::damaging::{self, Lists};
use super::judging::{near, near_the_count};
use super::lending::{self, presses, similar, LIFT, LIFT_P1, LIFT_P2, PRESS, PRESS_P1, PRESS_P2};
use super::spoiling::{spoil, AIMS};
use super::tandem::{self, Tandem, EVENTS};
use super::writing::{self, fault, Fault, FAULTS};
use super::{filing, fixed, judging, naming, repeating, Case, MOST_NUMBERS, MOST_ROOM, MOST_WORK};
use crate::by_hand::{self, A, B, C};
use crate::drawing::*;
use crate::flowfile::{self, section_of, Entry, FlowFile};
use crate::next::{Beginning, Next, LIST_ROOM};
use crate::random::{self, TASTES};
use crate::refusals::MOST_RECORDS;
use crate::rng::Rng;
use crate::term::{is_event, kind, Sort, CLOSING_RECORDS, DONE, FAILED, MOST_EVENT, WITHDRAWN};

fn named(names: &[Entry], flow: &Drawing, records: &[u16]) -> Call {
    Call::next(Some(section_of(names)), flow.table(), records.to_vec())
}

fn plain(flow: &Drawing, records: &[u16]) -> Call {
    Call::next(None, flow.table(), records.to_vec())
}

/// The call with names and without.
fn both(call: Call) -> [Call; 2] {
    [call.clone(), call.nameless()]
}

/// The records without their last closing: the longest beginning of them that is not refused.
fn before_last(records: &[u16]) -> &[u16] {
    &records[..records.len() - 1]
}

// ---- the fixed ones ----

pub fn fixed() -> Vec<Case> {
    let mut calls = listed_by_hand();
    calls.extend(every_beginning());
    calls.extend(rooms());
    calls.extend(boundaries());
    calls.extend(every_record_list());
    calls.extend(no_records());
    calls.extend(all_faults());
    calls.extend(lists_of_the_writer());
    calls.extend(limits());
    calls.extend(longest_lists());
    calls.extend(rising());
    calls.extend(every_leaf());
    calls.extend(in_every_place());
    calls.extend(undone());
    calls.extend(wide());
    calls.extend(equal_parts());
    calls.extend(one_after_the_other());
    calls.into_iter().map(Case::Call).collect()
}

fn listed_by_hand() -> Vec<Call> {
    let call = |case: by_hand::HandCase| {
        let call = named(&fixed::four_names(), &case.flow, &case.records);
        both(Call { allowance: case.allowance, ..call })
    };
    by_hand::lists().into_iter().flat_map(call).collect()
}

/// The records of "Judged by hand" and of the worked file, one more at a time as a panel asks, up to the closing that is too many.
fn every_beginning() -> Vec<Call> {
    let mut all = vec![];
    for case in by_hand::table() {
        for length in 0..=case.records.len() {
            let call = plain(&case.flow, &case.records[..length]);
            all.push(Call { allowance: case.allowance, ..call });
        }
    }
    let worked = flowfile::worked();
    for length in 0..=worked.records.len() {
        let records = worked.records[..length].to_vec();
        all.extend(both(Call::next(Some(worked.names_section()), worked.nodes.clone(), records)));
    }
    all
}

/// A short list and the longest one with every sort of room.
fn rooms() -> Vec<Call> {
    let rooms = [0, 1, 2, 3, 100, 256, 257, 258, 259, 260, 300, 65_535, 65_536, 69_999, MOST_ROOM as u32];
    let (names, flow) = every_number(128);
    let mut all = vec![];
    for room in rooms {
        all.extend(both(Call { room, ..planned() }));
        if (257..=260).contains(&room) || room as usize == MOST_ROOM {
            all.push(Call { room, ..named(&names, &flow, &[]) });
        }
    }
    all
}

/// Allowances and work lengths on both sides of what is needed, with names and without, and then together with the room.
fn boundaries() -> Vec<Call> {
    let flow = block(seq(pair(event(PRESS), event(LIFT)), throww()));
    let beginnings: [&[u16]; 4] = [&[], &[PRESS_P2], &[PRESS, LIFT], &[PRESS_P1, PRESS]];
    let mut all = vec![];
    for records in beginnings {
        let call = named(&presses(), &flow, records);
        let wanted = call.work_len;
        for work_len in [0, 1, wanted - 1, wanted, wanted + 1, MOST_WORK as u32] {
            all.extend(both(Call { work_len, ..call.clone() }));
        }
        for allowance in [0, 1, 2, 3, 4, u32::MAX] {
            all.extend(both(Call { allowance, ..call.clone() }));
        }
        for room in [LIST_ROOM as u32 - 1, LIST_ROOM as u32] {
            for work_len in [wanted - 1, wanted] {
                for allowance in [0, 3] {
                    all.extend(both(Call { room, work_len, allowance, ..call.clone() }));
                }
            }
        }
    }
    all
}

/// Every list of at most three of event, closings and 0, for both sorts of root.
fn every_record_list() -> Vec<Call> {
    let lists = fixed::short_record_lists(3);
    let of_root = |root: Drawing| lists.iter().map(move |records| plain(&root, records));
    fixed::roots_of_both_sorts().into_iter().flat_map(of_root).collect()
}

/// Numbers beside those of events and closings, at both ends of a beginning, with names and without.
fn no_records() -> Vec<Call> {
    let mut all = vec![];
    for root in fixed::roots_of_both_sorts() {
        for number in [0, 257, 61440, 61444, u16::MAX] {
            for records in [vec![number, A], vec![A, A, number]] {
                all.extend(both(named(&fixed::four_names(), &root, &records)));
            }
        }
    }
    all
}

/// What the planned faults are done to: the writer's planned lists without the closing.
pub fn planned() -> Call {
    let Call { names, nodes, records, .. } = writing::planned();
    Call::next(Some(names), nodes, before_last(&records).to_vec())
}

/// The writer's faults in the order in which they are to be found here: "10 isn't given", 13 is "at that closing", and there are two
/// that may be too short for 14.
pub fn faults() -> Vec<Fault> {
    let not_as_there = [10, 13, 14];
    let as_there = FAULTS.into_iter().filter(|fault| !not_as_there.contains(&fault.refusal.number));
    let mut all: Vec<Fault> = as_there.collect();
    let names_missing = all.iter().position(|fault| fault.refusal.number == 19).expect("19");
    all.insert(names_missing, fault(13, 2, |call| call.records.push(DONE)));
    all.push(fault(14, 0, |call| call.room = LIST_ROOM as u32 - 1));
    all.push(fault(14, 0, |call| call.work_len = call.work_len.saturating_sub(1)));
    all
}

/// Those of them that are not about names, in their order without names: here 11 comes after the nodes.
pub fn faults_without_names() -> Vec<Fault> {
    let mut all: Vec<Fault> = faults().into_iter().filter(|fault| !fault.is_about_names()).collect();
    let of_number = |all: &[Fault], number| all.iter().position(|fault| fault.refusal.number == number);
    let too_many = all.remove(of_number(&all, 11).expect("11"));
    all.insert(of_number(&all, 12).expect("12"), too_many);
    all
}

/// Each fault and each two of them, with names and without.
fn all_faults() -> Vec<Call> {
    let in_pairs = |planned: Call, faults: Vec<Fault>| {
        let faults: Vec<&Fault> = faults.iter().collect();
        let faulty = writing::faults_alone_and_in_pairs(&planned, &faults);
        faulty.into_iter().map(|(_, call)| call).collect::<Vec<_>>()
    };
    let with_names = in_pairs(planned(), faults());
    let without = in_pairs(planned().nameless(), faults_without_names());
    [with_names, without].concat()
}

/// The lists that the writer's fixed cases are about: cut and changed names, lengths, events without a name.
fn lists_of_the_writer() -> Vec<Call> {
    let calls = [writing::sections(), writing::lower_nodes_first(), writing::missing_names()].concat();
    let next = |call: Call| Call::next(Some(call.names), call.nodes, before_last(&call.records).to_vec());
    let mut all: Vec<Call> = calls.into_iter().map(next).collect();
    for Call { names, nodes, mut records, .. } in writing::lengths() {
        // As long as there, but without its closing.
        records.iter_mut().for_each(|record| *record = A);
        let call = Call::next(Some(names), nodes, records);
        all.extend(if call.nodes.len() == 3 { both(call).to_vec() } else { vec![call] });
    }
    all
}

/// 64 and 65 nodes, 256 and 257 records, 256 and 257 names, names of 40 and 41 bytes, the most work bytes.
fn limits() -> Vec<Call> {
    let mut all = vec![];
    for flow in fixed::flows_at_the_limits() {
        for length in [0, 1, 31, 32, 33, 254, 255, 256, 257, 400] {
            let call = named(&fixed::four_names(), &flow, &vec![A; length]);
            all.extend(both(Call { allowance: 1_000, ..call }));
        }
        if flow.sort() == Sort::Compensable {
            for closing in CLOSING_RECORDS {
                for length in [0, 1, 255, 256] {
                    let records = [vec![closing], vec![A; length]].concat();
                    all.push(Call { allowance: 1_000, ..plain(&flow, &records) });
                }
            }
        }
    }
    for names in fixed::names_at_the_limits() {
        all.push(named(&names, &skip(), &[]));
    }
    let longest = fixed::longest();
    for length in [0, 31, MOST_RECORDS] {
        let records = vec![MOST_EVENT; length];
        let call = Call::next(Some(longest.names_section()), longest.nodes.clone(), records);
        all.extend(both(call.clone()));
        if length == MOST_RECORDS {
            let wanted = call.work_len;
            all.extend([wanted - 1, wanted + 1].map(|work_len| Call { work_len, ..call.clone() }.nameless()));
            all.push(Call { work_len: wanted - 1, ..call });
        }
    }
    all
}

/// 256 entries of one step, of which this one has no machine, and a flow that everything there is can follow.
fn every_number(machineless: u16) -> (Vec<Entry>, Drawing) {
    let machine = |e: u16| if e == machineless { vec![] } else { vec![b'P', e as u8] };
    let names = (1..=MOST_EVENT).map(|e| (b"press".to_vec(), machine(e))).collect();
    (names, choice(event(machineless), choice(yields(), throw())))
}

/// Lists of 259 numbers and of 256, and what follows them.
fn longest_lists() -> Vec<Call> {
    let mut all = vec![];
    for machineless in [1, 128, 256] {
        let (names, every_number) = every_number(machineless);
        all.push(named(&names, &every_number, &[]));
        all.push(named(&names, &every_number, &[77]));
        all.push(named(&names, &event(machineless), &[]));
        all.push(named(&names, &seq(event(machineless), every_number.clone()), &[255]));
        all.push(named(&names, &pair(event(machineless), every_number), &[3, DONE]));
    }
    let (names, flow) = every_number(256);
    all.push(named(&names, &flow, &[]).nameless());
    all
}

/// "Each once, in rising order of its number": leaves that stand in another order, and more than once.
fn rising() -> Vec<Call> {
    let leaves = [256, 1, 255, 2, 128, 1, 127, 256];
    let (choices, beside) =
        [choice, parallel].map(|join| leaves.iter().map(|e| event(*e)).reduce(join).expect("eight")).into();
    let ends = choice(throw(), choice(yields(), skip()));
    let beginnings: [&[u16]; 5] = [&[], &[1], &[256], &[1, 1], &[2, 1, 256]];
    let mut all = vec![];
    for flow in [choices.clone(), beside.clone(), choice(ends.clone(), choices), seq(ends.clone(), beside)] {
        all.extend(beginnings.map(|records| plain(&flow, records)));
    }
    all.push(plain(&ends, &[]));
    all.push(plain(&block(seq(pair(event(2), event(1)), choice(throww(), pair(event(1), skip())))), &[2]));
    all
}

/// Each of twelve similar entries as a leaf, before a record and after it, and the first of them without names.
fn every_leaf() -> Vec<Call> {
    let names = similar();
    let mut all = vec![];
    for leaf in 1..=names.len() as u16 {
        let beginnings: [&[u16]; 3] = [&[], &[leaf], &[PRESS_P1]];
        all.extend(beginnings.map(|records| named(&names, &event(leaf), records)));
        if leaf <= 3 {
            all.push(named(&names, &event(leaf), &[]).nameless());
        }
    }
    all
}

/// Leaves with and without a machine in every kind of standard part, after every list of at most two records of pressing.
fn in_every_place() -> Vec<Call> {
    let each = [PRESS, PRESS_P1, PRESS_P2];
    let mut lists: Vec<Vec<u16>> = vec![vec![]];
    lists.extend(each.map(|one| vec![one]));
    lists.extend(each.iter().flat_map(|one| each.map(|other| vec![*one, other])));
    let of_flow = |flow: Drawing| lists.iter().map(move |list| named(&presses(), &flow, list));
    lending::flows_in_every_place().into_iter().flat_map(of_flow).collect()
}

/// Compensations with and without a machine, in a block that fails and left behind by a compensable root.
fn undone() -> Vec<Call> {
    let names = presses();
    let step = |press: u16, lift: u16| pair(event(press), event(lift));
    let (any, on_p1) = (|| step(PRESS, LIFT), || step(PRESS_P1, LIFT_P1));
    let fails = |pp: &Drawing| block(seq(pp.clone(), throww()));
    let parts = [any(), on_p1(), step(PRESS, LIFT_P1), choice(any(), on_p1()), parallel(any(), on_p1())];
    let mut all = vec![];
    for press in [PRESS, PRESS_P1, PRESS_P2] {
        for pp in &parts {
            all.push(named(&names, &fails(pp), &[press]));
            all.push(named(&names, &fails(pp), &[press, LIFT_P2]));
            all.push(named(&names, pp, &[press]));
            all.push(named(&names, pp, &[press, DONE]));
            all.push(named(&names, pp, &[press, DONE, LIFT_P1]));
        }
        let two = [seq(any(), on_p1()), parallel(any(), on_p1())];
        for pp in &two {
            for lifted in [&[][..], &[LIFT], &[LIFT_P1], &[LIFT_P2]] {
                all.push(named(&names, &fails(pp), &[&[press, PRESS_P1], lifted].concat()));
            }
        }
        for closing in CLOSING_RECORDS {
            all.push(named(&names, &parallel(any(), yieldd()), &[press, closing]));
        }
    }
    all
}

/// Many successors, many compensations, and compensations that are no successors.
fn wide() -> Vec<Call> {
    let leaves = |e: u16| pair(skip(), event(e));
    let either = || choice(leaves(B), leaves(C));
    let withdraw = tower(31, &yieldd(), parallel);
    let silent = block(parallel(throww(), tower(30, &yieldd(), parallel)));
    let undone = block(seq(tower(7, &either(), parallel), throww()));
    let held = seq(tower(6, &either(), seq), pair(event(A), event(A)));
    let closed_twice = pair(tower(4, &choice(event(A), yields()), parallel), withdrawing_block());
    let calls: [(&Drawing, &[u16], u32); 22] = [
        (&withdraw, &[], 1),
        (&withdraw, &[DONE], 2),
        (&withdraw, &[WITHDRAWN], 50_000),
        (&withdraw, &[FAILED], 9),
        (&silent, &[], 1),
        (&silent, &[A], 9),
        (&tower(16, &choice(skipp(), skipp()), seq), &[], 1),
        (&tower(16, &choice(skipp(), skipp()), seq), &[DONE], 65_537),
        (&tower(16, &choice(skipp(), skipp()), seq), &[DONE], 65_536),
        (&tower(10, &either(), parallel), &[DONE], u32::MAX),
        (&tower(10, &either(), parallel), &[DONE, B], u32::MAX),
        (&undone, &[], u32::MAX),
        (&undone, &[C, B, C], u32::MAX),
        (&undone, &[C, B, C, B, C, B, C], u32::MAX),
        (&undone, &[C, B, C, B, C, B, C, B], u32::MAX),
        (&held, &[A], u32::MAX),
        (&held, &[A, DONE], u32::MAX),
        (&held, &[A, DONE, A, B], u32::MAX),
        (&closed_twice, &[A, A, WITHDRAWN], u32::MAX),
        (&closed_twice, &[A, A, DONE], u32::MAX),
        (&tower(16, &choice(event(A), event(A)), seq), &[A; 16], 200_000),
        (&tower(9, &event(A), parallel), &[A; 9], 1_000_000),
    ];
    let call = |(flow, records, allowance)| Call { allowance, ..plain(flow, records) };
    calls.map(call).into()
}

/// [b÷YIELD in parallel with YIELDD ; THROWW]: a compensation that steps, and closes in more than one way.
fn withdrawing_block() -> Drawing {
    block(seq(parallel(pair(event(B), yields()), yieldd()), throww()))
}

/// The count of a search of all runs.
fn count(call: &Call) -> u32 {
    match (Beginning { allowance: u32::MAX, ..call.beginning() }).listed() {
        Next::Listed { count, .. } => count,
        other => unreachable!("{other}"),
    }
}

/// Searches in which the same states come again, with allowances on both sides of what is needed and of powers of two; and one more record
/// at a time.
fn equal_parts() -> Vec<Call> {
    let mut calls: Vec<Call> = fixed::flows_of_equal_parts()
        .iter()
        .map(|(flow, records)| plain(flow, before_last(records)))
        .collect();
    let of_presses = lending::flows_of_equal_parts();
    calls.extend(of_presses.iter().map(|(flow, records)| named(&presses(), flow, before_last(records))));
    let mut all = vec![];
    for call in calls {
        let count = count(&call);
        for allowance in [31, 33, 64, count / 2, count - 1, count, count + 1] {
            all.push(Call { allowance, ..call.clone() });
        }
    }
    for (flow, records) in fixed::flows_of_equal_parts().iter().take(3) {
        all.extend((0..records.len()).map(|length| plain(flow, &records[..length])));
    }
    all
}

/// The same nodes and records under other names, and under none, one after the other; and beginnings that grow and shrink.
fn one_after_the_other() -> Vec<Call> {
    let six = [PRESS, PRESS, PRESS, PRESS, PRESS_P1, PRESS_P1].map(event).into_iter().reduce(parallel);
    let undone = block(seq(tower(3, &pair(event(PRESS), event(LIFT)), parallel), throww()));
    let lifted = [PRESS_P1, PRESS, PRESS_P1, LIFT_P2, LIFT];
    let mut all = vec![];
    for (flow, records) in [(six.expect("six"), [PRESS_P1; 5]), (undone, lifted)] {
        for names in lending::other_presses() {
            all.extend(both(named(&names, &flow, &records)));
        }
        for length in [1, 3, 5, 4, 2, 0] {
            all.extend(both(named(&presses(), &flow, &records[..length])));
        }
    }
    all
}

/// Searches of thousands of millions of states of which some thousand differ, for `fixed::long`.
pub fn long() -> Vec<Case> {
    let mut all = vec![];
    for (flow, records) in [fixed::orders(12), fixed::six_lines()] {
        let call = plain(&flow, before_last(&records));
        let count = count(&call);
        all.extend([1 << 31, count - 1, count, u32::MAX].map(|allowance| Call { allowance, ..call.clone() }));
    }
    for n in [13, 16] {
        let (flow, records) = fixed::orders(n);
        all.push(Call { allowance: u32::MAX, ..plain(&flow, before_last(&records)) });
    }
    all.into_iter().map(Case::Call).collect()
}

// ---- random ones ----

/// The count of a search is looked for among this many states; a longer one is only ever undecided.
const PATIENCE: u32 = 30_000;

/// Any flow with names that much hangs on, or without names, and a beginning of its records.
pub fn case(rng: &mut Rng) -> Case {
    let call = if rng.below(5) < 3 {
        let tandem = any_tandem(rng);
        let file = naming::file_of_machines(rng, &tandem);
        let call = next_of(rng, file);
        if rng.once_in(8) {
            call.nameless()
        } else {
            call
        }
    } else {
        let (tandem, events) = match rng.below(4) {
            0 => (Tandem::plain(many_ahead(rng)), MANY),
            _ => (any_tandem(rng), EVENTS),
        };
        let file = judging::records_of_flow(rng, &tandem, events, MOST_EVENT as usize);
        next_of(rng, file).nameless()
    };
    around_the_count(rng, call)
}

/// What may come next after a beginning of a file's records, with its names or without.
pub fn case_of(rng: &mut Rng, file: FlowFile, named: bool) -> Case {
    let call = next_of(rng, file);
    around_the_count(rng, if named { call } else { call.nameless() })
}

/// What may come next after a beginning of a file's records, with its names and its sets.
fn next_of(rng: &mut Rng, file: FlowFile) -> Call {
    let (names, sets, records) = (file.names_section(), file.lent_sets(), beginning(rng, &file.records));
    Call::next(Some(names), file.nodes, records).with_sets(sets)
}

/// With sets or without.
fn any_tandem(rng: &mut Rng) -> Tandem {
    if rng.below(5) < 2 {
        tandem::any(rng)
    } else {
        Tandem::plain(any_flow(rng))
    }
}

/// A flow of any sort; a block now and then without its sign, so that closings are followed by what undoes it.
fn any_flow(rng: &mut Rng) -> Drawing {
    let mut flow = lending::any_flow(rng);
    if flow.kind == kind::BLOCK && rng.once_in(3) {
        flow = flow.parts.remove(0);
    }
    flow
}

const MANY: usize = 20;

/// Small parts side by side or in a choice, with so many events that lists are long.
fn many_ahead(rng: &mut Rng) -> Drawing {
    let (taste, sort) = (*rng.pick(&TASTES), random::sort(rng));
    let part = |rng: &mut Rng| {
        let [step, undo] = [0; 2].map(|_| event(rng.between(1, MANY) as u16));
        match (rng.below(3), sort) {
            (0, _) => random::drawing(rng, taste, sort, 5, MANY),
            (_, Sort::Standard) => step,
            (_, Sort::Compensable) => pair(step, undo),
        }
    };
    let mut flow = part(rng);
    for _ in 0..rng.between(2, 9) {
        let join = *rng.pick(&[choice, parallel, parallel, parallel]);
        flow = join(flow, part(rng));
    }
    flow
}

/// Of a record list with its closings where the root needs them: mostly as much as there can be or any part of that, also nothing, and
/// now and then with a closing too many.
fn beginning(rng: &mut Rng, records: &[u16]) -> Vec<u16> {
    let most = records.len() - 1;
    let length = match rng.below(24) {
        0..=7 => most,
        8..=20 => rng.between(0, most),
        21 | 22 => 0,
        _ => records.len(),
    };
    records[..length].to_vec()
}

/// The call with an allowance near the count of its search, a work length near the one wanted and room near 259.
fn around_the_count(rng: &mut Rng, call: Call) -> Case {
    let count = match (Beginning { allowance: u32::MAX, ..call.beginning() }).listed_within(PATIENCE) {
        Some(Next::Listed { count, .. }) => Some(count),
        _ => None,
    };
    let allowance = near_the_count(rng, PATIENCE, count);
    with_room(rng, Call { allowance, ..call })
}

fn with_room(rng: &mut Rng, call: Call) -> Case {
    let work_len = near(rng, call.work_len as usize, MOST_WORK) as u32;
    let room = near(rng, LIST_ROOM, MOST_ROOM) as u32;
    Case::Call(Call { work_len, room, ..call })
}

/// Beginnings of one flow of equal parts, one after the other: those of records that are worth judging, a few records shorter or not.
pub fn cases_of_equal_parts(rng: &mut Rng) -> Vec<Case> {
    let mut all = vec![];
    for case in repeating::cases(rng) {
        let lent = case.lent_to_judge().expect("a call of the judge");
        let longest = before_last(lent.records);
        let fewer = *rng.pick(&[0, 0, 0, 1, 2]);
        let records = longest[..longest.len().saturating_sub(fewer)].to_vec();
        let call = Call::next(lent.names.map(<[u8]>::to_vec), lent.nodes.to_vec(), records);
        let call = call.with_sets(lent.sets.to_vec());
        let asked = Beginning { allowance: 500_000, ..call.beginning() };
        if let Some(effort) = asked.effort_within(25_000) {
            let call = Call { allowance: repeating::allowance(rng, effort.entered), ..call };
            all.push(if rng.once_in(8) { with_room(rng, call) } else { Case::Call(call) });
        }
    }
    all
}

/// A call with one or two damages, with names or without.
pub fn damaged_case(rng: &mut Rng) -> Case {
    let (call, short) = if rng.once_in(3) {
        let file = if rng.once_in(3) {
            let tandem = tandem::any(rng);
            judging::records_of_flow(rng, &tandem, EVENTS, MOST_EVENT as usize)
        } else {
            judging::flow_and_records(rng, MOST_EVENT as usize)
        };
        let mut sets = file.lent_sets();
        let (mut nodes, mut records) = (file.nodes, beginning(rng, &file.records));
        let mut short = false;
        for _ in 0..rng.between(1, 2) {
            match *rng.pick(&AIMS) {
                14 => short = true,
                _ if rng.once_in(8) => spoil(rng, 23, &mut nodes, &mut records, &mut sets),
                number => spoil(rng, number, &mut nodes, &mut records, &mut sets),
            }
        }
        nodes.truncate(MOST_NUMBERS);
        records.truncate(MOST_NUMBERS);
        (Call::next(None, nodes, records).with_sets(sets), short)
    } else {
        let mut file = filing::whole(rng);
        file.records = beginning(rng, &file.records);
        let Lists { names, nodes, records, sets, short } = damaging::lists(rng, file);
        (Call::next(Some(names), nodes, records).with_sets(sets), short)
    };
    let wanted = call.work_len as usize;
    let (mut work_len, mut room) = (wanted + rng.below(2), LIST_ROOM + rng.below(2));
    match (short, rng.below(3)) {
        (false, _) => {}
        (true, 0) => work_len = rng.below(wanted.max(1)),
        (true, 1) => room = rng.below(LIST_ROOM),
        (true, _) => (work_len, room) = (wanted.saturating_sub(1), LIST_ROOM - 1),
    }
    let work_len = work_len.min(MOST_WORK) as u32;
    Case::Call(Call { allowance: rng.below(300) as u32, work_len, room: room as u32, ..call })
}

/// 255 to 257 names, 63 to 65 nodes, 255 to 257 records, 15 to 17 sets, alone or together, and the most numbers that `replay` takes. The last closing
/// is mostly exchanged for an event, so that the length stays.
pub fn case_at_limits(rng: &mut Rng) -> Case {
    let mut file = damaging::at_limits(rng);
    let last = file.records.len() - 1;
    if !is_event(file.records[last]) && !rng.once_in(8) {
        file.records[last] = 1;
    }
    let (names, sets) = (file.names_section(), file.lent_sets());
    let call = Call::next(Some(names), file.nodes, file.records).with_sets(sets);
    let call = if rng.once_in(3) { call.nameless() } else { call };
    around_the_count(rng, call)
}
