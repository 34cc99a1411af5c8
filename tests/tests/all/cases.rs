//! The stream of cases covers what it is to cover, is the same for the same seed, and gives the gate's stored run.

use oracle::by_hand;
use oracle::cases::calling::{Call, JUDGE, NEXT, WRITE};
use oracle::cases::malformed::malformed;
use oracle::cases::{
    Case, Made, Reply, Run, Stream, Totals, MOST_NUMBERS, MOST_ROOM, MOST_SET_BYTES, MOST_WORK, STORED_CASES,
    STORED_SEED,
};
use oracle::drawing::children;
use oracle::judge::{with_deep_stack, Answer, Lent};
use oracle::next::{Beginning, Next, LIST_ROOM};
use oracle::program::PROGRAM_ALLOWS;
use oracle::reader::{read, NODE_ROOM, RECORD_ROOM};
use oracle::refusals::{work_wanted, MOST_RECORDS};
use oracle::sets::{sets_of, EventSet};
use oracle::term::{is_event, kind, set_number, sort_of, Sort, CLOSING_RECORDS, DONE};
use std::path::PathBuf;
use std::sync::OnceLock;

/// The cases of the stored run, made once for all tests.
fn cases() -> &'static [Made] {
    static CASES: OnceLock<Vec<Made>> = OnceLock::new();
    CASES.get_or_init(|| with_deep_stack(|| Stream::new(STORED_SEED).take(STORED_CASES).collect()))
}

/// If not, a change of the generator is to be followed by `oracle stored ../crates/replay`.
#[test]
fn the_stored_run_is_up_to_date() {
    let folder = PathBuf::from(env!("CARGO_MANIFEST_DIR")).join("../crates/replay");
    let stored = |name| std::fs::read(folder.join(name)).unwrap();
    let run = Run::of(cases(), STORED_SEED);
    assert!(stored("stdin") == run.stdin, "crates/replay/stdin is not what the generator makes");
    assert!(
        stored("stdout") == run.stdout.as_bytes(),
        "crates/replay/stdout is not what the generator makes"
    );
    assert!(run.stdout.len() < 1_000_000, "too many long files are written");
}

fn totals(cases: &[Made]) -> Totals {
    let mut totals = Totals::default();
    cases.iter().for_each(|made| totals.count(made));
    totals
}

#[test]
fn every_answer_comes_often() {
    let totals = totals(cases());
    for number in 1..=23 {
        let judging = totals.of_refusal("program", number) + totals.of_refusal("judge", number);
        assert!(judging >= 25, "refusal {number} of judging\n{}", totals.show());
        for asked in ["writer", "judge with names"] {
            let given = totals.of_refusal(asked, number);
            assert!(given >= 10, "refusal {number} of the {asked}\n{}", totals.show());
        }
    }
    let others = ["program", "judge", "judge with names", "reader", "writer"];
    for word in ["accepted", "rejected", "undecided", "refused"] {
        let given: u64 = others.iter().map(|asked| totals.of_word(asked, word)).sum();
        assert!(given >= 300, "{word}\n{}", totals.show());
    }
    assert!(totals.of_word("reader", "read") >= 100, "{}", totals.show());
    assert!(totals.of_word("writer", "written") >= 100, "{}", totals.show());
    let states: u64 = others.iter().map(|asked| totals.states(asked)).sum();
    assert!(states > 2_000_000, "{}", totals.show());
}

/// Whether what may come next is ever refused so: "10 isn't given here", and those about names only where there are some.
fn is_refusal_of_next(asked: &str, number: u32) -> bool {
    number != 10 && (!(15..=21).contains(&number) || asked == "next with names")
}

#[test]
fn every_answer_of_next_comes_often() {
    let totals = totals(cases());
    for asked in ["next", "next with names"] {
        for number in 1..=23 {
            let given = totals.of_refusal(asked, number);
            let enough = if is_refusal_of_next(asked, number) { given >= 10 } else { given == 0 };
            assert!(enough, "refusal {number} of {asked}\n{}", totals.show());
        }
        for (word, least) in [("listed", 400), ("undecided", 100), ("refused", 400)] {
            assert!(totals.of_word(asked, word) >= least, "{word} of {asked}\n{}", totals.show());
        }
        assert!(totals.states(asked) > 200_000, "states of {asked}\n{}", totals.show());
    }
}

/// Every refusal of the reader, which has no 2, of the writer, of the judge with names and of what may come next is among the fixed cases,
/// so that it is in every stream.
#[test]
fn no_refusal_with_names_is_left_to_chance() {
    let fixed = oracle::cases::fixed::cases().len();
    let totals = totals(&cases()[..fixed]);
    for number in 1..=23 {
        assert!(totals.of_refusal("writer", number) > 0, "{}", totals.show());
        assert!(totals.of_refusal("judge with names", number) > 0, "{}", totals.show());
        assert!(totals.of_refusal("reader", number) > 0 || number == 2, "{}", totals.show());
        for asked in ["next", "next with names"].into_iter().filter(|asked| is_refusal_of_next(asked, number))
        {
            assert!(totals.of_refusal(asked, number) > 0, "{number} of {asked}\n{}", totals.show());
        }
    }
}

/// 22 and 23, which every one of them gives, come often from each.
#[test]
fn refusals_of_sets_come_often() {
    let totals = totals(cases());
    for asked in ["program", "judge", "judge with names", "next", "next with names", "reader", "writer"] {
        for number in [22, 23] {
            let given = totals.of_refusal(asked, number);
            assert!(given >= 20, "refusal {number} of {asked}\n{}", totals.show());
        }
    }
}

/// Calls and files, the fixed ones left out, that are judged otherwise than by the event numbers alone.
#[test]
fn names_decide_often() {
    let (mut accepted, mut other) = (0, 0);
    for made in &cases()[oracle::cases::fixed::cases().len()..] {
        let (nodes, records, allowance) = match &made.case {
            Case::File(file) => match read(file) {
                Ok(file) => (file.nodes, file.records, PROGRAM_ALLOWS),
                Err(_) => continue,
            },
            Case::Call(call) if call.function == JUDGE && call.names_lent == 1 => {
                (call.nodes.clone(), call.records.clone(), call.allowance)
            }
            _ => continue,
        };
        let Reply::Judged(answer) = made.reply else { continue };
        // Without its sets a flow of lines that meet is no flow.
        if matches!(answer, Answer::Refused(_)) || nodes.chunks(3).any(|node| set_number(node[0]).is_some()) {
            continue;
        }
        let by_number =
            with_deep_stack(move || Lent::enough(None, &nodes, &records, allowance).judged_within(100_000));
        let differs = by_number != Some(answer);
        other += differs as u32;
        accepted += (differs && matches!(answer, Answer::Accepted { .. })) as u32;
    }
    assert!(accepted >= 50 && other >= 120, "{accepted} {other}");
}

/// One byte of room less than a file that is written wants, just as many, one more.
#[test]
fn rooms_of_the_writer_meet_the_one_wanted_from_both_sides() {
    let mut seen = [0; 3];
    for made in cases() {
        let Case::Call(call) = &made.case else { continue };
        if call.function != WRITE {
            continue;
        }
        let wanted = call.file().len() as u32;
        if made.reply.refusal().is_none_or(|refusal| refusal.number == 14) {
            (0..3).for_each(|i| seen[i] += (call.room + 1 == wanted + i as u32) as u32);
        }
    }
    assert!(seen.iter().all(|n| *n >= 5), "{seen:?}");
}

/// Tables lent to the reader: a number less than it needs, just as many, one more, and far more.
#[test]
fn rooms_of_the_reader_meet_the_ones_needed_from_both_sides() {
    let (mut for_nodes, mut for_records) = ([0; 4], [0; 4]);
    for made in cases() {
        let Case::Read { node_room, record_room, .. } = &made.case else { continue };
        let step = |room: u16, needed: usize| match room as usize + 1 {
            n if n < needed => None,
            n if n - needed < 3 => Some(n - needed),
            _ => Some(3),
        };
        step(*node_room, NODE_ROOM).into_iter().for_each(|i| for_nodes[i] += 1);
        step(*record_room, RECORD_ROOM).into_iter().for_each(|i| for_records[i] += 1);
    }
    assert!(for_nodes.iter().chain(&for_records).all(|n| *n >= 10), "{for_nodes:?} {for_records:?}");
}

/// For both sorts of root, with names and without: allowed one state less than the count, just the count, none at all.
#[test]
fn allowances_meet_the_count_from_both_sides() {
    let mut seen = [[[0; 3]; 2]; 2];
    for made in cases() {
        let Some(lent) = made.case.lent_to_judge() else { continue };
        let Reply::Judged(answer) = made.reply else { continue };
        if let Answer::Refused(_) = answer {
            continue;
        }
        let root = (sort_of(lent.nodes[lent.nodes.len() - 3]) == Sort::Compensable) as usize;
        let seen = &mut seen[lent.names.is_some() as usize][root];
        match answer {
            Answer::Accepted { count, .. } | Answer::Rejected { count, .. } => {
                seen[1] += (count == lent.allowance) as u32;
            }
            _ if lent.allowance == 0 => seen[2] += 1,
            _ => seen[0] += is_decided_by_one_more(&made.case) as u32,
        }
    }
    assert!(seen[0].iter().flatten().all(|n| *n >= 25), "{seen:?}");
    assert!(seen[1].iter().flatten().all(|n| *n >= 3), "{seen:?}");
}

fn is_decided_by_one_more(case: &Case) -> bool {
    let case = case.clone();
    with_deep_stack(move || {
        let lent = case.lent_to_judge().expect("a call of the judge");
        let answer = Lent { allowance: lent.allowance + 1, ..lent }.judged();
        !matches!(answer, Answer::Undecided { .. })
    })
}

/// Searches that enter many states of which few differ, with names and without, and searches with more different states than a judge
/// may remember.
#[test]
fn equal_states_come_often() {
    let (mut equal, mut many) = ([0; 2], 0);
    for made in cases().iter().filter(|made| made.family.ends_with("equal parts")) {
        let Some(lent) = made.case.lent_to_judge() else { continue };
        let enough = Lent::enough(lent.names, lent.nodes, lent.records, lent.allowance);
        let effort = Lent { sets: lent.sets, ..enough }.effort();
        equal[lent.names.is_some() as usize] += (effort.entered as usize > 10 * effort.different) as u32;
        many += (effort.different > 2_048) as u32;
    }
    assert!(equal[0] >= 200 && equal[1] >= 20 && many >= 10, "{equal:?} {many}");
}

/// One work byte less than wanted, just as many, one more, with names and without.
#[test]
fn work_lengths_meet_the_one_wanted_from_both_sides() {
    let mut seen = [[0; 3]; 2];
    for made in cases() {
        if let Some(lent) = made.case.lent_to_judge() {
            let wanted = work_wanted(lent.nodes, lent.records);
            let seen = &mut seen[lent.names.is_some() as usize];
            (0..3).for_each(|i| seen[i] += (lent.work_len + 1 == wanted + i) as u32);
        }
    }
    assert!(seen.iter().flatten().all(|n| *n >= 50), "{seen:?}");
}

// ---- what may come next ----

/// Calls that are not refused, each with its answer, the fixed ones left out if so wanted.
fn answers_of_next(fixed: bool) -> impl Iterator<Item = (Beginning<'static>, &'static Next)> {
    let first = if fixed { 0 } else { oracle::cases::fixed::cases().len() };
    cases()[first..].iter().filter_map(|made| match &made.reply {
        Reply::Next(Next::Refused(_)) => None,
        Reply::Next(next) => Some((made.case.beginning().expect("a call of next"), next)),
        _ => None,
    })
}

/// Lists of none, of one, of some, of ten or more and of all numbers; each closing; and events that no leaf has, which follow by a name.
#[test]
fn lists_of_every_length() {
    let (mut lengths, mut closings, mut by_name) = ([[0; 4]; 2], [[0; 3]; 2], 0);
    for (beginning, next) in answers_of_next(false) {
        let Next::Listed { numbers, .. } = next else { continue };
        let named = beginning.names.is_some() as usize;
        lengths[named][[0, 1, 2, 2, 2, 3][numbers.len().min(5)]] += 1;
        (0..3).for_each(|c| closings[named][c] += numbers.contains(&CLOSING_RECORDS[c]) as u32);
        let leaves: Vec<u16> =
            beginning.nodes.chunks(3).filter(|n| n[0] == kind::EVENT).map(|n| n[1]).collect();
        by_name += numbers.iter().any(|n| is_event(*n) && !leaves.contains(n)) as u32;
    }
    assert!(lengths.iter().all(|of| of[..3].iter().all(|n| *n >= 15) && of[3] >= 3), "{lengths:?}");
    assert!(closings.iter().flatten().all(|n| *n >= 8), "{closings:?}");
    assert!(by_name >= 30, "{by_name}");
    let longest = answers_of_next(true)
        .filter(|(_, next)| matches!(next, Next::Listed { numbers, .. } if numbers.len() == LIST_ROOM));
    assert!(longest.count() >= 10);
}

/// For both sorts of root, with names and without: empty beginnings, beginnings that a run follows and others, after a first closing
/// too; and just as many records as there may be.
#[test]
fn beginnings_of_every_sort() {
    let (mut seen, mut longest) = ([[[0; 3]; 2]; 2], [0; 2]);
    let mut closed = [[0; 2]; 2];
    for (beginning, next) in answers_of_next(false) {
        let Next::Listed { numbers, .. } = next else { continue };
        let root = (sort_of(beginning.nodes[beginning.nodes.len() - 3]) == Sort::Compensable) as usize;
        let (named, followed) = (beginning.names.is_some() as usize, !numbers.is_empty());
        let sort = if beginning.records.is_empty() { 0 } else { 1 + followed as usize };
        seen[named][root][sort] += 1;
        closed[named][followed as usize] += beginning.records.iter().any(|r| !is_event(*r)) as u32;
    }
    for (beginning, _) in answers_of_next(true) {
        longest[beginning.names.is_some() as usize] += (beginning.records.len() == MOST_RECORDS) as u32;
    }
    assert!(seen.iter().flatten().flatten().all(|n| *n >= 8), "{seen:?}");
    assert!(closed.iter().flatten().all(|n| *n >= 10), "{closed:?}");
    assert!(longest.iter().all(|n| *n >= 5), "{longest:?}");
}

/// For both sorts of root, with names and without: allowed one state less than the count, just the count, none at all.
#[test]
fn allowances_of_next_meet_the_count_from_both_sides() {
    let mut seen = [[[0; 3]; 2]; 2];
    for (beginning, next) in answers_of_next(true) {
        let root = (sort_of(beginning.nodes[beginning.nodes.len() - 3]) == Sort::Compensable) as usize;
        let seen = &mut seen[beginning.names.is_some() as usize][root];
        match next {
            Next::Listed { count, .. } => seen[1] += (*count == beginning.allowance) as u32,
            _ if beginning.allowance == 0 => seen[2] += 1,
            _ => {
                let one_more = Beginning { allowance: beginning.allowance.saturating_add(1), ..beginning };
                let listed = with_deep_stack(move || one_more.listed());
                seen[0] += matches!(listed, Next::Listed { .. }) as u32;
            }
        }
    }
    assert!(seen.iter().flatten().flatten().all(|n| *n >= 8), "{seen:?}");
}

/// Work bytes and numbers of the list: one less than wanted, just as many, one more, with names and without.
#[test]
fn what_is_lent_to_next_meets_what_is_wanted_from_both_sides() {
    let (mut work, mut room) = ([[0; 3]; 2], [[0; 3]; 2]);
    for made in cases() {
        let Some(beginning) = made.case.beginning() else { continue };
        if made.reply.refusal().is_some_and(|refusal| refusal.number != 14) {
            continue;
        }
        let named = beginning.names.is_some() as usize;
        let wanted = work_wanted(beginning.nodes, beginning.records);
        (0..3).for_each(|i| work[named][i] += (beginning.work_len + 1 == wanted + i) as u32);
        (0..3).for_each(|i| room[named][i] += (beginning.list_room + 1 == LIST_ROOM + i) as u32);
    }
    assert!(work.iter().chain(&room).flatten().all(|n| *n >= 20), "{work:?} {room:?}");
}

/// Searches of all runs that enter many states of which few differ, with names and without.
#[test]
fn equal_states_come_often_in_next() {
    let mut equal = [0; 2];
    for (beginning, _) in answers_of_next(true) {
        if let Some(effort) = beginning.effort_within(usize::MAX) {
            let many = effort.entered as usize > 10 * effort.different;
            equal[beginning.names.is_some() as usize] += many as u32;
        }
    }
    assert!(equal.iter().all(|n| *n >= 15), "{equal:?}");
}

// ---- lines that meet ----

/// A flow with joint parallels that some case has, not refused, with the records that it is judged by.
struct Met {
    nodes: Vec<u16>,
    sets: Vec<EventSet>,
    records: Vec<u16>,
}

impl Met {
    fn of(nodes: &[u16], sets: &[u8], records: &[u16]) -> Option<Met> {
        let met = Met { nodes: nodes.to_vec(), sets: sets_of(sets), records: records.to_vec() };
        Some(met).filter(|met| !met.joint().is_empty())
    }

    /// Of a call or a file that is judged.
    fn judged(case: &Case) -> Option<Met> {
        match case {
            Case::File(file) => {
                let file = read(file).ok()?;
                Met::of(&file.nodes, &file.lent_sets(), &file.records)
            }
            _ => case.lent_to_judge().and_then(|lent| Met::of(lent.nodes, lent.sets, lent.records)),
        }
    }

    /// The nodes that are joint parallels with an event in their set.
    fn joint(&self) -> Vec<usize> {
        let has_events = |number: usize| self.sets.get(number).is_some_and(|set| *set != EventSet::EMPTY);
        let nodes = self.nodes.chunks(3).enumerate();
        nodes.filter(|(_, node)| set_number(node[0]).is_some_and(has_events)).map(|(i, _)| i).collect()
    }

    /// Is one of them under another?
    fn is_nested(&self) -> bool {
        self.joint().iter().any(|i| under(&self.nodes, *i).iter().any(|below| self.joint().contains(below)))
    }

    /// Does one of them stand where something is undone: in a block or behind a pair's sign?
    fn is_undone(&self) -> bool {
        let undoing =
            (0..self.nodes.len() / 3).filter(|i| [kind::BLOCK, kind::PAIR].contains(&self.nodes[3 * i]));
        undoing.flat_map(|i| under(&self.nodes, i)).any(|below| self.joint().contains(&below))
    }

    /// Is some record an event that two sides do together?
    fn is_met(&self) -> bool {
        let sets = self.joint().into_iter().filter_map(|i| self.sets.get(set_number(self.nodes[3 * i])?));
        sets.into_iter().any(|set| self.records.iter().any(|record| set.has(*record)))
    }
}

/// All nodes below one.
fn under(nodes: &[u16], i: usize) -> Vec<usize> {
    children(nodes, i).flat_map(|child| [vec![child], under(nodes, child)].concat()).collect()
}

/// Judged with names, without and as files: accepted, rejected and undecided; among those accepted by a joint event both sorts of root,
/// parallels under parallels, and compensations.
#[test]
fn lines_meet_often() {
    let (mut seen, mut sorts, mut nested, mut undone) = ([[0; 3]; 3], [0; 2], 0, 0);
    for made in &cases()[oracle::cases::fixed::cases().len()..] {
        let Reply::Judged(answer) = made.reply else { continue };
        let word = match answer {
            Answer::Accepted { .. } => 0,
            Answer::Rejected { .. } => 1,
            Answer::Undecided { .. } => 2,
            Answer::Refused(_) => continue,
        };
        let Some(met) = Met::judged(&made.case) else { continue };
        let asked = ["judge", "judge with names", "program"].iter().position(|a| *a == made.case.asked());
        seen[asked.expect("one of the three")][word] += 1;
        if word == 0 && met.is_met() {
            sorts[sort_of(met.nodes[met.nodes.len() - 3]) as usize] += 1;
            nested += met.is_nested() as u32;
            undone += met.is_undone() as u32;
        }
    }
    assert!(seen[..2].iter().all(|of| of[0] >= 20 && of[1] >= 60 && of[2] >= 25), "{seen:?}");
    assert!(seen[2][..2].iter().all(|n| *n >= 15), "{seen:?}");
    assert!(sorts.iter().all(|n| *n >= 15) && nested >= 15 && undone >= 25, "{sorts:?} {nested} {undone}");
}

/// Calls and files, the fixed ones left out, that are judged otherwise than if nobody met anybody.
#[test]
fn meetings_decide_often() {
    let (mut accepted, mut other) = (0, 0);
    for made in &cases()[oracle::cases::fixed::cases().len()..] {
        let Reply::Judged(answer) = made.reply else { continue };
        if matches!(answer, Answer::Refused(_)) {
            continue;
        }
        let Some(lent) = made.case.lent_to_judge().filter(|_| Met::judged(&made.case).is_some()) else {
            continue;
        };
        let nobody = vec![0; lent.sets.len()];
        let apart = with_deep_stack(move || Lent { sets: &nobody, ..lent }.judged_within(100_000));
        other += (apart != Some(answer)) as u32;
        accepted += (apart != Some(answer) && matches!(answer, Answer::Accepted { .. })) as u32;
    }
    assert!(accepted >= 60 && other >= 200, "{accepted} {other}");
}

/// What may come next where lines meet: something, nothing, and too many states, with names and without.
#[test]
fn lines_meet_often_in_next() {
    let mut seen = [[0; 3]; 2];
    for (beginning, next) in answers_of_next(false) {
        if Met::of(beginning.nodes, beginning.sets, beginning.records).is_none() {
            continue;
        }
        let word = match next {
            Next::Listed { numbers, .. } => numbers.is_empty() as usize,
            _ => 2,
        };
        seen[beginning.names.is_some() as usize][word] += 1;
    }
    assert!(seen.iter().all(|of| of[0] >= 30 && of[1] >= 15 && of[2] >= 15), "{seen:?}");
}

/// Read and written: no sets, one, some, fifteen, sixteen.
#[test]
fn files_have_sets_of_every_number() {
    let (mut read_sets, mut written) = ([0; 17], [0; 17]);
    for made in cases() {
        match (&made.reply, &made.case) {
            (Reply::Read { sets, .. }, _) => read_sets[*sets] += 1,
            (Reply::Written(_), Case::Call(call)) => written[call.sets.len() / 32] += 1,
            _ => {}
        }
    }
    for seen in [read_sets, written] {
        assert!([0, 1, 2, 15, 16].iter().all(|sets| seen[*sets] >= 3), "{seen:?}");
        assert!(seen[0] >= 60 && seen[1..].iter().sum::<u32>() >= 60, "{seen:?}");
    }
}

/// Lent sets of every length that matters, each by every function.
#[test]
fn lengths_of_sets_meet_the_limits_from_both_sides() {
    for asked in ["judge", "judge with names", "next", "next with names", "writer"] {
        for length in [0, 1, 31, 32, 33, 64, 511, 512, 513, 544, MOST_SET_BYTES] {
            let of_length =
                cases().iter().filter(|made| made.case.asked() == asked).filter(|made| match &made.case {
                    Case::Call(call) => call.sets.len() == length,
                    _ => false,
                });
            assert!(of_length.count() >= 3, "{length} bytes to {asked}");
        }
    }
}

// ---- what it looks like ----

#[test]
fn every_case_is_one_for_replay() {
    for made in cases() {
        match &made.case {
            Case::File(file) => assert!(file.len() <= u16::MAX as usize),
            Case::Judge { work_len, nodes, records, .. } => {
                assert!(*work_len <= MOST_WORK);
                assert!(nodes.len() <= MOST_NUMBERS && records.len() <= MOST_NUMBERS);
            }
            Case::Read { file, .. } => assert!(file.len() <= u16::MAX as usize),
            Case::Call(call) => {
                assert!(call.names_lent == 1 || call.names.is_empty());
                assert!(call.names.len() <= u16::MAX as usize && call.sets.len() <= MOST_SET_BYTES);
                match call.function {
                    JUDGE => assert!(call.edition == 1 && call.work_len as usize <= MOST_WORK),
                    NEXT => {
                        assert!(call.edition == 1 && call.work_len as usize <= MOST_WORK);
                        assert!(call.room as usize <= MOST_ROOM);
                    }
                    WRITE => assert!(call.names_lent == 1 && call.room as usize <= MOST_ROOM),
                    other => unreachable!("function {other}"),
                }
                assert!(call.nodes.len() <= MOST_NUMBERS && call.records.len() <= MOST_NUMBERS);
            }
        }
    }
}

#[test]
fn the_hand_cases_come_first() {
    let lines = cases().iter().take(17).map(Made::line);
    let expected = by_hand::table().into_iter().map(|case| format!("{} clean", case.line));
    assert!(lines.eq(expected));
}

#[test]
fn a_seed_stands_for_its_cases() {
    let fixed = oracle::cases::fixed::cases().len();
    let bytes = |made: &[Made]| made.iter().map(|m| m.case.bytes()).collect::<Vec<_>>();
    let again = |seed| with_deep_stack(move || Stream::new(seed).take(fixed + 200).collect::<Vec<_>>());
    assert_eq!(bytes(&again(STORED_SEED)), bytes(&cases()[..fixed + 200]));
    let other = bytes(&again(STORED_SEED + 1));
    assert_eq!(other[..fixed], bytes(&cases()[..fixed]));
    assert_ne!(other[fixed..], bytes(&cases()[fixed..fixed + 200]));
}

/// In files that are read.
#[test]
fn names_have_every_byte() {
    let mut seen = [false; 256];
    for made in &cases()[oracle::cases::fixed::cases().len()..] {
        if let Case::File(file) = &made.case {
            let names = read(file).map(|file| file.names).unwrap_or_default();
            let bytes = names.iter().flat_map(|(step, machine)| step.iter().chain(machine));
            bytes.for_each(|byte| seen[*byte as usize] = true);
        }
    }
    assert!(seen.iter().all(|s| *s));
}

#[test]
fn malformed_cases_are_not_empty() {
    assert!(malformed().len() > 100 && malformed().iter().all(|case| !case.bytes.is_empty()));
}

/// As `replay` is to read them and to print.
#[test]
fn readings_and_writings_look_as_agreed() {
    let file = vec![0, 0, 1, 0, 2, 0, 0, 0, 0, 0, 1, 0, 1, 240];
    let read = Case::Read { node_room: 192, record_room: 256, file: file.clone() };
    assert_eq!(read.bytes(), [&[b'R', 192, 0, 0, 1, 14, 0], &file[..]].concat());
    assert_eq!(read.line(&read.reply(0).unwrap()), "read 0 1 1 14 0 clean");
    let short = Case::Read { node_room: 191, record_room: 65_535, file };
    assert_eq!(short.bytes()[..5], [b'R', 191, 0, 255, 255]);
    assert_eq!(short.line(&short.reply(0).unwrap()), "refused 14 0 clean");
    let call = Call {
        edition: 7,
        allowance: 0x0403_0201,
        work_len: 5,
        ..Call::write(vec![0, 0], vec![2, 0, 0], vec![DONE])
    };
    let head = [b'C', 3, 7, 1, 1, 2, 3, 4, 5, 0, 0, 0, 14, 0, 0, 0, 2, 0, 3, 0, 1, 0, 0, 0];
    let (write, lists) = (Case::Call(call.clone()), [0, 0, 2, 0, 0, 0, 0, 0, 1, 240]);
    assert_eq!(write.bytes(), [&head[..], &lists].concat());
    assert_eq!(write.line(&write.reply(0).unwrap()), "written 14 00000100020000000000010001f0 clean");
    let long = Case::Call(Call { names: vec![0, 0, 9], ..call.clone() });
    assert_eq!(long.line(&long.reply(0).unwrap()), "refused 21 2 clean");
    let with_a_set = Case::Call(call.with_sets(vec![7; 32]));
    assert_eq!(with_a_set.bytes()[12..16], [48, 0, 0, 0], "room for the sets and their count");
    let hex = ["00000100020000000000010001f0", "0100", &"07".repeat(32)].concat();
    assert_eq!(with_a_set.line(&with_a_set.reply(0).unwrap()), format!("written 48 {hex} clean"));
    let file = [&[0, 0, 1, 0, 2, 0, 0, 0, 0, 0, 1, 0, 1, 240, 1, 0][..], &[7; 32]].concat();
    let read = Case::Read { node_room: 192, record_room: 256, file };
    assert_eq!(read.line(&read.reply(0).unwrap()), "read 0 1 1 16 1 clean");
}

/// The same for a judge, with names and without.
#[test]
fn judgings_look_as_agreed() {
    let names = vec![2, 0, 1, b'p', 0, 1, b'p', 1, b'1'];
    let call = Call { room: 7, ..Call::judge(Some(names.clone()), vec![1, 1, 0], vec![2, DONE]) };
    let head = [b'C', 0, 1, 1, 64, 66, 15, 0, 6, 0, 0, 0, 7, 0, 0, 0, 9, 0, 3, 0, 2, 0, 0, 0];
    let lists = [1, 0, 1, 0, 0, 0, 2, 0, 1, 240];
    let judge = Case::Call(call.clone());
    assert_eq!(judge.bytes(), [&head[..], &names, &lists].concat());
    assert_eq!(judge.line(&judge.reply(9).unwrap()), "accepted 0 2 3 clean");
    let plain = Case::Call(Call { names_lent: 0, names: vec![], ..call.clone() });
    assert_eq!(plain.bytes()[..4], [b'C', 0, 1, 0]);
    assert_eq!(plain.line(&plain.reply(9).unwrap()), "rejected 0 0 1 clean");
    let short = Case::Call(Call { work_len: 5, ..call.clone() });
    assert_eq!(short.line(&short.reply(9).unwrap()), "refused 14 0 0 clean");
    let sets: Vec<u8> = (0..32).collect();
    let with_a_set = Case::Call(call.with_sets(sets.clone()));
    assert_eq!(with_a_set.bytes()[22..24], [32, 0]);
    assert_eq!(with_a_set.bytes()[24..], [&names[..], &lists, &sets].concat());
    assert_eq!(with_a_set.line(&with_a_set.reply(9).unwrap()), "accepted 0 2 3 clean");
}

/// The same for what may come next.
#[test]
fn lists_look_as_agreed() {
    let names = vec![2, 0, 1, b'p', 0, 1, b'p', 1, b'1'];
    let call = Call::next(Some(names.clone()), vec![1, 1, 0], vec![]);
    let head = [b'C', 1, 1, 1, 64, 66, 15, 0, 2, 0, 0, 0, 3, 1, 0, 0, 9, 0, 3, 0, 0, 0, 0, 0];
    let next = Case::Call(call.clone());
    assert_eq!(next.bytes(), [&head[..], &names, &[1, 0, 1, 0, 0, 0]].concat());
    assert_eq!(next.line(&next.reply(9).unwrap()), "listed 2 1 1 2 clean");
    let line = |call: Call| {
        let case = Case::Call(call);
        case.line(&case.reply(9).unwrap())
    };
    let plain = call.clone().nameless();
    assert_eq!(Case::Call(plain.clone()).bytes()[..4], [b'C', 1, 1, 0]);
    assert_eq!(line(plain), "listed 1 1 1 clean");
    assert_eq!(line(Call { allowance: 0, ..call.clone() }), "undecided 0 0 clean");
    assert_eq!(line(Call { room: 258, ..call.clone() }), "refused 14 0 clean");
    assert_eq!(line(Call { records: vec![2, 2], work_len: 6, ..call.clone() }), "listed 0 2 clean");
    assert_eq!(line(Call { records: vec![2, DONE], ..call }), "refused 13 1 clean");
}
