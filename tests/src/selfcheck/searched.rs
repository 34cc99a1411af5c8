//! One way to search against another: the guided successors against the plain lists, the search that remembers against one that goes
//! through equal states again, and the lists of what may come next against plain recursion and against the judge.

use super::{any_flow, meets, Seen, Setting};
use crate::cases::repeating;
use crate::drawing;
use crate::judge::{Answer, Effort, Lent};
use crate::next::{Beginning, Next};
use crate::random;
use crate::rng::Rng;
use crate::term::{is_event, sort_of, Sort, CLOSING_RECORDS, DONE};

/// The guided search answers as the plain lists do, count and all, and the allowance is exact.
pub fn guided_against_lists(flows: u64, seed: u64) -> Result<Seen, String> {
    let mut rng = Rng::new(seed);
    let mut seen = Seen::default();
    while seen.flows < flows {
        let events = rng.between(1, 3);
        let nodes = any_flow(&mut rng, 18, events).table_in_any_order(&mut rng);
        let setting = Setting::any(&mut rng, events);
        seen.flows += 1;
        seen.meeting += meets(&nodes) as u64;
        for _ in 0..4 {
            let records = random::records_for(&mut rng, &setting.root(&nodes), &setting.matching, events);
            let lent = setting.lent(&nodes, &records);
            let Some(answer) = lent.judged_within(3_000) else {
                seen.left_out += 1;
                continue;
            };
            seen.count(answer);
            let wrong = |what: &str, other: Answer| {
                Err(format!("{}, records {records:?}: {answer}, but {what} {other}", setting.show(&nodes)))
            };
            let listed = lent.judged_by_lists();
            if listed != answer {
                return wrong("by the lists", listed);
            }
            let (Answer::Accepted { count, .. } | Answer::Rejected { count, .. }) = answer else {
                return wrong("it should be decided:", answer);
            };
            let just = Lent { allowance: count, ..lent }.judged();
            if just != answer {
                return wrong("allowed just its count", just);
            }
            let short = Lent { allowance: count - 1, ..lent }.judged();
            if short != (Answer::Undecided { allowance: count - 1 }) {
                return wrong("allowed one less", short);
            }
        }
    }
    Ok(seen)
}

/// What is listed level by level is what plain recursion over the plain lists finds, count and all, and the allowance is exact.
pub fn lists_by_levels_against_recursion(flows: u64, seed: u64) -> Result<Seen, String> {
    let mut rng = Rng::new(seed);
    let mut seen = Seen::default();
    while seen.flows < flows {
        let events = rng.between(1, 3);
        let nodes = any_flow(&mut rng, 18, events).table_in_any_order(&mut rng);
        let setting = Setting::any(&mut rng, events);
        seen.flows += 1;
        seen.meeting += meets(&nodes) as u64;
        for _ in 0..4 {
            let records = random::records_for(&mut rng, &setting.root(&nodes), &setting.matching, events);
            let records = &records[..rng.below(records.len())];
            let beginning = setting.beginning(&nodes, records);
            let Some(next) = beginning.listed_within(1_000) else {
                seen.left_out += 1;
                continue;
            };
            seen.count_list(&next);
            let wrong = |what: &str, other: Next| {
                Err(format!("{}, beginning {records:?}: {next}, but {what} {other}", setting.show(&nodes)))
            };
            let recursive = beginning.listed_by_lists();
            if recursive != next {
                return wrong("by recursion", recursive);
            }
            let Next::Listed { count, .. } = next else {
                return wrong("it should be decided:", next.clone());
            };
            let just = Beginning { allowance: count, ..beginning }.listed();
            if just != next {
                return wrong("allowed just its count", just);
            }
            let short = Beginning { allowance: count - 1, ..beginning }.listed();
            if short != (Next::Undecided { allowance: count - 1 }) {
                return wrong("allowed one less", short);
            }
        }
    }
    Ok(seen)
}

/// What may come next against the judge, which has a search of its own. Of records that are rejected, the beginning that some run
/// follows has the judge's count and does not list the record after it, and each shorter one lists it, as all do of records that are
/// accepted. And a number is listed exactly if the judge follows a record more where it stands behind the beginning.
pub fn lists_against_judge(flows: u64, seed: u64) -> Result<Seen, String> {
    let mut rng = Rng::new(seed);
    let mut seen = Seen::default();
    while seen.flows < flows {
        seen.flows += 1;
        if rng.once_in(4) {
            for case in repeating::cases(&mut rng) {
                let lent = case.lent_to_judge().expect("a call of the judge");
                agrees_with_judge(&mut rng, lent, &mut seen)?;
            }
            continue;
        }
        let events = rng.between(1, 3);
        let nodes = any_flow(&mut rng, 20, events).table_in_any_order(&mut rng);
        let setting = Setting::any(&mut rng, events);
        seen.meeting += meets(&nodes) as u64;
        for _ in 0..3 {
            let records = random::records_for(&mut rng, &setting.root(&nodes), &setting.matching, events);
            agrees_with_judge(&mut rng, setting.lent(&nodes, &records), &mut seen)?;
        }
    }
    Ok(seen)
}

fn agrees_with_judge(rng: &mut Rng, lent: Lent, seen: &mut Seen) -> Result<(), String> {
    const PATIENCE: u32 = 50_000;
    let Lent { names, nodes, records, sets, .. } = lent;
    let judged = |records: &[u16]| {
        Lent { sets, ..Lent::enough(names, nodes, records, u32::MAX) }.judged_within(PATIENCE)
    };
    let listed = |length: usize| {
        let beginning = Beginning::enough(names, nodes, &records[..length], u32::MAX);
        Beginning { sets, ..beginning }.listed_within(PATIENCE)
    };
    let Some(answer) = judged(records) else {
        seen.left_out += 1;
        return Ok(());
    };
    seen.count(answer);
    let wrong = |length: usize, what: String| {
        let flow = drawing::of_table(nodes).show();
        Err(format!("{flow}, records {records:?}: {answer}, but after {length} of them {what}"))
    };
    let (Answer::Accepted { place, .. } | Answer::Rejected { place, .. }) = answer else {
        return wrong(0, "it should be decided".into());
    };
    for (length, record) in records.iter().enumerate().take(place + 1) {
        let next = listed(length);
        let Some(Next::Listed { numbers, count }) = next else {
            // A search that is accepted early may go through much less than there is.
            match answer {
                Answer::Accepted { .. } => break,
                _ => return wrong(length, format!("{next:?}")),
            }
        };
        seen.listed += 1;
        let counts_agree = match answer {
            Answer::Rejected { count: judged, .. } if length == place => judged == count,
            // At most all states up to the last record, and the one with nothing left.
            Answer::Accepted { count: judged, .. } if length + 1 == place => judged <= count + 1,
            _ => true,
        };
        if numbers.contains(record) != (length < place) || !counts_agree {
            return wrong(length, format!("{numbers:?} are listed, count {count}"));
        }
    }
    // Any beginning, and one number behind it after the other.
    let length = rng.below(records.len());
    let Some(Next::Listed { numbers, .. }) = listed(length) else { return Ok(()) };
    for number in (1..=4).chain(CLOSING_RECORDS) {
        let more = closed_as_needed(nodes, &[&records[..length], &[number]].concat());
        let place = match judged(&more) {
            Some(Answer::Accepted { place, .. } | Answer::Rejected { place, .. }) => place,
            // An event without a name.
            Some(Answer::Refused(refusal)) if refusal.number == 20 => 0,
            None => continue,
            other => return wrong(length, format!("{more:?} are judged {other:?}")),
        };
        if numbers.contains(&number) != (place > length) {
            return wrong(length, format!("{numbers:?} are listed, and {number} is followed up to {place}"));
        }
    }
    Ok(())
}

/// The records and as many closings behind them as the root still needs.
pub fn closed_as_needed(nodes: &[u16], records: &[u16]) -> Vec<u16> {
    let needed: usize = match sort_of(nodes[nodes.len() - 3]) {
        Sort::Standard => 1,
        Sort::Compensable => 2,
    };
    let there = records.iter().filter(|record| !is_event(**record)).count();
    [records, &vec![DONE; needed.saturating_sub(there)]].concat()
}

/// The search that remembers answers as one that goes through equal states again, whatever it is allowed.
pub fn remembering_against_plain(flows: u64, seed: u64) -> Result<Seen, String> {
    let mut rng = Rng::new(seed);
    let mut seen = Seen::default();
    while seen.flows < flows {
        seen.flows += 1;
        for case in repeating::cases(&mut rng) {
            let lent = case.lent_to_judge().expect("a call of the judge");
            let enough =
                Lent { sets: lent.sets, ..Lent::enough(lent.names, lent.nodes, lent.records, 20_000) };
            let Some(Effort { entered, .. }) = enough.effort_within(usize::MAX) else {
                seen.left_out += 1;
                continue;
            };
            let fewer = rng.below(entered as usize) as u32;
            for allowance in [entered - 1, entered, lent.allowance, fewer] {
                let allowed = Lent { allowance, ..enough };
                let (answer, plain) = (allowed.judged(), allowed.judged_without_memory());
                if answer != plain {
                    return Err(format!("{answer}, not {plain}, allowance {allowance}\n{}", case.show()));
                }
                seen.count(answer);
            }
        }
    }
    Ok(seen)
}
