//! Fresh cases: they come in parts, each the same for the same seed, with blocks in blocks among them, which the stored cases have not.

use oracle::cases::{fixed, fresh, nesting, Made, Reply};
use oracle::drawing::Drawing;
use oracle::judge::{with_deep_stack, Answer, Lent};
use oracle::matching::Matching;
use oracle::random::records_for;
use oracle::rng::Rng;
use oracle::sets::bytes_of;
use oracle::term::{kind, root, set_number, sort_of, Sort};

fn bytes(made: &[Made]) -> Vec<Vec<u8>> {
    made.iter().map(|m| m.case.bytes()).collect()
}

#[test]
fn they_come_in_parts() {
    assert_eq!(fresh(0, 7).count(), 0);
    assert!(fresh(50_001, 7).map(|part| part.length).eq([20_000, 20_000, 10_001]));
    assert!(fresh(50_001, 7).map(|part| part.first()).eq([0, 20_000, 40_000]));
    let some = |seed, part: usize, length| {
        let part = fresh(50_001, seed).nth(part).expect("three parts");
        with_deep_stack(move || part.cases().take(length).collect::<Vec<_>>())
    };
    let fixed = fixed::cases();
    let first = some(7, 0, fixed.len() + 100);
    assert!(fixed.iter().zip(&first).all(|((_, case), made)| *case == made.case));
    assert_eq!(bytes(&some(7, 1, 100)), bytes(&some(7, 1, 100)));
    let random = [&first[fixed.len()..], &some(7, 1, 100), &some(7, 2, 100), &some(8, 1, 100)].map(bytes);
    assert!((0..4).all(|i| (0..i).all(|j| random[i] != random[j])));
    let nested = some(7, 1, 2_000).iter().filter(|made| made.family == "nested").count();
    assert!(nested > 300, "{nested}");
}

/// How many blocks stand one in the other at most.
fn levels(flow: &Drawing) -> usize {
    let within = flow.parts.iter().map(levels).max().unwrap_or(0);
    within + (flow.kind == kind::BLOCK) as usize
}

/// Whether a part for which this holds stands in so many blocks at least.
fn stands_in(flow: &Drawing, blocks: usize, is: &dyn Fn(&Drawing) -> bool) -> bool {
    let left = blocks.saturating_sub((flow.kind == kind::BLOCK) as usize);
    (blocks == 0 && is(flow)) || flow.parts.iter().any(|part| stands_in(part, left, is))
}

fn joint_compensable(flow: &Drawing) -> bool {
    set_number(flow.kind).is_some() && sort_of(flow.kind) == Sort::Compensable
}

/// A parallel that meets within one that does.
fn joint_in_joint(flow: &Drawing) -> bool {
    joint_compensable(flow) && flow.parts.iter().any(|part| stands_in(part, 0, &joint_compensable))
}

/// A choice whose compensation is held, behind which more runs.
fn held_choice(flow: &Drawing) -> bool {
    flow.kind == kind::COMP_SEQ && stands_in(&flow.parts[0], 0, &|part| part.kind == kind::COMP_CHOICE)
}

#[test]
fn blocks_stand_in_blocks() {
    const FLOWS: usize = 4_000;
    let mut rng = Rng::new(5);
    let flows: Vec<Drawing> = (0..FLOWS).map(|_| nesting::any(&mut rng).flow).collect();
    let often = |what: &str, least: usize, is: &dyn Fn(&Drawing) -> bool| {
        let seen = flows.iter().filter(|flow| is(flow)).count();
        assert!(seen >= least, "{what}: {seen}");
    };
    often("two levels", FLOWS / 2, &|flow| levels(flow) >= 2);
    often("four levels", FLOWS / 10, &|flow| levels(flow) >= 4);
    often("eight levels", FLOWS / 100, &|flow| levels(flow) >= 8);
    often("held choices in two blocks", FLOWS / 10, &|flow| stands_in(flow, 2, &held_choice));
    often("joint parallels in two blocks", FLOWS / 20, &|flow| stands_in(flow, 2, &joint_compensable));
    often("joint in joint parallels", FLOWS / 20, &|flow| stands_in(flow, 1, &joint_in_joint));
    often("roots that compensate", FLOWS / 20, &|flow| flow.sort() == Sort::Compensable);
}

/// Many are accepted: a wrong way to undo something shows where a run is to end.
#[test]
fn nested_cases_are_judged_either_way() {
    const CASES: usize = 2_000;
    let replies = with_deep_stack(|| {
        let mut rng = Rng::new(6);
        let made = (0..CASES).filter_map(|_| nesting::case(&mut rng).reply(100_000));
        made.collect::<Vec<_>>()
    });
    let share = |is: &dyn Fn(&Reply) -> bool| replies.iter().filter(|reply| is(reply)).count();
    assert!(replies.len() > CASES * 9 / 10);
    assert!(share(&|reply| matches!(reply, Reply::Judged(Answer::Accepted { .. }))) > CASES / 8);
    assert!(share(&|reply| matches!(reply, Reply::Judged(Answer::Rejected { .. }))) > CASES / 8);
    assert!(share(&|reply| matches!(reply, Reply::Next(_))) > CASES / 10);
}

/// By the plain lists of the rules, and without a memory.
#[test]
fn nested_flows_are_judged_alike_by_plain_lists() {
    const FLOWS: usize = 600;
    let (judged, accepted) = with_deep_stack(|| {
        let mut rng = Rng::new(7);
        let (mut judged, mut accepted) = (0, 0);
        for _ in 0..FLOWS {
            let tandem = nesting::any(&mut rng);
            let (nodes, sets) = (tandem.flow.table(), bytes_of(&tandem.sets));
            let records = records_for(&mut rng, &root(&nodes, &tandem.sets), &Matching::ByNumber, 4);
            let lent = Lent { sets: &sets, ..Lent::enough(None, &nodes, &records, 500) };
            let answer = lent.judged();
            if nodes.len() > 3 * 40 || matches!(answer, Answer::Undecided { .. }) {
                continue;
            }
            assert_eq!(answer, lent.judged_without_memory(), "{} {records:?}", tandem.flow.show());
            assert_eq!(answer, lent.judged_by_lists(), "{} {records:?}", tandem.flow.show());
            judged += 1;
            accepted += matches!(answer, Answer::Accepted { .. }) as usize;
        }
        (judged, accepted)
    });
    assert!(judged > FLOWS / 2 && accepted > FLOWS / 8, "{judged} judged, {accepted} accepted");
}
