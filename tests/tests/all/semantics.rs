//! The search and the lists of what may come next against the published trace semantics and against each other, leaves without a machine
//! against choices, and the laws of demand 3. What is drawn at random is judged with names and without, with joint parallels and without.

use oracle::flowfile::entry;
use oracle::judge::with_deep_stack;
use oracle::laws::{errors_that_look_right, laws};
use oracle::selfcheck::*;
use oracle::sets::EventSet;

#[test]
fn every_small_flow_means_its_traces() {
    let seen = every_small_flow_against_traces(&Setting::plain(), 5, 3).unwrap();
    assert!(seen.flows > 6_000 && seen.accepted > 10_000 && seen.left_out == 0, "{seen:?}");
}

/// Two parallels more: one that meets at the first event, and one that meets at both.
fn two_sets() -> Vec<EventSet> {
    vec![EventSet::of(&[1]), EventSet::of(&[1, 2])]
}

#[test]
fn every_small_flow_that_meets_means_its_traces() {
    let seen = every_small_flow_against_traces(&Setting::plain().with_sets(two_sets()), 5, 2).unwrap();
    assert!(seen.flows > 12_000 && seen.meeting > 6_000 && seen.stuck > 1_000, "{seen:?}");
    assert!(seen.accepted > 15_000 && seen.left_out == 0, "{seen:?}");
}

#[test]
fn every_small_flow_that_meets_lists_what_its_runs_go_on_with() {
    let names = vec![entry("press", ""), entry("press", "P1")];
    let seen = every_small_list_against_traces(&Setting::named(names).with_sets(two_sets()), 5, 2).unwrap();
    assert!(seen.flows > 12_000 && seen.meeting > 6_000 && seen.stuck > 1_000, "{seen:?}");
    assert!(seen.listed > 20_000 && seen.empty > 200_000 && seen.left_out == 0, "{seen:?}");
}

/// The first event is a step without a machine, the second the same step on one.
#[test]
fn every_small_flow_with_names_means_its_traces() {
    let names = vec![entry("press", ""), entry("press", "P1")];
    let seen = every_small_flow_against_traces(&Setting::named(names), 5, 2).unwrap();
    assert!(seen.flows > 6_000 && seen.accepted > 10_000 && seen.left_out == 0, "{seen:?}");
}

#[test]
fn every_small_flow_lists_what_its_traces_go_on_with() {
    let seen = every_small_list_against_traces(&Setting::plain(), 5, 2).unwrap();
    assert!(seen.flows > 6_000 && seen.listed > 12_000 && seen.empty > 100_000, "{seen:?}");
    assert_eq!(seen.left_out, 0);
}

#[test]
fn every_small_flow_with_names_lists_what_its_traces_go_on_with() {
    let names = vec![entry("press", ""), entry("press", "P1")];
    let seen = every_small_list_against_traces(&Setting::named(names), 5, 2).unwrap();
    assert!(seen.flows > 6_000 && seen.listed > 12_000 && seen.empty > 100_000, "{seen:?}");
    assert_eq!(seen.left_out, 0);
}

#[test]
fn random_flows_list_what_their_traces_go_on_with() {
    let seen = random_lists_against_traces(9_000, 9).unwrap();
    assert!(seen.listed > 40_000 && seen.empty > 10_000, "{seen:?}");
    assert!(seen.meeting > 2_500 && seen.stuck > 600, "{seen:?}");
}

#[test]
fn lists_by_levels_are_those_by_recursion() {
    let seen = lists_by_levels_against_recursion(4_000, 10).unwrap();
    assert!(seen.listed > 5_000 && seen.empty > 2_000, "{seen:?}");
}

#[test]
fn lists_agree_with_the_judge() {
    let seen = with_deep_stack(|| lists_against_judge(3_000, 11)).unwrap();
    assert!(seen.accepted > 2_000 && seen.rejected > 2_000 && seen.listed > 10_000, "{seen:?}");
}

#[test]
fn a_leaf_without_a_machine_is_a_choice() {
    let seen = machineless_against_choices(8_000, 7).unwrap();
    assert!(seen.accepted > 10_000 && seen.rejected > 10_000, "{seen:?}");
    assert!(seen.listed > 10_000 && seen.empty > 2_000, "{seen:?}");
}

#[test]
fn names_without_a_second_sense_change_nothing() {
    let seen = names_that_change_nothing(4_000, 8).unwrap();
    assert!(seen.accepted > 5_000 && seen.rejected > 5_000, "{seen:?}");
    assert!(seen.listed > 5_000 && seen.empty > 1_000, "{seen:?}");
}

#[test]
fn sets_without_a_second_sense_change_nothing() {
    let seen = sets_that_change_nothing(6_000, 14).unwrap();
    assert!(seen.meeting > 1_500 && seen.accepted > 5_000 && seen.rejected > 5_000, "{seen:?}");
    assert!(seen.listed > 5_000 && seen.empty > 1_000, "{seen:?}");
}

/// A third of them with joint parallels, of which a quarter or so can get stuck.
#[test]
fn random_flows_mean_their_traces() {
    let seen = random_flows_against_traces(20_000, 1).unwrap();
    assert!(seen.accepted > 40_000 && seen.rejected > 40_000, "{seen:?}");
    assert!(seen.meeting > 6_000 && seen.stuck > 1_500, "{seen:?}");
}

#[test]
fn guided_successors_are_those_of_the_lists() {
    let seen = guided_against_lists(10_000, 2).unwrap();
    assert!(seen.accepted > 10_000 && seen.rejected > 10_000 && seen.meeting > 3_000, "{seen:?}");
}

#[test]
fn remembering_changes_no_answer() {
    let seen = with_deep_stack(|| remembering_against_plain(1_000, 6)).unwrap();
    assert!(seen.rejected > 1_000 && seen.accepted > 100, "{seen:?}");
}

#[test]
fn each_law_keeps_verdict_and_place() {
    let seen = single_exchanges(&laws(), judged_alike, 400, 3).unwrap();
    assert!(seen.accepted > 20_000 && seen.rejected > 20_000 && seen.meeting > 5_000, "{seen:?}");
}

#[test]
fn chains_of_exchanges_keep_verdict_and_place() {
    let seen = chains_of_exchanges(&laws(), judged_alike, 6_000, 4).unwrap();
    assert!(seen.accepted > 5_000 && seen.rejected > 5_000 && seen.meeting > 2_500, "{seen:?}");
}

#[test]
fn each_law_keeps_what_may_come_next() {
    let seen = single_exchanges(&laws(), listed_alike, 200, 12).unwrap();
    assert!(seen.listed > 10_000 && seen.empty > 5_000, "{seen:?}");
}

#[test]
fn chains_of_exchanges_keep_what_may_come_next() {
    let seen = chains_of_exchanges(&laws(), listed_alike, 3_000, 13).unwrap();
    assert!(seen.listed > 3_000 && seen.empty > 1_000, "{seen:?}");
}

/// The checks of the laws tell a law from an error.
#[test]
fn errors_that_look_right_are_found() {
    for alike in [judged_alike as Alike, listed_alike] {
        for error in errors_that_look_right() {
            let name = error.name.clone();
            assert!(single_exchanges(&[error], alike, 2_000, 5).is_err(), "{name} was not found out");
        }
    }
}
