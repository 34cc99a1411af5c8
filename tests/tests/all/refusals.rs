//! The refusals of the judge: each number, its place, and the order of the checks.

use oracle::judge::judge;
use oracle::term::{DONE, FAILED};

fn line(nodes: &[u16], records: &[u16]) -> String {
    judge(nodes, records, 40_000, 1_000_000).to_string()
}

#[test]
fn node_counts() {
    assert_eq!(line(&[], &[]), "refused 1 0 0");
    assert_eq!(line(&[1, 1], &[]), "refused 2 0 0");
    assert_eq!(line(&[1; 196], &[]), "refused 2 0 0", "2 comes before 3");
    assert_eq!(line(&[0; 195], &[]), "refused 3 0 0", "3 comes before 4");
}

#[test]
fn single_nodes() {
    assert_eq!(line(&[2, 0, 0, 0, 0, 0], &[]), "refused 4 1 0");
    assert_eq!(line(&[17, 0, 0], &[]), "refused 4 0 0");
    assert_eq!(line(&[1, 0, 0], &[]), "refused 5 0 0");
    assert_eq!(line(&[1, 257, 0], &[]), "refused 5 0 0");
    assert_eq!(line(&[1, 256, 0], &[256, DONE]), "accepted 0 2 3");
    assert_eq!(line(&[1, 1, 1], &[]), "refused 5 0 0");
    for leaf in [2, 3, 4, 14, 15, 16] {
        assert_eq!(line(&[leaf, 1, 0], &[]), "refused 5 0 0");
        assert_eq!(line(&[leaf, 0, 1], &[]), "refused 5 0 0");
    }
    assert_eq!(line(&[9, 7, 1], &[]), "refused 5 0 0", "5 comes before 6");
    assert_eq!(line(&[5, 0, 0], &[]), "refused 6 0 0");
    assert_eq!(line(&[9, 0, 0], &[]), "refused 6 0 0");
    assert_eq!(line(&[14, 0, 0, 5, 0, 1], &[]), "refused 6 1 0", "6 for both children comes before 7");
    assert_eq!(line(&[14, 0, 0, 2, 0, 0, 5, 0, 1], &[]), "refused 7 2 0");
    assert_eq!(line(&[14, 0, 0, 2, 0, 0, 5, 1, 0], &[]), "refused 7 2 0");
    assert_eq!(line(&[2, 0, 0, 9, 0, 0], &[]), "refused 7 1 0");
    assert_eq!(line(&[14, 0, 0, 5, 0, 0], &[]), "refused 7 1 0", "7 comes before 8");
    assert_eq!(line(&[2, 0, 0, 5, 0, 0], &[]), "refused 8 1 0", "the same child twice");
    assert_eq!(line(&[2, 0, 0, 2, 0, 0, 5, 0, 1, 6, 0, 2], &[]), "refused 8 3 0", "taken already");
    assert_eq!(line(&[2, 0, 0, 5, 0, 0, 17, 0, 0], &[]), "refused 8 1 0", "the lower node comes first");
}

#[test]
fn children_of_nobody() {
    assert_eq!(line(&[2, 0, 0, 2, 0, 0, 2, 0, 0], &[]), "refused 9 0 0", "9 comes before 10");
    assert_eq!(line(&[2, 0, 0, 2, 0, 0, 14, 0, 0, 9, 2, 0, 5, 0, 3], &[DONE]), "refused 9 1 0");
}

#[test]
fn records() {
    let skip = [2, 0, 0];
    let skipp = [14, 0, 0];
    assert_eq!(line(&skip, &[]), "refused 10 0 0");
    assert_eq!(line(&skip, &[0; 257]), "refused 11 0 0", "11 comes before 12");
    assert_eq!(line(&skip, &[1, 257, 0]), "refused 12 1 0");
    assert_eq!(line(&skip, &[0, DONE]), "refused 12 0 0");
    assert_eq!(line(&skip, &[DONE, DONE, 61440]), "refused 12 2 0", "12 for all comes before 13");
    assert_eq!(line(&skip, &[61444]), "refused 12 0 0");
    assert_eq!(line(&skip, &[1, 1]), "refused 13 2 0", "too few");
    assert_eq!(line(&skip, &[1, DONE, 1, DONE]), "refused 13 2 0", "after the one");
    assert_eq!(line(&skipp, &[1, DONE]), "refused 13 2 0", "one of two");
    assert_eq!(line(&skipp, &[DONE, 1]), "refused 13 2 0", "one of two, events after it");
    assert_eq!(line(&skipp, &[DONE, 1, FAILED, 1]), "refused 13 3 0", "after the two");
    assert_eq!(line(&skipp, &[DONE, DONE, DONE]), "refused 13 2 0", "after the two");
}

#[test]
fn work_bytes_and_allowance() {
    let answer =
        |records: &[u16], work_len, allowance| judge(&[2, 0, 0], records, work_len, allowance).to_string();
    assert_eq!(answer(&[DONE], 3, 1_000_000), "refused 14 0 0");
    assert_eq!(answer(&[DONE], 3, 0), "refused 14 0 0", "14 comes before the search");
    assert_eq!(answer(&[DONE, DONE], 0, 0), "refused 13 1 0", "14 comes last");
    assert_eq!(answer(&[DONE], 4, 2), "accepted 0 1 2");
    assert_eq!(answer(&[DONE], 4, 1), "undecided 0 0 1");
    assert_eq!(answer(&[DONE], 4, 0), "undecided 0 0 0");
    assert_eq!(answer(&[FAILED], 4, 1), "rejected 0 0 1");
    assert_eq!(answer(&[FAILED], 4, u32::MAX), "rejected 0 0 1");
}
