//! The refusals of the judge, 1 to 14, 22 and 23, in the order of document 01 and request Four, and what is else where a beginning of a
//! record list is lent. Those of flow files, 15 to 21, are in reader.rs; the reader, the writer and all that is lent names call the checks
//! from here in between.

use crate::sets::{sets_of, EventSet, MOST_SETS, SET_BYTES};
use crate::term::{is_event, kind, set_number, sort_of, Closing, Sort};

#[derive(Clone, Copy, PartialEq, Eq, Debug)]
pub struct Refusal {
    pub number: u32,
    pub place: usize,
}

/// What a check answers: nothing to say, or the refusal.
pub type Check = Result<(), Refusal>;

pub fn refuse<T>(number: u32, place: usize) -> Result<T, Refusal> {
    Err(Refusal { number, place })
}

pub const MOST_NODES: usize = 64;
pub const MOST_RECORDS: usize = 256;

/// "Work bytes wanted: 2 × nodes × (records + 1)."
pub fn work_wanted(nodes: &[u16], records: &[u16]) -> usize {
    2 * (nodes.len() / 3) * (records.len() + 1)
}

/// What records are lent: a whole list, or a beginning of one, "possibly empty" (request Three).
#[derive(Clone, Copy, PartialEq, Eq, Debug)]
pub enum Records {
    Whole,
    Beginning,
}

/// "Judging checks 1 to 3; then nodes from 0 up, each in the order 4 to 8; then 9 to 14", here without 14; 23 stands "just before the
/// nodes". The sets, if all is well.
pub fn plain_lists(
    nodes: &[u16],
    records: &[u16],
    sets: &[u8],
    which: Records,
) -> Result<Vec<EventSet>, Refusal> {
    node_count(nodes)?;
    let sets = lent_sets(sets)?;
    node_table(nodes, sets.len())?;
    record_count(records, which)?;
    record_list(nodes, records, which)?;
    Ok(sets)
}

/// 14 for the work bytes.
pub fn work_length(nodes: &[u16], records: &[u16], work_len: usize) -> Check {
    if work_len < work_wanted(nodes, records) {
        return refuse(14, 0);
    }
    Ok(())
}

/// 1, 2, 3.
pub fn node_count(nodes: &[u16]) -> Check {
    if nodes.is_empty() {
        refuse(1, 0)
    } else if !nodes.len().is_multiple_of(3) {
        refuse(2, 0)
    } else if nodes.len() / 3 > MOST_NODES {
        refuse(3, 0)
    } else {
        Ok(())
    }
}

/// 23: "lent sets of a length no multiple of 32 or above 512, place 0". No bytes are no sets.
pub fn lent_sets(bytes: &[u8]) -> Result<Vec<EventSet>, Refusal> {
    if !bytes.len().is_multiple_of(SET_BYTES) || bytes.len() > MOST_SETS * SET_BYTES {
        return refuse(23, 0);
    }
    Ok(sets_of(bytes))
}

/// 4, 22 and 5 to 8 for each node, then 9. The table has one node at least and a length that is a multiple of 3; so many sets are present.
pub fn node_table(nodes: &[u16], sets: usize) -> Check {
    let count = nodes.len() / 3;
    let mut taken = vec![false; count];
    for i in 0..count {
        one_node(nodes, i, sets, &mut taken)?;
    }
    match taken[..count - 1].iter().position(|t| !t) {
        Some(i) => refuse(9, i),
        None => Ok(()),
    }
}

/// The same for node i; `taken` says which nodes are children of lower ones, and gains node i's children.
fn one_node(nodes: &[u16], i: usize, sets: usize, taken: &mut [bool]) -> Check {
    let (kind, first, second) = (nodes[3 * i], nodes[3 * i + 1], nodes[3 * i + 2]);
    let Some((children, wanted)) = children_of(kind, first, second) else {
        return refuse(4, i);
    };
    // "22, kind with a set number not present, right after 4"
    if set_number(kind).is_some_and(|number| number >= sets) {
        return refuse(22, i);
    }
    let fields_fit = match kind {
        kind::EVENT => is_event(first) && second == 0,
        kind::BLOCK => second == 0,
        _ => !children.is_empty() || (first == 0 && second == 0),
    };
    if !fields_fit {
        return refuse(5, i);
    }
    if children.iter().any(|&c| c >= i) {
        return refuse(6, i);
    }
    if children.iter().any(|&c| sort_of(nodes[3 * c]) != wanted) {
        return refuse(7, i);
    }
    for c in children {
        // The second child finds the first marked: "or the same child twice".
        if taken[c] {
            return refuse(8, i);
        }
        taken[c] = true;
    }
    Ok(())
}

/// The children that a node of this kind has and the sort they must be of; none for an unknown kind.
fn children_of(kind: u16, first: u16, second: u16) -> Option<(Vec<usize>, Sort)> {
    let (first, second) = (first as usize, second as usize);
    match kind {
        1..=4 | 14..=16 => Some((vec![], Sort::Standard)),
        5..=8 | 10 | 256..=271 => Some((vec![first, second], Sort::Standard)),
        9 => Some((vec![first], Sort::Compensable)),
        11..=13 | 512..=527 => Some((vec![first, second], Sort::Compensable)),
        _ => None,
    }
}

/// 10, 11; "10 isn't given" to a beginning.
pub fn record_count(records: &[u16], which: Records) -> Check {
    if records.is_empty() && which == Records::Whole {
        refuse(10, 0)
    } else if records.len() > MOST_RECORDS {
        refuse(11, 0)
    } else {
        Ok(())
    }
}

/// 12, then 13. The nodes have passed 1 to 9.
pub fn record_list(nodes: &[u16], records: &[u16], which: Records) -> Check {
    let neither = |r: &u16| !is_event(*r) && Closing::of_record(*r).is_none();
    if let Some(i) = records.iter().position(neither) {
        return refuse(12, i);
    }
    let needed = match sort_of(nodes[nodes.len() - 3]) {
        Sort::Standard => 1,
        Sort::Compensable => 2,
    };
    let mut closings = records.iter().enumerate().filter(|(_, r)| !is_event(**r));
    match (which, closings.nth(needed - 1)) {
        (Records::Whole, Some((i, _))) if i + 1 == records.len() => Ok(()),
        (Records::Whole, Some((i, _))) => refuse(13, i + 1),
        (Records::Whole, None) => refuse(13, records.len()),
        // "a closing too many (any for a standard root, a second for a compensable one) is 13, at that closing": nothing follows the
        // last one that the root needs
        (Records::Beginning, Some((i, _))) => refuse(13, i),
        (Records::Beginning, None) => Ok(()),
    }
}
