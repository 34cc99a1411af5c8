//! The flow file's reader, and what it shares with all that is lent a names section.

use crate::flowfile::{Entry, FlowFile};
use crate::matching::{same_entry, Matching};
use crate::refusals::{
    lent_sets, node_count, node_table, plain_lists, record_count, record_list, refuse, Check, Records,
    Refusal, MOST_NODES, MOST_RECORDS,
};
use crate::sets::{sets_of, EventSet, MOST_SETS, SET_BYTES};
use crate::term::{is_event, kind};

pub const MOST_NAMES: usize = 256;
pub const LONGEST_NAME: u8 = 40;
/// Room for node numbers and for records that the reader wants to be lent.
pub const NODE_ROOM: usize = 3 * MOST_NODES;
pub const RECORD_ROOM: usize = MOST_RECORDS;

/// The reader, lent tables of these lengths: "checks this first (14)".
pub fn read_into(node_room: usize, record_room: usize, bytes: &[u8]) -> Result<FlowFile, Refusal> {
    if node_room < NODE_ROOM || record_room < RECORD_ROOM {
        return refuse(14, 0);
    }
    read(bytes)
}

/// The reader, lent room enough.
pub fn read(bytes: &[u8]) -> Result<FlowFile, Refusal> {
    let mut cursor = Cursor { bytes, at: 0 };
    let names = read_names(&mut cursor)?;
    let nodes = read_numbers(&mut cursor, 3, MOST_NODES, [1, 3])?;
    let records = read_numbers(&mut cursor, 1, MOST_RECORDS, [10, 11])?;
    let sets = read_sets(&mut cursor)?;
    cursor.is_at_the_end()?;
    node_table(&nodes, sets.len())?;
    record_list(&nodes, &records, Records::Whole)?;
    events_have_names(&nodes, &records, names.len())?;
    Ok(FlowFile { names, nodes, records, sets })
}

/// Where the sets of a file that was read begin, as the reader's answer gives it; without sets it is the file's length. Nothing stands
/// behind the last set.
pub fn sets_offset(bytes: &[u8], read: &FlowFile) -> usize {
    bytes.len() - SET_BYTES * read.sets.len()
}

struct Cursor<'a> {
    bytes: &'a [u8],
    at: usize,
}

impl<'a> Cursor<'a> {
    /// "A cut file is refused at the item that could not be read (15)."
    fn item(&mut self, length: usize) -> Result<&'a [u8], Refusal> {
        match self.bytes[self.at..].get(..length) {
            None => refuse(15, self.at),
            Some(item) => {
                self.at += length;
                Ok(item)
            }
        }
    }

    /// 21 at the first byte too many.
    fn is_at_the_end(&self) -> Check {
        if self.at < self.bytes.len() {
            return refuse(21, self.at);
        }
        Ok(())
    }

    fn number(&mut self) -> Result<u16, Refusal> {
        let item = self.item(2)?;
        Ok(u16::from_le_bytes([item[0], item[1]]))
    }

    /// A length byte and the name's bytes; 17 at the length byte.
    fn name(&mut self, least: u8) -> Result<Vec<u8>, Refusal> {
        let place = self.at;
        let length = self.item(1)?[0];
        if length < least || length > LONGEST_NAME {
            return refuse(17, place);
        }
        Ok(self.item(length as usize)?.to_vec())
    }
}

/// A names section, nodes, records and sets that are lent one by one: "the reader's own numbers and in its order", but "2 stands between 1
/// and 3; 1, 2, 3, 10 and 11 have place 0" (request One). The entries and the sets, if all is well.
pub fn lent_lists(
    names: &[u8],
    nodes: &[u16],
    records: &[u16],
    sets: &[u8],
    which: Records,
) -> Result<(Vec<Entry>, Vec<EventSet>), Refusal> {
    let entries = names_section(names)?;
    node_count(nodes)?;
    record_count(records, which)?;
    let sets = lent_sets(sets)?;
    node_table(nodes, sets.len())?;
    record_list(nodes, records, which)?;
    events_have_names(nodes, records, entries.len())?;
    Ok((entries, sets))
}

/// The same where names may be lent or not, as to a judge: the refusal, 14 left out, or who takes which record, and the sets.
pub fn lent_matching(
    names: Option<&[u8]>,
    nodes: &[u16],
    records: &[u16],
    sets: &[u8],
    which: Records,
) -> Result<(Matching, Vec<EventSet>), Refusal> {
    match names {
        None => plain_lists(nodes, records, sets, which).map(|sets| (Matching::ByNumber, sets)),
        Some(names) => lent_lists(names, nodes, records, sets, which)
            .map(|(entries, sets)| (Matching::ByName(entries), sets)),
    }
}

/// A names section and nothing else: 15 to 18, then 21 right after its last entry.
fn names_section(bytes: &[u8]) -> Result<Vec<Entry>, Refusal> {
    let mut cursor = Cursor { bytes, at: 0 };
    let names = read_names(&mut cursor)?;
    cursor.is_at_the_end()?;
    Ok(names)
}

/// 15 to 18.
fn read_names(cursor: &mut Cursor) -> Result<Vec<Entry>, Refusal> {
    let place = cursor.at;
    let count = cursor.number()? as usize;
    if count > MOST_NAMES {
        return refuse(16, place);
    }
    let mut names: Vec<Entry> = vec![];
    for _ in 0..count {
        let place = cursor.at;
        let entry = (cursor.name(1)?, cursor.name(0)?);
        if names.iter().any(|earlier| same_entry(earlier, &entry)) {
            return refuse(18, place);
        }
        names.push(entry);
    }
    Ok(names)
}

/// A count, none or too many of which is refused by one of two numbers at its own place, and so many times
/// `each` numbers.
fn read_numbers(
    cursor: &mut Cursor,
    each: usize,
    most: usize,
    refusals: [u32; 2],
) -> Result<Vec<u16>, Refusal> {
    let place = cursor.at;
    let count = cursor.number()? as usize;
    if count == 0 {
        return refuse(refusals[0], place);
    }
    if count > most {
        return refuse(refusals[1], place);
    }
    (0..each * count).map(|_| cursor.number()).collect()
}

/// "A file may end after its records; then it has no sets." Else a count, and 23 at its place if it is "0 or above 16"; a set is one item.
fn read_sets(cursor: &mut Cursor) -> Result<Vec<EventSet>, Refusal> {
    if cursor.at == cursor.bytes.len() {
        return Ok(vec![]);
    }
    let place = cursor.at;
    let count = cursor.number()? as usize;
    if count == 0 || count > MOST_SETS {
        return refuse(23, place);
    }
    let sets: Result<Vec<&[u8]>, Refusal> = (0..count).map(|_| cursor.item(SET_BYTES)).collect();
    Ok(sets_of(&sets?.concat()))
}

/// 19, then 20.
fn events_have_names(nodes: &[u16], records: &[u16], names: usize) -> Check {
    let nameless = |event: u16| event as usize > names;
    if let Some(i) = nodes.chunks(3).position(|n| n[0] == kind::EVENT && nameless(n[1])) {
        return refuse(19, i);
    }
    if let Some(i) = records.iter().position(|&r| is_event(r) && nameless(r)) {
        return refuse(20, i);
    }
    Ok(())
}
