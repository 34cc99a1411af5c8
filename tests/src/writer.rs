//! The flow file's writer, request One of document 02, with the sets of request Four.

use crate::reader::lent_lists;
use crate::refusals::{refuse, Records, Refusal};
use crate::sets::SET_BYTES;

/// What is written at the beginning of so many lent bytes. `names` is a names section, its count included; `sets` are bytes without a
/// count. 14 comes last.
pub fn write(
    names: &[u8],
    nodes: &[u16],
    records: &[u16],
    sets: &[u8],
    room: usize,
) -> Result<Vec<u8>, Refusal> {
    lent_lists(names, nodes, records, sets, Records::Whole)?;
    let file = file_of(names, nodes, records, sets);
    if room < file.len() {
        return refuse(14, 0);
    }
    Ok(file)
}

/// The sections one after the other, whatever stands in them; the last only if there are sets.
pub fn file_of(names: &[u8], nodes: &[u16], records: &[u16], sets: &[u8]) -> Vec<u8> {
    let mut file = names.to_vec();
    let sections = [(nodes.len() / 3, nodes), (records.len(), records)];
    for (count, numbers) in sections {
        file.extend((count as u16).to_le_bytes());
        file.extend(numbers.iter().flat_map(|number| number.to_le_bytes()));
    }
    if !sets.is_empty() {
        file.extend(((sets.len() / SET_BYTES) as u16).to_le_bytes());
        file.extend(sets);
    }
    file
}
