//! Flow files as they are put together for the tests: their sections and the items they consist of.
//! What is refused is decided in reader.rs and writer.rs; nothing here is checked, so that any damage can be written.

use crate::sets::{bytes_of, EventSet};
use crate::term::DONE;

/// A step name and a machine name.
pub type Entry = (Vec<u8>, Vec<u8>);

#[derive(Clone, PartialEq, Eq, Debug)]
pub struct FlowFile {
    pub names: Vec<Entry>,
    pub nodes: Vec<u16>,
    pub records: Vec<u16>,
    /// None: the file ends after its records.
    pub sets: Vec<EventSet>,
}

/// "A count, length byte, name's bytes and number are items", and so is a set.
#[derive(Clone, Copy, PartialEq, Eq, PartialOrd, Ord, Debug)]
pub enum ItemKind {
    NameCount,
    StepLength,
    StepBytes,
    MachineLength,
    MachineBytes,
    NodeCount,
    NodeNumber,
    RecordCount,
    RecordNumber,
    SetCount,
    Set,
}

pub struct Item {
    pub kind: ItemKind,
    pub bytes: Vec<u8>,
}

pub fn entry(step: &str, machine: &str) -> Entry {
    (step.as_bytes().to_vec(), machine.as_bytes().to_vec())
}

/// A names section, its count included.
pub fn section_of(names: &[Entry]) -> Vec<u8> {
    FlowFile::plain(names.to_vec(), vec![], vec![]).names_section()
}

impl FlowFile {
    /// Without sets.
    pub fn plain(names: Vec<Entry>, nodes: Vec<u16>, records: Vec<u16>) -> FlowFile {
        FlowFile { names, nodes, records, sets: vec![] }
    }

    pub fn bytes(&self) -> Vec<u8> {
        self.items().into_iter().flat_map(|item| item.bytes).collect()
    }

    /// The bytes of the first section, its count included.
    pub fn names_section(&self) -> Vec<u8> {
        self.names_items().into_iter().flat_map(|item| item.bytes).collect()
    }

    /// The sets as they are lent, without their count.
    pub fn lent_sets(&self) -> Vec<u8> {
        bytes_of(&self.sets)
    }

    pub fn names_items(&self) -> Vec<Item> {
        self.items().into_iter().take_while(|item| item.kind < ItemKind::NodeCount).collect()
    }

    /// The items in file order. A machine name of no bytes is none.
    pub fn items(&self) -> Vec<Item> {
        use ItemKind::*;
        let mut all = vec![];
        let mut put = |kind: ItemKind, bytes: &[u8]| all.push(Item { kind, bytes: bytes.to_vec() });
        put(NameCount, &(self.names.len() as u16).to_le_bytes());
        for (step, machine) in &self.names {
            put(StepLength, &[step.len() as u8]);
            put(StepBytes, step);
            put(MachineLength, &[machine.len() as u8]);
            if !machine.is_empty() {
                put(MachineBytes, machine);
            }
        }
        put(NodeCount, &((self.nodes.len() / 3) as u16).to_le_bytes());
        self.nodes.iter().for_each(|n| put(NodeNumber, &n.to_le_bytes()));
        put(RecordCount, &(self.records.len() as u16).to_le_bytes());
        self.records.iter().for_each(|r| put(RecordNumber, &r.to_le_bytes()));
        if !self.sets.is_empty() {
            put(SetCount, &(self.sets.len() as u16).to_le_bytes());
            self.sets.iter().for_each(|set| put(Set, &set.0));
        }
        all
    }
}

/// The file that document 01 works through: 65 bytes, for which the program prints `accepted 0 3 4`.
pub fn worked() -> FlowFile {
    FlowFile::plain(
        vec![entry("wash", "W1,2"), entry("drain", "")],
        vec![1, 1, 0, 1, 2, 0, 10, 0, 1, 15, 0, 0, 11, 2, 3, 9, 4, 0],
        vec![1, 2, DONE],
    )
}
