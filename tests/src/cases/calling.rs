//! Cases `C`: one form of call for every function that takes a flow, with everything that may be lent.

use super::{Reply, MOST_WORK};
use crate::by_hand::MILLION;
use crate::judge::Lent;
use crate::next::{Beginning, LIST_ROOM};
use crate::refusals::{work_wanted, Refusal};
use crate::writer::{file_of, write};

/// The functions by their numbers.
pub const JUDGE: u8 = 0;
pub const NEXT: u8 = 1;
pub const WRITE: u8 = 3;

/// What a function does not use may be anything: a judge looks at no room, a write at no edition, allowance or work length.
#[derive(Clone, PartialEq, Eq, Debug)]
pub struct Call {
    pub function: u8,
    pub edition: u8,
    /// 0 or 1; a write is always lent names.
    pub names_lent: u8,
    pub allowance: u32,
    pub work_len: u32,
    /// Bytes for a write, numbers of the list for what may come next.
    pub room: u32,
    /// Empty if they are not lent.
    pub names: Vec<u8>,
    pub nodes: Vec<u16>,
    pub records: Vec<u16>,
    /// Bytes, 32 to a set.
    pub sets: Vec<u8>,
}

impl Call {
    /// A call of the judge, lent no sets and just the work bytes that it wants, as far as `replay` has so many.
    pub fn judge(names: Option<Vec<u8>>, nodes: Vec<u16>, records: Vec<u16>) -> Call {
        let work_len = work_wanted(&nodes, &records).min(MOST_WORK) as u32;
        let (function, edition, names_lent) = (JUDGE, 1, names.is_some() as u8);
        let (allowance, room, names, sets) = (MILLION, 0, names.unwrap_or_default(), vec![]);
        Call { function, edition, names_lent, allowance, work_len, room, names, nodes, records, sets }
    }

    /// A call that asks what may come next, lent no sets and just the table and the work bytes that it wants, as far as `replay` has so many.
    pub fn next(names: Option<Vec<u8>>, nodes: Vec<u16>, records: Vec<u16>) -> Call {
        Call { function: NEXT, room: LIST_ROOM as u32, ..Call::judge(names, nodes, records) }
    }

    /// A write of these three sections, lent no sets and just the bytes that it wants.
    pub fn write(names: Vec<u8>, nodes: Vec<u16>, records: Vec<u16>) -> Call {
        let room = file_of(&names, &nodes, &records, &[]).len() as u32;
        let (function, edition, names_lent) = (WRITE, 1, 1);
        let (allowance, work_len, sets) = (0, 0, vec![]);
        Call { function, edition, names_lent, allowance, work_len, room, names, nodes, records, sets }
    }

    /// The same call lent these sets, and room for them if it is a write.
    pub fn with_sets(self, sets: Vec<u8>) -> Call {
        let call = Call { sets, ..self };
        match call.function {
            WRITE => Call { room: call.file().len() as u32, ..call },
            _ => call,
        }
    }

    /// The file of what is lent, whatever stands in it.
    pub fn file(&self) -> Vec<u8> {
        file_of(&self.names, &self.nodes, &self.records, &self.sets)
    }

    /// `C`; function, edition, names lent; allowance, work length, room; the four lengths; the four lists.
    pub fn bytes(&self) -> Vec<u8> {
        let mut all = vec![b'C', self.function, self.edition, self.names_lent];
        all.extend([self.allowance, self.work_len, self.room].iter().flat_map(|n| n.to_le_bytes()));
        let lengths = [self.names.len(), self.nodes.len(), self.records.len(), self.sets.len()];
        all.extend(lengths.iter().flat_map(|n| (*n as u16).to_le_bytes()));
        all.extend(&self.names);
        all.extend(self.nodes.iter().chain(&self.records).flat_map(|n| n.to_le_bytes()));
        all.extend(&self.sets);
        all
    }

    fn names(&self) -> Option<&[u8]> {
        Some(&self.names[..]).filter(|_| self.names_lent == 1)
    }

    /// What a judge is called with.
    pub fn lent(&self) -> Lent<'_> {
        Lent {
            names: self.names(),
            nodes: &self.nodes,
            records: &self.records,
            sets: &self.sets,
            work_len: self.work_len as usize,
            allowance: self.allowance,
        }
    }

    /// What may come next is asked with.
    pub fn beginning(&self) -> Beginning<'_> {
        Beginning {
            names: self.names(),
            nodes: &self.nodes,
            records: &self.records,
            sets: &self.sets,
            list_room: self.room as usize,
            work_len: self.work_len as usize,
            allowance: self.allowance,
        }
    }

    /// What a write answers.
    pub fn written(&self) -> Result<Vec<u8>, Refusal> {
        write(&self.names, &self.nodes, &self.records, &self.sets, self.room as usize)
    }

    /// The call without names.
    pub fn nameless(self) -> Call {
        Call { names_lent: 0, names: vec![], ..self }
    }

    /// None where more states than `patience` would have to be entered to know.
    pub fn reply(&self, patience: u32) -> Option<Reply> {
        match self.function {
            JUDGE => self.lent().judged_within(patience).map(Reply::Judged),
            NEXT => self.beginning().listed_within(patience).map(Reply::Next),
            WRITE => Some(match self.written() {
                Ok(file) => Reply::Written(file),
                Err(refusal) => Reply::Refused(refusal),
            }),
            other => unreachable!("no case is made of function {other}"),
        }
    }

    pub fn asked(&self) -> &'static str {
        match (self.function, self.names_lent) {
            (JUDGE, 0) => "judge",
            (JUDGE, _) => "judge with names",
            (NEXT, 0) => "next",
            (NEXT, _) => "next with names",
            (WRITE, _) => "writer",
            (other, _) => unreachable!("no case is made of function {other}"),
        }
    }
}
