//! When two names are the same, and which records a node takes: with names lent, by request Two of document 02, else by number alone.

use crate::flowfile::Entry;
use crate::term::is_event;

/// Step names, "equal byte by byte". Refusal 18 and the matching both ask here.
pub fn same_step(one: &[u8], other: &[u8]) -> bool {
    one == other
}

/// "Two entries are the same only if both names are equal."
pub fn same_entry(one: &Entry, other: &Entry) -> bool {
    same_step(&one.0, &other.0) && one.1 == other.1
}

/// Which records a node takes.
#[derive(Clone, Debug)]
pub enum Matching {
    /// No names are lent: "exactly if the event numbers are equal".
    ByNumber,
    /// Event k is entry k, from 1.
    ByName(Vec<Entry>),
}

impl Matching {
    /// "A node whose entry has an empty machine name matches a record of any entry with the same step name, its own included. A record
    /// without a machine still matches only a node without one." Neither number needs to be an event, nor to have an entry.
    pub fn takes(&self, node: u16, record: u16) -> bool {
        if !is_event(node) || !is_event(record) {
            return false;
        }
        let Matching::ByName(names) = self else {
            return node == record;
        };
        let entry = |event: u16| names.get(event as usize - 1);
        match (entry(node), entry(record)) {
            (Some((step, machine)), Some((recorded, _))) if machine.is_empty() => same_step(step, recorded),
            _ => node == record,
        }
    }

    /// Every event that a node takes, in rising order.
    pub fn taken_by(&self, node: u16) -> Vec<u16> {
        match self {
            Matching::ByNumber => vec![node],
            Matching::ByName(names) => (1..=names.len() as u16).filter(|&r| self.takes(node, r)).collect(),
        }
    }
}

/// An event record that a flow is to step by, and the matching that says which of its leaves take it.
#[derive(Clone, Copy)]
pub struct Asked<'a> {
    pub matching: &'a Matching,
    pub record: u16,
}

impl Asked<'_> {
    /// Does a leaf with this event take it?
    pub fn is_taken_by(self, node: u16) -> bool {
        self.matching.takes(node, self.record)
    }
}
