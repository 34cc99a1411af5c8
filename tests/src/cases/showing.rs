//! A case as a person reads it: a drawing, a node table and records, or bytes item by item with offsets.

use super::calling::Call;
use super::Case;
use crate::drawing::{self, show_event};
use crate::refusals::node_table;
use crate::sets::{EventSet, MOST_SETS, SET_BYTES};
use crate::term::{DONE, FAILED, WITHDRAWN};
use std::fmt::Write;

impl Case {
    /// What the case is, and its bytes.
    pub fn show(&self) -> String {
        let mut text = match self {
            Case::File(file) => show_file(file),
            Case::Judge { allowance, work_len, nodes, records } => {
                let head = format!("judge, allowance {allowance}, {work_len} work bytes\n");
                head + &show_flow(nodes, records)
            }
            Case::Read { node_room, record_room, file } => {
                let head = format!("read, room for {node_room} node numbers and {record_room} records\n");
                head + &show_file(file)
            }
            Case::Call(call) => show_call(call),
        };
        text.push_str("bytes of the case:\n");
        for line in self.bytes().chunks(32) {
            line.iter().for_each(|byte| write!(text, "{byte:02x}").unwrap());
            text.push('\n');
        }
        text
    }
}

fn show_call(call: &Call) -> String {
    let Call { function, edition, allowance, work_len, room, nodes, records, .. } = call;
    let head =
        format!("function {function}, edition {edition}, allowance {allowance}, {work_len} work bytes");
    let names = if call.names_lent == 0 { "no names\n".into() } else { show_names(&call.names) };
    format!("{head}, room {room}\n{names}{}{}", show_flow(nodes, records), show_sets(&call.sets))
}

/// A line for each set, and for what is left over.
fn show_sets(bytes: &[u8]) -> String {
    let mut text = format!("{} bytes of sets\n", bytes.len());
    for (i, set) in bytes.chunks(SET_BYTES).enumerate() {
        writeln!(text, "  set {i}: {}", show_set(set)).unwrap();
    }
    text
}

fn show_set(bytes: &[u8]) -> String {
    match bytes.try_into() {
        Ok(set) => {
            let events: Vec<String> = EventSet(set).events().into_iter().map(show_event).collect();
            format!("{{{}}}", events.join(" "))
        }
        Err(_) => format!("{} bytes", bytes.len()),
    }
}

fn show_names(names: &[u8]) -> String {
    let mut section = Walk::of(names);
    section.items_of_names();
    format!("a names section of {} bytes\n{}", names.len(), section.shown())
}

fn show_flow(nodes: &[u16], records: &[u16]) -> String {
    let mut text = String::new();
    let readable = !nodes.is_empty() && nodes.len().is_multiple_of(3) && node_table(nodes, MOST_SETS).is_ok();
    if readable {
        writeln!(text, "flow {}", drawing::of_table(nodes).show()).unwrap();
    }
    writeln!(text, "{} node numbers", nodes.len()).unwrap();
    for (i, node) in nodes.chunks(3).enumerate() {
        writeln!(text, "  node {i}: {node:?}").unwrap();
    }
    let shown: Vec<String> = records.iter().map(|r| show_record(*r)).collect();
    writeln!(text, "{} records: {}", records.len(), shown.join(" ")).unwrap();
    text
}

fn show_record(record: u16) -> String {
    match record {
        DONE => "✓".into(),
        WITHDRAWN => "?".into(),
        FAILED => "!".into(),
        event => show_event(event),
    }
}

fn show_file(file: &[u8]) -> String {
    let mut walk = Walk::of(file);
    walk.items_of_file();
    format!("a flow file of {} bytes\n{}", file.len(), walk.shown())
}

/// Bytes item by item with offsets, as far as they can be followed. None: no further.
struct Walk<'a> {
    bytes: &'a [u8],
    at: usize,
    text: String,
}

impl Walk<'_> {
    fn of(bytes: &[u8]) -> Walk<'_> {
        Walk { bytes, at: 0, text: String::new() }
    }

    fn shown(mut self) -> String {
        if self.at < self.bytes.len() {
            let more = self.bytes.len() - self.at;
            writeln!(self.text, "  {}: {more} bytes more", self.at).unwrap();
        }
        self.text
    }

    fn number(&self, at: usize) -> Option<u16> {
        Some(u16::from_le_bytes([*self.bytes.get(at)?, *self.bytes.get(at + 1)?]))
    }

    fn count(&mut self, of: &str) -> Option<u16> {
        let count = self.number(self.at)?;
        writeln!(self.text, "  {}: {count} {of}", self.at).ok()?;
        self.at += 2;
        Some(count)
    }

    fn items_of_names(&mut self) -> Option<()> {
        for event in 1..=self.count("names")? {
            let mut at = self.at;
            let mut shown = vec![];
            for _ in 0..2 {
                let length = *self.bytes.get(at)? as usize;
                let name = self.bytes.get(at + 1..at + 1 + length)?;
                shown.push(format!("({length}) \"{}\"", name.escape_ascii()));
                at += 1 + length;
            }
            writeln!(self.text, "  {}: entry {event}: {}", self.at, shown.join(" ")).ok()?;
            self.at = at;
        }
        Some(())
    }

    fn items_of_file(&mut self) -> Option<()> {
        self.items_of_names()?;
        for i in 0..self.count("nodes")? {
            let at = self.at;
            let node = [self.number(at)?, self.number(at + 2)?, self.number(at + 4)?];
            writeln!(self.text, "  {at}: node {i}: {} {} {}", node[0], node[1], node[2]).ok()?;
            self.at += 6;
        }
        for i in 0..self.count("records")? {
            let record = show_record(self.number(self.at)?);
            writeln!(self.text, "  {}: record {i}: {record}", self.at).ok()?;
            self.at += 2;
        }
        for i in 0..self.count("sets")? {
            let set = show_set(self.bytes.get(self.at..self.at + SET_BYTES)?);
            writeln!(self.text, "  {}: set {i}: {set}", self.at).ok()?;
            self.at += SET_BYTES;
        }
        Some(())
    }
}
