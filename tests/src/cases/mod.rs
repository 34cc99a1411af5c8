//! Cases for the program `replay`, each with the line it has to print. This file says what a case is and
//! what it looks like on the way; the other files here make cases:
//! - `fixed`: the same in every stream: hand cases, limits, every kind of node, every cut of the worked file, and those that
//!   `reading`, `writing`, `lending`, `listing` and `meeting` begin with.
//! - `judging`: flows and records for the judge; `undoing`: small flows that are all about compensations;
//!   `wide`: families with many runs or many compensations; `repeating`: flows of equal parts.
//! - `tandem`: flows with joint parallels, and their sets; `meeting`: cases of them. `nesting`: blocks in blocks, in fresh cases only.
//! - `naming`: names, and flows whose leaves carry them; `filing`: flow files, whole, cut and damaged.
//! - `spoiling`: one damage for each refusal number; `damaging`: damages to names, nodes, records and sets lent one by one.
//! - `reading`: files for the reader itself; `writing`: calls of the writer; `lending`: calls of the judge with names and without;
//!   `listing`: calls that ask what may come next; `calling`: what such a call looks like.
//! - `malformed`: what is no case at all; `showing`: a case as a person reads it.

pub mod calling;
pub mod damaging;
pub mod filing;
pub mod fixed;
pub mod judging;
pub mod lending;
pub mod listing;
pub mod malformed;
pub mod meeting;
pub mod naming;
pub mod nesting;
pub mod reading;
pub mod repeating;
pub mod showing;
pub mod spoiling;
pub mod tandem;
pub mod undoing;
pub mod wide;
pub mod writing;

use self::calling::{Call, JUDGE, NEXT};
use self::malformed::malformed;
use crate::judge::{Answer, Lent};
use crate::next::{Beginning, Next};
use crate::program::program_within;
use crate::reader::{read_into, sets_offset};
use crate::refusals::Refusal;
use crate::rng::Rng;
use std::collections::{BTreeMap, VecDeque};
use std::fmt::{self, Write};

/// The most that `replay` takes.
pub const MOST_WORK: usize = 40_000;
pub const MOST_NUMBERS: usize = 400;
pub const MOST_ROOM: usize = 70_000;
pub const MOST_SET_BYTES: usize = 600;

#[derive(Clone, PartialEq, Eq, Debug)]
pub enum Case {
    /// A flow file, for the program's line.
    File(Vec<u8>),
    /// A call of the judge.
    Judge { allowance: u32, work_len: usize, nodes: Vec<u16>, records: Vec<u16> },
    /// A call of the reader, lent tables of so many numbers.
    Read { node_room: u16, record_room: u16, file: Vec<u8> },
    /// A call with everything that may be lent.
    Call(Call),
}

/// What comes back.
#[derive(Clone, PartialEq, Eq, Debug)]
pub enum Reply {
    /// From the program and the judge.
    Judged(Answer),
    /// To the question what may come next.
    Next(Next),
    /// From the reader: its counts, and where the sets begin and how many they are.
    Read { names: usize, nodes: usize, records: usize, offset: usize, sets: usize },
    /// From the writer: the file.
    Written(Vec<u8>),
    /// From the reader and the writer.
    Refused(Refusal),
}

impl fmt::Display for Reply {
    fn fmt(&self, f: &mut fmt::Formatter) -> fmt::Result {
        match self {
            Reply::Judged(answer) => answer.fmt(f),
            Reply::Next(next) => next.fmt(f),
            Reply::Read { names, nodes, records, offset, sets } => {
                write!(f, "read {names} {nodes} {records} {offset} {sets}")
            }
            Reply::Written(file) => {
                write!(f, "written {} ", file.len())?;
                file.iter().try_for_each(|byte| write!(f, "{byte:02x}"))
            }
            Reply::Refused(r) => write!(f, "refused {} {}", r.number, r.place),
        }
    }
}

impl Reply {
    fn word(&self) -> &'static str {
        match self {
            Reply::Judged(Answer::Accepted { .. }) => "accepted",
            Reply::Judged(Answer::Rejected { .. }) => "rejected",
            Reply::Judged(Answer::Undecided { .. }) | Reply::Next(Next::Undecided { .. }) => "undecided",
            Reply::Next(Next::Listed { .. }) => "listed",
            Reply::Read { .. } => "read",
            Reply::Written(_) => "written",
            Reply::Judged(Answer::Refused(_)) | Reply::Next(Next::Refused(_)) | Reply::Refused(_) => {
                "refused"
            }
        }
    }

    /// States that a search has entered.
    fn states(&self) -> u64 {
        match self {
            Reply::Judged(Answer::Accepted { count, .. } | Answer::Rejected { count, .. }) => *count as u64,
            Reply::Next(Next::Listed { count, .. }) => *count as u64,
            Reply::Judged(Answer::Undecided { allowance }) => *allowance as u64,
            Reply::Next(Next::Undecided { allowance }) => *allowance as u64,
            _ => 0,
        }
    }

    pub fn refusal(&self) -> Option<Refusal> {
        match self {
            Reply::Judged(Answer::Refused(refusal)) => Some(*refusal),
            Reply::Next(Next::Refused(refusal)) => Some(*refusal),
            Reply::Refused(refusal) => Some(*refusal),
            _ => None,
        }
    }
}

/// A case, where it comes from, and the reply to it.
pub struct Made {
    pub family: &'static str,
    pub case: Case,
    pub reply: Reply,
}

impl Made {
    /// None where more states than `patience` would have to be entered to know the reply.
    pub fn within(patience: u32, family: &'static str, case: Case) -> Option<Made> {
        let reply = case.reply(patience)?;
        Some(Made { family, case, reply })
    }

    pub fn line(&self) -> String {
        self.case.line(&self.reply)
    }
}

impl Case {
    /// As `replay` reads it: `F`, a length, the file; `J`, allowance, work length, the two counts, the numbers; `R`, the two rooms,
    /// a length, the file; or `C` and what calling.rs says. All little-endian.
    pub fn bytes(&self) -> Vec<u8> {
        match self {
            Case::File(file) => [b"F", &(file.len() as u16).to_le_bytes()[..], file].concat(),
            Case::Judge { allowance, work_len, nodes, records } => {
                let mut all = vec![b'J'];
                all.extend(allowance.to_le_bytes());
                all.extend((*work_len as u32).to_le_bytes());
                all.extend((nodes.len() as u16).to_le_bytes());
                all.extend((records.len() as u16).to_le_bytes());
                all.extend(nodes.iter().chain(records).flat_map(|n| n.to_le_bytes()));
                all
            }
            Case::Read { node_room, record_room, file } => {
                let head = [*node_room, *record_room, file.len() as u16].map(u16::to_le_bytes);
                [b"R", &head.concat()[..], file].concat()
            }
            Case::Call(call) => call.bytes(),
        }
    }

    /// The reply; None where more states than `patience` would have to be entered to know.
    pub fn reply(&self, patience: u32) -> Option<Reply> {
        match self {
            Case::File(file) => program_within(patience, file).map(Reply::Judged),
            Case::Judge { .. } => self.lent_to_judge()?.judged_within(patience).map(Reply::Judged),
            Case::Read { node_room, record_room, file } => {
                Some(match read_into(*node_room as usize, *record_room as usize, file) {
                    Ok(read) => Reply::Read {
                        names: read.names.len(),
                        nodes: read.nodes.len() / 3,
                        records: read.records.len(),
                        offset: sets_offset(file, &read),
                        sets: read.sets.len(),
                    },
                    Err(refusal) => Reply::Refused(refusal),
                })
            }
            Case::Call(call) => call.reply(patience),
        }
    }

    /// What a judge is called with, if the case is a call of one.
    pub fn lent_to_judge(&self) -> Option<Lent<'_>> {
        match self {
            Case::Judge { allowance, work_len, nodes, records } => {
                let lent = Lent::enough(None, nodes, records, *allowance);
                Some(Lent { work_len: *work_len, ..lent })
            }
            Case::Call(call) if call.function == JUDGE => Some(call.lent()),
            _ => None,
        }
    }

    /// What may come next is asked with, if the case is such a call.
    pub fn beginning(&self) -> Option<Beginning<'_>> {
        match self {
            Case::Call(call) if call.function == NEXT => Some(call.beginning()),
            _ => None,
        }
    }

    /// The line that `replay` has to print for a reply: what is lent is always left as promised.
    pub fn line(&self, reply: &Reply) -> String {
        match self {
            Case::File(_) => reply.to_string(),
            _ => format!("{reply} clean"),
        }
    }

    /// Whose answer it asks for.
    pub fn asked(&self) -> &'static str {
        match self {
            Case::File(_) => "program",
            Case::Judge { .. } => "judge",
            Case::Read { .. } => "reader",
            Case::Call(call) => call.asked(),
        }
    }
}

/// Cases without end: the fixed ones first, then random ones.
pub struct Stream {
    rng: Rng,
    fixed: std::vec::IntoIter<(&'static str, Case)>,
    /// Random cases that are to follow one another.
    waiting: VecDeque<Made>,
    /// Once in so many times a random case is one of `nesting`; never, if 0.
    nested_once_in: usize,
}

impl Stream {
    /// Of which the stored run is the beginning.
    pub fn new(seed: u64) -> Stream {
        Stream {
            rng: Rng::new(seed),
            fixed: fixed::cases().into_iter(),
            waiting: VecDeque::new(),
            nested_once_in: 0,
        }
    }

    /// A part of the fresh cases of a seed. The first part begins with the fixed ones; all parts are different, and can be made side by side.
    fn part(seed: u64, part: usize) -> Stream {
        let mut seeds = Rng::new(seed);
        let own = (0..=part).fold(0, |_, _| seeds.turn());
        let fixed = if part == 0 { fixed::cases() } else { vec![] };
        Stream {
            rng: Rng::new(own),
            fixed: fixed.into_iter(),
            waiting: VecDeque::new(),
            nested_once_in: NESTED_ONCE_IN,
        }
    }

    /// A random case of a random family, or some that belong together; none if it asks for too many states.
    fn random(&mut self) -> VecDeque<Made> {
        let rng = &mut self.rng;
        if self.nested_once_in > 0 && rng.once_in(self.nested_once_in) {
            return Made::within(PATIENCE, "nested", nesting::case(rng)).into_iter().collect();
        }
        let (family, case) = match rng.below(208) {
            0..=21 => ("judge", judging::case(rng)),
            22..=39 => ("judge, undoing", undoing::case(rng)),
            40..=46 => ("judge, wide flow", wide::case(rng)),
            47..=54 => {
                let made = |case| Made::within(u32::MAX, "judge, equal parts", case);
                return repeating::cases(rng).into_iter().filter_map(made).collect();
            }
            55..=68 => ("judge, damaged", spoiling::judge_case(rng)),
            69..=71 => ("judge, at the limits", judging::case_at_limits(rng)),
            72..=79 => ("file", Case::File(filing::whole(rng).bytes())),
            80..=86 => ("file, cut", Case::File(filing::cut(rng))),
            87..=98 => ("file, damaged", Case::File(filing::damaged(rng))),
            99 => ("file, at the limits", Case::File(filing::at_limits_or_longer(rng))),
            100..=106 => ("read", reading::case(rng)),
            107..=110 => ("write", writing::case(rng)),
            111..=119 => ("write, damaged", writing::damaged_case(rng)),
            120 => ("write, at the limits", writing::case_at_limits(rng)),
            121..=138 => ("names", lending::case(rng)),
            139..=148 => ("names, damaged", lending::damaged_case(rng)),
            149 => ("names, at the limits", lending::case_at_limits(rng)),
            150..=166 => ("next", listing::case(rng)),
            167..=170 => {
                let made = |case| Made::within(u32::MAX, "next, equal parts", case);
                return listing::cases_of_equal_parts(rng).into_iter().filter_map(made).collect();
            }
            171..=182 => ("next, damaged", listing::damaged_case(rng)),
            183 => ("next, at the limits", listing::case_at_limits(rng)),
            184..=199 => ("meeting", meeting::case(rng)),
            _ => ("meeting, damaged", meeting::damaged_case(rng)),
        };
        Made::within(PATIENCE, family, case).into_iter().collect()
    }
}

/// A random case that asks for more states than this is left out, unless its family sees to that itself; the fixed ones may ask for any
/// number.
const PATIENCE: u32 = 100_000;

impl Iterator for Stream {
    type Item = Made;

    fn next(&mut self) -> Option<Made> {
        if let Some((family, case)) = self.fixed.next() {
            return Made::within(u32::MAX, family, case);
        }
        while self.waiting.is_empty() {
            self.waiting = self.random();
        }
        self.waiting.pop_front()
    }
}

/// Of the fresh cases, this share is of `nesting`.
const NESTED_ONCE_IN: usize = 4;

/// How many fresh cases a part has, but the last.
const PART: u64 = 20_000;

/// So many fresh cases of a seed, in parts that can be made by themselves.
pub fn fresh(count: u64, seed: u64) -> impl Iterator<Item = Part> {
    let length = move |part| PART.min(count - PART * part) as usize;
    (0..count.div_ceil(PART)).map(move |part| Part { seed, part: part as usize, length: length(part) })
}

#[derive(Clone, Copy, Debug)]
pub struct Part {
    pub seed: u64,
    pub part: usize,
    pub length: usize,
}

impl Part {
    pub fn cases(&self) -> impl Iterator<Item = Made> {
        Stream::part(self.seed, self.part).take(self.length)
    }

    /// The number of its first case among all.
    pub fn first(&self) -> u64 {
        self.part as u64 * PART
    }
}

/// The gate's stored run, `crates/replay/stdin` and `stdout`: so many cases of this seed.
pub const STORED_CASES: usize = 18_000;
pub const STORED_SEED: u64 = 1;

/// A run of `replay`: its input, and the lines that it has to print.
pub struct Run {
    pub stdin: Vec<u8>,
    pub stdout: String,
}

impl Run {
    /// These cases and, last, something that is none, chosen by the seed.
    pub fn of(cases: &[Made], seed: u64) -> Run {
        let mut run = Run { stdin: vec![], stdout: String::new() };
        for made in cases {
            run.stdin.extend(made.case.bytes());
            writeln!(run.stdout, "{}", made.line()).unwrap();
        }
        let bad = malformed();
        run.stdin.extend(&bad[seed as usize % bad.len()].bytes);
        run.stdout.push_str("bad case\n");
        run
    }
}

/// How often which reply was given.
#[derive(Default)]
pub struct Totals {
    pub cases: u64,
    families: BTreeMap<&'static str, BTreeMap<&'static str, u64>>,
    /// By who was asked.
    asked: BTreeMap<&'static str, OfAsked>,
}

/// What one of those who are asked has answered.
#[derive(Default)]
struct OfAsked {
    states: u64,
    words: BTreeMap<&'static str, u64>,
    /// By number.
    refusals: BTreeMap<u32, u64>,
}

impl Totals {
    /// What others have counted, too.
    pub fn add(&mut self, others: Totals) {
        self.cases += others.cases;
        for (family, words) in others.families {
            let own = self.families.entry(family).or_default();
            words.into_iter().for_each(|(word, n)| *own.entry(word).or_default() += n);
        }
        for (asked, of_asked) in others.asked {
            let own = self.asked.entry(asked).or_default();
            own.states += of_asked.states;
            of_asked.words.into_iter().for_each(|(word, n)| *own.words.entry(word).or_default() += n);
            of_asked
                .refusals
                .into_iter()
                .for_each(|(number, n)| *own.refusals.entry(number).or_default() += n);
        }
    }

    pub fn count(&mut self, made: &Made) {
        self.cases += 1;
        let of_asked = self.asked.entry(made.case.asked()).or_default();
        of_asked.states += made.reply.states();
        *of_asked.words.entry(made.reply.word()).or_default() += 1;
        if let Some(refusal) = made.reply.refusal() {
            *of_asked.refusals.entry(refusal.number).or_default() += 1;
        }
        *self.families.entry(made.family).or_default().entry(made.reply.word()).or_default() += 1;
    }

    pub fn of_refusal(&self, asked: &str, number: u32) -> u64 {
        *self.asked.get(asked).and_then(|of_asked| of_asked.refusals.get(&number)).unwrap_or(&0)
    }

    pub fn of_word(&self, asked: &str, word: &str) -> u64 {
        *self.asked.get(asked).and_then(|of_asked| of_asked.words.get(word)).unwrap_or(&0)
    }

    pub fn states(&self, asked: &str) -> u64 {
        self.asked.get(asked).map_or(0, |of_asked| of_asked.states)
    }

    pub fn show(&self) -> String {
        let words = ["accepted", "rejected", "undecided", "listed", "read", "written", "refused"];
        let mut text = format!("{:24}", "");
        words.iter().for_each(|word| write!(text, "{word:>11}").unwrap());
        for (family, counts) in &self.families {
            write!(text, "\n{family:24}").unwrap();
            words.iter().for_each(|word| write!(text, "{:>11}", counts.get(word).unwrap_or(&0)).unwrap());
        }
        write!(text, "\n{:24}", "all").unwrap();
        for word in words {
            let all: u64 = self.asked.keys().map(|asked| self.of_word(asked, word)).sum();
            write!(text, "{all:>11}").unwrap();
        }
        for (asked, of_asked) in self.asked.iter().filter(|(_, of_asked)| !of_asked.refusals.is_empty()) {
            let refusals: Vec<String> =
                of_asked.refusals.iter().map(|(no, n)| format!("{no}: {n}")).collect();
            write!(text, "\nrefusals, {asked}: {}", refusals.join(", ")).unwrap();
        }
        let states: u64 = self.asked.values().map(|of_asked| of_asked.states).sum();
        write!(text, "\n{} cases, {states} states entered\n", self.cases).unwrap();
        text
    }
}
