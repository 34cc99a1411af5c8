// The cases of `replay` that call the judge (`J`, and `C` of function 0) or ask what may come next (`C` of function 1), in plain Rust, for
// measuring: `native.py` puts the judge beside this as modules. Every build answers what it knows of alike, so that builds can be set beside
// each other. A case that is none, or that this build does not know of, is a bad case, and the end.
//
// native [--timed] [TIMES]: reads cases from standard input as `replay` does (tests/README.md says how they are written), answers each so
// many times, once if nothing is said, and prints its line; timed, with the nanoseconds of processor time that one call took behind it.
use judge::Answer;
use std::hint::black_box;
use std::io::{self, BufReader, BufWriter, Read, Write};

// The most that a case asks for.
const MOST_NUMBERS: usize = 400;
const MOST_SETS: usize = 600;
const MOST_WORK: usize = 40_000;
const MOST_ROOM: usize = 70_000;

// What lent bytes and numbers are filled with, so that it shows which were written.
const FILLER: u8 = 165;
const FILLER_NUMBER: u16 = 165 * 257;

// What a call is lent, but for room.
struct Lent {
    names: Option<Vec<u8>>,
    nodes: Vec<u16>,
    records: Vec<u16>,
    sets: Vec<u8>,
    allowance: u32,
}

// What may come next, as every build tells it.
enum Listing {
    Listed(u32, u32),
    Undecided(u32),
    Refused(u32, u32),
}

fn text(answer: &Answer) -> String {
    match answer {
        Answer::Accepted(r) => format!("accepted 0 {} {}", r.place, r.count),
        Answer::Rejected(r) => format!("rejected 0 {} {}", r.place, r.count),
        Answer::Undecided(r) => format!("undecided 0 {} {}", r.place, r.count),
        Answer::Refused(r) => format!("refused {} {} 0", r.number, r.place),
    }
}

fn listing_text(listing: &Listing, list: &[u16]) -> String {
    match listing {
        Listing::Listed(length, count) => {
            let numbers: String = list[..*length as usize].iter().map(|n| format!(" {n}")).collect();
            format!("listed {length} {count}{numbers}")
        }
        Listing::Undecided(count) => format!("undecided 0 {count}"),
        Listing::Refused(number, place) => format!("refused {number} {place}"),
    }
}

// Whether the work bytes are zero as far as the search wants them after a verdict, and as they were elsewhere.
fn clean(refused: bool, lent: &Lent, work: &[u8]) -> bool {
    let zeros = if refused { 0 } else { 2 * (lent.nodes.len() / 3) * (lent.records.len() + 1) };
    work[..zeros].iter().all(|b| *b == 0) && work[zeros..].iter().all(|b| *b == FILLER)
}

fn note(clean: bool) -> &'static str {
    if clean { "clean" } else { "dirty" }
}

// The processor time of this thread in nanoseconds: what else the machine does hardly changes it.
fn now() -> u64 {
    #[repr(C)]
    struct Time {
        seconds: i64,
        nanoseconds: i64,
    }
    extern "C" {
        fn clock_gettime(clock: i32, time: *mut Time) -> i32;
    }
    const THREAD: i32 = 3;
    let mut time = Time { seconds: 0, nanoseconds: 0 };
    assert_eq!(unsafe { clock_gettime(THREAD, &mut time) }, 0);
    time.seconds as u64 * 1_000_000_000 + time.nanoseconds as u64
}

struct Cases<R> {
    input: R,
    times: u32,
}

// The line of a case, and how long a call took.
struct Told {
    line: String,
    took: u64,
}

impl<R: Read> Cases<R> {
    fn bytes(&mut self, count: usize) -> Option<Vec<u8>> {
        let mut all = vec![0; count];
        self.input.read_exact(&mut all).ok().map(|()| all)
    }

    fn one(&mut self) -> Option<u8> {
        self.bytes(1).map(|b| b[0])
    }

    fn two(&mut self) -> Option<usize> {
        self.bytes(2).map(|b| u16::from_le_bytes([b[0], b[1]]) as usize)
    }

    fn four(&mut self) -> Option<u32> {
        self.bytes(4).map(|b| u32::from_le_bytes([b[0], b[1], b[2], b[3]]))
    }

    fn numbers(&mut self, count: usize) -> Option<Vec<u16>> {
        let bytes = self.bytes(2 * count)?;
        Some(bytes.chunks(2).map(|b| u16::from_le_bytes([b[0], b[1]])).collect())
    }

    // The last answer of as many calls as are asked for.
    fn repeated<T>(&self, mut call: impl FnMut() -> Option<T>) -> Option<(T, u64)> {
        let before = now();
        let mut answer = call()?;
        for _ in 1..self.times {
            answer = call()?;
        }
        Some((answer, (now() - before) / self.times as u64))
    }

    fn judged(&self, lent: &Lent, room: usize) -> Option<Told> {
        let mut work = vec![FILLER; room];
        let (answer, took) = self.repeated(|| judge_lists(black_box(lent), &mut work))?;
        let refused = matches!(answer, Answer::Refused(_));
        Some(Told { line: format!("{} {}", text(&answer), note(clean(refused, lent, &work))), took })
    }

    fn listed(&self, lent: &Lent, room: usize, list_room: usize) -> Option<Told> {
        let (mut work, mut list) = (vec![FILLER; room], vec![FILLER_NUMBER; list_room]);
        let (listing, took) = self.repeated(|| next_lists(black_box(lent), &mut list, &mut work))?;
        let written = if let Listing::Listed(length, _) = listing { length as usize } else { 0 };
        let kept = list[written..].iter().all(|n| *n == FILLER_NUMBER);
        let clean = kept && clean(matches!(listing, Listing::Refused(..)), lent, &work);
        Some(Told { line: format!("{} {}", listing_text(&listing, &list), note(clean)), took })
    }

    // A call of the judge without names or sets.
    fn judge_case(&mut self) -> Option<Told> {
        let (allowance, room) = (self.four()?, self.four()? as usize);
        let (n, m) = (self.two()?, self.two()?);
        if room > MOST_WORK || n > MOST_NUMBERS || m > MOST_NUMBERS {
            return None;
        }
        let (nodes, records) = (self.numbers(n)?, self.numbers(m)?);
        self.judged(&Lent { names: None, nodes, records, sets: vec![], allowance }, room)
    }

    // A call with everything that may be lent.
    fn call_case(&mut self) -> Option<Told> {
        let (function, edition, named) = (self.one()?, self.one()?, self.one()?);
        let (allowance, room, list_room) = (self.four()?, self.four()? as usize, self.four()? as usize);
        let (names, n, m, sets) = (self.two()?, self.two()?, self.two()?, self.two()?);
        if edition != 1 || named > 1 || named == 0 && names > 0 {
            return None;
        }
        if room > MOST_WORK || n > MOST_NUMBERS || m > MOST_NUMBERS || sets > MOST_SETS {
            return None;
        }
        let names = Some(self.bytes(names)?).filter(|_| named == 1);
        let (nodes, records, sets) = (self.numbers(n)?, self.numbers(m)?, self.bytes(sets)?);
        let lent = Lent { names, nodes, records, sets, allowance };
        match function {
            0 => self.judged(&lent, room),
            1 if list_room <= MOST_ROOM => self.listed(&lent, room, list_room),
            _ => None,
        }
    }

    // What is told of the next case, or that it is none.
    fn told(&mut self, letter: u8) -> Option<Told> {
        match letter {
            b'J' => self.judge_case(),
            b'C' => self.call_case(),
            _ => None,
        }
    }
}

fn main() -> io::Result<()> {
    let words: Vec<String> = std::env::args().skip(1).collect();
    let timed = words.first().is_some_and(|word| word == "--timed");
    let times = words.get(timed as usize).map_or(Ok(1), |word| word.parse()).ok().filter(|times| *times > 0);
    let Some(times) = times.filter(|_| words.len() <= 1 + timed as usize) else {
        eprintln!("usage: native [--timed] [TIMES]");
        std::process::exit(2);
    };
    let mut cases = Cases { input: BufReader::new(io::stdin().lock()), times };
    let mut output = BufWriter::new(io::stdout().lock());
    while let Some(letter) = cases.one() {
        match cases.told(letter) {
            Some(told) if timed => writeln!(output, "{} {}", told.line, told.took)?,
            Some(told) => writeln!(output, "{}", told.line)?,
            None => {
                writeln!(output, "bad case")?;
                break;
            }
        }
    }
    output.flush()
}
