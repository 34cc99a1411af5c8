//! Comparing the program `replay` with the oracle: cases go to its standard input while its lines are read, and the first line that differs
//! ends it. The cases come in parts, which are compared side by side, as many as there are cores, each by a process of its own.

use crate::cases::malformed::{good_case, malformed, Malformed};
use crate::cases::{fixed, fresh, Made, Part, Totals};
use std::io::{BufRead, BufReader, Write};
use std::process::{Child, Command, Stdio};
use std::sync::mpsc::{channel, sync_channel, Receiver};
use std::sync::Mutex;
use std::thread;
use std::time::Duration;

/// How many cases may wait for their line.
const AHEAD: usize = 1_000;

/// A line that takes longer counts as missing.
const PATIENCE: Duration = Duration::from_secs(120);

/// Compares so many cases, then the long ones and everything that is no case; `replay` is the command that runs it. The text says
/// what was seen, or the first difference that was found.
pub fn compare(cases: u64, seed: u64, replay: &[&str]) -> Result<String, String> {
    let totals = compare_parts(fresh(cases, seed), cases, replay)?;
    eprintln!("and the long cases");
    let made = |case| Made::within(u32::MAX, "long", case);
    let long = compare_cases(move || fixed::long().into_iter().filter_map(made), replay)?;
    let bad = malformed();
    compare_empty(replay)?;
    bad.iter().try_for_each(|case| compare_malformed(replay, case))?;
    let beside = format!("{} long cases, {} malformed ones", long.cases, bad.len());
    Ok(format!("{}{beside}\nno difference, seed {seed}\n", totals.show()))
}

/// All parts of so many cases, by as many workers as there are cores.
fn compare_parts(
    parts: impl Iterator<Item = Part> + Send,
    cases: u64,
    replay: &[&str],
) -> Result<Totals, String> {
    let waiting = Mutex::new(parts);
    let seen = Mutex::new(Ok(Totals::default()));
    let work = || loop {
        let Some(part) = waiting.lock().expect("no panic").next() else { return };
        if seen.lock().expect("no panic").is_err() {
            return;
        }
        let found = compare_cases(move || part.cases(), replay);
        let mut all = seen.lock().expect("no panic");
        match (&mut *all, found) {
            (Ok(totals), Ok(own)) => {
                let before = totals.cases;
                totals.add(own);
                show_progress(before, totals.cases, cases);
            }
            (Ok(_), Err(difference)) => {
                *all = Err(format!("seed {}, behind {} cases, {difference}", part.seed, part.first()));
            }
            (Err(_), _) => {}
        }
    };
    let cores = thread::available_parallelism().map_or(1, |n| n.get());
    thread::scope(|scope| (0..cores).for_each(|_| drop(scope.spawn(work))));
    seen.into_inner().expect("no panic")
}

/// Ten times in all, how far it is.
fn show_progress(before: u64, now: u64, all: u64) {
    let tenths = |cases| u128::from(cases) * 10 / u128::from(all);
    if tenths(now) > tenths(before) {
        eprintln!("{now} of {all} cases compared");
    }
}

fn start(replay: &[&str]) -> Result<Child, String> {
    let (program, arguments) = replay.split_first().ok_or("no command")?;
    let mut command = Command::new(program);
    command.args(arguments).stdin(Stdio::piped()).stdout(Stdio::piped());
    command.spawn().map_err(|e| format!("cannot run {program}: {e}\n"))
}

/// The lines that a child prints, each as soon as it is there; the channel closes with its output.
fn lines_of(child: &mut Child) -> Receiver<String> {
    let output = BufReader::new(child.stdout.take().expect("a pipe"));
    let (sender, receiver) = channel();
    thread::spawn(move || {
        for line in output.split(b'\n').map_while(Result::ok) {
            if sender.send(String::from_utf8_lossy(&line).into_owned()).is_err() {
                break;
            }
        }
    });
    receiver
}

fn compare_cases<I: Iterator<Item = Made>>(
    cases: impl FnOnce() -> I + Send + 'static,
    replay: &[&str],
) -> Result<Totals, String> {
    let mut child = start(replay)?;
    let lines = lines_of(&mut child);
    let mut input = child.stdin.take().expect("a pipe");
    // The maker stays a little ahead of the child: cases that wait take room.
    let (sender, made) = sync_channel::<Made>(AHEAD);
    // Makes the cases and hands them to the child; a child that has ended is noticed by its missing line.
    let maker = move || {
        for made in cases() {
            let _ = input.write_all(&made.case.bytes());
            if sender.send(made).is_err() {
                break;
            }
        }
    };
    // The search wants a deep stack.
    thread::Builder::new().stack_size(1 << 29).spawn(maker).map_err(|e| e.to_string())?;
    let mut totals = Totals::default();
    let mut difference = None;
    for made in made {
        let expected = made.line();
        let got = lines.recv_timeout(PATIENCE).unwrap_or("(no line)".into());
        if got != expected {
            let case = format!("case {}, {}", totals.cases, made.family);
            difference = Some(format!("{case}\nexpected: {expected}\n     got: {got}\n{}", made.case.show()));
            break;
        }
        totals.count(&made);
    }
    if difference.is_none() {
        difference = lines.recv_timeout(PATIENCE).ok().map(|line| format!("a line too many: {line}"));
    }
    end(child);
    match difference {
        Some(text) => Err(text),
        None => Ok(totals),
    }
}

/// Ends a child that is still running.
fn end(mut child: Child) {
    let _ = child.kill();
    let _ = child.wait();
}

/// All lines that a program prints for an input.
fn all_lines(replay: &[&str], input: &[u8]) -> Result<Vec<String>, String> {
    let mut child = start(replay)?;
    let lines = lines_of(&mut child);
    // A program that ends early does not read the rest.
    let _ = child.stdin.take().expect("a pipe").write_all(input);
    let mut all = vec![];
    while let Ok(line) = lines.recv_timeout(PATIENCE) {
        all.push(line);
    }
    end(child);
    Ok(all)
}

fn compare_empty(replay: &[&str]) -> Result<(), String> {
    let lines = all_lines(replay, &[])?;
    if lines.is_empty() {
        Ok(())
    } else {
        Err(format!("no cases\nexpected no lines\n     got: {lines:?}"))
    }
}

/// A good case is answered, the malformed one is called bad, and nothing after it is answered.
fn compare_malformed(replay: &[&str], malformed: &Malformed) -> Result<(), String> {
    let good = good_case();
    let reply = good.reply(9).expect("two states");
    let mut input = [good.bytes(), malformed.bytes.clone()].concat();
    if !malformed.cut {
        input.extend(good.bytes());
    }
    let expected = vec![good.line(&reply), "bad case".to_string()];
    let lines = all_lines(replay, &input)?;
    if lines == expected {
        return Ok(());
    }
    let what = format!("{}: bytes {:?} after a good case", malformed.what, malformed.bytes);
    Err(format!("{what}\nexpected: {expected:?}\n     got: {lines:?}"))
}
