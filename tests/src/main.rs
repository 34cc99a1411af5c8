//! The commands: see USAGE, and README.md for what each is for.

use oracle::cases::{fresh, Made, Run, Stream, Totals, STORED_CASES, STORED_SEED};
use oracle::compare::compare;
use oracle::judge::{with_deep_stack, Lent};
use oracle::laws::laws;
use oracle::selfcheck::*;
use oracle::{measured, samples};
use std::process::ExitCode;

const USAGE: &str = "usage:
  oracle cases N SEED OUT_STDIN OUT_STDOUT   N cases for replay and the lines it must print
  oracle stored DIR                          the cases that the gate keeps, as DIR/stdin and DIR/stdout
  oracle compare N SEED COMMAND ..           run replay by this command on N cases; stop at the first difference
  oracle selfcheck N SEED                    the oracle against trace sets and laws, N flows each
  oracle samples DIR                         write the sample files and expected.txt
  oracle line FILE                           the line that the program prints for a flow file
  oracle flows DIR                           write the flow files that are only there to be measured
  oracle bench FILE [ALLOWANCE]              states that a search enters, how many differ, and how many it enters in a second
";

fn main() -> ExitCode {
    let arguments: Vec<String> = std::env::args().skip(1).collect();
    match with_deep_stack(move || run(&arguments)) {
        Ok(text) => {
            print!("{text}");
            ExitCode::SUCCESS
        }
        Err(text) => {
            eprint!("{text}");
            ExitCode::FAILURE
        }
    }
}

fn run(arguments: &[String]) -> Result<String, String> {
    let words: Vec<&str> = arguments.iter().map(String::as_str).collect();
    match words[..] {
        ["cases", n, seed, stdin, stdout] => {
            let (n, seed) = (number(n)?, number(seed)?);
            let made = fresh(n, seed).flat_map(|part| part.cases()).collect();
            cases(made, seed, stdin, stdout)
        }
        ["stored", folder] => {
            let made = Stream::new(STORED_SEED).take(STORED_CASES).collect();
            cases(made, STORED_SEED, &format!("{folder}/stdin"), &format!("{folder}/stdout"))
        }
        ["compare", n, seed, ref replay @ ..] => compare(number(n)?, number(seed)?, replay),
        ["selfcheck", n, seed] => selfcheck(number(n)?, number(seed)?),
        ["samples", folder] => samples::write(folder).map_err(|e| format!("{folder}: {e}\n")),
        ["line", file] => {
            let bytes = std::fs::read(file).map_err(|e| format!("{file}: {e}\n"))?;
            Ok(format!("{}\n", oracle::program::program(&bytes)))
        }
        ["flows", folder] => measured::write(folder).map_err(|e| format!("{folder}: {e}\n")),
        ["bench", file] => bench(file, u32::MAX),
        ["bench", file, allowance] => bench(file, number(allowance)?.min(u32::MAX as u64) as u32),
        _ => Err(USAGE.into()),
    }
}

/// The best of five searches of one flow file, each of which goes through equal states again; not timed if there are too many.
fn bench(file: &str, allowance: u32) -> Result<String, String> {
    const MOST_TIMED: u32 = 20_000_000;
    let bytes = std::fs::read(file).map_err(|e| format!("{file}: {e}\n"))?;
    let flow = oracle::reader::read(&bytes).map_err(|r| format!("{file}: refused {}\n", r.number))?;
    let (names, sets) = (flow.names_section(), flow.lent_sets());
    let lent = Lent { sets: &sets, ..Lent::enough(Some(&names), &flow.nodes, &flow.records, allowance) };
    let effort = lent.effort();
    let (count, differ) = (effort.entered, effort.different);
    let said = format!("{file}: {count} states, {differ} differ");
    if count > MOST_TIMED {
        return Ok(format!("{said}, too many to be timed\n"));
    }
    let mut best = f64::MAX;
    for _ in 0..5 {
        let start = std::time::Instant::now();
        std::hint::black_box(lent.judged_without_memory());
        best = best.min(start.elapsed().as_secs_f64());
    }
    Ok(format!("{said}, {:.3}M states/s\n", count as f64 / best / 1e6))
}

fn number(word: &str) -> Result<u64, String> {
    word.parse().map_err(|_| format!("{word} is no number\n{USAGE}"))
}

/// These cases, and something that is none behind them.
fn cases(cases: Vec<Made>, seed: u64, stdin: &str, stdout: &str) -> Result<String, String> {
    let mut totals = Totals::default();
    cases.iter().for_each(|made| totals.count(made));
    let run = Run::of(&cases, seed);
    std::fs::write(stdin, &run.stdin).map_err(|e| format!("{stdin}: {e}\n"))?;
    std::fs::write(stdout, &run.stdout).map_err(|e| format!("{stdout}: {e}\n"))?;
    Ok(format!("{}{} bytes of cases, seed {seed}\n", totals.show(), run.stdin.len()))
}

fn selfcheck(flows: u64, seed: u64) -> Result<String, String> {
    let show = |what: &str, seen: Seen| format!("{what}: {seen:?}\n");
    let laws = laws();
    let each = flows.div_ceil(laws.len() as u64);
    Ok([
        show("search and trace sets", random_flows_against_traces(flows, seed)?),
        show("lists and trace sets", random_lists_against_traces(flows, seed)?),
        show("lists by levels and by recursion", lists_by_levels_against_recursion(flows, seed)?),
        show("lists and the judge", lists_against_judge(flows, seed)?),
        show("guided successors and plain lists", guided_against_lists(flows, seed)?),
        show("with and without a memory", remembering_against_plain(flows, seed)?),
        show("leaves without a machine and choices", machineless_against_choices(flows, seed)?),
        show("names that change nothing", names_that_change_nothing(flows, seed)?),
        show("sets that change nothing", sets_that_change_nothing(flows, seed)?),
        show("single exchanges by each law", single_exchanges(&laws, judged_alike, each, seed)?),
        show("chains of exchanges", chains_of_exchanges(&laws, judged_alike, flows, seed)?),
        show("lists after single exchanges", single_exchanges(&laws, listed_alike, each, seed)?),
        show("lists after chains of exchanges", chains_of_exchanges(&laws, listed_alike, flows, seed)?),
    ]
    .concat())
}
