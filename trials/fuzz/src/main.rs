//! A fuzzer over the C calls that is led by the library's own coverage.

mod code;
mod coverage;
mod fuzzer;
mod mutate;
mod replay;
mod seeds;
mod self_test;

use std::path::{Path, PathBuf};
use std::process::ExitCode;
use std::time::Duration;

use coverage::Coverage;
use fuzzer::{Fuzzer, Plan};
use hard_use::model::Model;
use hard_use::watch;
use oracle::arrangement::Arrangement;

const USAGE: &str = "fuzz COMMAND
  led SEED RUNS SEEDS FOLDER [FILE]   RUNS changed calls, made of SEEDS generated cases and the cases of a file of pairs; what
                                      leads somewhere new is kept, changed further, and saved in the folder at the end,
                                      with a list of the ways that were not gone
  blind SEED RUNS SEEDS FOLDER [FILE] the same, but only the seeds are changed
  replay FILE..                       the calls of files, without breakpoints in the library
  self-test FOLDER                    a difference and a fault have to end the run, with the input saved";

/// A call that takes longer has hung; the traps slow it down.
const BOUND: Duration = Duration::from_secs(10);

fn main() -> ExitCode {
    let arguments: Vec<String> = std::env::args().skip(1).collect();
    let words: Vec<&str> = arguments.iter().map(String::as_str).collect();
    let result = match words[..] {
        [how @ ("led" | "blind"), seed, runs, count, folder] => run(how, seed, runs, count, folder, None),
        [how @ ("led" | "blind"), seed, runs, count, folder, file] => run(how, seed, runs, count, folder, Some(file)),
        ["replay", ref files @ ..] => replay::all(files),
        ["self-test", folder] => self_test::all(Path::new(folder)),
        ["faulty", what, folder] => self_test::faulty(what, folder),
        _ => Err(USAGE.to_string()),
    };
    match result {
        Ok(()) => ExitCode::SUCCESS,
        Err(fault) => {
            eprintln!("{fault}");
            ExitCode::FAILURE
        }
    }
}

fn number(word: &str) -> Result<u64, String> {
    word.parse().map_err(|e| format!("{word}: {e}"))
}

fn run(how: &str, seed: &str, runs: &str, count: &str, folder: &str, file: Option<&str>) -> Result<(), String> {
    let (seed, runs, folder) = (number(seed)?, number(runs)?, PathBuf::from(folder));
    let mut seeds = seeds::generated(seed, number(count)?);
    if let Some(file) = file {
        seeds.extend(seeds::of_file(Path::new(file), Arrangement::Pairs)?);
    }
    let plan = Plan { seed, runs, is_led: how == "led", folder, model: Model::default(), fault: None };
    fuzz(plan, seeds)
}

/// Fuzzes by a plan, and fails at the first difference.
fn fuzz(plan: Plan, seeds: Vec<inputs::call::Call>) -> Result<(), String> {
    let program = std::env::current_exe().map_err(|e| e.to_string())?;
    watch::start(BOUND);
    let (seed, runs) = (plan.seed, plan.runs);
    let coverage = Coverage::arm(&program)?;
    let mut fuzzer = Fuzzer::new(plan, coverage)?;
    let [after_seeds, at_end] = fuzzer.all(seeds)?;
    fuzzer.save()?;
    let all = coverage.seen().1;
    println!(
        "seed {seed}, {runs} changed calls: no fault, no call over {} s, no difference; {after_seeds} of {all} ways after \
         the seeds, {at_end} at the end",
        BOUND.as_secs()
    );
    Ok(())
}
