//! The long run, one place of it again, and the self-test.

mod self_test;

use std::process::ExitCode;
use std::time::{Duration, Instant};

use compare::run::{Range, run};
use hard_use::model::Model;
use hard_use::worker::{Plan, Worker};
use hard_use::{stack, watch};
use inputs::call::Call;

const USAGE: &str = "hard_use COMMAND
  run SEED PLACES [THREADS]   the calls of PLACES places, each on bytes between guard pages, against the model
  place SEED PLACE            the calls of one place
  stack SEED PLACES           how much stack the calls of PLACES places need; fails where it is more than the header says
  self-test [EVERY]           makes faults beside the calls, and mistakes in the model, all or one in EVERY; each has to
                              be noticed
THREADS is 1 or 2, by default 2";

/// A call that takes longer has hung.
const BOUND: Duration = Duration::from_secs(10);
/// Places that a thread takes at a time.
const BLOCK: u64 = 64;

fn main() -> ExitCode {
    let arguments: Vec<String> = std::env::args().skip(1).collect();
    let words: Vec<&str> = arguments.iter().map(String::as_str).collect();
    let result = match words[..] {
        ["run", seed, places] => long_run(seed, places, "2"),
        ["run", seed, places, threads @ ("1" | "2")] => long_run(seed, places, threads),
        ["place", seed, place] => one_place(seed, place),
        ["stack", seed, places] => stack(seed, places),
        ["self-test"] => self_test::run(1),
        ["self-test", every] => number(every).and_then(|every| self_test::run(every.max(1) as usize)),
        ["faulty", fault] => self_test::faulty(fault),
        _ => Err(USAGE.to_string()),
    };
    match result {
        Ok(()) => ExitCode::SUCCESS,
        Err(fault) => {
            eprintln!("{fault}");
            ExitCode::FAILURE
        }
    }
}

fn number(word: &str) -> Result<u64, String> {
    word.parse().map_err(|e| format!("{word}: {e}"))
}

fn long_run(seed: &str, places: &str, threads: &str) -> Result<(), String> {
    let range = Range { seed: number(seed)?, count: number(places)?, threads: number(threads)? };
    let plan = Plan { seed: range.seed, model: Model::default(), fault: None };
    watch::start(BOUND);
    let start = Instant::now();
    let Worker { counts, .. } = run(&range, BLOCK, |worker: &mut Worker, place| worker.run(plan, place))?;
    let seconds = start.elapsed().as_secs_f64();
    counts.print();
    let Range { seed, count, threads } = range;
    let calls = counts.calls();
    println!(
        "seed {seed}, {count} places: {calls} calls in {seconds:.1} s, threads {threads}, {:.0} a second: no fault, no \
         call over {} s, no difference",
        calls as f64 / seconds,
        BOUND.as_secs()
    );
    Ok(())
}

fn stack(seed: &str, places: &str) -> Result<(), String> {
    let most = stack::most(number(seed)?, number(places)?)?;
    let needs: Vec<String> = Call::NAMES.iter().zip(most).map(|(name, need)| format!("{name} {need}")).collect();
    println!("seed {seed}, {places} places: the most bytes of stack that a call needed: {}", needs.join(", "));
    Ok(())
}

fn one_place(seed: &str, place: &str) -> Result<(), String> {
    let plan = Plan { seed: number(seed)?, model: Model::default(), fault: None };
    watch::start(BOUND);
    let mut worker = Worker::default();
    worker.run(plan, number(place)?)?;
    worker.counts.print();
    Ok(())
}
