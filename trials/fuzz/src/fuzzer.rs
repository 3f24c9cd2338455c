//! The loop: a call is made of calls that led somewhere new, run, compared, and kept if it leads somewhere new itself.

use std::fs::{self, File};
use std::path::{Path, PathBuf};
use std::time::Instant;

use cases::random::Random;
use hard_use::desk::{Desk, fill};
use hard_use::fault::Fault;
use hard_use::file::write;
use hard_use::model::Model;
use hard_use::watch;
use inputs::call::Call;
use oracle::numbers::BOOK;

use crate::coverage::Coverage;
use crate::mutate::mutated;

/// What a run is to do.
pub struct Plan {
    pub seed: u64,
    pub runs: u64,
    /// Whether calls that lead somewhere new are kept to be changed further.
    pub is_led: bool,
    /// Where inputs are saved.
    pub folder: PathBuf,
    pub model: Model,
    pub fault: Option<Fault>,
}

pub struct Fuzzer {
    plan: Plan,
    coverage: &'static Coverage,
    desk: Desk,
    random: Random,
    corpus: Vec<Kept>,
    /// The file for the input of a call that faults or hangs.
    last: File,
    start: Instant,
    run: u64,
    longest: f64,
}

/// A call that led somewhere new.
struct Kept {
    call: Call,
    /// Whether it was read to its end: changes to the others seldom lead further.
    is_read: bool,
}

pub const LAST: &str = "last";
pub const DIFFERENCE: &str = "difference";

impl Fuzzer {
    pub fn new(plan: Plan, coverage: &'static Coverage) -> Result<Self, String> {
        let said = |e: std::io::Error| format!("{}: {e}", plan.folder.display());
        fs::create_dir_all(&plan.folder).map_err(said)?;
        let last = File::create(plan.folder.join(LAST)).map_err(said)?;
        let desk = Desk::new(plan.fault).map_err(said)?;
        let random = Random::new(plan.seed, 0);
        let start = Instant::now();
        Ok(Self { plan, coverage, desk, random, corpus: Vec::new(), last, start, run: 0, longest: 0.0 })
    }

    /// Runs the seeds, then the changed calls. Gives how many ways were seen after each.
    pub fn all(&mut self, seeds: Vec<Call>) -> Result<[usize; 2], String> {
        for call in seeds {
            self.try_call(call)?;
        }
        let seeds = self.run;
        println!("{seeds} seeds:");
        self.say();
        let after_seeds = self.coverage.seen().0;
        let calls = self.corpus.len();
        for run in 1..=self.plan.runs {
            let among = if self.plan.is_led { self.corpus.len() } else { calls };
            let call = {
                let (call, other) = (self.pick(among), self.pick(among));
                mutated(&mut self.random, &self.corpus[call].call, &self.corpus[other].call)
            };
            self.try_call(call)?;
            if run.is_power_of_two() && run >= 1_024 {
                self.say();
            }
        }
        self.say();
        println!("longest call: {:.3} ms of the processor's time, traps included", self.longest * 1e3);
        Ok([after_seeds, self.coverage.seen().0])
    }

    /// Seldom one that wasn't read to its end.
    fn pick(&mut self, among: usize) -> usize {
        let mut place = self.random.below(among);
        for _ in 0..8 {
            if self.corpus[place].is_read || self.random.chance(1, 16) {
                break;
            }
            place = self.random.below(among);
        }
        place
    }

    /// Runs a call, compares, and keeps the call if it is new.
    fn try_call(&mut self, call: Call) -> Result<(), String> {
        self.run += 1;
        watch::at(self.plan.seed, self.run);
        let bytes = write(&call);
        watch::save_on_end(&self.last, &bytes);
        let layout = self.random.number();
        let before = self.coverage.seen().0;
        self.coverage.begin(self.run);
        let called = self.desk.call(&call, layout);
        self.longest = self.longest.max(called.took.as_secs_f64());
        if let Err(why) = compare(&self.desk, &self.plan.model, &call, called.number, layout) {
            let path = self.plan.folder.join(DIFFERENCE);
            save(&path, &bytes)?;
            let (seed, run) = (self.plan.seed, self.run);
            return Err(format!("seed {seed}, place {run}: {why}\nthe input is saved in {}", path.display()));
        }
        if self.coverage.seen().0 > before {
            self.corpus.push(Kept { call, is_read: !matches!(called.number, 1..=5 | BOOK) });
        }
        Ok(())
    }

    fn say(&self) {
        let (seen, all) = self.coverage.seen();
        let seconds = self.start.elapsed().as_secs_f64();
        println!(
            "{:10} calls, {seconds:7.1} s, {:6.0} a second, {seen} of {all} ways, {} calls kept",
            self.run,
            self.run as f64 / seconds,
            self.corpus.len()
        );
    }

    /// Saves the calls that were kept, one file each, and the list of what was not reached.
    pub fn save(&self) -> Result<(), String> {
        for (place, Kept { call, .. }) in self.corpus.iter().enumerate() {
            save(&self.plan.folder.join(format!("{place:05}")), &write(call))?;
        }
        let unseen = self.coverage.unseen().into_iter();
        let unseen: String = unseen.map(|(at, site, seen)| format!("{at:#x} {site:?}, seen {seen:#b}\n")).collect();
        save(&self.plan.folder.join("unseen.txt"), unseen.as_bytes())
    }
}

/// What the call left against what it had to.
pub fn compare(desk: &Desk, model: &Model, call: &Call, number: u8, layout: u64) -> Result<(), String> {
    let expected = model.expected(call, fill(layout))?;
    let name = Call::NAMES[call.kind()];
    desk.check(call, number, &expected).map_err(|why| format!("{name} differs: {why}"))
}

fn save(path: &Path, bytes: &[u8]) -> Result<(), String> {
    fs::write(path, bytes).map_err(|e| format!("{}: {e}", path.display()))
}
