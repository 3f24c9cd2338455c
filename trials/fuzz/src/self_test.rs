//! Whether the fuzzer can fail: a difference and a fault have to end it, with the input saved.

use std::fs;
use std::path::{Path, PathBuf};
use std::process::Command;

use hard_use::fault::Fault;
use hard_use::model::Model;
use hard_use::watch::FAULTED;
use inputs::call::Lent;
use oracle::arrangement::Arrangement;

use crate::fuzzer::{DIFFERENCE, LAST, Plan};
use crate::{fuzz, seeds};

const SEED: u64 = 1;
const RUNS: u64 = 20_000;
const SEEDS: u64 = 20;

/// What is put in, the exit status that it has to give, and where the input has to be saved.
const CASES: [(&str, i32, &str); 3] =
    [("mistaken judge", 1, DIFFERENCE), ("mistaken book", 1, DIFFERENCE), ("write to the record", FAULTED, LAST)];

pub fn all(folder: &Path) -> Result<(), String> {
    let program = std::env::current_exe().map_err(|e| e.to_string())?;
    for (what, status, saved) in CASES {
        let folder = folder.join(what.replace(' ', "-"));
        let output = Command::new(&program).args(["faulty", what]).arg(&folder).output().map_err(|e| e.to_string())?;
        let text = String::from_utf8_lossy(&output.stderr);
        let input = fs::metadata(folder.join(saved)).map_or(0, |input| input.len());
        if output.status.code() != Some(status) || input == 0 || !text.contains(&format!("seed {SEED}, place ")) {
            return Err(format!("{what}: not noticed, or not saved: {:?}, {input} bytes, {text}", output.status));
        }
        seeds::of_file(&folder.join(saved), Arrangement::Columns).map_err(|why| format!("{what}: {why}"))?;
        println!("{what}: noticed, the input of {input} bytes is saved");
    }
    Ok(())
}

/// Fuzzes with a mistake in the model, or a fault beside the calls.
pub fn faulty(what: &str, folder: &str) -> Result<(), String> {
    let (mut model, mut fault) = (Model::default(), None);
    match what {
        "mistaken judge" => model.judge_mistake = Some(plain::Mistake::IncludesSet),
        "mistaken book" => model.book_mistake = Some(book::Mistake::AnythingAfter),
        _ => fault = Some(Fault::WriteInside(Lent::Record)),
    }
    let plan = Plan { seed: SEED, runs: RUNS, is_led: true, folder: PathBuf::from(folder), model, fault };
    fuzz(plan, seeds::generated(SEED, SEEDS))
}
