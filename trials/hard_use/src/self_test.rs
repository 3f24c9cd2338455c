//! Whether the run can fail: each fault beside the calls has to end it, and each mistake in the model to be a difference.

use std::process::{Command, Output};
use std::time::Duration;

use book::spread;
use hard_use::fault::Fault;
use hard_use::model::Model;
use hard_use::sources::Source;
use hard_use::watch::{self, FAULTED, HUNG};
use hard_use::worker::{Plan, Worker};

const SEED: u64 = 1;
/// Places within which a fault has to be noticed.
const FAULT_PLACES: u64 = 500;
/// Places within which a mistake of the judge has to be noticed, and feeds for one of the book or of its rule for marks.
const MISTAKE_PLACES: u64 = 60_000;
const MISTAKE_FEEDS: u64 = 128;
/// Short, so that the call that sleeps is noticed soon.
const BOUND: Duration = Duration::from_millis(500);

/// All faults, and of the mistakes one in n.
pub fn run(every: usize) -> Result<(), String> {
    faults()?;
    let mut worker = Worker::default();
    let judge = plain::Mistake::ALL.iter().step_by(every);
    let count = judge.len();
    for mistake in judge {
        judge_mistake(&mut worker, *mistake)?;
    }
    println!("{count} mistakes in the model's judge, all noticed");
    let book = book::Mistake::ALL.iter().step_by(every);
    let count = book.len();
    for mistake in book {
        book_mistake(&mut worker, *mistake)?;
    }
    println!("{count} mistakes in the model's book, all noticed");
    let marks = spread::Mistake::ALL.iter().step_by(every);
    let count = marks.len();
    for mistake in marks {
        marks_mistake(&mut worker, *mistake)?;
    }
    println!("{count} mistakes in the model's rule for marks, all noticed");
    Ok(())
}

/// Each fault in a process of its own.
fn faults() -> Result<(), String> {
    let program = std::env::current_exe().map_err(|e| e.to_string())?;
    let faults = Fault::all();
    let mut counts = [0; 3];
    for fault in &faults {
        let name = format!("{fault:?}");
        let output = Command::new(&program).args(["faulty", &name]).output().map_err(|e| e.to_string())?;
        counts[noticed(&name, &output)?] += 1;
    }
    let [signals, hung, differences] = counts;
    println!(
        "{} faults beside the calls, all noticed: {signals} by a signal, {hung} by the watch, {differences} by comparison",
        faults.len()
    );
    Ok(())
}

/// How a fault was noticed; an error if it wasn't, or if seed and place were not named.
fn noticed(name: &str, output: &Output) -> Result<usize, String> {
    let text = String::from_utf8_lossy(&output.stderr);
    let named = text.contains(&format!("seed {SEED}, place "));
    match output.status.code() {
        Some(FAULTED) if named => Ok(0),
        Some(HUNG) if named => Ok(1),
        Some(1) if named => Ok(2),
        status => Err(format!("{name} was not noticed: status {status:?}, {text}")),
    }
}

/// Runs places with a fault, up to the first difference.
pub fn faulty(name: &str) -> Result<(), String> {
    let fault = Fault::all().into_iter().find(|fault| format!("{fault:?}") == name).ok_or("no such fault")?;
    watch::start(BOUND);
    let plan = Plan { seed: SEED, model: Model::default(), fault: Some(fault) };
    first_difference(&mut Worker::default(), plan, FAULT_PLACES).map_or(Ok(()), Err)
}

fn first_difference(worker: &mut Worker, plan: Plan, places: u64) -> Option<String> {
    (0..places)
        .find_map(|place| worker.run(plan, place).err().map(|why| format!("seed {}, place {place}: {why}", plan.seed)))
}

/// Places of the run without offers and the calls that don't ask the judge that has the mistake, and without long lists.
fn judge_mistake(worker: &mut Worker, mistake: plain::Mistake) -> Result<(), String> {
    let model = Model { judge_mistake: Some(mistake), ..Model::default() };
    let plan = Plan { seed: SEED, model, fault: None };
    let has_cases = |place: &u64| {
        let source = Source::of(SEED, *place);
        let offers = [Source::Feed, Source::Certificates, Source::DamagedBook, Source::SmallBook];
        let others =
            [Source::Opening, Source::Converted, Source::Composed, Source::Trailed, Source::Asked, Source::Dear];
        !offers.contains(&source) && !others.contains(&source)
    };
    let noticed = (0..MISTAKE_PLACES).filter(has_cases).any(|place| worker.run(plan, place).is_err());
    if noticed { Ok(()) } else { Err(format!("a mistake of the judge went unnoticed: {}", mistake.text())) }
}

/// Sources with offers alone. A mistake in reading shows in damaged books.
fn book_mistake(worker: &mut Worker, mistake: book::Mistake) -> Result<(), String> {
    let model = Model { book_mistake: Some(mistake), ..Model::default() };
    let plan = Plan { seed: SEED, model, fault: None };
    let source = if mistake.is_in_reading() { Source::DamagedBook } else { Source::Feed };
    let noticed = (0..MISTAKE_FEEDS).any(|place| worker.run_source(plan, source, place).is_err());
    if noticed { Ok(()) } else { Err(format!("a mistake of the book went unnoticed: {}", mistake.text())) }
}

/// Feeds for certificates alone.
fn marks_mistake(worker: &mut Worker, mistake: spread::Mistake) -> Result<(), String> {
    let model = Model { marks_mistake: Some(mistake), ..Model::default() };
    let plan = Plan { seed: SEED, model, fault: None };
    let noticed = (0..MISTAKE_FEEDS).any(|place| worker.run_source(plan, Source::Certificates, place).is_err());
    if noticed { Ok(()) } else { Err(format!("a mistake of the rule for marks went unnoticed: {}", mistake.text())) }
}
