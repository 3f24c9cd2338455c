//! The program `tally`, on feeds.

use std::fs::File;
use std::io::Read;
use std::path::Path;
use std::process::{Command, Stdio};
use std::time::Duration;

use cases::random::Random;
use inputs::clock::children_time;
use inputs::dear::tally::{FEEDS, Feed};

const RUNS: usize = 5;

const WORDS: &str = "\
The program tally, from a file into a pipe, in processor time, the system's included; medians of 5 runs. Each point is offered
to a book of 65,536 bytes, which is read in each offer.

| feed | bytes | points | µs a point | ns a byte |
|---|---|---|---|---|";

/// Prints a row for each feed.
pub fn table(program: &str) -> Result<(), String> {
    println!("{WORDS}");
    let path = std::env::temp_dir().join(format!("wutherdish-feed-{}", std::process::id()));
    let rows = FEEDS.iter().try_for_each(|feed| row(program, &path, feed));
    let removed = std::fs::remove_file(&path);
    rows.and(removed.map_err(|e| format!("{}: {e}", path.display())))
}

fn row(program: &str, path: &Path, feed: &Feed) -> Result<(), String> {
    let bytes = feed.make(&mut Random::new(1, 0));
    std::fs::write(path, &bytes).map_err(|e| format!("{}: {e}", path.display()))?;
    let times = (0..RUNS).map(|_| run(program, path, feed.points).map_err(|e| format!("{program}: {e}")));
    let mut times = times.collect::<Result<Vec<Duration>, _>>()?;
    times.sort_unstable();
    let nanoseconds = times[RUNS / 2].as_nanos() as f64;
    let (points, each) = (feed.points, nanoseconds / feed.points as f64 / 1e3);
    println!("| {} | {} | {points} | {each:.1} | {:.2} |", feed.name, bytes.len(), nanoseconds / bytes.len() as f64);
    Ok(())
}

/// The program's time. It has to print a line for each point, and one at the end.
fn run(program: &str, path: &Path, points: usize) -> std::io::Result<Duration> {
    let before = children_time();
    let mut child = Command::new(program).stdin(File::open(path)?).stdout(Stdio::piped()).spawn()?;
    let mut printed = String::new();
    child.stdout.take().expect("it is a pipe").read_to_string(&mut printed)?;
    let status = child.wait()?;
    if !status.success() || printed.lines().count() != points + 1 {
        let last = printed.lines().last().unwrap_or("nothing");
        return Err(std::io::Error::other(format!("{status}, and its last line is {last}")));
    }
    Ok(children_time() - before)
}
