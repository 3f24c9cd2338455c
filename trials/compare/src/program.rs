//! The proved program `tally`, fed through a pipe, against the plain book.

use std::io::{Read, Write};
use std::process::{Command, Stdio};
use std::thread;
use std::time::Duration;

use book::Offer;
use book::file::Case;
use cases::random::Random;
use feeds::Feed;
use oracle::read;

use crate::book_file::{Age, load};

/// More than the program's buffer holds.
const LONG: usize = 150_000;

/// Compares what a program prints of the feeds of a seed.
pub fn feeds(program: &str, seed: u64, count: u64) -> Result<(), String> {
    let (mut lines, mut long) = (0, 0);
    for place in 0..count {
        let mut random = Random::new(!seed, place);
        let input = input(&mut random, Feed::new(seed, place));
        let expected = book::tally(&input);
        compare(program, &input, expected.as_bytes(), &mut random)
            .map_err(|difference| format!("seed {seed}, place {place}: {difference}"))?;
        lines += expected.lines().count();
        long += usize::from(input.len() > LONG);
    }
    println!(
        "seed {seed}: {count} feeds to tally, {long} of them over {LONG} bytes: {lines} lines as the plain book's"
    );
    Ok(())
}

/// Compares what a program prints of the standard inputs in a file of cases.
pub fn file(program: &str, path: &str, age: Age) -> Result<(), String> {
    let cases = load(path, &age.bytes(path)?)?.into_iter().filter(|case| matches!(case, Case::Tally { .. })).collect();
    let mut count = 0;
    for case in age.renew(path, cases)? {
        let Case::Tally { input, output } = case else { continue };
        compare(program, &input, &output, &mut Random::new(0, count))
            .map_err(|difference| format!("{path}: tally case {count}: {difference}"))?;
        count += 1;
    }
    println!("{path}: {count} tally cases answered so");
    Ok(())
}

/// A feed's points after its settings and the schedule that knows most; some so often that they outgrow the program's buffer,
/// some damaged in a byte, some cut off.
fn input(random: &mut Random, feed: Feed) -> Vec<u8> {
    let mut input = feed.book().settings().to_vec();
    let offers: Vec<_> = feed.map(|step| step.offer).collect();
    let last_known = |offer: &&Offer| read::schedule(&offer.schedule).map(|schedule| schedule.last_known);
    input.extend(offers.iter().max_by_key(last_known).map_or(&[][..], |offer| &offer.schedule));
    let points: Vec<u8> = offers.iter().flat_map(|offer| [&[offer.leader], &offer.record[..]].concat()).collect();
    input.extend(&points);
    while !points.is_empty() && input.len() <= LONG && random.chance(1, 2) {
        input.extend(&points);
    }
    if random.chance(1, 4) {
        let place = random.below(input.len());
        input[place] ^= 1 << random.below(8);
    }
    if random.chance(1, 4) {
        input.truncate(random.below(input.len()));
    }
    input
}

fn compare(program: &str, input: &[u8], expected: &[u8], random: &mut Random) -> Result<(), String> {
    let printed = run(program, input, random).map_err(|e| format!("{program}: {e}"))?;
    if printed == expected {
        return Ok(());
    }
    let (printed, expected) = (String::from_utf8_lossy(&printed), String::from_utf8_lossy(expected));
    let line = |text: &str, place: usize| text.lines().nth(place).unwrap_or("nothing").to_owned();
    let place =
        (0..=expected.lines().count()).find(|place| line(&printed, *place) != line(&expected, *place)).unwrap_or(0);
    Err(format!("line {place}: expected {}, printed {}", line(&expected, place), line(&printed, place)))
}

/// What a program prints of an input that comes in pieces of any length, at times slowly.
fn run(program: &str, input: &[u8], random: &mut Random) -> std::io::Result<Vec<u8>> {
    let mut child = Command::new(program).stdin(Stdio::piped()).stdout(Stdio::piped()).spawn()?;
    let (Some(mut pipe), Some(mut output)) = (child.stdin.take(), child.stdout.take()) else {
        unreachable!("both are pipes")
    };
    let (longest, pause) = (random.pick(&[7, 700, 70_000]), random.chance(1, 32));
    let mut printed = Vec::new();
    thread::scope(|scope| {
        let reader = scope.spawn(|| output.read_to_end(&mut printed));
        let mut rest = input;
        while !rest.is_empty() {
            let (piece, after) = rest.split_at((1 + random.below(longest)).min(rest.len()));
            // an unreadable record ends the reading
            if pipe.write_all(piece).is_err() {
                break;
            }
            if pause && random.chance(1, 16) {
                thread::sleep(Duration::from_millis(1));
            }
            rest = after;
        }
        drop(pipe);
        reader.join().expect("reading doesn't panic")
    })?;
    child.wait()?;
    Ok(printed)
}
