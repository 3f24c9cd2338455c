//! The oracle's commands.

mod book_sharpness;
mod books;
mod edges;
mod mark_sharpness;
mod run_cases;
mod run_feeds;
mod spread;
mod store;
mod store_books;
mod store_clears;
mod store_composes;
mod store_forces;
mod store_trails;
mod trails;
mod vectors;
mod wrong;

use std::process::ExitCode;

use book::{MARKS, Marks};
use oracle::arrangement::Arrangement::{Columns, Pairs};

const USAGE: &str = "oracle COMMAND
  edges                  document 01's P1 to P10
  histogram SEED COUNT   run generated cases and print how often each answer appears
  sharpness SEED COUNT   run them through the plain judge too, with each mistake in it
  agree SEED COUNT       run them through the oracle and the plain judge alone
  trails SEED COUNT      run generated cases with all reasons: those of the noting copy of the source and of the plain judge
  spread SEED COUNT      how far the source's certificates spread, by depth and on feeds
  feeds SEED COUNT       run feeds of 200 offers through the plain book and print how often each answer appears
  books-damaged SEED COUNT   offer the points of feeds to damaged copies of their books
  book-sharpness SEED COUNT  run feeds and damaged books with each mistake in the plain book
  mark-sharpness SEED COUNT  run feeds for certificates with each mistake in the plain book's rule for marks
  vectors FILE           run the cases of a file and compare with its answers
  vectors-pairs FILE     the same of a file of pairs, which are moved
  vectors-prev FILE      the same of a file of pairs in which marks cover the previous point alone
  lines FILE             run its verify and judge cases and print one line each
  store FILE             write the stored list
  stored FILE            replay it
  store-books FILE       write the stored books
  store-composes FILE    write the stored drafts of points
  store-trails FILE      write the stored trails
  store-clears FILE      write the stored questions on what would clear a point
  store-forces FILE      write the stored lists on what the network can force
  wrong OUT FILE..       write cases of files, each with a change in what it expects";

fn main() -> ExitCode {
    let arguments: Vec<String> = std::env::args().skip(1).collect();
    let words: Vec<&str> = arguments.iter().map(String::as_str).collect();
    let result = match words[..] {
        ["edges"] => edges::run(),
        ["vectors", file] => vectors::compare(file, Columns).and_then(|()| books::compare(file)),
        ["vectors-pairs", file] => vectors::compare(file, Pairs).and_then(|()| books::compare_old(file, MARKS)),
        ["vectors-prev", file] => vectors::compare(file, Pairs).and_then(|()| books::compare_old(file, Marks::Prev)),
        ["lines", file] => vectors::lines(file),
        ["histogram", seed, count] => {
            two_numbers(seed, count).and_then(|(seed, count)| run_cases::histogram(seed, count))
        }
        ["sharpness", seed, count] => {
            two_numbers(seed, count).and_then(|(seed, count)| run_cases::sharpness(seed, count))
        }
        ["agree", seed, count] => two_numbers(seed, count).and_then(|(seed, count)| run_cases::agree(seed, count)),
        ["trails", seed, count] => two_numbers(seed, count).and_then(|(seed, count)| trails::run(seed, count)),
        ["spread", seed, feeds] => two_numbers(seed, feeds).and_then(|(seed, feeds)| spread::run(seed, feeds)),
        ["feeds", seed, count] => two_numbers(seed, count).and_then(|(seed, count)| run_feeds::feeds(seed, count)),
        ["books-damaged", seed, count] => {
            two_numbers(seed, count).and_then(|(seed, count)| run_feeds::damaged(seed, count))
        }
        ["book-sharpness", seed, count] => {
            two_numbers(seed, count).and_then(|(seed, count)| book_sharpness::run(seed, count))
        }
        ["mark-sharpness", seed, count] => {
            two_numbers(seed, count).and_then(|(seed, count)| mark_sharpness::run(seed, count))
        }
        ["store", file] => store::write(file),
        ["stored", file] => store::check(file),
        ["store-books", file] => store_books::write(file),
        ["store-composes", file] => store_composes::write(file),
        ["store-trails", file] => store_trails::write(file),
        ["store-clears", file] => store_clears::write(file),
        ["store-forces", file] => store_forces::write(file),
        ["wrong", out, ref files @ ..] => wrong::make(out, files),
        _ => Err(USAGE.to_string()),
    };
    match result {
        Ok(()) => ExitCode::SUCCESS,
        Err(fault) => {
            eprintln!("{fault}");
            ExitCode::FAILURE
        }
    }
}

fn two_numbers(first: &str, second: &str) -> Result<(u64, u64), String> {
    let number = |word: &str| word.parse::<u64>().map_err(|e| format!("{word}: {e}"));
    Ok((number(first)?, number(second)?))
}
