//! The static library against the oracle: numbers, answers, peer buffers and books, byte for byte.

mod book_file;
mod certificates;
mod clears;
mod composes;
mod converts;
mod difference;
mod feeds;
mod file;
mod forces;
mod joins;
mod lent;
mod orders;
mod program;
mod report;
mod run_cases;
mod tally;
mod trails;

use std::process::ExitCode;

use book_file::Age;
use cases::case;
use certificates::certificates;
use compare::damage::{damaged, judge_damaged};
use compare::kind::{as_judge, as_verify};
use compare::run;
use oracle::file::Case;

const USAGE: &str = "compare COMMAND
  cases SEED COUNT [THREADS]           generated cases, as verify cases, through the oracle and the library
  damaged SEED COUNT [THREADS]         the same cases with damaged bytes
  judge SEED COUNT [THREADS]           generated cases, as judge cases
  judge-damaged SEED COUNT [THREADS]   the same cases with damaged bytes
  permutations SEED COUNT [THREADS]    those of the judge cases with short lists, in every order of the entries
  feeds SEED COUNT [THREADS]           feeds of offers, through the plain book and the library
  books-damaged SEED COUNT [THREADS]   the same offers to damaged copies of their books
  certificates SEED COUNT [THREADS]    feeds for certificates, through the source's own, the plain book and the library
  converts SEED COUNT [THREADS]        their records, damaged too, through both converters and those that read and write
  composes SEED COUNT [THREADS]        points handed over in parts, through the oracle's writer and reader and the library
  trails SEED COUNT [THREADS]          judge cases whose lists give many reasons, all of which are compared with the source's
  clears SEED COUNT [THREADS]          what would clear points, by judging again with each point of the list marked, by the
                                       Rust and by the library, and by the call
  forces SEED COUNT [THREADS]          what the network can force, by judging each entry where its reason decides and, of short lists,
                                       every order, by the Rust and by the library, and by the call
  file FILE                            the cases of a file, against the answers in it
  file-pairs FILE                      the same of a file in which maps are pairs, which are moved: those with a book against
                                       the plain book, which has to answer as the file says, and leave its books moved
  file-prev FILE                       the same of such a file in which marks cover the previous point alone
  converts-file FILE                   the converted records of a file, against the records in it
  composes-file FILE                   the composed records of a file, against the records in it
  trails-file FILE                     the cases of a file that are judged with a trail, against the rows and answers in it
  clears-file FILE                     the questions of a file on what would clear points, likewise, against the answers in it
  forces-file FILE                     the lists of a file on what the network can force, likewise, against the answers in it
  joins FILE                           the joins of a file, by the host's crate, against the records in it
  tally PROGRAM SEED COUNT             feeds to the program tally, through the plain book and the program
  tally-file PROGRAM FILE              the standard inputs of a file, against the outputs in it, likewise
  tally-file-pairs PROGRAM FILE        the same of a file in which maps are pairs
  tally-file-prev PROGRAM FILE         the same of such a file in which marks cover the previous point alone
THREADS is 1 or 2, by default 2";

/// What a command compares: a name, and the cases of a seed at a place.
type Comparison = (&'static str, fn(u64, u64) -> Vec<Case>);

const CASES: Comparison = ("generated", |seed, place| vec![as_verify(case(seed, place))]);
const DAMAGED: Comparison = ("damaged", |seed, place| vec![as_verify(damaged(seed, place))]);
const JUDGE: Comparison = ("generated judge", |seed, place| vec![as_judge(case(seed, place))]);
const JUDGE_DAMAGED: Comparison = ("damaged judge", |seed, place| vec![judge_damaged(seed, place)]);

fn main() -> ExitCode {
    let arguments: Vec<String> = std::env::args().skip(1).collect();
    let words: Vec<&str> = arguments.iter().map(String::as_str).collect();
    let result = match words[..] {
        ["cases", ref words @ ..] => compare(CASES, words),
        ["damaged", ref words @ ..] => compare(DAMAGED, words),
        ["judge", ref words @ ..] => compare(JUDGE, words),
        ["judge-damaged", ref words @ ..] => compare(JUDGE_DAMAGED, words),
        ["permutations", ref words @ ..] => range(words).and_then(|range| orders::permutations(&range)),
        ["feeds", ref words @ ..] => range(words).and_then(|range| feeds::feeds(&range)),
        ["books-damaged", ref words @ ..] => range(words).and_then(|range| feeds::books_damaged(&range)),
        ["certificates", ref words @ ..] => range(words).and_then(|range| certificates(&range)),
        ["converts", ref words @ ..] => range(words).and_then(|range| converts::generated(&range)),
        ["composes", ref words @ ..] => range(words).and_then(|range| composes::generated(&range)),
        ["trails", ref words @ ..] => range(words).and_then(|range| trails::generated(&range)),
        ["clears", ref words @ ..] => range(words).and_then(|range| clears::generated(&range)),
        ["forces", ref words @ ..] => range(words).and_then(|range| forces::generated(&range)),
        ["file", path] => file::run(path, Age::Now),
        ["file-pairs", path] => file::run(path, Age::Pairs),
        ["file-prev", path] => file::run(path, Age::Prev),
        ["converts-file", path] => converts::file(path),
        ["composes-file", path] => composes::file(path),
        ["trails-file", path] => trails::file(path),
        ["clears-file", path] => clears::file(path),
        ["forces-file", path] => forces::file(path),
        ["joins", path] => joins::run(path),
        ["tally", program, ref words @ ..] => {
            range(words).and_then(|range| program::feeds(program, range.seed, range.count))
        }
        ["tally-file", program, path] => program::file(program, path, Age::Now),
        ["tally-file-pairs", program, path] => program::file(program, path, Age::Pairs),
        ["tally-file-prev", program, path] => program::file(program, path, Age::Prev),
        _ => Err(USAGE.to_string()),
    };
    match result {
        Ok(()) => ExitCode::SUCCESS,
        Err(fault) => {
            eprintln!("{fault}");
            ExitCode::FAILURE
        }
    }
}

fn compare((name, make): Comparison, words: &[&str]) -> Result<(), String> {
    run_cases::cases(name, make, &range(words)?)
}

/// SEED COUNT [THREADS]
fn range(words: &[&str]) -> Result<run::Range, String> {
    let number = |word: &str| word.parse::<u64>().map_err(|e| format!("{word}: {e}"));
    let (seed, count, threads) = match *words {
        [seed, count] => (number(seed)?, number(count)?, 2),
        [seed, count, threads @ ("1" | "2")] => (number(seed)?, number(count)?, number(threads)?),
        _ => return Err(USAGE.to_string()),
    };
    Ok(run::Range { seed, count, threads })
}
