//! The static library's time beside the Rust's and a plain pass, from the same bytes.

mod cold;
mod comparisons;
mod compose;
mod convert;
mod force;
mod heap;
mod judge;
mod offer;
mod once;
mod pass;
mod plain_writer;
mod rounds;
mod tally;
mod trail;
mod verify;
mod worst;

use std::process::ExitCode;

const PEERS: [usize; 4] = [4, 13, 100, 253];

const WORDS: &str = "\
The source reads other bytes (TL) and has no reader of these, so the Rust is measured with two in front: the oracle's,
written for comparing, and a direct one, written for speed, which keeps nothing between the bytes and the source's types.
Its hash maps are the standard ones under the oracle's hasher, and its metrics count nothing. All times are the
processor's. A ratio is the Rust's time divided by the library's in the same round: over 1 the library is faster.
";

const USAGE: &str = "bench [verify | judge | trail | offer | convert | compose]   the tables, or one of them
bench force                        what the network can force, by lists as long as they get, beside judging
bench comparisons                  how many rows are compared for the order of a map's rows
bench cold                         records and books that together are longer than the caches
bench worst [full]                 the dearest inputs that were found; full: as long as they get
bench tally PROGRAM                the program tally on feeds
bench once worst ROW               the call of a row of `bench worst`, for callgrind to count; the first row is 1
bench once WAY PEERS [ENTRIES]     one call, for callgrind to count: verify, judge, offer, offer-far (a history of 255),
                                   refused, to-columns or to-pairs by the library; copy of a record's bytes;
                                   rising, falling or shuffled: a point composed by the library; rising-parts and so on: by Rust;
                                   verify-direct, verify-alone, judge-direct or judge-alone by the Rust";

fn main() -> ExitCode {
    let arguments: Vec<String> = std::env::args().skip(1).collect();
    let words: Vec<&str> = arguments.iter().map(String::as_str).collect();
    let number = |word: &str| word.parse().map_err(|e| format!("{word}: {e}"));
    heap::keep();
    let done = match words[..] {
        [] => tables(),
        ["verify"] => verify::table(&PEERS),
        ["judge"] => judge::table(&PEERS),
        ["trail"] => trail::table(&PEERS),
        ["offer"] => offer::table(),
        ["convert"] => convert::table(&PEERS),
        ["compose"] => compose::table(&PEERS),
        ["force"] => force::table(),
        ["comparisons"] => comparisons::table(),
        ["cold"] => cold::table(&PEERS).and_then(|()| convert::cold_table(&PEERS)),
        ["worst"] => worst::table(false),
        ["worst", "full"] => worst::table(true),
        ["tally", program] => tally::table(program),
        ["once", "worst", row] => number(row).and_then(worst::once),
        ["once", way, peers] => number(peers).and_then(|peers| once::run(way, peers, 100)),
        ["once", way, peers, entries] => {
            number(peers).and_then(|peers| number(entries).and_then(|entries| once::run(way, peers, entries)))
        }
        _ => Err(USAGE.to_string()),
    };
    match done {
        Ok(()) => ExitCode::SUCCESS,
        Err(fault) => {
            eprintln!("{fault}");
            ExitCode::FAILURE
        }
    }
}

fn tables() -> Result<(), String> {
    println!("{WORDS}");
    verify::table(&PEERS)?;
    judge::table(&PEERS)?;
    trail::table(&PEERS)?;
    offer::table()?;
    convert::table(&PEERS)?;
    compose::table(&PEERS)
}
