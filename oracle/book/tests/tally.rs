//! Document 01's example: one genesis point of round 10, given twice, its set being one peer. And the stored run of the program `tally`.

use oracle::value::{Id, Point, Schedule, Settings, Span};
use oracle::{read, write};

#[test]
fn a_genesis_point_given_twice() {
    let (author, digest) = ([7; 32], [9; 32]);
    let genesis = Point::genesis(Id { round: 10, digest, author }, 1_000);
    let settings = Settings {
        genesis_round: 10,
        genesis_digest: digest,
        payload_batch_bytes: 1,
        sticky_anchors: 0,
        clock_skew_millis: 1,
        commit_history_rounds: 1,
    };
    let schedule = Schedule { spans: vec![Span { first: 10, peers: vec![author] }], last_known: 10 };
    let given = [&[0], &write::record(&genesis)[..]].concat();
    let input = [write::settings(&settings), write::schedule(&schedule), given.clone(), given].concat();
    assert_eq!(book::tally(&input), "1 10 V 0 0\n2 10 - 0 11\nend 1\n");
}

/// The buffer of the program `tally` holds as many bytes.
const BUFFER: usize = 65_536;

#[test]
fn the_stored_run_of_the_program() {
    let input = stored_input();
    let output = book::tally(&input);
    assert!(input.len() > BUFFER, "the run has to outgrow the program's buffer");
    for part in [" F 0 0\n", " L ", " I ", " T 0 0\n", " V 0 0\n", " - 0 3\nend ", " - 0 4\n", " - 0 11\n", " - 0 12\n"]
    {
        assert!(output.contains(part), "no line has{part}");
    }
    assert!(stored("stdin") == input, "crates/tally/stdin is another feed");
    assert_eq!(String::from_utf8(stored("stdout")).expect("it is text"), output);
}

#[test]
#[ignore = "writes the files that the_stored_run_of_the_program reads"]
fn write_the_stored_run_of_the_program() {
    let input = stored_input();
    std::fs::write(path("stdin"), &input).expect("stdin is written");
    std::fs::write(path("stdout"), book::tally(&input)).expect("stdout is written");
}

/// The feed that ships with the program, then its points again with other digests, which the book has no room for, then a
/// record that is cut off.
fn stored_input() -> Vec<u8> {
    let feed = stored("data/feed.bin");
    let (_, points) = read::schedule_front(&feed[SETTINGS..]).expect("the feed has a schedule");
    let mut input = feed.clone();
    let mut rest = points;
    while let Some((leader, record)) = rest.split_first() {
        let (_, after) = read::record_front(record).expect("the feed's records are readable");
        let mut version = record[..record.len() - after.len()].to_vec();
        version[DIGEST] ^= 1;
        input.push(*leader);
        input.extend(version);
        rest = after;
    }
    input.extend(&points[..100]);
    input
}

const SETTINGS: usize = 47;

/// The last byte of a record's digest: after a tag, a length and the round.
const DIGEST: usize = 3 + 4 + 31;

fn path(name: &str) -> std::path::PathBuf {
    std::path::Path::new(env!("CARGO_MANIFEST_DIR")).join("../../crates/tally").join(name)
}

fn stored(name: &str) -> Vec<u8> {
    std::fs::read(path(name)).expect("the program's folder has the file")
}
