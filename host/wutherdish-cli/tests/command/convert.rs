//! `convert` brings feeds and files of records from one arrangement to the other.

use std::fs;

use wutherdish::{Point, Unreadable};

use crate::names;
use crate::network::Network;
use crate::run::{Ran, done, drill, fed, feed, feed_drills, is_bad, run, scratch, shell, split_front};

/// The bytes of a feed, or of records one after the other, from columns to pairs: field by field, without the library.
fn as_pairs(columns: &[u8], has_leaders: bool) -> Vec<u8> {
    let mut pairs = columns.to_vec();
    let mut at = 0;
    while at < columns.len() {
        let tag = columns[at];
        let length = u16::from_le_bytes([columns[at + 1], columns[at + 2]]);
        let content = at + 3..at + 3 + usize::from(length);
        at = content.end + usize::from(has_leaders && matches!(tag, 9 | 35));
        if matches!(tag, 3 | 4) {
            let (rows, _) = columns[content.clone()].as_chunks::<32>();
            let (peers, digests) = rows.split_at(rows.len() / 2);
            let moved: Vec<_> = peers.iter().zip(digests).flat_map(|(peer, digest)| [*peer, *digest]).collect();
            pairs[content].copy_from_slice(moved.as_flattened());
        }
    }
    pairs
}

/// The records of a feed, one after the other.
fn records(feed: &[u8]) -> Vec<u8> {
    let (mut records, mut rest) = (Vec::new(), split_front(feed).1);
    while let [_, record @ ..] = rest {
        let (_, after) = Point::read(record).expect("it can be read");
        records.extend(&record[..record.len() - after.len()]);
        rest = after;
    }
    records
}

/// A network whose peers fill their maps.
fn wide() -> Network {
    let peers = names::network().peers;
    let more = (1..=100).map(|last| wutherdish::PeerId(std::array::from_fn(|place| if place < 31 { 9 } else { last })));
    Network { peers: peers.into_iter().chain(more).collect(), ..names::network() }
}

/// Converts from a file to a file.
fn converted(to: &str, bytes: &[u8], name: &str) -> Vec<u8> {
    let [from, into] = ["from", "into"].map(|end| scratch(&format!("{name}-{to}.{end}")));
    fs::write(&from, bytes).expect("it is written");
    assert_eq!(done(&["convert", "--to", to, &from, "-o", &into], &[]), "");
    fs::read(&into).expect("it is written")
}

#[test]
fn feeds_and_records_there_and_back() {
    let drills = feed_drills().filter(|drill| !is_bad(drill)).map(|drill| drill.input.bytes().to_vec());
    let mut different = 0;
    for columns in drills.chain([feed(), names::network().feed(3), wide().feed(3)]) {
        let records = records(&columns);
        let files = [(as_pairs(&columns, true), columns, "feed"), (as_pairs(&records, false), records, "records")];
        for (pairs, columns, name) in &files {
            assert!(converted("pairs", columns, name) == *pairs);
            assert!(converted("columns", pairs, name) == *columns);
            different += usize::from(pairs != columns);
        }
    }
    assert!(different > 50, "{different}");
}

#[test]
fn an_old_feed_gives_the_answers_that_it_gave() {
    let pairs = as_pairs(&feed(), true);
    let file = scratch("old.feed");
    fs::write(&file, converted("columns", &pairs, "old")).expect("it is written");
    assert_eq!(done(&["tally", &file], &[]), include_str!("feed.txt"));
}

#[test]
fn standard_input_and_output() {
    let columns = drill("ill-formed-12");
    let (file, pairs) = (scratch("piped.feed"), as_pairs(&columns, true));
    let script = format!("\"$0\" convert --to pairs - >'{file}'");
    assert_eq!(shell(&script, &[], &columns).code, Some(0));
    assert!(pairs != columns && fs::read(&file).expect("it is written") == pairs);
    // the drill that the guide's first lines convert has one include, and the same bytes in both
    assert_eq!(done(&["convert", "--to", "pairs", "-", "-o", &file], &drill("valid")), "");
    assert_eq!(fs::read(&file).expect("it is written"), drill("valid"));
}

/// What is said of a file that can't be converted, after its name. No output is written.
fn assert_bad(to: &str, bytes: &[u8], wanted: &str) {
    let file = scratch(&format!("bad-{to}.feed"));
    fs::write(&file, "kept").expect("it is written");
    let Ran { code, out, err } = fed(&["convert", "--to", to, "-", "-o", &file], bytes);
    assert_eq!((code, &out[..], err), (Some(1), "", format!("wutherdish: standard input: {wanted}\n")));
    assert_eq!(fs::read(&file).expect("it is there"), b"kept");
}

#[test]
fn a_record_that_cannot_be_read_is_named() {
    let feed = drill("demo");
    let (front, points) = split_front(&feed);
    let (first, after) = Point::read(&points[1..]).expect("the first point can be read");
    let second = feed.len() - after.len() + 1;
    let payload = second + 71;
    let mut bad = feed.clone();
    bad[payload] = 9;
    let unreadable = Point::read(&bad[second..]).expect_err("its payload is missing");
    let unreadable = Unreadable { at: payload, ..unreadable };
    assert_bad("pairs", &bad, &format!("record 2 can't be read as columns: {unreadable}"));
    assert_bad("columns", &bad, &format!("record 2 can't be read as pairs: {unreadable}"));
    // the same in a file of records
    let record = first.to_bytes().expect("it can be written");
    let unreadable = Unreadable { at: record.len() + 71, ..unreadable };
    let records = [&record[..], &bad[second..]].concat();
    assert_bad("pairs", &records, &format!("record 2 can't be read as columns: {unreadable}"));
    // a leader byte with nothing after it
    let cut = &feed[..second];
    let wanted =
        format!("record 2 can't be read as columns: byte {second}: expected a point's id, tag 1 with 68 bytes");
    assert_bad("pairs", cut, &wanted);
    assert_eq!(converted("pairs", front, "front"), front);
}

/// Where digests rise as peers do, columns can be read as pairs, and nothing tells that they are none.
#[test]
fn what_is_converted_already_is_said() {
    let digest = |round: u32, peer: usize| {
        let mut digest = [round as u8; 32];
        digest[0] = 255 - peer as u8;
        digest
    };
    let columns = Network { digest, ..names::network() }.feed(2);
    let pairs = as_pairs(&columns, true);
    // the genesis point and the points right above it include one point, and have the same bytes in both
    let sixth = (0..columns.len()).find(|at| columns[*at] != pairs[*at]).expect("some bytes differ");
    let (includes, wanted) =
        (sixth - 3 - 32, ["pairs of peer and digest by rising peers", "peers, rising, and then as many digests"]);
    let wanted =
        wanted.map(|wanted| format!("byte {includes}: expected a point's includes, tag 3, at most 255 {wanted}"));
    let said = |from: &str, to: &str, wanted| {
        format!("record 6 can't be read as {from}: {wanted}; as {to} it can be read: it may be converted already")
    };
    assert_bad("columns", &columns, &said("pairs", "columns", &wanted[0]));
    assert_bad("pairs", &pairs, &said("columns", "pairs", &wanted[1]));
    // the other commands take columns alone
    let ran = fed(&["explain", "-"], &pairs);
    assert_eq!((ran.code, ran.err), (Some(1), format!("wutherdish: standard input: {}\n", wanted[1])));
    // converted twice in silence, and brought back
    let columns = names::network().feed(2);
    let twice = converted("columns", &columns, "twice");
    assert!(twice != columns && converted("pairs", &twice, "twice") == columns);
}

#[test]
fn books_and_cases_are_not_converted() {
    let file = scratch("convert.book");
    done(&["explain", "-", "--book", &file], &drill("demo"));
    let ran = run(&["convert", "--to", "columns", &file]);
    assert_eq!((ran.code, &ran.out[..]), (Some(1), ""));
    assert_eq!(ran.err, format!("wutherdish: {file}: a book, which is not converted but begun anew\n"));
    assert_bad("columns", &drill("invalid-02"), "a file of cases, which is not converted");
    assert_bad("columns", &drill("number-14"), "a file of cases, which is not converted");
    assert!(fed(&["convert", "--to", "columns", "-"], b"text").err.contains(": byte 0: expected a feed or a book"));
    assert!(fed(&["convert", "--to", "columns", "-"], &drill("number-02")).err.contains("last known round"));
}

#[test]
fn nothing_is_written_over_the_input() {
    let file = scratch("same.feed");
    fs::write(&file, drill("demo")).expect("it is written");
    let ran = run(&["convert", "--to", "pairs", &file, "-o", &file]);
    assert_eq!((ran.code, &ran.out[..]), (Some(2), ""));
    assert!(ran.err.starts_with(&format!("wutherdish: -o {file} would write over the input\n")), "{}", ran.err);
    assert_eq!(fs::read(&file).expect("it is there"), drill("demo"));
}
