//! `compose` makes the record of what `explain --full-ids` says of one, or of a text by hand.

use std::fs;
use std::sync::atomic::{AtomicUsize, Ordering};

use wutherdish::{Digest, PeerId, Point, Unreadable};
use wutherdish_drills::Input;

use crate::record::{proof, record};
use crate::run::{Ran, done, drill, fed, run, scratch, split_front};

/// What `explain --full-ids` says of a record.
pub fn told(record: &[u8]) -> String {
    done(&["explain", "--full-ids", "-"], record)
}

/// The name of a file that no other test writes.
fn a_file() -> String {
    static COUNT: AtomicUsize = AtomicUsize::new(0);
    scratch(&format!("compose-{}", COUNT.fetch_add(1, Ordering::Relaxed)))
}

/// The record of a text.
fn composed(text: &str) -> Vec<u8> {
    let file = a_file();
    assert_eq!(done(&["compose", "-", "-o", &file], text.as_bytes()), "");
    fs::read(&file).expect("it is written")
}

/// What is said of a text that no point has. Nothing is written.
fn assert_bad(text: &str, wanted: &str) {
    let file = a_file();
    fs::write(&file, "kept").expect("it is written");
    let Ran { code, out, err } = fed(&["compose", "-", "-o", &file], text.as_bytes());
    assert_eq!((code, &out[..], err), (Some(1), "", format!("wutherdish: standard input: {wanted}\n")), "{text}");
    assert_eq!(fs::read(&file).expect("it is there"), b"kept");
}

/// The leader bytes and records of a feed.
fn offers(feed: &[u8]) -> Vec<(u8, Vec<u8>)> {
    let (mut offers, mut rest) = (Vec::new(), split_front(feed).1);
    while let [leader, record @ ..] = rest {
        let (_, after) = Point::read(record).expect("it can be read");
        offers.push((*leader, record[..record.len() - after.len()].to_vec()));
        rest = after;
    }
    offers
}

/// The records of all drills, but for those that can't be read.
fn records() -> Vec<Vec<u8>> {
    let mut records = Vec::new();
    for drill in wutherdish_drills::all() {
        match (drill.name, &drill.input) {
            ("number-01" | "number-02" | "number-03", _) => {}
            (_, Input::Feed(feed)) => records.extend(offers(feed).into_iter().map(|(_, record)| record)),
            (_, Input::Case(case)) => {
                let front = (0..case.len()).find(|at| case[*at..].starts_with(&[1, 68, 0]));
                let point = front.and_then(|at| Point::read(&case[at..]).ok());
                records.extend(point.map(|(point, _)| record(&point)));
            }
        }
    }
    records.sort();
    records.dedup();
    records
}

#[test]
fn every_record_comes_back_from_what_is_said_of_it() {
    let records = records();
    assert!(records.len() > 80, "{}", records.len());
    for record in records.into_iter().chain([record(&proof())]) {
        let text = told(&record);
        assert!(composed(&text) == record, "{text}");
    }
}

/// The lines of a text with all that a record can say, and what it is the text of.
fn lines() -> (Vec<String>, Vec<u8>) {
    let record = record(&proof());
    (told(&record).lines().map(str::to_owned).collect(), record)
}

#[test]
fn a_text_by_hand() {
    let text = "# a proof\n\
                point 99 of round 9 by a1a1, anchor proof 2, the last\r\n\
                payload: 1 messages, 412 byte\n\
                \n\
                includes:\n\
                \t87878787 by B2\n\
                88 by A1A1A1A1\n\
                witness: 1\n  77 by c3c3\n\
                evidence:\nc3\n  # a remark\n  a1\n  b2b2\n\
                anchor proof link:  indirect to the point 4444 of round 4 by c3 through c3 in its witness\n\
                anchor trigger link: direct to the point of b2 in its includes\n\
                time: 1031\n  anchor time: 1030";
    assert_eq!(composed(text), record(&proof()));
    let drill = Point::read(&split_front(&drill("valid")).1[1..]).expect("it can be read").0;
    assert_eq!(drill.id.digest, Digest(*[[0x10, 0x0a, 0, 1]; 8].as_flattened().first_chunk().expect("32 bytes")));
    let text = "point 100a0001 of round 10 by 0a, genesis\npayload: 0 messages, 0 bytes\nincludes: 1\n00 by 0a\n\
                witness: 0\nevidence: 0\nanchor proof link: direct to the point of 0a in its includes\n\
                anchor trigger link: direct to the point of 0a in its includes\ntime: 10000\nanchor time: 10000\n";
    assert_eq!(composed(text), record(&drill));
}

#[test]
fn rows_stand_in_any_order() {
    let mut wide = proof();
    for byte in 0..=254 {
        let peer = PeerId(std::array::from_fn(|place| if place < 20 { 7 } else { byte }));
        wide = wide.witness(peer, Digest([byte; 32])).evidence(peer);
    }
    wide.witness.pop_last();
    let pops = [wide.evidence.pop_first(), wide.evidence.pop_first(), wide.evidence.pop_last()];
    assert!(pops.iter().all(Option::is_some));
    let text = told(&record(&wide));
    assert_eq!(composed(&text), record(&wide));
    let mut lines: Vec<&str> = text.lines().collect();
    for map in lines.chunk_by_mut(|x, y| x.starts_with("  ") && y.starts_with("  ")) {
        map.reverse();
        let middle = map.len() / 2;
        map.rotate_left(middle);
    }
    let shuffled = lines.join("\n");
    assert_ne!(shuffled, text.trim_end());
    assert_eq!(composed(&shuffled), record(&wide));
    // the 256th row
    let (_, more) = text.split_once("witness: 255\n").expect("a witness");
    let text = text.replace("witness: 255\n", &format!("witness:\nff by {}\n", "fe".repeat(32)));
    assert!(more.contains("  fefefefe"));
    assert_bad(&text, "the point's witness map has 256 peers, and a map holds at most 255");
}

#[test]
fn a_peer_stands_twice() {
    let (lines, _) = lines();
    let heads = ["includes: 2", "witness: 1", "evidence: 3"];
    for head in heads {
        let head = lines.iter().position(|line| line == head).expect("a map");
        // the first row once more, after the last: the same, and in includes and witness with another digest
        let last = (head..).find(|line| !lines[line + 1].starts_with("  ")).expect("the map ends");
        let same = lines[head + 1].clone();
        let other = same.split_once(" by ").map(|(_, peer)| format!("5a by {peer}"));
        for row in other.into_iter().chain([same]) {
            let mut lines = lines.clone();
            lines.insert(last + 1, row);
            let twice = "number 13, a peer stands twice in a map: this one has line";
            assert_bad(&lines.join("\n"), &format!("line {}: {twice} {} already", last + 2, head + 2));
        }
    }
}

#[test]
fn a_bad_line_is_named() {
    let (lines, _) = lines();
    let is_written = "an id is written with 64 hex digits, or with the 2, 4 or 8 that it repeats";
    let link = "expected `direct to the point of PEER in its MAP` or `indirect to the POINT through PEER in its MAP`, MAP \
                being includes or witness";
    let role = "`regular`, `anchor proof NUMBER`, `anchor proof NUMBER, the last`, `anchor trigger` or `genesis`";
    let bad = |line: usize, from: &str, to: &str, wanted: &str| {
        let mut lines = lines.clone();
        assert!(lines[line - 1].contains(from), "{}", lines[line - 1]);
        lines[line - 1] = lines[line - 1].replacen(from, to, 1);
        assert_bad(&lines.join("\n"), &format!("line {line}: {wanted}"));
    };
    let (nines, threes) = ("99".repeat(32), "c3".repeat(32));
    bad(1, "point ", "pint ", "expected a line that begins with `point`");
    bad(1, ", anchor proof 2, the last", "", "expected `point DIGEST of round NUMBER by PEER, ROLE`");
    bad(1, " by ", " of ", "expected `point DIGEST of round NUMBER by PEER`");
    bad(1, "round 9", "round 4294967296", "`4294967296` is no number from 0 to 4294967295");
    bad(1, "round 9", "round +9", "`+9` is no number from 0 to 4294967295");
    bad(1, "proof 2", "proof 256", "`256` is no number from 0 to 255");
    bad(1, "the last", "last", "`2, last` is no number from 0 to 255");
    bad(1, "anchor proof 2", "proof", &format!("`proof, the last` is no role: expected {role}"));
    bad(1, &nines, "9", &format!("`9` is no id: {is_written}"));
    bad(1, &nines, "99999", &format!("`99999` is no id: {is_written}"));
    bad(1, &nines, "+9", &format!("`+9` is no id: {is_written}"));
    let short = "`99999999..` is cut short, and explain --full-ids writes it whole";
    bad(1, &nines, "99999999..", &format!("{short}: {is_written}"));
    bad(2, "payload", "load", "expected a line that begins with `payload:`");
    for (from, to) in [("1 message,", "1 massage,"), ("412 bytes", "412"), (", ", " and ")] {
        bad(2, from, to, "expected `NUMBER messages, NUMBER bytes`");
    }
    bad(2, "412", "4294967296", "`4294967296` is no number from 0 to 4294967295");
    bad(3, "2", "3", "it says 3 rows, and counted they are 2");
    bad(3, "2", "two", "`two` is no number from 0 to 18446744073709551615");
    bad(4, " by ", " ", "expected a row `DIGEST by PEER`, or the next part");
    bad(5, "87", "g7", &format!("`g7{}` is no id: {is_written}", "87".repeat(31)));
    bad(6, "witness: 1", "witness", "expected a row `DIGEST by PEER`, or the next part");
    bad(6, "witness: 1", "evidence: 1", "expected a line that begins with `witness:`");
    bad(12, "anchor proof", "proof", "expected a line that begins with `anchor proof link:`");
    bad(12, " in its witness", " in its evidence", link);
    bad(12, "indirect to the", "to the", link);
    bad(12, &format!("through {threes}"), "through c", &format!("`c` is no id: {is_written}"));
    bad(12, "round 4", "round four", "`four` is no number from 0 to 4294967295");
    bad(13, "direct to", "directly to", link);
    bad(14, "1031", "18446744073709551616", "`18446744073709551616` is no number from 0 to 18446744073709551615");
    bad(15, "1030", "", "`` is no number from 0 to 18446744073709551615");
}

#[test]
fn a_text_ends_too_early_or_is_none() {
    let (lines, _) = lines();
    let labels = ["point", "payload:", "includes:", "witness:", "evidence:", "anchor proof link:"];
    for (label, line) in labels.into_iter().zip([1, 2, 3, 6, 8, 12]) {
        assert_bad(&lines[..line - 1].join("\n"), &format!("line {line}: expected a line that begins with `{label}`"));
    }
    let twice = [&lines[..15], &lines[..15]].concat().join("\n");
    assert_bad(&twice, "line 16: expected the end of the text");
    assert_bad("a feed\n", "line 1: expected a line that begins with `point`");
    let said = |input: &[u8]| fed(&["compose", "-"], input).err;
    assert_eq!(said(&record(&proof())), "wutherdish: standard input: expected the text of a point\n");
    assert_eq!(
        run(&["compose", "/dev/zero"]).err,
        "wutherdish: /dev/zero: over a megabyte, which no text of a point has\n"
    );
    assert!(run(&["compose", "no/such/file"]).err.starts_with("wutherdish: no/such/file: "));
}

/// The feeds of the drills, each made again of its front and of what is said of its points.
#[test]
fn points_are_appended_to_a_feed() {
    for name in ["valid", "demo", "number-04", "invalid-07"] {
        let feed = drill(name);
        let file = a_file();
        fs::write(&file, split_front(&feed).0).expect("it is written");
        for (leader, record) in offers(&feed) {
            let text = told(&record);
            let leads: &[&str] = if leader == 1 { &["--leader"] } else { &[] };
            assert_eq!(done(&[&["compose", "-", "--append", &file], leads].concat(), text.as_bytes()), "");
        }
        assert!(fs::read(&file).expect("it is there") == feed, "{name}");
    }
}

#[test]
fn nothing_is_appended_to_what_is_no_whole_feed() {
    let book = a_file();
    done(&["explain", "-", "--book", &book], &drill("demo"));
    let book = fs::read(book).expect("it is there");
    let text = told(&record(&proof()));
    let assert_kept = |bytes: &[u8], text: &str, wanted: &dyn Fn(&str) -> String| {
        let file = a_file();
        fs::write(&file, bytes).expect("it is written");
        let ran = fed(&["compose", "-", "--append", &file], text.as_bytes());
        assert_eq!((ran.code, &ran.out[..], ran.err), (Some(1), "", format!("wutherdish: {}\n", wanted(&file))));
        assert!(fs::read(&file).expect("it is there") == bytes);
    };
    for bytes in [&book[..], &drill("invalid-02"), &record(&proof())] {
        assert_kept(bytes, &text, &|file| format!("{file}: no feed, which is what a point is appended to"));
    }
    let cut = drill("number-03");
    let at = split_front(&cut).0.len() + 1;
    let unreadable = Point::read(&cut[at..]).expect_err("its last byte is missing");
    let unreadable = Unreadable { at: at + unreadable.at, ..unreadable };
    assert_kept(&cut, &text, &|file| format!("{file}: {unreadable}"));
    assert_kept(&drill("valid"), "point", &|_| {
        "standard input: line 1: expected a line that begins with `point`".into()
    });
    let missing = fed(&["compose", "-", "--append", "no/such/file"], text.as_bytes());
    assert!(missing.code == Some(1) && missing.err.starts_with("wutherdish: no/such/file: "), "{}", missing.err);
}

#[test]
fn a_text_is_not_written_over() {
    let (file, text) = (a_file(), told(&record(&proof())));
    fs::write(&file, &text).expect("it is written");
    let ran = run(&["compose", &file, "-o", &file]);
    assert_eq!((ran.code, &ran.out[..]), (Some(2), ""));
    assert!(ran.err.starts_with(&format!("wutherdish: -o {file} would write over the input\n")), "{}", ran.err);
    let ran = run(&["compose", &file, "--append", &file]);
    assert!(ran.code == Some(1) && ran.err.contains(": byte 0: expected a feed or a book"), "{}", ran.err);
    assert_eq!(fs::read(&file).expect("it is there"), text.as_bytes());
}
