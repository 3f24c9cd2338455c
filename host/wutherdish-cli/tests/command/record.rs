//! `explain` on a file of one point record.

use wutherdish::AnchorStageRole::{Proof, Trigger};
use wutherdish::{AnchorLink, Digest, IndirectLink, PeerId, Point, PointId, PointRole, Through};

use crate::explain::explained;
use crate::names;
use crate::run::{Ran, done, drill, fed, scratch, split_front};

/// What is said after every record.
const NOTE: &str = "\n\nnote: a record alone is not judged; a feed or a case has what judging takes\n";

/// A proof with all that a record can say.
pub fn proof() -> Point {
    let [ada, bea, cy] = [0xa1, 0xb2, 0xc3].map(|byte| PeerId([byte; 32]));
    let old = PointId { round: 4, digest: Digest([0x44; 32]), author: cy };
    Point::new(PointId { round: 9, digest: Digest([0x99; 32]), author: ada }, 1_031, 1_030)
        .payload(1, 412)
        .include(ada, Digest([0x88; 32]))
        .include(bea, Digest([0x87; 32]))
        .witness(cy, Digest([0x77; 32]))
        .evidence(bea)
        .evidence(cy)
        .evidence(ada)
        .link(Proof, AnchorLink::Indirect(IndirectLink { to: old, through: Through::Witness(cy) }))
        .link(Trigger, AnchorLink::Direct(Through::Includes(bea)))
        .role(PointRole::AnchorProof { seq_no: 2, is_last: true })
}

pub fn record(point: &Point) -> Vec<u8> {
    point.to_bytes().expect("it can be written")
}

#[test]
fn all_that_it_says() {
    let lines = "point 99999999.. of round 9 by a1a1a1a1.., anchor proof 2, the last\n\
                 payload: 1 message, 412 bytes\n\
                 includes: 2\n  88888888.. by a1a1a1a1..\n  87878787.. by b2b2b2b2..\n\
                 witness: 1\n  77777777.. by c3c3c3c3..\n\
                 evidence: 3\n  a1a1a1a1..\n  b2b2b2b2..\n  c3c3c3c3..\n\
                 anchor proof link: indirect to the point 44444444.. of round 4 by c3c3c3c3.. through c3c3c3c3.. in its \
                 witness\n\
                 anchor trigger link: direct to the point of b2b2b2b2.. in its includes\n\
                 time: 1031\n\
                 anchor time: 1030";
    assert_eq!(done(&["explain", "-"], &record(&proof())), format!("{lines}{NOTE}"));
    let file = scratch("one.record");
    std::fs::write(&file, record(&proof())).expect("it is written");
    assert_eq!(done(&["explain", &file], &[]), format!("{lines}{NOTE}"));
}

#[test]
fn a_point_is_named_as_in_its_feed() {
    let feed = drill("demo");
    let whole = done(&["explain", "-"], &feed);
    let mut rest = split_front(&feed).1;
    for lines in explained(&whole) {
        let (point, after) = Point::read(&rest[1..]).expect("it can be read");
        let out = done(&["explain", "-"], &record(&point));
        assert_eq!(out.lines().next(), Some(lines[0].trim_end_matches(", leader")));
        let rows = point.includes.len() + point.witness.len() + point.evidence.len();
        assert!(out.ends_with(NOTE) && out.lines().count() == 11 + rows, "{out}");
        rest = after;
    }
    assert!(rest.is_empty());
}

#[test]
fn ids_that_begin_alike_or_whole() {
    let feed = names::network().feed(1);
    let (_, second) = Point::read(&split_front(&feed).1[1..]).expect("the first point can be read");
    let mut point = Point::read(&second[1..]).expect("the second point can be read").0;
    let peer = *names::network().peers.last().expect("there is one");
    point.evidence.insert(peer);
    let out = done(&["explain", "-"], &record(&point));
    let note = "note: ids are named by their first four bytes, and by last ones where these are alike\npoint ";
    assert!(out.starts_with(note) && out.contains(" by 07070707..01, regular\n"), "{out}");
    let out = done(&["explain", "-", "--full-ids"], &record(&point));
    assert!(out.starts_with(&format!("{:#}, regular\n", point.id)), "{out}");
}

#[test]
fn bytes_that_are_no_record() {
    let record = record(&proof());
    let said = |bytes: &[u8]| {
        let Ran { code, out, err } = fed(&["explain", "-"], bytes);
        assert_eq!((code, &out[..]), (Some(1), ""));
        err
    };
    for length in (3..record.len()).step_by(9) {
        let unreadable = Point::read(&record[..length]).expect_err("it is cut off");
        assert_eq!(said(&record[..length]), format!("wutherdish: standard input: {unreadable}\n"));
    }
    let more = format!("wutherdish: standard input: byte {}: expected the end, and found more bytes\n", record.len());
    assert_eq!(said(&[&record[..], &[0]].concat()), more);
    assert_eq!(said(&[&record[..], &record].concat()), more);
}

#[test]
fn it_leaves_no_book() {
    let record = record(&proof());
    let ran = fed(&["explain", "-", "--book", &scratch("record.book")], &record);
    assert_eq!((ran.code, &ran.out[..]), (Some(2), ""));
    assert!(ran.err.starts_with("wutherdish: standard input is a point record, which leaves no book\n"), "{}", ran.err);
    let ran = fed(&["show", "-"], &record);
    assert_eq!((ran.code, &ran.out[..]), (Some(1), ""));
    assert_eq!(ran.err, "wutherdish: standard input: a point record, which leaves no book to show\n");
}
