//! The demo has what a picture should show.

use std::collections::BTreeMap;

use wutherdish::AnchorLink::Indirect;
use wutherdish::{Book, Point, PointRole, Status};

use crate::run::{Feed, letter};

/// How often each letter comes.
fn counts(feed: &Feed) -> BTreeMap<char, usize> {
    let mut counts = BTreeMap::new();
    for given in feed.answers() {
        *counts.entry(letter(&given).0).or_default() += 1;
    }
    counts
}

#[test]
fn each_verdict_but_valid_comes_once() {
    let counts = counts(&Feed::of("demo"));
    assert_eq!(counts, BTreeMap::from([('V', 12), ('T', 1), ('I', 1), ('L', 1), ('F', 1), ('-', 1)]));
}

/// Without any of its offers but the last, the trigger, other verdicts come than those.
#[test]
fn there_are_no_more_points_than_it_takes() {
    let demo = Feed::of("demo");
    let whole = counts(&demo);
    for place in 0..demo.offers.len() - 1 {
        let mut feed = demo.clone();
        feed.offers.remove(place);
        let mut counts = counts(&feed);
        *counts.entry('V').or_default() += 1;
        assert_ne!(counts, whole, "without offer {}", place + 1);
    }
}

#[test]
fn a_proof_and_its_trigger() {
    let points = Feed::of("demo").points();
    let trigger = points.last().expect("points");
    let proof = points.iter().find(|point| point.role == PointRole::AnchorProof { seq_no: 0, is_last: true });
    let proof = proof.expect("a proof");
    assert_eq!(trigger.role, PointRole::AnchorTrigger);
    assert_eq!(trigger.includes.get(&proof.id.author), Some(&proof.id.digest));
    let Indirect(link) = proof.anchor_proof else { panic!("a link that spans rounds") };
    assert_eq!((link.to, proof.id.round - link.to.round), (points[0].id, 4));
}

#[test]
fn a_root_cause_and_both_points_marked() {
    let feed = Feed::of("demo");
    let mut book = Book::open(vec![0; 65_536], &feed.settings).expect("settings");
    for (leader, record) in &feed.offers {
        let _ = book.offer(&feed.schedule, *leader, record);
    }
    let kept = book.kept().expect("a book");
    let bad: Vec<_> = kept.iter().filter(|kept| matches!(kept.status, Status::Invalid { .. })).collect();
    let trans: Vec<_> = kept.iter().filter(|kept| matches!(kept.status, Status::TransInvalid(_))).collect();
    let ([bad], [trans]) = (&bad[..], &trans[..]) else { panic!("each once") };
    assert!(bad.certified && trans.certified);
    let Status::TransInvalid(root) = trans.status else { panic!("trans-invalid") };
    assert_eq!(root.link.to, bad.point.id);
    let includes = |point: &Point| point.includes.get(&bad.point.id.author) == Some(&bad.point.id.digest);
    assert_eq!(kept.iter().filter(|kept| includes(&kept.point)).count(), 3);
}
