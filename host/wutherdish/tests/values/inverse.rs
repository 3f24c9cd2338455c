//! Writers and readers are inverse.

use std::collections::{BTreeMap, BTreeSet};

use wutherdish::{BuildError, Dependency, Digest, List, PeerId, Point, PointMap, Schedule, Settings, Span, State};

use crate::random::Random;

const CASES: usize = 300;

/// `count` peers, in falling order.
fn peers(count: u16) -> impl Iterator<Item = PeerId> {
    (0..count).rev().map(|number| {
        let mut bytes = [0; 32];
        bytes[..2].copy_from_slice(&number.to_be_bytes());
        PeerId(bytes)
    })
}

#[test]
fn settings() {
    let mut random = Random(1);
    for _ in 0..CASES {
        let settings = random.settings();
        let bytes = settings.to_bytes();
        assert_eq!(Settings::try_from(&bytes[..]).as_ref(), Ok(&settings));
        assert_eq!(Settings::read(&[&bytes[..], &[7, 8]].concat()), Ok((settings, &[7, 8][..])));
    }
}

#[test]
fn points() {
    let mut random = Random(2);
    for most in [0, 1, 5, 255] {
        for _ in 0..CASES / 4 {
            let point = random.point(most);
            let bytes = point.to_bytes().expect("at most 255 peers");
            assert_eq!(Point::try_from(&bytes[..]).as_ref(), Ok(&point));
            assert_eq!(Point::read(&[&bytes[..], &[7, 8]].concat()), Ok((point, &[7, 8][..])));
        }
    }
}

#[test]
fn schedules() {
    let mut random = Random(3);
    for _ in 0..CASES {
        let schedule = random.schedule(9);
        let bytes = schedule.to_bytes().expect("one to four spans");
        assert_eq!(Schedule::try_from(&bytes[..]).as_ref(), Ok(&schedule));
        let falling = Schedule { spans: schedule.spans.iter().rev().cloned().collect(), ..schedule };
        assert_eq!(falling.to_bytes(), Ok(bytes));
    }
}

#[test]
fn peers_are_written_rising() {
    let bytes = Schedule::new(9).span(5, peers(255)).to_bytes().expect("255 peers");
    let written: Vec<[u8; 32]> = bytes[7..7 + 255 * 32].as_chunks().0.to_vec();
    assert!(written.is_sorted() && written[0] == [0; 32]);
}

#[test]
fn digests_are_written_after_all_peers() {
    let empty = Random(4).point(0);
    let digest = |peer: PeerId| Digest(peer.0.map(|byte| 255 - byte));
    let rising: BTreeSet<PeerId> = peers(3).collect();
    let digests = rising.iter().map(|peer| digest(*peer).0);
    let expected: Vec<[u8; 32]> = rising.iter().map(|peer| peer.0).chain(digests).collect();
    let includes = peers(3).fold(empty.clone(), |point, peer| point.include(peer, digest(peer)));
    let witness = peers(3).fold(empty, |point, peer| point.witness(peer, digest(peer)));
    for (point, place) in [(includes, 85), (witness, 88)] {
        let bytes = point.to_bytes().expect("3 peers");
        let columns: Vec<[u8; 32]> = bytes[place..place + 6 * 32].as_chunks().0.to_vec();
        assert_eq!(columns, expected);
    }
}

#[test]
fn maps_of_255_and_256_peers() {
    let empty = Random(5).point(0);
    let pairs = |count| peers(count).map(|peer| (peer, Digest([1; 32]))).collect::<BTreeMap<_, _>>();
    let set = |count| peers(count).collect::<BTreeSet<_>>();
    let of = |count| {
        [
            (PointMap::Includes, Point { includes: pairs(count), ..empty.clone() }),
            (PointMap::Witness, Point { witness: pairs(count), ..empty.clone() }),
            (PointMap::Evidence, Point { evidence: set(count), ..empty.clone() }),
        ]
    };
    for (_, point) in of(255) {
        let bytes = point.to_bytes().expect("255 peers");
        assert_eq!(Point::try_from(&bytes[..]), Ok(point));
    }
    for (map, point) in of(256) {
        assert_eq!(point.to_bytes(), Err(BuildError::Map { map, len: 256 }));
    }
    assert_eq!(Schedule::new(9).span(5, peers(256)).to_bytes(), Err(BuildError::Span { first_round: 5, len: 256 }));
}

#[test]
fn four_spans_and_five() {
    let spans = |count| Schedule { spans: (0..count).map(span).collect(), last_known_round: 9 };
    assert_eq!(spans(0).to_bytes(), Err(BuildError::Spans { len: 0 }));
    assert_eq!(spans(5).to_bytes(), Err(BuildError::Spans { len: 5 }));
    let four = spans(4).to_bytes().expect("four spans");
    assert_eq!(Schedule::try_from(&four[..]), Ok(spans(4)));
    let fifth = &spans(5).spans[4];
    let fifth = Schedule { spans: vec![fifth.clone()], last_known_round: 9 }.to_bytes().expect("one span");
    let five = [&four[..four.len() - 7], &fifth[..]].concat();
    let unreadable = Schedule::try_from(&five[..]).expect_err("a fifth span");
    assert_eq!(unreadable.at, four.len() - 7);
    let twice = Schedule::new(9).span(5, []).span(5, peers(1));
    assert_eq!(twice.to_bytes(), Err(BuildError::SpanTwice { first_round: 5 }));
}

fn span(first_round: u32) -> Span {
    Span { first_round, peers: peers(2).collect() }
}

#[test]
fn lists_of_65_535_and_65_536_entries() {
    let dropped = || Dependency::new(State::Dropped);
    let list = List { direct: vec![dropped(); 65_535], indirect: vec![] };
    assert_eq!(list.to_bytes().map(|bytes| bytes.len()), Ok(65_535 * 7));
    assert_eq!(list.direct(dropped()).to_bytes(), Err(BuildError::Entries { len: 65_536 }));
}
