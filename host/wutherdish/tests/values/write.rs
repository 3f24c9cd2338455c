//! Points that are written from their parts: the library's record is the plain one, whatever the order of the rows.

use wutherdish::{Point, PointId, Refusal};

use crate::network::{first, record, second};
use crate::parts::{FILL, LONGEST, Parts, plain};
use crate::random::Random;

/// Parts with one fault each, of good ones.
type Make = fn(&Parts) -> Vec<Parts>;

/// A point inside the domain.
fn inside(random: &mut Random, most: usize) -> Point {
    let mut point = random.point(most);
    point.id.round = 4 + point.id.round % ((1 << 31) - 4);
    Point { time: point.time >> 1, anchor_time: point.anchor_time >> 1, ..point }
}

/// Puts the peers of a map in another order, and their digests, where it has digests, in the same.
fn shuffle(random: &mut Random, rows: &mut [[u8; 32]], has_digests: bool) {
    let count = if has_digests { rows.len() / 2 } else { rows.len() };
    for place in (1..count).rev() {
        let other = random.below(place + 1);
        rows.swap(place, other);
        if has_digests {
            rows.swap(count + place, count + other);
        }
    }
}

#[test]
fn a_point_is_written_as_document_01_lays_it_down() {
    let mut random = Random(31);
    for most in [0, 1, 2, 5, 255] {
        for _ in 0..60 {
            let point = inside(&mut random, most);
            let bytes = plain(&point);
            assert_eq!(Parts::of(&point).record(), bytes);
            assert_eq!(point.to_bytes().as_ref(), Ok(&bytes));
            assert_eq!(Point::try_from(&bytes[..]), Ok(point));
        }
    }
}

/// The call refuses these, and the crate writes them all the same.
#[test]
fn any_round_and_time_is_written() {
    let mut random = Random(32);
    let point = second(&[&first(0), &first(1), &first(3)]);
    let numbers = [0, 1, 3, 1 << 31, u32::MAX];
    let rounds = numbers.map(|round| Point { id: PointId { round, ..point.id }, ..point.clone() });
    let times = [1 << 63, u64::MAX].map(|time| Point { time, ..point.clone() });
    let anchor_times = [1 << 63, u64::MAX].map(|anchor_time| Point { anchor_time, ..point.clone() });
    let random = (0..200).map(|_| random.point(3));
    let (mut refused, mut all) = (0, 0);
    for point in rounds.into_iter().chain(times).chain(anchor_times).chain(random) {
        let parts = Parts::of(&point);
        let (mut out, mut written) = (vec![FILL; LONGEST], 7);
        refused += usize::from(parts.write(&mut out, &mut written) == 4);
        all += 1;
        assert_eq!(record(&point), plain(&point));
    }
    assert!(refused > all / 2 && refused < all, "{refused} of {all}");
}

#[test]
fn rows_may_come_in_any_order() {
    let mut random = Random(33);
    for most in [2, 3, 9, 255] {
        for _ in 0..40 {
            let point = inside(&mut random, most);
            let mut parts = Parts::of(&point);
            shuffle(&mut random, &mut parts.includes, true);
            shuffle(&mut random, &mut parts.witness, true);
            shuffle(&mut random, &mut parts.evidence, false);
            assert_eq!(parts.record(), plain(&point));
        }
    }
}

#[test]
fn what_is_not_read_changes_nothing() {
    let mut random = Random(34);
    for _ in 0..200 {
        let point = inside(&mut random, 2);
        let mut parts = Parts::of(&point);
        for link in parts.links.iter_mut().filter(|link| link[0] == 0) {
            link[34..].fill_with(|| random.byte());
        }
        if parts.role[0] != 1 {
            parts.role[1..].fill_with(|| random.byte());
        }
        assert_eq!(parts.record(), plain(&point));
    }
}

#[test]
fn the_output_is_as_long_as_the_record_or_longer() {
    let point = second(&[&first(0), &first(1), &first(3)]);
    let (parts, bytes) = (Parts::of(&point), plain(&point));
    for more in [0, 1, 77] {
        let (mut out, mut written) = (vec![FILL; bytes.len() + more], 7);
        assert_eq!((parts.write(&mut out, &mut written), written as usize), (0, bytes.len()));
        assert_eq!(out, [&bytes[..], &vec![FILL; more]].concat());
    }
    for length in [0, 1, bytes.len() - 1] {
        parts.assert_number(14, length);
    }
}

/// Maps that are no maps.
fn unreadable(parts: &Parts) -> Vec<Parts> {
    let cut = |map: usize, bytes: isize| {
        let mut parts = parts.clone();
        parts.cut[map] = bytes;
        parts
    };
    let cuts = [(0, -1), (0, 32), (0, 1), (1, -1), (1, 32), (1, 1), (2, -1), (2, 1)];
    let mut unreadable: Vec<Parts> = cuts.into_iter().map(|(map, bytes)| cut(map, bytes)).collect();
    let rows = |count: u16| (0..count).map(|n| std::array::from_fn(|place| n.to_be_bytes()[place % 2])).collect();
    unreadable.extend([
        Parts { includes: rows(512), ..parts.clone() },
        Parts { witness: rows(512), ..parts.clone() },
        Parts { evidence: rows(256), ..parts.clone() },
    ]);
    unreadable
}

/// Parts outside the domain.
fn outside(parts: &Parts) -> Vec<Parts> {
    let changed = |change: &dyn Fn(&mut Parts)| {
        let mut parts = parts.clone();
        change(&mut parts);
        parts
    };
    let round = |round: u32| changed(&|parts| parts.id[..4].copy_from_slice(&round.to_le_bytes()));
    let mut outside = [0, 3, 1 << 31, u32::MAX].map(round).to_vec();
    for which in 0..2 {
        outside.extend([1 << 63, u64::MAX].map(|time| changed(&|parts| parts.times[which] = time)));
        outside.extend([2, 255].map(|byte| changed(&|parts| parts.links[which][0] = byte)));
        outside.extend([2, 255].map(|byte| changed(&|parts| parts.links[which][1] = byte)));
    }
    outside.extend([[4, 0, 0], [255, 0, 0], [1, 0, 2], [1, 9, 255]].map(|role| changed(&|parts| parts.role = role)));
    outside
}

/// A peer twice in a map, next to each other or not, with equal digests or not.
fn twice(parts: &Parts) -> Vec<Parts> {
    let of = |rows: &[[u8; 32]], has_digests: bool, digest: [u8; 32]| {
        let (peers, digests) = rows.split_at(if has_digests { rows.len() / 2 } else { rows.len() });
        let more = if has_digests { vec![digest] } else { vec![] };
        [peers, &peers[..1], digests, &more].concat()
    };
    let mut twice = Vec::new();
    for digest in [parts.includes[parts.includes.len() / 2], [0x77; 32]] {
        twice.push(Parts { includes: of(&parts.includes, true, digest), ..parts.clone() });
        twice.push(Parts { witness: of(&parts.witness, true, digest), ..parts.clone() });
    }
    twice.push(Parts { evidence: of(&parts.evidence, false, [0; 32]), ..parts.clone() });
    twice
}

#[test]
fn each_number_over_the_whole_input_before_the_next() {
    let parts = Parts::of(&second(&[&first(0), &first(1), &first(3)]));
    let makers: [(u8, Make); 3] = [(3, unreadable), (4, outside), (13, twice)];
    for (place, (number, make)) in makers.iter().enumerate() {
        for bad in make(&parts) {
            [0, LONGEST].into_iter().for_each(|length| bad.assert_number(*number, length));
            // with a fault of each later number besides
            for (_, later) in &makers[place + 1..] {
                later(&parts).iter().for_each(|other| bad.with(other, &parts).assert_number(*number, 0));
            }
        }
    }
    assert_eq!(Refusal::new(13), Refusal::Twice);
}
