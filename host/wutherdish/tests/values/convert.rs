//! Records in the arrangement before format 2: the library moves what the tests move, and both read as the same point.

use wutherdish::lent;
use wutherdish::{Point, Refusal, Unreadable, columns_to_pairs, pairs_to_columns};

use crate::network::{first, genesis, record, second};
use crate::random::{Random, starts};

const CASES: usize = 6_000;
const FILL: u8 = 0xA5;

type Convert = fn(&[u8]) -> Result<Vec<u8>, Refusal>;
type Lent = fn(&[u8], &mut [u8], &mut u32) -> u8;
type Read = for<'a> fn(&'a [u8]) -> Result<(Point, &'a [u8]), Unreadable>;

/// A call each way, as it is safe and as it is lent, with the reader of what it takes.
const WAYS: [(Convert, Lent, Read); 2] = [
    (pairs_to_columns, lent::pairs_to_columns, |bytes| Point::read_pairs(bytes)),
    (columns_to_pairs, lent::columns_to_pairs, |bytes| Point::read(bytes)),
];

/// A record whose bytes of includes and witness are moved, row by row of 32 bytes: the one at a place comes from another.
fn moved(record: &[u8], from: fn(place: usize, rows: usize) -> usize) -> Vec<u8> {
    let (mut bytes, starts) = (record.to_vec(), starts(record));
    for field in [2, 3] {
        let content = starts[field] + 3..starts[field + 1];
        let (rows, _) = record[content.clone()].as_chunks::<32>();
        let moved: Vec<[u8; 32]> = (0..rows.len()).map(|place| rows[from(place, rows.len())]).collect();
        bytes[content].copy_from_slice(moved.as_flattened());
    }
    bytes
}

/// The record with pairs of peer and digest, from one with columns.
fn as_pairs(record: &[u8]) -> Vec<u8> {
    moved(record, |place, rows| place / 2 + place % 2 * (rows / 2))
}

#[test]
fn a_record_is_moved_both_ways_and_says_the_same() {
    let mut random = Random(21);
    let mut different = 0;
    for most in [0, 1, 2, 5, 255] {
        for _ in 0..60 {
            let point = random.point(most);
            let columns = record(&point);
            let pairs = as_pairs(&columns);
            assert_eq!(pairs_to_columns(&pairs).as_deref(), Ok(&columns[..]));
            assert_eq!(columns_to_pairs(&columns).as_deref(), Ok(&pairs[..]));
            assert_eq!(Point::read_pairs(&pairs), Ok((point, &[][..])));
            different += usize::from(pairs != columns);
            assert!(most > 1 || pairs == columns);
        }
    }
    assert!(different > 100, "{different}");
}

#[test]
fn any_round_and_time_is_converted() {
    let point = second(&[&first(0), &first(1), &first(3)]);
    for round in [0, 3, 1 << 31, u32::MAX] {
        let mut point = Point { time: u64::MAX, anchor_time: 1 << 63, ..point.clone() };
        point.id.round = round;
        let columns = record(&point);
        assert_eq!(pairs_to_columns(&as_pairs(&columns)), Ok(columns));
    }
}

#[test]
fn the_output_is_as_long_as_the_record_or_longer() {
    let columns = record(&second(&[&first(0), &first(1), &first(3)]));
    let pairs = as_pairs(&columns);
    assert_ne!(pairs, columns);
    for ((_, call, _), record, converted) in [(WAYS[0], &pairs, &columns), (WAYS[1], &columns, &pairs)] {
        for more in [0, 1, 77] {
            let (mut out, mut written) = (vec![FILL; record.len() + more], 7);
            assert_eq!((call(record, &mut out, &mut written), written as usize), (0, record.len()));
            assert_eq!(out, [&converted[..], &vec![FILL; more]].concat());
        }
        for length in [0, 1, record.len() - 1] {
            let (mut out, mut written) = (vec![FILL; length], 7);
            assert_eq!((call(record, &mut out, &mut written), written), (14, 7));
            assert_eq!(out, vec![FILL; length]);
            // 3 comes before 14
            assert_eq!((call(&record[1..], &mut out, &mut written), written), (3, 7));
            assert_eq!(out, vec![FILL; length]);
        }
    }
    assert_eq!(Refusal::new(14), Refusal::Output);
}

/// The calls convert exactly what the readers read; with a number nothing that was lent changes.
fn assert_read_alike((convert, call, read): (Convert, Lent, Read), bytes: &[u8]) -> bool {
    let is_read = read(bytes).is_ok_and(|(_, rest)| rest.is_empty());
    let (mut out, mut written) = (vec![FILL; bytes.len()], 7);
    let number = call(bytes, &mut out, &mut written);
    assert_eq!(number, if is_read { 0 } else { 3 }, "{bytes:?}");
    assert_eq!(convert(bytes), if is_read { Ok(out.clone()) } else { Err(Refusal::Record) });
    assert!(is_read || out.iter().all(|byte| *byte == FILL) && written == 7);
    is_read
}

#[test]
fn what_cannot_be_read_is_refused() {
    let points = [genesis(), first(0), second(&[&first(0), &first(1), &first(3)])];
    for (seed, way) in WAYS.into_iter().enumerate() {
        let mut random = Random(22 + seed as u64);
        let mut readable = 0;
        for _ in 0..CASES {
            let columns = if random.flag() { record(&random.point(3)) } else { record(&points[random.below(3)]) };
            let good = if seed == 0 { as_pairs(&columns) } else { columns };
            readable += usize::from(assert_read_alike(way, &random.damaged(&good)));
        }
        assert!((CASES / 20..CASES - CASES / 20).contains(&readable), "{readable} of {CASES} were readable");
        assert!(!assert_read_alike(way, &[]));
    }
}

#[test]
fn the_other_arrangement_is_mostly_refused() {
    let mut random = Random(24);
    let mut refused = [0; 2];
    for _ in 0..200 {
        let columns = record(&random.point(9));
        let pairs = as_pairs(&columns);
        for (way, bytes) in [&columns, &pairs].into_iter().enumerate() {
            refused[way] += usize::from(!assert_read_alike(WAYS[way], bytes));
        }
    }
    assert!(refused.iter().all(|count| (100..200).contains(count)), "{refused:?}");
}
