//! Moving a record's bytes and converting what it means give the same, there and back.

use cases::random::Random;
use oracle::arrangement::Arrangement::{self, Columns, Pairs};
use oracle::arrangement::{converted, move_feed, move_maps};
use oracle::file::Case;
use oracle::{read, write};

const PLACES: u64 = 4_000;

fn moved(bytes: &[u8], to: Arrangement) -> Vec<u8> {
    let mut bytes = bytes.to_vec();
    move_maps(&mut bytes, to);
    bytes
}

/// A converted record is the moved one, with the same point; there is none where the record can't be read, and then the moved
/// one can't be read either.
#[test]
fn records_are_converted_by_moving() {
    let (mut refused, mut changed) = (0, 0);
    for place in 0..PLACES {
        let Case::Judge { mut record, .. } = cases::case(6, place) else { continue };
        for damage in [false, true] {
            let random = &mut Random::new(7, place);
            let at = random.below(record.len());
            record[at] ^= if damage { 1 << random.below(8) } else { 0 };
            let pairs = moved(&record, Pairs);
            assert_eq!(moved(&pairs, Columns), record, "place {place}: not there and back");
            let point = read::record(&record);
            assert_eq!(read::record_in(Pairs, &pairs), point, "place {place}");
            assert_eq!(
                converted(&record, Columns, record.len()).ok(),
                point.as_ref().map(|_| pairs.clone()),
                "place {place}"
            );
            assert_eq!(
                converted(&pairs, Pairs, record.len()).ok(),
                point.as_ref().map(|_| record.clone()),
                "place {place}"
            );
            refused += usize::from(point.is_none());
            changed += usize::from(point.is_some() && pairs != record);
        }
    }
    assert!(refused > 200 && changed > 2_000, "{refused} refused, {changed} converted to other bytes");
}

/// A list's records, and a feed's, are each moved.
#[test]
fn the_records_of_lists_and_feeds_are_moved() {
    let mut records = 0;
    for place in 0..PLACES {
        let Case::Judge { settings, schedule, record, list, .. } = cases::case(6, place) else { continue };
        let Some(entries) = read::list(&list) else { continue };
        let pairs = moved(&list, Pairs);
        assert_eq!(moved(&pairs, Columns), list, "place {place}");
        let mut rest = &pairs[..];
        for point in entries.iter().filter_map(|entry| entry.state.point()) {
            let expected = write::record_in(Pairs, point);
            let start = rest.windows(expected.len()).position(|part| part == expected);
            rest = &rest[start.expect("each record stands in the moved list, in order") + expected.len()..];
            records += 1;
        }
        let whole = read::settings(&settings).is_some() && read::schedule(&schedule).is_some();
        if whole && let Some(point) = read::record(&record) {
            let head = [settings, schedule].concat();
            let of = |record: Vec<u8>| [&head[..], &[0], &record, &[3], &record].concat();
            let (mut feed, expected) = (of(record), of(write::record_in(Pairs, &point)));
            move_feed(&mut feed, Pairs);
            assert_eq!(feed, expected, "place {place}");
        }
    }
    assert!(records > 10_000, "only {records} records were read");
}
