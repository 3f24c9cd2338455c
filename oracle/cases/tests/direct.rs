//! The direct reader takes what the reader for comparing takes, and gives the same.

use cases::random::Random;
use oracle::direct;
use oracle::file::Case;
use oracle::steps::{PointInfo, read_record};

const PLACES: u64 = 4_000;

/// Both make their maps row by row under one hasher, so that equal points are shown alike.
fn shown(info: Option<PointInfo>) -> String {
    format!("{info:?}")
}

#[test]
fn both_readers_give_the_same() {
    let mut refused = 0;
    for place in 0..PLACES {
        let Case::Judge { mut record, .. } = cases::case(4, place) else { continue };
        assert_eq!(shown(direct::record(&record)), shown(read_record(&record)), "place {place}");
        let random = &mut Random::new(5, place);
        let changed = random.below(record.len());
        record[changed] ^= 1 << random.below(8);
        assert_eq!(shown(direct::record(&record)), shown(read_record(&record)), "place {place}, byte {changed}");
        refused += usize::from(direct::record(&record).is_none());
    }
    assert!(refused > 200, "only {refused} changed records were refused");
}

#[test]
fn the_records_of_a_list_are_its_points() {
    let mut records = 0;
    for place in 0..PLACES {
        let Case::Judge { list, .. } = cases::case(4, place) else { continue };
        let Some(entries) = oracle::read::list(&list) else { continue };
        let points: Vec<_> = entries.iter().filter_map(|entry| entry.state.point()).collect();
        let expected: Vec<_> = points.iter().map(|point| shown(read_record(&oracle::write::record(point)))).collect();
        let found = direct::records(&list).expect("what one reader takes the other takes");
        assert_eq!(found.into_iter().map(|info| shown(Some(info))).collect::<Vec<_>>(), expected, "place {place}");
        records += points.len();
    }
    assert!(records > 10_000, "only {records} records were read");
}
