//! Points that are handed over in parts: the writer beside the library gives what was put into them.

use std::collections::BTreeMap;

use cases::drafts::{Drafted, drafted};
use oracle::draft::Draft;
use oracle::{read, write};

const PLACES: u64 = 20_000;

#[test]
fn a_draft_is_composed_to_its_points_record() {
    let mut counts: BTreeMap<u8, u64> = BTreeMap::new();
    for place in 0..PLACES {
        let Drafted { draft, room, expected, .. } = drafted(5, place);
        let record = expected.as_ref().map(write::record);
        assert_eq!(draft.composed(room), record.map_err(|number| *number), "place {place}");
        if let Ok(point) = &expected {
            let record = write::record(point);
            assert_eq!(Draft::of_record(&record), Some(Draft::of(point)), "place {place}");
            assert_eq!(read::record(&record).as_ref(), Some(point), "place {place}");
        }
        *counts.entry(expected.err().unwrap_or(0)).or_default() += 1;
    }
    assert!(counts.len() == 5 && counts.values().all(|count| *count > 500), "{counts:?}");
}

#[test]
fn a_draft_is_as_its_blobs() {
    for place in 0..PLACES / 10 {
        let Drafted { draft, .. } = drafted(5, place);
        let blobs = draft.blobs();
        assert_eq!(Draft::of_blobs(blobs.each_ref().map(Vec::as_slice)), Some(draft), "place {place}");
    }
}
