//! The writer gives back the bytes of everything that the reader takes.

use oracle::file::Case;
use oracle::{read, write};

#[test]
fn what_is_read_is_written_back() {
    let mut lists = 0;
    for place in 0..4_000 {
        let Case::Judge { settings, schedule, record, list, .. } = cases::case(3, place) else { continue };
        if let Some(value) = read::settings(&settings) {
            assert_eq!(write::settings(&value), settings);
        }
        if let Some(value) = read::schedule(&schedule) {
            assert_eq!(write::schedule(&value), schedule);
        }
        if let Some(value) = read::record(&record) {
            assert_eq!(write::record(&value), record);
        }
        if let Some(value) = read::list(&list) {
            assert_eq!(write::list(&value), list);
            lists += usize::from(!value.is_empty());
        }
    }
    assert!(lists > 2_000, "only {lists} lists were read");
}
