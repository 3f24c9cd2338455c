//! Damaged bytes: the readers say where, never panic, and agree with the library on what can be read.

use wutherdish::lent::{self, ANSWER, PEER_BUFFER};
use wutherdish::{Point, Schedule, Settings};

use crate::network::{first, genesis, record, schedule, second, settings};
use crate::random::{Random, starts};

const CASES: usize = 6_000;

/// The number that verifying gives.
fn verify(settings: &[u8], schedule: &[u8], record: &[u8]) -> u8 {
    lent::verify(settings, schedule, record, &mut [0; PEER_BUFFER], &mut [0; ANSWER])
}

/// The number that judging gives.
fn judge(settings: &[u8], schedule: &[u8], record: &[u8]) -> u8 {
    lent::judge(settings, schedule, record, 0, 3, &[], &mut [0; PEER_BUFFER], &mut [0; ANSWER])
}

/// Runs damages of good bytes; `check` says whether they are readable all the same. Both must come often.
fn damages(seed: u64, mut good: impl FnMut(&mut Random) -> Vec<u8>, check: impl Fn(&[u8]) -> bool) {
    let mut random = Random(seed);
    let mut readable = 0;
    for _ in 0..CASES {
        let good = good(&mut random);
        readable += usize::from(check(&random.damaged(&good)));
    }
    assert!((CASES / 20..CASES - CASES / 20).contains(&readable), "{readable} of {CASES} were readable");
}

#[test]
fn records() {
    let points = [genesis(), first(0), second(&[&first(0), &first(1), &first(3)])];
    let (settings, schedule) = (settings().to_bytes(), schedule());
    let check = |bytes: &[u8]| {
        let read = Point::try_from(bytes);
        assert_eq!(verify(&settings, &schedule, bytes) == 3, read.is_err());
        assert_eq!(judge(&settings, &schedule, bytes) == 3, read.is_err());
        if let Ok(point) = &read {
            assert_eq!(record(point), bytes);
        }
        read.is_ok()
    };
    damages(11, |random| record(&points[random.below(3)]), check);
    damages(12, |random| record(&random.point(3)), check);
}

#[test]
fn schedules() {
    let (settings, record) = (settings().to_bytes(), record(&first(0)));
    let check = |bytes: &[u8]| {
        let read = Schedule::try_from(bytes);
        assert_eq!(verify(&settings, bytes, &record) == 2, read.is_err());
        assert_eq!(judge(&settings, bytes, &record) == 2, read.is_err());
        if let Ok(schedule) = &read {
            assert_eq!(schedule.to_bytes().as_deref(), Ok(bytes));
        }
        read.is_ok()
    };
    damages(13, |_| schedule(), check);
    damages(14, |random| random.schedule(2).to_bytes().expect("one to four spans"), check);
}

/// Document 01's limits of settings.
fn within_limits(settings: &Settings) -> bool {
    (4..1 << 31).contains(&settings.genesis_round)
        && settings.payload_batch_bytes > 0
        && settings.clock_skew_millis > 0
        && settings.commit_history_rounds > 0
}

#[test]
fn settings_and_their_limits() {
    let (schedule, record) = (schedule(), record(&first(0)));
    let check = |bytes: &[u8]| {
        let read = Settings::try_from(bytes).ok();
        assert_eq!(verify(bytes, &schedule, &record) != 1, read.as_ref().is_some_and(within_limits));
        if let Some(settings) = &read {
            assert_eq!(settings.to_bytes(), bytes);
        }
        read.is_some()
    };
    damages(15, |_| settings().to_bytes().to_vec(), check);
}

#[test]
fn a_faults_place_is_its_field() {
    let mut random = Random(16);
    let mut unreadable = 0;
    for _ in 0..CASES {
        let mut bytes = record(&random.point(3));
        let starts = starts(&bytes);
        assert_eq!((starts.len(), starts[9]), (10, bytes.len()));
        let place = random.below(bytes.len());
        let field = starts[starts.partition_point(|start| *start <= place) - 1];
        bytes[place] = random.below(5) as u8;
        if let Err(fault) = Point::try_from(&bytes[..]) {
            let in_length = (1..3).contains(&(place - field));
            assert!(fault.at == field || in_length && fault.at > field, "byte {place} of field {field}: {fault}");
            unreadable += 1;
        }
        bytes.truncate(place);
        let fault = Point::try_from(&bytes[..]).expect_err("a record that is cut off");
        assert!(fault.at <= place);
    }
    assert!(unreadable > CASES / 20, "{unreadable} of {CASES} were unreadable");
}

/// A field of n peers, rising, after a front, and then of n digests of this length.
fn rows(tag: u8, front: &[u8], count: u16, digest: usize) -> Vec<u8> {
    let length = (front.len() + usize::from(count) * (32 + digest)) as u16;
    let mut bytes = [&[tag], &length.to_le_bytes()[..], front].concat();
    for number in 0..count {
        bytes.extend(number.to_be_bytes());
        bytes.extend([0; 30]);
    }
    bytes.extend(vec![0; usize::from(count) * digest]);
    bytes
}

#[test]
fn rows_up_to_255() {
    let good = record(&genesis());
    let starts = starts(&good);
    let (settings, schedule) = (settings().to_bytes(), schedule());
    for (place, tag, digest) in [(2, 3, 32), (3, 4, 32), (4, 5, 0)] {
        for count in [254, 255, 256, 257] {
            let parts = [&good[..starts[place]], &rows(tag, &[], count, digest), &good[starts[place + 1]..]];
            let bytes = parts.concat();
            assert_eq!(Point::try_from(&bytes[..]).is_ok(), count <= 255);
            assert_eq!(verify(&settings, &schedule, &bytes) == 3, count > 255);
        }
    }
    for count in [255, 256] {
        let bytes = [rows(34, &[11, 0, 0, 0], count, 0), vec![35, 4, 0, 99, 0, 0, 0]].concat();
        assert_eq!(Schedule::try_from(&bytes[..]).is_ok(), count <= 255);
        assert_eq!(verify(&settings, &bytes, &good) == 2, count > 255);
    }
}

#[test]
fn any_bytes_at_all() {
    let mut random = Random(17);
    for _ in 0..CASES {
        let length = random.below(200);
        let bytes: Vec<u8> = (0..length).map(|_| random.below(40) as u8).collect();
        assert_eq!(verify(&settings().to_bytes(), &schedule(), &bytes) == 3, Point::try_from(&bytes[..]).is_err());
        assert_eq!(verify(&settings().to_bytes(), &bytes, &[]) == 2, Schedule::try_from(&bytes[..]).is_err());
    }
}
