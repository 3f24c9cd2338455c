//! The cases of oracle/stored/answers.bin, laid out as its README says: what the Rust answered.

use wutherdish::lent::{self, ANSWER};
use wutherdish::{Point, Schedule, Settings, Verdict, Verified, VerifyError};

/// From the crate's folder, where cargo runs its tests.
const STORED: &str = "../../oracle/stored/answers.bin";
const FILL: u8 = 0xA5;
const VERIFY: u8 = 1;
const JUDGE: u8 = 2;

/// The bytes that are left to read.
struct Rest<'a>(&'a [u8]);

impl<'a> Rest<'a> {
    fn take(&mut self, count: usize) -> &'a [u8] {
        let (head, rest) = self.0.split_at(count);
        self.0 = rest;
        head
    }

    fn blob(&mut self) -> &'a [u8] {
        let length = number(self.take(4));
        self.take(length)
    }

    /// The kind of the next case, and its blobs.
    fn case(&mut self) -> (u8, Vec<&'a [u8]>) {
        let head = self.take(2);
        (head[0], (0..head[1]).map(|_| self.blob()).collect())
    }
}

fn number(bytes: &[u8]) -> usize {
    u32::from_le_bytes(bytes.try_into().expect("a number has 4 bytes")) as usize
}

/// Number or 0, the 114 bytes, and the unknown peers.
fn stored_answer(blob: &[u8]) -> (u8, [u8; ANSWER], &[u8]) {
    let mut answer = [FILL; ANSWER];
    if blob[0] == 0 {
        answer[..113].copy_from_slice(&blob[1..114]);
        answer[113] = blob[154];
    }
    (blob[0], answer, &blob[155..])
}

fn check_verify(blobs: &[&[u8]]) {
    let [settings, schedule, record, buffer, stored] = blobs[..] else { panic!("a verify case has five blobs") };
    let mut peers = vec![FILL; number(buffer)];
    let mut answer = [FILL; ANSWER];
    let given = lent::verify(settings, schedule, record, &mut peers, &mut answer);
    check_bytes(stored, given, &answer, &peers);
    check_readers(given, settings, schedule, record);
    if given == 0 {
        let kind_and_reason = match Verified::read(&answer, &peers).expect("an answer") {
            Verified::Passed => (5, 0),
            Verified::Failed(VerifyError::Fail(_)) => (4, 0),
            Verified::Failed(VerifyError::IllFormed(reason)) => (3, reason.number()),
        };
        assert_eq!(kind_and_reason, (answer[0], answer[1]));
    }
}

fn check_judge(blobs: &[&[u8]]) {
    let [settings, schedule, record, &[leader, presence], list, buffer, stored] = blobs[..] else {
        panic!("a judge case has seven blobs")
    };
    let mut peers = vec![FILL; number(buffer)];
    let mut answer = [FILL; ANSWER];
    let given = lent::judge(settings, schedule, record, leader, presence, list, &mut peers, &mut answer);
    check_bytes(stored, given, &answer, &peers);
    check_readers(given, settings, schedule, record);
    if given == 0 {
        let verdict = Verdict::read(&answer, &peers).expect("an answer");
        let kind = match verdict {
            Verdict::Valid => 0,
            Verdict::TransInvalid(_) => 1,
            Verdict::Invalid(_) => 2,
            Verdict::IllFormed(_) => 3,
            Verdict::Fail(_) => 4,
        };
        assert_eq!((kind, verdict.reason_number()), (answer[0], answer[1]));
    }
}

/// The crate's readers say the same of what can be read; the numbers are tested in their order.
fn check_readers(given: u8, settings: &[u8], schedule: &[u8], record: &[u8]) {
    if given != 1 {
        assert!(Settings::try_from(settings).is_ok());
        assert_eq!(Schedule::try_from(schedule).is_err(), given == 2);
    }
    if given != 1 && given != 2 {
        let read = Point::try_from(record);
        assert_eq!(read.is_err(), given == 3);
        if let Ok(point) = read {
            assert_eq!(point.to_bytes().as_deref(), Ok(record));
        }
    }
}

/// Number, answer and every byte of the peer buffer are as stored.
fn check_bytes(stored: &[u8], given: u8, answer: &[u8; ANSWER], peers: &[u8]) {
    let (number, expected, unknown) = stored_answer(stored);
    assert_eq!(given, number);
    assert_eq!(*answer, expected);
    assert_eq!(peers[..unknown.len()], *unknown);
    assert!(peers[unknown.len()..].iter().all(|byte| *byte == FILL));
}

/// Runs the cases of one kind.
fn answers_as_the_rust_did(kind: u8, check: fn(&[&[u8]])) {
    let bytes = std::fs::read(STORED).expect("the stored list is in oracle/stored");
    let mut rest = Rest(&bytes);
    let mut checked = 0;
    while !rest.0.is_empty() {
        let (other, blobs) = rest.case();
        if other == kind {
            check(&blobs);
            checked += 1;
        }
    }
    assert!(checked > 100, "only {checked} cases were checked");
}

#[test]
fn verifying() {
    answers_as_the_rust_did(VERIFY, check_verify);
}

#[test]
fn judging() {
    answers_as_the_rust_did(JUDGE, check_judge);
}
