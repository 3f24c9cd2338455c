//! The book: a genesis point is kept, offered again refused, and what is refused leaves every byte as it was.

use wutherdish::lent::{self, ANSWER, PEER_BUFFER};
use wutherdish::{Book, IllFormedReason, PointMap, Refusal, SETTINGS, UninitVset, Verdict};

use crate::point::{AUTHOR, Call, FILL, OTHER, ROUND, false_genesis, genesis, in_round, record, schedule};

/// An entry's bytes beside its record.
const BESIDE_RECORD: usize = 108;

impl Call {
    fn opened(&self, length: usize) -> Book<Vec<u8>> {
        Book::open(vec![FILL; length], &self.settings).expect("a slice of a good length")
    }

    fn offer<B: AsRef<[u8]> + AsMut<[u8]>>(&self, book: &mut Book<B>) -> Result<Verdict, Refusal> {
        book.offer(&self.schedule, 0, &self.record)
    }

    /// The number comes, and every lent byte is as it was.
    fn assert_not_kept(&mut self, book: &mut Book<Vec<u8>>, refusal: Refusal) {
        let mut bytes = book.bytes().to_vec();
        let Self { schedule, record, peers, answer, .. } = self;
        let before = peers.clone();
        assert_eq!(lent::offer(&mut bytes, schedule, 0, record, peers, answer), refusal.number());
        assert_eq!(bytes, book.bytes());
        assert_eq!(*peers, before);
        assert_eq!(*answer, [FILL; ANSWER]);
        if refusal != Refusal::Short {
            assert_eq!(self.offer(book), Err(refusal));
            assert_eq!(bytes, book.bytes());
        }
    }
}

#[test]
fn an_opened_book_is_settings_and_zeros() {
    let call = Call::new(&genesis());
    let book = call.opened(1_000);
    let (front, rest) = book.bytes().split_at(SETTINGS);
    assert_eq!(front, call.settings);
    assert_eq!(rest, [0; 1_000 - SETTINGS]);
}

#[test]
fn openings_are_refused() {
    let mut call = Call::new(&genesis());
    let mut slice = [FILL; SETTINGS - 1];
    assert_eq!(Book::open(&mut slice[..], &call.settings), Err(Refusal::Short));
    assert_eq!(Book::open(vec![FILL; 16_777_217], &call.settings), Err(Refusal::Short));
    call.settings.pop();
    assert_eq!(Book::open(&mut slice[..], &call.settings), Err(Refusal::Settings));
    assert_eq!(slice, [FILL; SETTINGS - 1]);
}

#[test]
fn the_genesis_point_is_kept_once() {
    let mut call = Call::new(&genesis());
    let mut book = call.opened(1_000);
    assert_eq!(call.offer(&mut book), Ok(Verdict::Valid));
    let (entry, rest) = book.bytes()[SETTINGS..].split_at(call.record.len() + BESIDE_RECORD);
    assert_eq!(entry, [&call.record[..], &[33, 105, 0], &[0; 105]].concat());
    assert!(rest.iter().all(|byte| *byte == 0));
    call.assert_not_kept(&mut book, Refusal::Kept);
}

#[test]
fn an_exact_fit_is_kept() {
    let mut call = Call::new(&genesis());
    let length = SETTINGS + call.record.len() + BESIDE_RECORD;
    let mut short = call.opened(length - 1);
    call.assert_not_kept(&mut short, Refusal::Full);
    assert_eq!(call.offer(&mut call.opened(length)), Ok(Verdict::Valid));
}

#[test]
fn a_book_in_a_lent_slice_is_found_again() {
    let call = Call::new(&genesis());
    let mut slice = [FILL; 1_000];
    let mut book = Book::open(&mut slice[..], &call.settings).expect("a slice of a good length");
    assert_eq!(call.offer(&mut book), Ok(Verdict::Valid));
    assert_eq!(call.offer(&mut Book::found(&mut slice[..])), Err(Refusal::Kept));
    slice[999] = 1;
    assert_eq!(call.offer(&mut Book::found(&mut slice[..])), Err(Refusal::Book));
}

#[test]
fn fail_keeps_nothing_and_ill_formed_is_kept() {
    let mut call = Call::new(&genesis());
    call.schedule = schedule(&[AUTHOR, OTHER]);
    let mut book = call.opened(1_000);
    let before = book.clone();
    let vset = UninitVset { len: 2, round: ROUND, map: PointMap::Evidence };
    assert_eq!(call.offer(&mut book), Ok(Verdict::Fail(vset)));
    assert_eq!(book, before);
    let call = Call::new(&false_genesis());
    assert_eq!(call.offer(&mut book), Ok(Verdict::IllFormed(IllFormedReason::FalseGenesis)));
    let tail = SETTINGS + call.record.len() + 3;
    assert_eq!(book.bytes()[tail..tail + 3], [3, 0, 5]);
}

#[test]
fn numbers_come_in_their_order() {
    let mut call = Call::new(&in_round(3));
    let mut book = call.opened(SETTINGS);
    call.schedule.push(0);
    call.record.push(0);
    call.peers.truncate(PEER_BUFFER - 1);
    let mut damaged = Book::found(vec![FILL; SETTINGS]);
    call.assert_not_kept(&mut damaged, Refusal::Book);
    call.assert_not_kept(&mut book, Refusal::Schedule);
    call.schedule.pop();
    call.assert_not_kept(&mut book, Refusal::Record);
    call.record.pop();
    call.assert_not_kept(&mut book, Refusal::Domain);
    call.record = record(&genesis());
    call.assert_not_kept(&mut book, Refusal::Short);
    call.peers.push(FILL);
    call.assert_not_kept(&mut book, Refusal::Full);
}
