//! A book's entries read back are what was offered.

use wutherdish::{
    AnchorStageRole, Book, Digest, IllFormedReason, IndirectLink, InvalidDependency, InvalidReason, Kept, Point,
    PointId, PointRole, Refusal, Status, StructureIssue, Through, Verdict,
};

use crate::network::{FOUNDER, GENESIS, PEERS, first, genesis, record, schedule, second, settings};
use crate::random::{Random, starts};

/// A point that nobody has.
const LOST: PointId = PointId { round: GENESIS, digest: Digest([77; 32]), author: FOUNDER };

/// Points of every verdict that is kept, each with its verdict.
fn offers() -> Vec<(Point, Verdict)> {
    let invalid = first(1).include(FOUNDER, LOST.digest);
    let ill_formed = Point { time: 1_000, ..first(2) };
    let trans_invalid = second(&[&first(0), &invalid, &first(3)]);
    let link = IndirectLink { to: invalid.id, through: Through::Includes(PEERS[1]) };
    vec![
        (genesis(), Verdict::Valid),
        (first(0), Verdict::Valid),
        (invalid, Verdict::Invalid(InvalidReason::DepNotFound { id: LOST })),
        (ill_formed, Verdict::IllFormed(IllFormedReason::Structure(StructureIssue::AnchorTime))),
        (first(3), Verdict::Valid),
        (trans_invalid, Verdict::TransInvalid(InvalidDependency { link, reason: 19 })),
    ]
}

fn filled() -> Book<Vec<u8>> {
    let mut book = Book::open(vec![0; 8_000], &settings().to_bytes()).expect("a slice of a good length");
    for (point, verdict) in offers() {
        assert_eq!(book.offer(&schedule(), 0, &record(&point)), Ok(verdict));
    }
    book
}

#[test]
fn entries_are_what_was_offered() {
    let book = filled();
    let offered = offers().into_iter().map(|(point, verdict)| {
        let status = Status::of(&verdict).expect("a verdict that is kept");
        assert_eq!((status.letter(), status.reason_number()), (verdict.letter(), verdict.reason_number()));
        // the last one's previous point, and what that one includes
        let certified = point == first(0) || point == genesis();
        Kept { point, status, certified }
    });
    assert_eq!(book.kept(), Ok(offered.collect()));
    assert_eq!(book.settings(), Ok(settings()));
}

#[test]
fn what_does_not_read_is_no_book() {
    let good = filled().into_bytes();
    let end = good.iter().rposition(|byte| *byte != 0).expect("a filled book") + 1;
    let offer = |bytes: &[u8]| Book::found(bytes.to_vec()).offer(&schedule(), 0, &record(&first(2)));
    let mut random = Random(6);
    let mut unreadable = 0;
    for _ in 0..4_000 {
        let mut bytes = random.damaged(&good[..end]);
        bytes.resize(bytes.len() + 2_000, 0);
        let refusal = offer(&bytes).err();
        let read = Book::found(bytes).kept();
        unreadable += usize::from(read.is_err());
        assert!(read.is_ok() || refusal == Some(Refusal::Book));
    }
    assert!((1_000..3_500).contains(&unreadable), "{unreadable} of 4,000 were unreadable");
}

/// Kept entries are read exactly where the library finds a book; a root's domain is for the library alone.
fn assert_read_alike(bytes: Vec<u8>) -> bool {
    let mut book = Book::found(bytes);
    let read = book.kept();
    let in_domain = |kept: &Kept| match kept.status {
        Status::TransInvalid(root) => (4..1 << 31).contains(&root.link.to.round),
        _ => true,
    };
    let is_book = read.as_ref().is_ok_and(|kept| kept.iter().all(in_domain));
    let refusal = book.offer(&schedule(), 0, &record(&genesis())).err();
    assert_eq!(refusal, Some(if is_book { Refusal::Kept } else { Refusal::Book }), "{read:?}");
    is_book
}

#[test]
fn verdicts_read_as_the_library_reads_them() {
    let good = filled().into_bytes();
    let tails: Vec<usize> = starts(&good).into_iter().filter(|start| good.get(*start) == Some(&33)).collect();
    assert_eq!(tails.len(), offers().len());
    let with = |place: usize, value| {
        let mut bytes = good.clone();
        bytes[place] = value;
        usize::from(assert_read_alike(bytes))
    };
    let (state, certified, reason, root, root_reason, map) = (3, 4, 5, 6, 74, 75);
    let mut books = 0;
    for tail in &tails {
        for part in [state, certified, reason, root_reason, map] {
            books += (0..=255).map(|value| with(tail + part, value)).sum::<usize>();
        }
        for part in (root..root_reason).chain(map + 1..108) {
            books += with(tail + part, 1);
        }
    }
    assert!((100..1_000).contains(&books), "{books} were books");
}

#[test]
fn a_faults_place_is_counted_from_the_books_front() {
    let mut bytes = filled().into_bytes();
    let second_entry = 47 + record(&genesis()).len() + 108;
    bytes[second_entry + 71] = 99;
    let unreadable = Book::found(bytes.clone()).kept().expect_err("a wrong tag");
    assert_eq!(unreadable.at, second_entry + 71);
    bytes[second_entry + 71] = 2;
    let verdict = second_entry + record(&first(0)).len();
    bytes[verdict + 3] = 4;
    assert_eq!(Book::found(bytes).kept().expect_err("no state").at, verdict);
}

#[test]
fn roles_of_a_wave() {
    let proof = |seq_no| PointRole::AnchorProof { seq_no, is_last: false };
    let roles = [
        (PointRole::Regular, [false, false]),
        (proof(0), [true, false]),
        (proof(1), [true, true]),
        (PointRole::AnchorTrigger, [false, true]),
        (PointRole::Genesis, [true, true]),
    ];
    for (role, stages) in roles {
        assert_eq!([AnchorStageRole::Proof, AnchorStageRole::Trigger].map(|stage| role.is_anchor_stage(stage)), stages);
    }
}

#[test]
fn questions_to_a_point() {
    let [a, b, c] = [first(0), first(1), first(3)];
    let point = second(&[&a, &b, &c]);
    assert_eq!(point.prev_digest(), Some(a.id.digest));
    assert_eq!(b.prev_digest(), None);
    assert_eq!(point.dependencies().collect::<Vec<_>>(), [a.id, b.id, c.id, genesis().id]);
    for role in [AnchorStageRole::Proof, AnchorStageRole::Trigger] {
        assert_eq!(point.link_source(role), Some(a.id));
        assert_eq!(point.link_target(role), Some(genesis().id));
        assert_eq!(a.link_source(role), Some(genesis().id));
        assert_eq!(a.link_target(role), Some(genesis().id));
    }
    assert_eq!(point.through_id(Through::Witness(PEERS[0])), None);
    let at = |round| Point { id: PointId { round, ..point.id }, ..point.clone() };
    assert_eq!(at(1).dependencies().count(), 3);
    assert_eq!(at(1).through_id(Through::Witness(FOUNDER)), None);
    assert_eq!(at(0).dependencies().count(), 0);
    assert_eq!(at(0).link_source(AnchorStageRole::Proof), None);
}
