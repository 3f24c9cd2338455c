//! The two graphs outside the feeds for certificates where the book's rule for marks and the source's certificates part
//! (docs/DIFFERENCES.md), run on both.

use book::{Book, Offer};
use oracle::answer::{TRANS_INVALID, VALID};
use oracle::feed::Feed;
use oracle::value::{AnchorLink, Digest, Id, Peer, Point, PointRole, Schedule, Settings, Span, Through};
use oracle::{Answer, PEER_BUFFER, write};

const GENESIS: u32 = 10;
const GENESIS_AUTHOR: Peer = [200; 32];
const PEERS: u8 = 7;
const A: u8 = 1;
const B: u8 = 2;
const C: u8 = 3;
const D: u8 = 4;
const E: u8 = 5;
const F: u8 = 6;
const G: u8 = 7;

/// A book and the source's certificates, which are offered the same.
struct Both {
    book: Book,
    feed: Feed,
    schedule: Schedule,
}

impl Both {
    fn new(history: u8) -> Self {
        let settings = Settings {
            genesis_round: GENESIS,
            genesis_digest: [9; 32],
            payload_batch_bytes: 1,
            sticky_anchors: 0,
            clock_skew_millis: 1,
            commit_history_rounds: history,
        };
        let spans = vec![
            Span { first: GENESIS, peers: vec![GENESIS_AUTHOR] },
            Span { first: GENESIS + 1, peers: (1..=PEERS).map(|peer| [peer; 32]).collect() },
        ];
        let book = Book::open(&write::settings(&settings), 1 << 20).expect("settings and a slice");
        let schedule = Schedule { spans, last_known: 1_000 };
        let mut both = Self { book, feed: Feed::new(settings), schedule };
        both.offer(&genesis());
        both
    }

    /// Gives the book's answer and the source's.
    fn offer(&mut self, point: &Point) -> (Answer, Answer) {
        let offer = Offer {
            schedule: write::schedule(&self.schedule),
            leader: 0,
            record: write::record(point),
            peer_buffer: PEER_BUFFER,
        };
        (self.book.offer(&offer).answer, self.feed.offer(&self.schedule, false, point))
    }

    /// Offers a point over these of the round below; gives it.
    fn add(&mut self, author: u8, round: u32, includes: &[Id]) -> Id {
        let point = point(author, round, includes);
        let (book, source) = self.offer(&point);
        assert_eq!(book, source, "round {round}, author {author}");
        point.id
    }

    /// Whether an id is marked in the book, and whether it is certified at the source.
    fn marks(&self, id: &Id) -> (bool, bool) {
        let place = self.book.place(id).expect("it is kept");
        let (_, mark) = self.feed.marks().nth(place).expect("it is kept at the source too");
        (self.book.entries()[place].certified, mark)
    }
}

fn genesis() -> Point {
    let own = AnchorLink { through: Through::Includes, peer: GENESIS_AUTHOR, to: None };
    Point {
        id: Id { round: GENESIS, digest: [9; 32], author: GENESIS_AUTHOR },
        payload_len: 0,
        payload_bytes: 0,
        includes: vec![(GENESIS_AUTHOR, [0; 32])],
        witness: Vec::new(),
        evidence: Vec::new(),
        anchor_proof: own,
        anchor_trigger: own,
        role: PointRole::Genesis,
        time: 1,
        anchor_time: 1,
    }
}

fn digest(author: u8, round: u32) -> Digest {
    let mut digest = [author; 32];
    digest[0] = round as u8;
    digest
}

/// A regular point, whose links lead to the genesis point.
fn point(author: u8, round: u32, includes: &[Id]) -> Point {
    let id = Id { round, digest: digest(author, round), author: [author; 32] };
    let mut pairs: Vec<_> = includes.iter().map(|id| (id.author, id.digest)).collect();
    pairs.sort_unstable();
    let to = (round > GENESIS + 1).then(|| genesis().id);
    let link = AnchorLink { through: Through::Includes, peer: includes[0].author, to };
    let has_prev = includes.iter().any(|other| other.author == id.author);
    let others = (1..=PEERS).filter(|peer| *peer != author).map(|peer| [peer; 32]);
    Point {
        id,
        includes: pairs,
        evidence: if has_prev { others.collect() } else { Vec::new() },
        anchor_proof: link,
        anchor_trigger: link,
        role: PointRole::Regular,
        time: u64::from(round),
        ..genesis()
    }
}

fn of(ids: &[Id], authors: &[u8]) -> Vec<Id> {
    ids.iter().filter(|id| authors.contains(&id.author[31])).copied().collect()
}

/// c11 and d11 have one digest, and b12 alone includes them. a14 certifies a13, which includes b12.
#[test]
fn one_digest_twice_in_a_round() {
    let mut both = Both::new(5);
    let genesis = [genesis().id];
    let mut at_11: Vec<Id> = [A, B, C, E, F, G].map(|author| both.add(author, 11, &genesis)).to_vec();
    let mut d11 = point(D, 11, &genesis);
    d11.id.digest = digest(C, 11);
    both.offer(&d11);
    at_11.push(d11.id);
    let others = of(&at_11, &[A, B, E, F, G]);
    let at_12 = [A, B, C, D, E, F, G].map(|author| both.add(author, 12, if author == B { &at_11 } else { &others }));
    let without_b = of(&at_12, &[A, C, D, E, F, G]);
    let at_13 = [A, C, D, E, F].map(|author| both.add(author, 13, if author == A { &at_12 } else { &without_b }));
    let c11 = at_11[2];
    assert_eq!((both.marks(&c11), both.marks(&d11.id)), ((false, false), (false, false)));

    both.add(A, 14, &at_13);
    let (c11, d11) = (both.marks(&c11), both.marks(&d11.id));
    assert_eq!((c11.0, d11.0), (true, true), "the book marks both");
    assert_ne!(c11.1, d11.1, "the source's queue, by digest, has room for one of them");
}

/// d11 is invalid. b12 includes it before it comes, and a14 certifies a13, which includes b12. Then d11 comes, and c12, which
/// includes it. a15 certifies a14, three rounds above d11.
fn late(history: u8) -> (Both, Id, (Answer, Answer)) {
    let mut both = Both::new(history);
    let genesis = [genesis().id];
    let at_11 = [A, B, C, E, F, G].map(|author| both.add(author, 11, &genesis));
    let mut d11 = point(D, 11, &genesis);
    d11.anchor_time = 0;
    let others = of(&at_11, &[A, B, E, F, G]);
    let with_d = [&others[..], &[d11.id]].concat();
    let at_12 = [A, B, E, F, G].map(|author| both.add(author, 12, if author == B { &with_d } else { &others }));
    let at_13 = [A, C, D, E, F].map(|author| both.add(author, 13, &at_12));
    let a14 = both.add(A, 14, &at_13);
    let at_14 = [C, D, E, F].map(|author| both.add(author, 14, &at_13));

    both.offer(&d11);
    let marks = both.marks(&d11.id);
    assert_eq!(marks, (false, true), "it comes with a certificate at the source, and without a mark to the book");
    let c12 = point(C, 12, &[&of(&at_11, &[A, B, C, E])[..], &[d11.id]].concat());
    let answers = both.offer(&c12);
    both.add(A, 15, &[&[a14], &at_14[..]].concat());
    (both, d11.id, answers)
}

#[test]
fn a_dependency_that_comes_late() {
    let (both, d11, (book, source)) = late(3);
    let kind = |answer: &Answer| match answer {
        Answer::Verdict(verdict) => verdict.kind,
        other => panic!("no verdict: {other}"),
    };
    assert_eq!((kind(&book), kind(&source)), (TRANS_INVALID, VALID), "of c12");
    assert_eq!(both.marks(&d11), (true, true), "the next walk that reaches it marks it");

    let (both, d11, _) = late(2);
    assert_eq!(both.marks(&d11), (false, true), "where none reaches it, it stays without a mark");
}
