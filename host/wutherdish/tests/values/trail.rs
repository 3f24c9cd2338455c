//! Judging with a trail: rows of every kind, its numbers, and the bytes that are kept.

use wutherdish::AnchorStageRole::{Proof, Trigger};
use wutherdish::lent::{self, ANSWER, PEER_BUFFER};
use wutherdish::{
    AnchorLink, Dependency, Digest, Fault, IndirectLink, InvalidReason, List, PeerId, Point, PointId, PointRole,
    Refusal, Schedule, SetBy, State, Through, Verdict, judge, judge_with_trail,
};

use crate::case::{Case, assert_each_before_the_next, dropped, list, lost, numbers, three_faults};
use crate::lists::{any_list, valid};
use crate::network::{FOUNDER, GENESIS, PEERS, first, genesis, record, second};
use crate::parts::FILL;
use crate::random::Random;

/// What a call gave and left.
struct Given {
    number: u8,
    answer: [u8; ANSWER],
    peers: Vec<u8>,
    trail: Vec<u8>,
    rows: u32,
}

impl Case {
    fn call(&self) -> Given {
        let Self { settings, schedule, record, leader, presence, .. } = self;
        let mut given = Given {
            number: 0,
            answer: [FILL; ANSWER],
            peers: vec![FILL; self.peers],
            trail: vec![FILL; self.room],
            rows: 7,
        };
        let Given { answer, peers, trail, rows, .. } = &mut given;
        given.number =
            lent::trail(settings, schedule, record, *leader, *presence, &self.list(), peers, trail, rows, answer);
        given
    }

    /// The rows, after which the trail is as it was; answer and peer buffer are those of judging.
    fn rows(&self) -> Vec<[u8; 8]> {
        let Given { number, answer, peers, trail, rows } = self.call();
        assert_eq!(number, 0);
        let (mut judged, mut buffer) = ([FILL; ANSWER], vec![FILL; self.peers]);
        let Self { settings, schedule, record, leader, presence, .. } = self;
        let list = self.list();
        assert_eq!(lent::judge(settings, schedule, record, *leader, *presence, &list, &mut buffer, &mut judged), 0);
        assert_eq!((answer, peers), (judged, buffer));
        let (written, rest) = trail.split_at(8 * rows as usize);
        assert!(rest.iter().all(|byte| *byte == FILL));
        written.as_chunks().0.to_vec()
    }

    /// The call gives this number and changes nothing; so does judging, if it is one of judging's.
    fn assert_number(&self, expected: u8) {
        let Given { number, answer, peers, trail, rows } = self.call();
        assert_eq!((number, rows, answer), (expected, 7, [FILL; ANSWER]));
        assert!(peers.iter().chain(&trail).all(|byte| *byte == FILL));
        let Self { settings, schedule, record, leader, presence, .. } = self;
        let list = self.list();
        if expected < 15 && self.peers >= PEER_BUFFER {
            let refused = Err(Refusal::new(expected));
            assert_eq!(judge(settings, schedule, record, *leader, *presence, &list), refused);
            let with_trail = judge_with_trail(settings, schedule, record, *leader, *presence, &list);
            assert_eq!(with_trail.map(|(verdict, _)| verdict), refused);
        }
    }

    fn faults(&self) -> (Verdict, Vec<Fault>) {
        let Self { settings, schedule, record, leader, presence, .. } = self;
        judge_with_trail(settings, schedule, record, *leader, *presence, &self.list()).expect("a verdict")
    }
}

const THREE: [[u8; 8]; 3] = [[1, 1, 0, 6, 255, 0, 0, 0], [1, 2, 0, 11, 255, 0, 0, 0], [1, 3, 0, 19, 255, 0, 0, 0]];

#[test]
fn each_reason_has_its_row() {
    let case = three_faults();
    assert_eq!(case.rows(), THREE);
    let (verdict, faults) = case.faults();
    assert_eq!(verdict, Verdict::Invalid(InvalidReason::DepNotFound { id: first(3).id }));
    let said: Vec<(SetBy, u8)> = faults.iter().map(|fault| (fault.set_by, fault.reason.0)).collect();
    assert_eq!(said, [(SetBy::Direct(1), 6), (SetBy::Direct(2), 11), (SetBy::Direct(3), 19)]);
    // the order of the list is the order of the rows
    let mut case = case;
    case.list.direct.reverse();
    assert_eq!(case.rows(), [[1, 0, 0, 19, 255, 0, 0, 0], [1, 1, 0, 11, 255, 0, 0, 0], [1, 2, 0, 6, 255, 0, 0, 0]]);
}

#[test]
fn a_presence_rule_stands_alone() {
    for presence in [0, 1] {
        assert_eq!(Case { presence, ..three_faults() }.rows(), [[0, 0, 0, 2, 255, 0, 0, 0]]);
        // the list is not read
        let unread = Case { presence, cut: 1, ..three_faults() };
        assert_eq!(unread.rows(), [[0, 0, 0, 2, 255, 0, 0, 0]]);
        let without = Case { presence, list: List::new(), room: 8, ..three_faults() };
        assert_eq!(without.rows(), [[0, 0, 0, 2, 255, 0, 0, 0]]);
        assert_eq!(without.faults().1.len(), 1);
    }
    let mut case = Case { presence: 2, ..three_faults() };
    case.list.direct.remove(0);
    assert_eq!(case.rows(), [[0, 0, 0, 2, 255, 0, 0, 0]]);
    // without a witness the entries are judged, each one place further ahead
    let mut point = second(&[&first(0), &first(1), &first(3)]);
    point.witness.clear();
    let mut rows = THREE;
    rows.iter_mut().for_each(|row| row[1] -= 1);
    assert_eq!(Case { record: record(&point), ..case }.rows(), rows);
}

#[test]
fn dropped_entries() {
    let [a, b, c] = [first(0), first(1), first(3)];
    let point = second(&[&a, &b, &c]);
    let good = [valid(&genesis()), valid(&a).certified()];
    let [witness, previous] = &good;
    // it sets its reason where there is none, and ends the list
    let ends = list([witness.clone(), previous.clone(), dropped(), lost(b.id), dropped()]);
    assert_eq!(Case::new(&point, ends).rows(), [[1, 2, 0, 3, 255, 0, 0, 0]]);
    // after a reason it adds none, and ends the list all the same
    let after = list([lost(b.id), dropped(), witness.clone(), previous.clone(), lost(c.id)]);
    assert_eq!(Case::new(&point, after).rows(), [[1, 0, 0, 19, 255, 0, 0, 0]]);
    // the shortest list with a row
    let alone = Case { room: 8, ..Case::new(&point, list([dropped(), dropped(), dropped(), dropped()])) };
    assert_eq!(alone.rows(), [[1, 0, 0, 3, 255, 0, 0, 0]]);
    assert_eq!(alone.faults().1.len(), 1);
    // an indirect one adds none
    let indirect = list([witness.clone(), previous.clone(), valid(&b), valid(&c)]);
    let indirect = indirect.indirect(Proof, dropped()).indirect(Trigger, lost(genesis().id));
    assert_eq!(Case::new(&point, indirect).rows(), [[2, 1, 0, 19, 255, 0, 0, 0]]);
}

/// A version of the genesis point that is no genesis point.
fn regular() -> Point {
    let id = PointId { digest: Digest([8; 32]), ..genesis().id };
    Point { id, role: PointRole::Regular, ..first(0) }
}

#[test]
fn roles() {
    let [a, b, c] = [first(0), first(1), first(3)];
    let direct = AnchorLink::Direct(Through::Includes(PEERS[1]));
    let of = |point: &Point, b: &Point| {
        Case::new(point, list([valid(&genesis()), valid(&a).certified(), valid(b), valid(&c)])).rows()
    };
    // b is a trigger, and newer than where the point's link leads; then a proof with a seq_no over 0, which is both
    let point = second(&[&a, &b, &c]);
    let trigger = b.clone().role(PointRole::AnchorTrigger);
    assert_eq!(of(&point, &trigger), [[1, 2, 0, 12, 1, 0, 0, 0]]);
    let proof = b.clone().role(PointRole::AnchorProof { seq_no: 1, is_last: true });
    assert_eq!(of(&point, &proof), [[1, 2, 0, 12, 0, 0, 0, 0], [1, 2, 0, 12, 1, 0, 0, 0]]);
    // a link leads to a point without the role, whose own links lead elsewhere
    for (role, number) in [(Proof, 0), (Trigger, 1)] {
        let rows = of(&point.clone().link(role, direct), &b);
        assert_eq!(rows, [[1, 2, 0, 13, number, 0, 0, 0], [1, 2, 0, 15, number, 0, 0, 0]]);
    }
    // 17 names no role: b knows another proof
    let astray = IndirectLink { to: regular().id, through: Through::Includes(FOUNDER) };
    let trigger = trigger.link(Proof, AnchorLink::Indirect(astray));
    assert_eq!(of(&point.link(Trigger, direct), &trigger), [[1, 2, 0, 17, 255, 0, 0, 0]]);
}

#[test]
fn indirect_entries() {
    let target = regular();
    let a = first(0).include(FOUNDER, target.id.digest);
    let [b, c] = [first(1), first(3)];
    let link = AnchorLink::Indirect(IndirectLink { to: target.id, through: Through::Includes(PEERS[0]) });
    let point = second(&[&a, &b, &c]).link(Proof, link).link(Trigger, link);
    let direct = list([valid(&genesis()), valid(&a).certified(), valid(&b), valid(&c)]);
    let both = |list: &List| list.clone().indirect(Trigger, valid(&target)).indirect(Proof, valid(&target));
    let case = Case::new(&point, both(&direct));
    assert_eq!(case.rows(), [[2, 0, 0, 14, 1, 0, 0, 0], [2, 1, 0, 14, 0, 0, 0, 0]]);
    let set_by: Vec<SetBy> = case.faults().1.iter().map(|fault| fault.set_by).collect();
    assert_eq!(set_by, [SetBy::Indirect(0), SetBy::Indirect(1)]);
    // where a direct entry gives a reason, they have no rows
    let mut direct = direct;
    direct.direct[3] = lost(c.id);
    assert_eq!(Case::new(&point, both(&direct)).rows(), [[1, 3, 0, 19, 255, 0, 0, 0]]);
}

#[test]
fn no_rows_without_a_reason() {
    let [a, b, c] = [first(0), first(1), first(3)];
    let point = second(&[&a, &b, &c]);
    let direct = [valid(&genesis()), valid(&a).certified(), valid(&b), valid(&c)];
    let empty = |case: Case| {
        let case = Case { room: 0, ..case };
        assert_eq!((case.rows().len(), case.faults().1), (0, vec![]));
        case.faults().0
    };
    assert_eq!(empty(Case::new(&point, list(direct.clone()))), Verdict::Valid);
    let bad = Dependency::new(State::Invalid { record: record(&c), reason: 6 });
    let [genesis_entry, a, b, _] = direct;
    assert!(matches!(empty(Case::new(&point, list([genesis_entry, a, b, bad]))), Verdict::TransInvalid(_)));
    let ill_formed = Point { evidence: [].into(), ..point };
    assert!(matches!(empty(Case::new(&ill_formed, List::new())), Verdict::IllFormed(_)));
    let fail = Schedule::new(1_000).span(GENESIS, [FOUNDER]).to_bytes().expect("a span");
    assert!(matches!(empty(Case { schedule: fail, ..three_faults() }), Verdict::Fail(_)));
    // a point that is not verified is judged valid where it is genesis
    assert_eq!(empty(Case::new(&genesis(), List::new())), Verdict::Valid);
}

/// Unknown peers stand in the peer buffer as after judging.
#[test]
fn unknown_peers() {
    let mut point = second(&[&first(0), &first(1), &first(3)]);
    (0..20).for_each(|byte| {
        point.includes.insert(PeerId([200 + byte; 32]), Digest([1; 32]));
    });
    let case = Case { room: 3, ..Case::new(&point, List::new()) };
    assert_eq!((case.rows().len(), case.call().answer[113]), (0, 20));
}

#[test]
fn each_number_before_the_next() {
    let mut numbers = numbers();
    numbers.push((15, vec![|case| case.room = 23, |case| case.room = 16, |case| case.room = 0]));
    assert_each_before_the_next(&numbers, &three_faults(), Case::assert_number);
    assert_eq!((Refusal::new(15), Refusal::Trail.number()), (Refusal::Trail, 15));
}

/// With any entries there is room for the rows exactly from eight bytes each on, and never need for more than eight beyond the list.
#[test]
fn room_for_all_rows_and_not_one_less() {
    let points = [genesis(), first(0), first(1), first(3)];
    let point = second(&[&points[1], &points[2], &points[3]]);
    let mut random = Random(41);
    let mut seen = [0; 5];
    for _ in 0..2_000 {
        let case = Case::new(&point, any_list(&mut random, &points));
        let rows = case.rows();
        let exact = 8 * rows.len();
        assert_eq!(Case { room: exact, ..case.clone() }.rows(), rows);
        if exact > 0 {
            [exact - 1, exact - 8].into_iter().for_each(|room| Case { room, ..case.clone() }.assert_number(15));
        }
        let (verdict, faults) = case.faults();
        assert!(exact <= case.list().len() + 8);
        assert_eq!(faults, rows.iter().filter_map(Fault::read).collect::<Vec<_>>());
        let last = faults.last().map_or(0, |fault| fault.reason.0);
        assert_eq!((matches!(verdict, Verdict::Invalid(_)), verdict.reason_number()), (!rows.is_empty(), last));
        seen[rows.len().min(4)] += 1;
    }
    assert!(seen.iter().all(|count| *count > 5), "{seen:?}");
}
