//! What the network can force: rows of every kind, against judging in every order, and the numbers.

use wutherdish::AnchorStageRole::{Proof, Trigger};
use wutherdish::{
    AnchorLink, Dependency, Digest, Fault, IndirectLink, InvalidReason, List, Point, PointId, PointRole, Refusal,
    Schedule, State, Through, Verdict, force, judge, lent,
};

use crate::case::{Case, assert_each_before_the_next, dropped, list, lost, numbers, three_faults};
use crate::lists::{any_list, valid};
use crate::network::{FOUNDER, GENESIS, PEERS, first, genesis, record, second};
use crate::parts::FILL;
use crate::random::Random;

/// The rows, after which the output is as it was.
fn rows(case: &Case) -> Vec<[u8; 8]> {
    let Case { settings, schedule, record, leader, presence, room, .. } = case;
    let (list, mut out, mut rows) = (case.list(), vec![FILL; *room], 7);
    assert_eq!(lent::force(settings, schedule, record, *leader, *presence, &list, &mut out, &mut rows), 0);
    let (written, rest) = out.split_at(8 * rows as usize);
    assert!(rest.iter().all(|byte| *byte == FILL));
    let rows = written.as_chunks().0.to_vec();
    let faults = force(settings, schedule, record, *leader, *presence, &list).expect("rows");
    assert_eq!(faults, rows.iter().filter_map(Fault::read).collect::<Vec<_>>());
    rows
}

/// The call gives this number and changes nothing; so does judging, if it is one of judging's.
fn assert_number(case: &Case, expected: u8) {
    let Case { settings, schedule, record, leader, presence, room, .. } = case;
    let (list, mut out, mut rows) = (case.list(), vec![FILL; *room], 7);
    let number = lent::force(settings, schedule, record, *leader, *presence, &list, &mut out, &mut rows);
    assert_eq!((number, rows), (expected, 7));
    assert!(out.iter().all(|byte| *byte == FILL));
    if expected != 17 {
        let refused = Refusal::new(expected);
        assert_eq!(force(settings, schedule, record, *leader, *presence, &list), Err(refused));
        assert_eq!(judge(settings, schedule, record, *leader, *presence, &list), Err(refused));
    }
}

const NO_ROWS: [[u8; 8]; 0] = [];

#[test]
fn by_number_and_then_by_place() {
    let mut case = three_faults();
    assert_eq!(rows(&case), [[1, 1, 0, 6, 255, 0, 0, 0], [1, 2, 0, 11, 255, 0, 0, 0], [1, 3, 0, 19, 255, 0, 0, 0]]);
    // the order of the list changes the places alone
    case.list.direct.reverse();
    assert_eq!(rows(&case), [[1, 2, 0, 6, 255, 0, 0, 0], [1, 1, 0, 11, 255, 0, 0, 0], [1, 0, 0, 19, 255, 0, 0, 0]]);
    // two that were not found are two reasons
    case.list.direct[1] = lost(first(1).id);
    assert_eq!(rows(&case), [[1, 2, 0, 6, 255, 0, 0, 0], [1, 0, 0, 19, 255, 0, 0, 0], [1, 1, 0, 19, 255, 0, 0, 0]]);
}

#[test]
fn an_entry_gives_its_last_reason() {
    let [a, b, c] = [first(0), first(1), first(3)];
    let point = second(&[&a, &b, &c]);
    // too late, and of another anchor time than the previous point, through which the links lead
    let late = Point { time: point.time + 501, anchor_time: 999, ..a };
    let case = Case::new(&point, list([valid(&genesis()), valid(&late).certified(), valid(&b), valid(&c)]));
    assert_eq!(rows(&case), [[1, 1, 0, 8, 255, 0, 0, 0]]);
}

#[test]
fn dropped_entries() {
    let mut case = three_faults();
    case.list.direct[3] = dropped();
    let of_two = [[1, 1, 0, 6, 255, 0, 0, 0], [1, 2, 0, 11, 255, 0, 0, 0]];
    let with = |place| [[1, place, 0, 3, 255, 0, 0, 0], of_two[0], of_two[1]];
    assert_eq!(rows(&case), with(3));
    // of several the first is named
    case.list.direct[0] = dropped();
    assert_eq!(rows(&case), with(0));
    // without another reason it is what every order gives
    case.list = list([dropped(), dropped(), dropped(), dropped()]);
    assert_eq!(rows(&Case { room: 8, ..case.clone() }), [[1, 0, 0, 3, 255, 0, 0, 0]]);
    // indirect ones add nothing
    let [a, b, c] = [first(0), first(1), first(3)];
    case.list = list([valid(&genesis()), valid(&a).certified(), valid(&b), valid(&c)]);
    case.list = case.list.indirect(Proof, dropped()).indirect(Trigger, dropped());
    assert_eq!(rows(&case), NO_ROWS);
}

#[test]
fn indirect_entries() {
    let target =
        Point { id: PointId { digest: Digest([8; 32]), ..genesis().id }, role: PointRole::Regular, ..first(0) };
    let a = first(0).include(FOUNDER, target.id.digest);
    let [b, c] = [first(1), first(3)];
    let link = AnchorLink::Indirect(IndirectLink { to: target.id, through: Through::Includes(PEERS[0]) });
    let point = second(&[&a, &b, &c]).link(Proof, link).link(Trigger, link);
    let direct = list([valid(&genesis()), valid(&a).certified(), valid(&b), valid(&c)]);
    let both = |list: &List, entry: Dependency| list.clone().indirect(Trigger, entry.clone()).indirect(Proof, entry);
    // a reason that names the role is two
    let case = Case::new(&point, both(&direct, valid(&target)));
    assert_eq!(rows(&case), [[2, 0, 0, 14, 1, 0, 0, 0], [2, 1, 0, 14, 0, 0, 0, 0]]);
    // one that doesn't is one, of the first
    let case = Case::new(&point, both(&direct, lost(target.id)));
    assert_eq!(rows(&case), [[2, 0, 0, 19, 255, 0, 0, 0]]);
    // where a direct entry gives a reason, or was dropped, they are not asked
    for (entry, number) in [(lost(c.id), 19), (dropped(), 3)] {
        let mut direct = direct.clone();
        direct.direct[3] = entry;
        assert_eq!(rows(&Case::new(&point, both(&direct, lost(target.id)))), [[1, 3, 0, number, 255, 0, 0, 0]]);
    }
}

#[test]
fn the_presence_rules_leave_one() {
    const RULE: [[u8; 8]; 1] = [[0, 0, 0, 2, 255, 0, 0, 0]];
    for presence in [0, 1] {
        // the list is not read
        assert_eq!(rows(&Case { presence, cut: 1, room: 8, ..three_faults() }), RULE);
    }
    let mut case = Case { presence: 2, ..three_faults() };
    case.list.direct.remove(0);
    assert_eq!(rows(&case), RULE);
}

#[test]
fn no_rows_without_a_reason() {
    let [a, b, c] = [first(0), first(1), first(3)];
    let point = second(&[&a, &b, &c]);
    let direct = [valid(&genesis()), valid(&a).certified(), valid(&b), valid(&c)];
    let empty = |case: Case| assert_eq!(rows(&Case { room: 0, ..case }), NO_ROWS);
    empty(Case::new(&point, list(direct.clone())));
    let [genesis_entry, a, b, _] = direct;
    let bad = Dependency::new(State::Invalid { record: record(&c), reason: 6 });
    empty(Case::new(&point, list([genesis_entry, a, b, bad])));
    empty(Case::new(&Point { evidence: [].into(), ..point }, List::new()));
    let fail = Schedule::new(1_000).span(GENESIS, [FOUNDER]).to_bytes().expect("a span");
    empty(Case { schedule: fail, ..three_faults() });
    empty(Case::new(&genesis(), List::new()));
}

#[test]
fn each_number_before_the_next() {
    let mut numbers = numbers();
    numbers.retain(|(number, _)| *number != 5);
    numbers.push((17, vec![|case| case.room = 23, |case| case.room = 16, |case| case.room = 0]));
    assert_each_before_the_next(&numbers, &three_faults(), assert_number);
    assert_eq!((Refusal::new(17), Refusal::Forced.number()), (Refusal::Forced, 17));
}

/// All orders of some values.
fn orders<T: Clone>(values: &[T]) -> Vec<Vec<T>> {
    let Some((first, rest)) = values.split_first() else { return vec![vec![]] };
    let placed = |order: Vec<T>| {
        (0..=order.len()).map(move |place| [&order[..place], std::slice::from_ref(first), &order[place..]].concat())
    };
    orders(rest).into_iter().flat_map(placed).collect()
}

/// The reasons that judging gives in all orders of the direct and of the indirect entries, each once.
fn tried(case: &Case) -> Vec<InvalidReason> {
    let Case { settings, schedule, record, leader, presence, list, .. } = case;
    let mut reasons = Vec::new();
    for direct in orders(&list.direct) {
        for indirect in orders(&list.indirect) {
            let list = List { direct: direct.clone(), indirect }.to_bytes().expect("a short list");
            if let Ok(Verdict::Invalid(reason)) = judge(settings, schedule, record, *leader, *presence, &list) {
                reasons.push(reason);
            }
        }
    }
    reasons.sort_by_key(|reason| format!("{reason:?}"));
    reasons.dedup();
    reasons.sort_by_key(InvalidReason::number);
    reasons
}

/// The number of the reason where the entry of a row comes last; or, in a list with a dropped entry, first and such a one after it.
fn with_its_entry(case: &Case, row: &[u8; 8]) -> u8 {
    let mut case = case.clone();
    let place = usize::from(row[1]);
    if row[0] == 1 {
        let direct = &mut case.list.direct;
        let is_dropped = |entry: &Dependency| entry.state == State::Dropped;
        let comes_first = direct.iter().any(is_dropped);
        let entry = direct.remove(place);
        direct.sort_by_key(|other| !is_dropped(other));
        direct.insert(if comes_first { 0 } else { direct.len() }, entry);
    } else {
        let entry = case.list.indirect.remove(place);
        case.list.indirect.push(entry);
    }
    let Case { settings, schedule, record, leader, presence, .. } = &case;
    judge(settings, schedule, record, *leader, *presence, &case.list()).expect("a verdict").reason_number()
}

/// Rows are as many as reasons, with their numbers, and each row's entry gives its reason.
#[test]
fn judging_in_every_order_gives_the_reasons_and_no_other() {
    let points = [genesis(), first(0), first(1), first(3)];
    let point = second(&[&points[1], &points[2], &points[3]]);
    let mut random = Random(47);
    let mut seen = [0; 5];
    for _ in 0..400 {
        let case = Case::new(&point, any_list(&mut random, &points));
        let (rows, reasons) = (rows(&case), tried(&case));
        assert_eq!(
            rows.iter().map(|row| row[3]).collect::<Vec<_>>(),
            reasons.iter().map(InvalidReason::number).collect::<Vec<_>>()
        );
        assert!(rows.is_sorted_by_key(|row| (row[3], row[1])), "{rows:?}");
        rows.iter().for_each(|row| assert_eq!(with_its_entry(&case, row), row[3]));
        let exact = 8 * rows.len();
        assert!(exact <= case.list().len() + 8);
        if exact > 0 {
            assert_number(&Case { room: exact - 1, ..case.clone() }, 17);
        }
        seen[rows.len().min(4)] += 1;
    }
    assert!(seen.iter().all(|count| *count > 1), "{seen:?}");
}
