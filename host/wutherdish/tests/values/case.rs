//! What judging is lent, and what can be wrong with it.

use wutherdish::lent::PEER_BUFFER;
use wutherdish::{Dependency, List, Point, PointId, Schedule, State};

use crate::lists::valid;
use crate::network::{FOUNDER, GENESIS, PEERS, first, genesis, record, schedule, second, settings};

/// What is lent.
#[derive(Clone)]
pub struct Case {
    pub settings: Vec<u8>,
    pub schedule: Vec<u8>,
    pub record: Vec<u8>,
    pub leader: u8,
    pub presence: u8,
    pub list: List,
    /// How many of the list's last bytes are missing.
    pub cut: usize,
    /// How many bytes a call is lent for unknown peers, if it takes a buffer for them.
    pub peers: usize,
    /// How many bytes a call is lent for rows, if it writes any.
    pub room: usize,
}

impl Case {
    pub fn new(point: &Point, list: List) -> Self {
        Self {
            settings: settings().to_bytes().to_vec(),
            schedule: schedule(),
            record: record(point),
            leader: 0,
            presence: 3,
            list,
            cut: 0,
            peers: PEER_BUFFER + 3,
            room: 800,
        }
    }

    pub fn list(&self) -> Vec<u8> {
        let mut list = self.list.to_bytes().expect("a short list");
        list.truncate(list.len() - self.cut);
        list
    }
}

pub fn lost(id: PointId) -> Dependency {
    Dependency::new(State::NotFound { id })
}

pub fn dropped() -> Dependency {
    Dependency::new(State::Dropped)
}

pub fn list<const N: usize>(direct: [Dependency; N]) -> List {
    List { direct: direct.to_vec(), indirect: vec![] }
}

/// The previous point has the point's time, the next dependency is too late, and the last one was not found.
pub fn three_faults() -> Case {
    let [a, b, c] = [first(0), first(1), first(3)];
    let point = second(&[&a, &b, &c]);
    let (a, b) = (Point { time: point.time, ..a }, Point { time: point.time + 501, ..b });
    Case::new(&point, list([valid(&genesis()), valid(&a).certified(), valid(&b), lost(c.id)]))
}

/// What is wrong with a case.
pub type Wrong = fn(&mut Case);

/// The numbers of judging in the order in which they are tested, each with what gives it in a case whose list has four direct
/// entries, the previous point's second and that of `first(1)` third.
pub fn numbers() -> Vec<(u8, Vec<Wrong>)> {
    vec![
        (1, vec![|case| case.settings.truncate(46), |case| case.settings[46] = 0]),
        (2, vec![|case| case.schedule.truncate(case.schedule.len() - 1), |case| case.schedule.clear()]),
        (3, vec![|case| case.record.truncate(case.record.len() - 1), |case| case.record.clear()]),
        (
            4,
            vec![
                |case| case.leader = 2,
                |case| case.presence = 4,
                |case| case.record[3..7].copy_from_slice(&[3, 0, 0, 0]),
                |case| *case.record.last_mut().expect("a record") = 128,
            ],
        ),
        (5, vec![|case| case.peers = PEER_BUFFER - 1, |case| case.peers = 0]),
        (
            6,
            vec![|case| {
                let known = Schedule::new(GENESIS + 5).span(GENESIS, [FOUNDER]).span(GENESIS + 1, PEERS);
                case.schedule = known.to_bytes().expect("two spans");
            }],
        ),
        (
            7,
            vec![|case| case.cut = 1, |case| {
                case.list.direct[2].state = State::Invalid { record: record(&first(1)), reason: 21 }
            }],
        ),
        (8, vec![|case| drop(case.list.direct.pop()), |case| case.list.direct.push(valid(&first(2)))]),
        (9, vec![|case| case.list.direct[1].certified = false]),
    ]
}

/// A case gets each number from whatever gives it, whatever is wrong that gives a later one.
pub fn assert_each_before_the_next(numbers: &[(u8, Vec<Wrong>)], case: &Case, assert_number: impl Fn(&Case, u8)) {
    for (place, (number, wrongs)) in numbers.iter().enumerate() {
        for wrong in wrongs {
            let assert_first = |later: &[&Wrong]| {
                let mut case = case.clone();
                later.iter().rev().for_each(|later| later(&mut case));
                wrong(&mut case);
                assert_number(&case, *number);
            };
            assert_first(&[]);
            let later = &numbers[place + 1..];
            later.iter().flat_map(|(_, later)| later).for_each(|later| assert_first(&[later]));
            let one_of_each: Vec<&Wrong> = later.iter().map(|(_, later)| &later[0]).collect();
            assert_first(&one_of_each);
        }
    }
}
