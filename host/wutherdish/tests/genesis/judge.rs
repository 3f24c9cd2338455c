//! Judging: it is valid whatever is handed in beside it, and is refused or ill-formed with a fault.

use wutherdish::lent::{self, ANSWER, PEER_BUFFER};
use wutherdish::{Digest, IllFormedReason, PeerId, PointMap, Refusal, UninitVset, Verdict, judge};

use crate::point::{AUTHOR, Call, FILL, OTHER, ROUND, false_genesis, genesis, in_round, record, schedule};

/// No list: it is not read at genesis.
const UNREAD: [u8; 3] = [99, 1, 0];

impl Call {
    /// The call on lent bytes.
    fn lend_judge(&mut self, leader: u8, presence: u8) -> u8 {
        let Self { settings, schedule, record, peers, answer } = self;
        lent::judge(settings, schedule, record, leader, presence, &UNREAD, peers, answer)
    }

    /// The answer of both calls.
    fn assert_judged(&mut self, leader: u8, presence: u8, verdict: Verdict) {
        let given = judge(&self.settings, &self.schedule, &self.record, leader, presence, &UNREAD);
        assert_eq!(given.as_ref(), Ok(&verdict));
        assert_eq!(self.lend_judge(leader, presence), 0);
        assert_eq!(Verdict::read(&self.answer, &self.peers), Some(verdict));
    }

    /// The number comes, and every lent byte is as it was.
    fn assert_not_judged(&mut self, leader: u8, presence: u8, refusal: Refusal) {
        let before = self.peers.clone();
        assert_eq!(self.lend_judge(leader, presence), refusal.number());
        assert_eq!(self.answer, [FILL; ANSWER]);
        assert_eq!(self.peers, before);
        if refusal != Refusal::Short {
            let given = judge(&self.settings, &self.schedule, &self.record, leader, presence, &UNREAD);
            assert_eq!(given, Err(refusal));
        }
    }
}

#[test]
fn the_genesis_point_is_valid() {
    let mut expected = [0; ANSWER];
    (expected[70], expected[71]) = (255, 255);
    for (leader, presence) in [(0, 0), (1, 1), (0, 2), (1, 3)] {
        let mut call = Call::new(&genesis());
        call.assert_judged(leader, presence, Verdict::Valid);
        assert_eq!(call.answer, expected);
        assert_eq!(call.peers, [FILL; PEER_BUFFER]);
    }
}

#[test]
fn leader_and_presence_outside_the_domain_are_refused() {
    for (leader, presence) in [(2, 3), (255, 3), (0, 4), (1, 255)] {
        Call::new(&genesis()).assert_not_judged(leader, presence, Refusal::Domain);
    }
}

#[test]
fn numbers_come_in_their_order() {
    let mut call = Call::new(&in_round(3));
    call.settings.push(0);
    call.schedule.push(0);
    call.record.push(0);
    call.peers.pop();
    call.assert_not_judged(2, 4, Refusal::Settings);
    call.settings.pop();
    call.assert_not_judged(2, 4, Refusal::Schedule);
    call.schedule.pop();
    call.assert_not_judged(2, 4, Refusal::Record);
    call.record.pop();
    call.assert_not_judged(0, 3, Refusal::Domain);
    call.record = record(&genesis());
    call.assert_not_judged(0, 4, Refusal::Domain);
    call.assert_not_judged(0, 3, Refusal::Short);
}

#[test]
fn a_point_that_is_not_verified_ends_there() {
    let mut call = Call::new(&genesis());
    call.schedule = schedule(&[AUTHOR, OTHER]);
    call.assert_judged(0, 3, Verdict::Fail(UninitVset { len: 2, round: ROUND, map: PointMap::Evidence }));
    Call::new(&false_genesis()).assert_judged(0, 3, Verdict::IllFormed(IllFormedReason::FalseGenesis));
    let unknown = PeerId([1; 32]);
    let mut call = Call::new(&genesis().include(unknown, Digest([0; 32])));
    let reason = IllFormedReason::UnknownPeers { peers: vec![unknown], map: PointMap::Includes };
    call.assert_judged(0, 3, Verdict::IllFormed(reason));
    let (front, rest) = call.peers.split_at(32);
    assert_eq!(front, [1; 32]);
    assert_eq!(rest, [FILL; PEER_BUFFER - 32]);
}
