//! Verifying: it passes, and is refused or ill-formed with a fault.

use wutherdish::lent::{self, ANSWER, PEER_BUFFER};
use wutherdish::{
    Digest, IllFormedReason, PeerId, Point, PointMap, PointRole, Refusal, StructureIssue, UninitVset, Verified,
    VerifyError, verify,
};

use crate::point::{AUTHOR, Call, FILL, OTHER, ROUND, false_genesis, genesis, in_round, record, schedule, settings};

impl Call {
    /// The call on lent bytes.
    fn lend(&mut self) -> u8 {
        lent::verify(&self.settings, &self.schedule, &self.record, &mut self.peers, &mut self.answer)
    }

    /// The answer of both calls.
    fn assert_verified(&mut self, verified: Verified) {
        assert_eq!(verify(&self.settings, &self.schedule, &self.record).as_ref(), Ok(&verified));
        assert_eq!(self.lend(), 0);
        assert_eq!(Verified::read(&self.answer, &self.peers), Some(verified));
    }

    fn assert_ill_formed(&mut self, reason: IllFormedReason) {
        self.assert_verified(Verified::Failed(VerifyError::IllFormed(reason)));
    }

    /// The number comes, and every lent byte is as it was.
    fn assert_refused(&mut self, refusal: Refusal) {
        let before = self.peers.clone();
        assert_eq!(self.lend(), refusal.number());
        assert_eq!(self.answer, [FILL; ANSWER]);
        assert_eq!(self.peers, before);
        if refusal != Refusal::Short {
            assert_eq!(verify(&self.settings, &self.schedule, &self.record), Err(refusal));
        }
    }
}

#[test]
fn the_genesis_point_passes() {
    let mut call = Call::new(&genesis());
    call.assert_verified(Verified::Passed);
    assert_eq!(call.peers, [FILL; PEER_BUFFER]);
    let mut expected = [0; ANSWER];
    (expected[0], expected[70], expected[71]) = (5, 255, 255);
    assert_eq!(call.answer, expected);
}

#[test]
fn a_longer_buffer_keeps_its_bytes() {
    let mut call = Call::new(&genesis());
    call.peers = vec![FILL; PEER_BUFFER + 77];
    call.assert_verified(Verified::Passed);
    assert_eq!(call.peers, [FILL; PEER_BUFFER + 77]);
}

#[test]
fn settings_are_refused() {
    let mut call = Call::new(&genesis());
    call.settings.pop();
    call.assert_refused(Refusal::Settings);
    call.settings = settings(3);
    call.assert_refused(Refusal::Settings);
    call.settings.clear();
    call.assert_refused(Refusal::Settings);
}

#[test]
fn a_schedule_is_refused() {
    let mut call = Call::new(&genesis());
    call.schedule.push(0);
    call.assert_refused(Refusal::Schedule);
    call.schedule = schedule(&[AUTHOR, OTHER]);
    let second = 3 + 4 + 32;
    call.schedule[second..second + 32].copy_from_slice(&AUTHOR.0);
    call.assert_refused(Refusal::Schedule);
    call.schedule.clear();
    call.assert_refused(Refusal::Schedule);
}

#[test]
fn a_record_is_refused() {
    let mut call = Call::new(&genesis());
    call.record.pop();
    call.assert_refused(Refusal::Record);
    call.record = record(&genesis());
    let role = call.record.len() - 20;
    assert_eq!(call.record[role], 3);
    call.record[role] = 4;
    call.assert_refused(Refusal::Record);
    call.record.clear();
    call.assert_refused(Refusal::Record);
}

#[test]
fn rounds_and_times_outside_the_domain_are_refused() {
    let late = 1 << 63;
    let outside =
        [in_round(3), in_round(1 << 31), Point { time: late, ..genesis() }, Point { anchor_time: late, ..genesis() }];
    for point in outside {
        Call::new(&point).assert_refused(Refusal::Domain);
    }
}

#[test]
fn a_short_buffer_is_refused() {
    for length in [0, 32, PEER_BUFFER - 1] {
        let mut call = Call::new(&genesis());
        call.peers = vec![FILL; length];
        call.assert_refused(Refusal::Short);
    }
}

#[test]
fn numbers_come_in_their_order() {
    let mut call = Call::new(&in_round(3));
    call.settings.push(0);
    call.schedule.push(0);
    call.record.push(0);
    call.peers.pop();
    call.assert_refused(Refusal::Settings);
    call.settings.pop();
    call.assert_refused(Refusal::Schedule);
    call.schedule.pop();
    call.assert_refused(Refusal::Record);
    call.record.pop();
    call.assert_refused(Refusal::Domain);
    call.record = record(&genesis());
    call.assert_refused(Refusal::Short);
}

#[test]
fn a_set_of_another_length_fails() {
    let mut call = Call::new(&genesis());
    call.schedule = schedule(&[AUTHOR, OTHER]);
    let vset = UninitVset { len: 2, round: ROUND, map: PointMap::Evidence };
    call.assert_verified(Verified::Failed(VerifyError::Fail(vset)));
    assert_eq!(call.peers, [FILL; PEER_BUFFER]);
}

#[test]
fn ill_formed_points() {
    Call::new(&in_round(9)).assert_ill_formed(IllFormedReason::BeforeGenesis);
    Call::new(&false_genesis()).assert_ill_formed(IllFormedReason::FalseGenesis);
    let too_large = IllFormedReason::TooLargePayload { bytes: 70_000 };
    Call::new(&genesis().payload(1, 70_000)).assert_ill_formed(too_large);
    let mut call = Call::new(&genesis());
    call.schedule = schedule(&[OTHER]);
    call.assert_ill_formed(IllFormedReason::UnknownAuthor);
}

#[test]
fn structure_issues() {
    let issues = [
        (genesis().role(PointRole::Regular), StructureIssue::ExpectedGenesis { expected: true }),
        (Point { anchor_time: 999, ..genesis() }, StructureIssue::AnchorTime),
        (genesis().include(AUTHOR, Digest([1; 32])), StructureIssue::BadGenesisPrevPoint),
    ];
    for (point, issue) in issues {
        Call::new(&point).assert_ill_formed(IllFormedReason::Structure(issue));
    }
}

#[test]
fn unknown_peers_stand_at_the_front_of_the_buffer() {
    let unknown = [[1; 32], [2; 32], [250; 32]];
    let point = unknown.iter().fold(genesis(), |point, peer| point.include(PeerId(*peer), Digest([0; 32])));
    let mut call = Call::new(&point);
    let peers = unknown.map(PeerId).to_vec();
    call.assert_ill_formed(IllFormedReason::UnknownPeers { peers, map: PointMap::Includes });
    let (front, rest) = call.peers.split_at(96);
    assert_eq!(front, unknown.as_flattened());
    assert_eq!(rest, [FILL; PEER_BUFFER - 96]);
}
