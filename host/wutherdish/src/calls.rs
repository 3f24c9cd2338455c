//! Verifying and judging, with their answers as enums.

use crate::clearing::Clearing;
use crate::fault::{Fault, ROW};
use crate::lent::{self, ANSWER, PEER_BUFFER};
use crate::reasons::{Verdict, Verified};
use crate::refusal::Refusal;

/// Verifies a point by itself, as the source's `BasicVerifier::verify`.
///
/// ```
/// use wutherdish::{Digest, IllFormedReason, PeerId, Point, PointId, Schedule, Settings, Verified, VerifyError, verify};
///
/// let settings = Settings {
///     genesis_round: 11,
///     genesis_digest: Digest([9; 32]),
///     payload_batch_bytes: 1_000,
///     sticky_anchors: 0,
///     clock_skew_millis: 5_000,
///     commit_history_rounds: 20,
/// };
/// let peers = [2, 3, 4, 5].map(|byte| PeerId([byte; 32]));
/// let schedule = Schedule::new(1_000).span(12, peers);
/// let stranger = PointId { round: 20, digest: Digest([10; 32]), author: PeerId([6; 32]) };
/// let point = Point::new(stranger, 70_001, 70_000);
///
/// let verified = verify(&settings.to_bytes(), &schedule.to_bytes()?, &point.to_bytes()?)?;
/// assert_eq!(verified, Verified::Failed(VerifyError::IllFormed(IllFormedReason::UnknownAuthor)));
/// assert_eq!(verified.to_string(), "ill-formed: its author is not among the peers of its round");
/// # Ok::<(), Box<dyn std::error::Error>>(())
/// ```
pub fn verify(settings: &[u8], schedule: &[u8], record: &[u8]) -> Result<Verified, Refusal> {
    answered(Verified::read, |peers, answer| lent::verify(settings, schedule, record, peers, answer))
}

/// Judges a point by a [`List`](crate::List) of its dependencies and what else is looked at, in the order of arrival,
/// as the source's `BasicVerifier::verify` and then `Verifier::validate`. `leader` is 1 if the point's author leads its
/// round, else 0; `presence` says how many of the point's round and the two before it, counted in that order, are in
/// the DAG. [What belongs in the list](crate::List) is only partly tested.
///
/// ```
/// use wutherdish::AnchorStageRole::{Proof, Trigger};
/// use wutherdish::{AnchorLink, Dependency, Digest, List, PeerId, Point, PointId, PointRole, Schedule, Settings, State};
/// use wutherdish::{Through, Verdict, judge};
///
/// let settings = Settings {
///     genesis_round: 11,
///     genesis_digest: Digest([9; 32]),
///     payload_batch_bytes: 1_000,
///     sticky_anchors: 0,
///     clock_skew_millis: 5_000,
///     commit_history_rounds: 20,
/// };
/// let [founder, ada, bea, cy] = [1, 2, 3, 4].map(|byte| PeerId([byte; 32]));
/// let schedule = Schedule::new(1_000).span(11, [founder]).span(12, [ada, bea, cy]).to_bytes()?;
///
/// let id = PointId { round: 11, digest: settings.genesis_digest, author: founder };
/// let genesis = Point::new(id, 70_000, 70_000).include(founder, Digest([0; 32])).role(PointRole::Genesis);
/// let link = AnchorLink::Direct(Through::Includes(founder));
/// let point = Point::new(PointId { round: 12, digest: Digest([10; 32]), author: ada }, 70_001, 70_000)
///     .include(founder, genesis.id.digest)
///     .link(Proof, link)
///     .link(Trigger, link);
///
/// let list = List::new().direct(Dependency::new(State::Valid { record: genesis.to_bytes()? }).first_valid());
/// let (leader, presence) = (0, 3);
/// let verdict = judge(&settings.to_bytes(), &schedule, &point.to_bytes()?, leader, presence, &list.to_bytes()?)?;
/// assert_eq!(verdict, Verdict::Valid);
/// # Ok::<(), Box<dyn std::error::Error>>(())
/// ```
pub fn judge(
    settings: &[u8],
    schedule: &[u8],
    record: &[u8],
    leader: u8,
    presence: u8,
    list: &[u8],
) -> Result<Verdict, Refusal> {
    answered(Verdict::read, |peers, answer| {
        lent::judge(settings, schedule, record, leader, presence, list, peers, answer)
    })
}

/// Judges a point as [`judge`] does, and says every reason that judging set, in the order in which they were set; the verdict has the
/// last of them alone. Only an invalid point has any.
///
/// ```
/// use wutherdish::{Dependency, Digest, List, PeerId, Point, PointId, Schedule, SetBy, Settings, State, judge_with_trail};
/// # use wutherdish::AnchorStageRole::{Proof, Trigger};
/// # use wutherdish::{AnchorLink, PointRole, Through};
///
/// # let settings = Settings {
/// #     genesis_round: 11,
/// #     genesis_digest: Digest([9; 32]),
/// #     payload_batch_bytes: 1_000,
/// #     sticky_anchors: 0,
/// #     clock_skew_millis: 5_000,
/// #     commit_history_rounds: 20,
/// # };
/// # let [founder, ada, bea, cy] = [1, 2, 3, 4].map(|byte| PeerId([byte; 32]));
/// # let schedule = Schedule::new(1_000).span(11, [founder]).span(12, [ada, bea, cy]).to_bytes()?;
/// # let id = PointId { round: 11, digest: settings.genesis_digest, author: founder };
/// # let genesis = Point::new(id, 80_000, 80_000).include(founder, Digest([0; 32])).role(PointRole::Genesis);
/// # let link = AnchorLink::Direct(Through::Includes(founder));
/// # let point = Point::new(PointId { round: 12, digest: Digest([10; 32]), author: ada }, 70_001, 70_000)
/// #     .include(founder, genesis.id.digest)
/// #     .link(Proof, link)
/// #     .link(Trigger, link);
/// // a point above genesis, which is later than it and has another anchor time
/// let list = List::new().direct(Dependency::new(State::Valid { record: genesis.to_bytes()? }));
/// let (settings, record, list) = (settings.to_bytes(), point.to_bytes()?, list.to_bytes()?);
/// let (verdict, faults) = judge_with_trail(&settings, &schedule, &record, 0, 3, &list)?;
/// assert_eq!(verdict.reason_number(), 8);
/// let said: Vec<(SetBy, u8)> = faults.iter().map(|fault| (fault.set_by, fault.reason.0)).collect();
/// assert_eq!(said, [(SetBy::Direct(0), 11), (SetBy::Direct(0), 8)]);
/// assert_eq!(
///     faults[1].to_string(),
///     "direct entry 0: AnchorTimeNotInheritedFromProof (8), its anchor time is not that of a point which its proof link \
///      goes through or leads to"
/// );
/// # Ok::<(), Box<dyn std::error::Error>>(())
/// ```
pub fn judge_with_trail(
    settings: &[u8],
    schedule: &[u8],
    record: &[u8],
    leader: u8,
    presence: u8,
    list: &[u8],
) -> Result<(Verdict, Vec<Fault>), Refusal> {
    // room for all rows, as include/wutherdish.h says: so the point is judged once, and never refused with 15
    let (mut trail, mut rows) = (vec![0; list.len() + ROW], 0);
    let verdict = answered(Verdict::read, |peers, answer| {
        lent::trail(settings, schedule, record, leader, presence, list, peers, &mut trail, &mut rows, answer)
    })?;
    faults(&trail, rows).map(|faults| (verdict, faults)).ok_or(Refusal::Foreign(0))
}

/// Says which certificate would make a point valid that [`judge`] finds trans-invalid with the same list: of which point the certified
/// flag would, alone set wherever that point stands in the list. It gives the numbers that [`judge`] gives.
///
/// ```
/// use wutherdish::{Clearing, Dependency, Digest, List, PeerId, Point, PointId, Schedule, Settings, State, clearing};
/// # use wutherdish::AnchorStageRole::{Proof, Trigger};
/// # use wutherdish::{AnchorLink, PointRole, Through, Verdict, judge};
///
/// # let settings = Settings {
/// #     genesis_round: 11,
/// #     genesis_digest: Digest([9; 32]),
/// #     payload_batch_bytes: 1_000,
/// #     sticky_anchors: 0,
/// #     clock_skew_millis: 5_000,
/// #     commit_history_rounds: 20,
/// # };
/// # let [founder, ada, bea, cy] = [1, 2, 3, 4].map(|byte| PeerId([byte; 32]));
/// # let schedule = Schedule::new(1_000).span(11, [founder]).span(12, [ada, bea, cy]).to_bytes()?;
/// # let id = PointId { round: 11, digest: settings.genesis_digest, author: founder };
/// # let genesis = Point::new(id, 70_000, 70_000).include(founder, Digest([0; 32])).role(PointRole::Genesis);
/// # let link = AnchorLink::Direct(Through::Includes(founder));
/// # let point = Point::new(PointId { round: 12, digest: Digest([10; 32]), author: ada }, 70_001, 70_000)
/// #     .include(founder, genesis.id.digest)
/// #     .link(Proof, link)
/// #     .link(Trigger, link);
/// // a point above genesis, which the host has as invalid
/// let bad = Dependency::new(State::Invalid { record: genesis.to_bytes()?, reason: 8 });
/// let (settings, record) = (settings.to_bytes(), point.to_bytes()?);
/// let waits = clearing(&settings, &schedule, &record, 0, 3, &List::new().direct(bad.clone()).to_bytes()?)?;
/// assert_eq!(waits, Clearing::ClearedBy(genesis.id));
/// assert_eq!(waits.to_string(), "waits for a certificate of the point 09090909.. of round 11 by 01010101..");
///
/// let list = List::new().direct(bad.certified()).to_bytes()?;
/// assert_eq!(clearing(&settings, &schedule, &record, 0, 3, &list)?, Clearing::NotWaiting);
/// # assert_eq!(judge(&settings, &schedule, &record, 0, 3, &list)?, Verdict::Valid);
/// # Ok::<(), Box<dyn std::error::Error>>(())
/// ```
pub fn clearing(
    settings: &[u8],
    schedule: &[u8],
    record: &[u8],
    leader: u8,
    presence: u8,
    list: &[u8],
) -> Result<Clearing, Refusal> {
    let mut answer = [0; 69];
    match lent::clearing(settings, schedule, record, leader, presence, list, &mut answer) {
        0 => Clearing::read(&answer).ok_or(Refusal::Foreign(0)),
        number => Err(Refusal::new(number)),
    }
}

/// Says every reason that some order of the entries gives: of a point and its entries, which its author fixes, the network chooses the
/// order of arrival, that of the direct entries and that of the indirect ones, and judging keeps the last reason. Each reason stands
/// once, by its number and then by the place of the first entry that gives it. One reason alone is what every order gives; without a
/// reason no order makes the point invalid. It gives the numbers that [`judge`] gives.
///
/// ```
/// use wutherdish::{Dependency, Digest, List, PeerId, Point, PointId, Schedule, SetBy, Settings, State, force};
/// # use wutherdish::AnchorStageRole::{Proof, Trigger};
/// # use wutherdish::{AnchorLink, PointRole, Through};
///
/// # let settings = Settings {
/// #     genesis_round: 11,
/// #     genesis_digest: Digest([9; 32]),
/// #     payload_batch_bytes: 1_000,
/// #     sticky_anchors: 0,
/// #     clock_skew_millis: 5_000,
/// #     commit_history_rounds: 20,
/// # };
/// # let [founder, ada, bea, cy] = [1, 2, 3, 4].map(|byte| PeerId([byte; 32]));
/// # let schedule = Schedule::new(1_000).span(11, [founder]).span(12, [ada, bea, cy]).to_bytes()?;
/// # let id = PointId { round: 11, digest: settings.genesis_digest, author: founder };
/// # let genesis = Point::new(id, 80_000, 80_000).include(founder, Digest([0; 32])).role(PointRole::Genesis);
/// # let link = AnchorLink::Direct(Through::Includes(founder));
/// # let point = Point::new(PointId { round: 12, digest: Digest([10; 32]), author: ada }, 70_001, 70_000)
/// #     .include(founder, genesis.id.digest)
/// #     .link(Proof, link)
/// #     .link(Trigger, link);
/// // a point above genesis, which is later than it (11) and has another anchor time (8): one entry gives its last reason
/// let late = Dependency::new(State::Valid { record: genesis.to_bytes()? });
/// let (settings, record) = (settings.to_bytes(), point.to_bytes()?);
/// let forced = force(&settings, &schedule, &record, 0, 3, &List::new().direct(late).to_bytes()?)?;
/// let said: Vec<(SetBy, u8)> = forced.iter().map(|fault| (fault.set_by, fault.reason.0)).collect();
/// assert_eq!(said, [(SetBy::Direct(0), 8)]);
/// # Ok::<(), Box<dyn std::error::Error>>(())
/// ```
pub fn force(
    settings: &[u8],
    schedule: &[u8],
    record: &[u8],
    leader: u8,
    presence: u8,
    list: &[u8],
) -> Result<Vec<Fault>, Refusal> {
    // room for all rows, as include/wutherdish.h says
    let (mut out, mut rows) = (vec![0; list.len() + ROW], 0);
    match lent::force(settings, schedule, record, leader, presence, list, &mut out, &mut rows) {
        0 => faults(&out, rows).ok_or(Refusal::Foreign(0)),
        number => Err(Refusal::new(number)),
    }
}

/// What so many rows say.
fn faults(rows: &[u8], count: u32) -> Option<Vec<Fault>> {
    let rows = rows.as_chunks::<ROW>().0.get(..count.try_into().ok()?)?;
    rows.iter().map(Fault::read).collect()
}

/// Lends a call its peer buffer and its answer, and reads what it says.
pub(crate) fn answered<A>(
    read: fn(&[u8; ANSWER], &[u8]) -> Option<A>,
    call: impl FnOnce(&mut [u8], &mut [u8; ANSWER]) -> u8,
) -> Result<A, Refusal> {
    let mut peers = [0; PEER_BUFFER];
    let mut answer = [0; ANSWER];
    match call(&mut peers, &mut answer) {
        0 => read(&answer, &peers).ok_or(Refusal::Foreign(0)),
        number => Err(Refusal::new(number)),
    }
}
