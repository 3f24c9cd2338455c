//! The calls that a case makes.

use wutherdish::lent::{self, ANSWER};
use wutherdish::{
    Clearing, Digest, FaultOf, PeerId, Point, PointId, PointRole, Refusal, Verdict, Verified, VerifyError,
};

use crate::arrangement::Arrangement;
use crate::judging::{Asked, Judging};

/// No call writes more to what it is lent, rows aside: the longest record.
const MOST_ROOM: usize = 41_126;

/// A call, with what it is lent but for what it writes to.
pub enum Call<'a> {
    /// Verifying.
    Verify(Network<'a>),
    /// Judging, with a trail or without.
    Judge(Judging<'a>, Asked),
    /// Asking which certificate clears a point.
    Clear(Judging<'a>),
    /// Asking what the network can force.
    Force(Judging<'a>),
    /// Converting a record to this arrangement.
    Convert(Arrangement, &'a [u8]),
    /// Writing.
    Write(Parts<'a>),
}

/// Settings, schedule and a record.
pub struct Network<'a> {
    pub settings: &'a [u8],
    pub schedule: &'a [u8],
    pub record: &'a [u8],
}

/// A point, as it is handed over to be written.
pub struct Parts<'a> {
    id: &'a [u8; 68],
    payload: &'a [u8; 8],
    /// Includes, witness and evidence.
    maps: [&'a [u8]; 3],
    proof: &'a [u8; 102],
    trigger: &'a [u8; 102],
    role: &'a [u8; 3],
    times: &'a [u8; 16],
}

/// What a call answers.
pub enum Answer {
    /// The point passed verification.
    Passed,
    /// A verdict; verifying gives some of them.
    Verdict(Verdict),
    /// A verdict by a list, and what else is said of it.
    Judged(Verdict, Said),
    /// What the point waits for.
    Clearing(Clearing),
    /// The reasons that some order of the entries gives.
    Forced(Vec<FaultOf>),
    /// The record was converted.
    Converted,
    /// The record was written.
    Written,
}

/// What is said of a verdict.
pub struct Said {
    /// All faults that judging found; none where it was not lent a trail.
    pub faults: Vec<FaultOf>,
    /// What a trans-invalid point waits for.
    pub clearing: Option<Clearing>,
    /// The reasons that some order of the entries gives, if they are asked for.
    pub forced: Option<Vec<FaultOf>>,
}

impl From<Verified> for Answer {
    fn from(verified: Verified) -> Self {
        match verified {
            Verified::Passed => Self::Passed,
            Verified::Failed(VerifyError::Fail(vset)) => Self::Verdict(Verdict::Fail(vset)),
            Verified::Failed(VerifyError::IllFormed(reason)) => Self::Verdict(Verdict::IllFormed(reason)),
        }
    }
}

impl<'a> Call<'a> {
    /// The call of a kind with these blobs, which may end in an answer; the length of what it writes to.
    pub fn read(kind: u8, blobs: &[&'a [u8]]) -> Option<(Self, &'a [u8])> {
        Some(match (kind, blobs) {
            (1, &[settings, schedule, record, room] | &[settings, schedule, record, room, _]) => {
                (Self::Verify(Network { settings, schedule, record }), room)
            }
            (2, [parts @ .., room] | [parts @ .., room, _]) if parts.len() == 5 => {
                (Self::Judge(Judging::read(parts)?, Asked::default()), room)
            }
            (16, [parts @ .., room] | [parts @ .., room, _]) if parts.len() == 9 => {
                (Self::Write(Parts::read(parts)?), room)
            }
            (17, &[&[0], record, room] | &[&[0], record, room, _]) => {
                (Self::Convert(Arrangement::Columns, record), room)
            }
            (17, &[&[1], record, room] | &[&[1], record, room, _]) => (Self::Convert(Arrangement::Pairs, record), room),
            (18, [parts @ .., room, trail] | [parts @ .., room, trail, _]) if parts.len() == 5 => {
                let length = u32::from_le_bytes((*trail).try_into().ok()?);
                (Self::Judge(Judging::read(parts)?, Asked { trail: Some(length.try_into().ok()?), force: false }), room)
            }
            (19, [parts @ .., room] | [parts @ .., room, _]) if parts.len() == 5 => {
                (Self::Force(Judging::read(parts)?), room)
            }
            // its answer is all that it writes
            (20, parts | [parts @ .., _]) if parts.len() == 5 => (Self::Clear(Judging::read(parts)?), &[0; 4]),
            _ => return None,
        })
    }

    /// Asks for more than its case does, if it judges: for all faults, and for what the network can force.
    pub fn ask(&mut self, for_trail: bool, for_force: bool) {
        if let Self::Judge(_, Asked { trail, force }) = self {
            // one that is long enough, if its case has none
            *trail = trail.or(for_trail.then_some(usize::MAX));
            *force = for_force;
        }
    }

    /// The bytes of its list; none where it takes none.
    pub fn list(&self) -> &'a [u8] {
        match self {
            Self::Judge(judging, _) | Self::Clear(judging) | Self::Force(judging) => judging.list,
            Self::Verify(_) | Self::Convert(..) | Self::Write(_) => &[],
        }
    }

    /// What its record says, if that can be read; of one that is to be written, id and role.
    pub fn point(&self) -> Option<Point> {
        let (arrangement, record) = match self {
            Self::Verify(network) => (Arrangement::Columns, network.record),
            Self::Judge(judging, _) | Self::Clear(judging) | Self::Force(judging) => {
                (Arrangement::Columns, judging.network.record)
            }
            Self::Convert(to, record) => (to.other(), *record),
            Self::Write(parts) => return parts.point(),
        };
        arrangement.reader()(record).ok().filter(|(_, rest)| rest.is_empty()).map(|(point, _)| point)
    }

    /// Makes the call with this many bytes for unknown peers, for rows or for a record.
    pub fn answer(&self, length: usize) -> Result<Answer, Refusal> {
        // more of them make no difference, and a case may name 4 GiB
        let mut room = vec![0; length.min(MOST_ROOM)];
        match self {
            Self::Verify(network) => network.verify(&mut room),
            Self::Judge(judging, asked) => judging.judge(&mut room, *asked),
            Self::Clear(judging) => judging.clearing().map(Answer::Clearing),
            Self::Force(judging) => judging.forced(length).map(Answer::Forced),
            Self::Convert(Arrangement::Columns, record) => {
                answered(lent::pairs_to_columns(record, &mut room, &mut 0), || Some(Answer::Converted))
            }
            Self::Convert(Arrangement::Pairs, record) => {
                answered(lent::columns_to_pairs(record, &mut room, &mut 0), || Some(Answer::Converted))
            }
            Self::Write(parts) => answered(parts.write(&mut room), || Some(Answer::Written)),
        }
    }
}

/// What a call answers that gave a number, 0 for none.
pub fn answered<A>(number: u8, read: impl FnOnce() -> Option<A>) -> Result<A, Refusal> {
    match number {
        0 => read().ok_or(Refusal::Foreign(0)),
        number => Err(Refusal::new(number)),
    }
}

impl Network<'_> {
    fn verify(&self, peers: &mut [u8]) -> Result<Answer, Refusal> {
        let mut answer = [0; ANSWER];
        let number = lent::verify(self.settings, self.schedule, self.record, peers, &mut answer);
        answered(number, || Verified::read(&answer, peers).map(Answer::from))
    }
}

impl<'a> Parts<'a> {
    fn read(blobs: &[&'a [u8]]) -> Option<Self> {
        let &[id, payload, includes, witness, evidence, proof, trigger, role, times] = blobs else { return None };
        Some(Self {
            id: id.try_into().ok()?,
            payload: payload.try_into().ok()?,
            maps: [includes, witness, evidence],
            proof: proof.try_into().ok()?,
            trigger: trigger.try_into().ok()?,
            role: role.try_into().ok()?,
            times: times.try_into().ok()?,
        })
    }

    /// A point with its id and role; none where it has another role than there are.
    fn point(&self) -> Option<Point> {
        let (round, rest) = self.id.split_first_chunk()?;
        let (digest, author) = rest.split_first_chunk()?;
        let author = PeerId(author.try_into().ok()?);
        let id = PointId { round: u32::from_le_bytes(*round), digest: Digest(*digest), author };
        let role = match *self.role {
            [0, ..] => PointRole::Regular,
            [1, seq_no, is_last @ (0 | 1)] => PointRole::AnchorProof { seq_no, is_last: is_last == 1 },
            [2, ..] => PointRole::AnchorTrigger,
            [3, ..] => PointRole::Genesis,
            _ => return None,
        };
        Some(Point::new(id, 0, 0).role(role))
    }

    fn write(&self, out: &mut [u8]) -> u8 {
        let [includes, witness, evidence] = self.maps;
        let [payload_len, payload_bytes] = halves(self.payload).map(u32::from_le_bytes);
        let [time, anchor_time] = halves(self.times).map(u64::from_le_bytes);
        let &[role, seq_no, is_last] = self.role;
        lent::write(
            self.id,
            payload_len,
            payload_bytes,
            includes,
            witness,
            evidence,
            self.proof,
            self.trigger,
            role,
            seq_no,
            is_last,
            time,
            anchor_time,
            out,
            &mut 0,
        )
    }
}

/// The first half of some bytes, and the second.
fn halves<const N: usize>(bytes: &[u8]) -> [[u8; N]; 2] {
    std::array::from_fn(|half| std::array::from_fn(|place| bytes[N * half + place]))
}
