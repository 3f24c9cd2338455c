//! One entry: a point record and tag 33.

use oracle::answer::{FAIL, ILL_FORMED, INCLUDES, INVALID, TRANS_INVALID, VALID};
use oracle::numbers::{in_domain, names_its_peers, round_in_domain};
use oracle::value::{Id, Peer, Point, Through};
use oracle::{Verdict, read, write};

use crate::Mistake;

/// The tag of what stands after an entry's record, and the length of its content.
const TAG: u8 = 33;
const CONTENT: usize = 105;
/// What an entry has beside its record: tag, length and content.
pub const BESIDE_RECORD: usize = 3 + CONTENT;

#[derive(Clone, PartialEq, Eq, Debug)]
pub struct Entry {
    pub record: Vec<u8>,
    /// The record's.
    pub id: Id,
    pub certified: bool,
    pub state: State,
}

/// States 0 to 3.
#[derive(Clone, PartialEq, Eq, Debug)]
pub enum State {
    Valid,
    TransInvalid(Root),
    /// With the reason's number, as the next one.
    Invalid(u8),
    IllFormed(u8),
}

/// A root cause with its reason's number, and the map and the peer that it came through.
#[derive(Clone, PartialEq, Eq, Debug)]
pub struct Root {
    pub id: Id,
    pub reason: u8,
    pub through: Through,
    pub peer: Peer,
}

impl State {
    /// What a verdict keeps; none of Fail.
    pub fn of_verdict(verdict: &Verdict) -> Option<Self> {
        Some(match verdict.kind {
            VALID => Self::Valid,
            TRANS_INVALID => Self::TransInvalid(Root {
                id: verdict.id.expect("trans-invalid names its root"),
                reason: verdict.root_reason,
                through: if verdict.map == INCLUDES { Through::Includes } else { Through::Witness },
                peer: verdict.peer.expect("trans-invalid names the peer it came through"),
            }),
            INVALID => Self::Invalid(verdict.reason),
            ILL_FORMED => Self::IllFormed(verdict.reason),
            FAIL => return None,
            kind => unreachable!("judging gives no verdict of kind {kind}"),
        })
    }

    /// The state's number and its reason's.
    pub fn numbers(&self) -> (u8, u8) {
        match self {
            Self::Valid => (0, 0),
            Self::TransInvalid(_) => (1, 0),
            Self::Invalid(reason) => (2, *reason),
            Self::IllFormed(reason) => (3, *reason),
        }
    }

    fn read(state: u8, reason: u8, root: &[u8; 102], mistake: Option<Mistake>) -> Option<Self> {
        let any_reason = mistake == Some(Mistake::AnyReason);
        if state == 1 {
            return Root::read(root, mistake).filter(|_| reason == 0 || any_reason).map(Self::TransInvalid);
        }
        if *root != [0; 102] && mistake != Some(Mistake::AnyRoot) {
            return None;
        }
        match (state, reason) {
            (0, reason) if reason == 0 || any_reason => Some(Self::Valid),
            (2, reason) if (1..=20).contains(&reason) || any_reason => Some(Self::Invalid(reason)),
            (3, reason) if (1..=16).contains(&reason) || any_reason => Some(Self::IllFormed(reason)),
            _ => None,
        }
    }
}

impl Root {
    fn bytes(&self) -> [u8; 102] {
        let mut out = [0; 102];
        out[..68].copy_from_slice(&write::id(&self.id));
        out[68] = self.reason;
        out[69] = u8::from(self.through == Through::Witness);
        out[70..].copy_from_slice(&self.peer);
        out
    }

    fn read(bytes: &[u8; 102], mistake: Option<Mistake>) -> Option<Self> {
        let (id, rest) = bytes.split_first_chunk()?;
        let (&[reason, through], peer) = rest.split_first_chunk()?;
        let id = read::id(id);
        let through = match through {
            0 => Through::Includes,
            1 => Through::Witness,
            _ => return None,
        };
        let root = Self { id, reason, through, peer: peer.try_into().ok()? };
        let in_domain = round_in_domain(id.round) || mistake == Some(Mistake::AnyRootRound);
        let known_reason = (1..=20).contains(&reason) || mistake == Some(Mistake::AnyReason);
        (in_domain && known_reason).then_some(root)
    }
}

impl Entry {
    pub fn length(&self) -> usize {
        self.record.len() + BESIDE_RECORD
    }

    pub fn write(&self, out: &mut Vec<u8>) {
        let (state, reason) = self.state.numbers();
        let root = match &self.state {
            State::TransInvalid(root) => root.bytes(),
            _ => [0; 102],
        };
        out.extend_from_slice(&self.record);
        write::field(out, TAG, &[&[state, u8::from(self.certified), reason][..], &root].concat());
    }

    /// An entry at the front of the bytes, in the domain, and what stands after it.
    pub fn read(bytes: &[u8], mistake: Option<Mistake>) -> Option<(Self, &[u8])> {
        let (point, after) = read::record_front(bytes)?;
        let record = bytes[..bytes.len() - after.len()].to_vec();
        let (head, rest) = after.split_first_chunk()?;
        if *head != [TAG, CONTENT as u8, 0] {
            return None;
        }
        let (&[state, certified, reason], rest) = rest.split_first_chunk()?;
        let (root, rest) = rest.split_first_chunk()?;
        let state = State::read(state, reason, root, mistake)?;
        let entry = Self { record, id: point.id, certified: certified == 1, state };
        (certified <= 1 && entry.in_domain(&point, mistake)).then_some((entry, rest))
    }

    fn in_domain(&self, point: &Point, mistake: Option<Mistake>) -> bool {
        let needs_peers = match self.state {
            State::IllFormed(_) => mistake == Some(Mistake::IllFormedLink),
            _ => mistake != Some(Mistake::AnyLink),
        };
        (in_domain(point) || mistake == Some(Mistake::AnyDomain)) && (!needs_peers || names_its_peers(point))
    }
}
