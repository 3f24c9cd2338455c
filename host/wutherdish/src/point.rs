//! A point as a value.

use std::collections::{BTreeMap, BTreeSet};

use crate::id::{Digest, PeerId, PointId};
use crate::link::{AnchorLink, Through};
use crate::reasons::AnchorStageRole;

/// What a point is in its wave, under the source's names.
#[derive(Clone, Copy, PartialEq, Eq, Debug)]
pub enum PointRole {
    /// Neither proof nor trigger.
    Regular,
    /// Proves the anchor of its author's previous point.
    AnchorProof {
        /// Its place in a row of proofs of one leader.
        seq_no: u8,
        /// Whether it is the last of that row.
        is_last: bool,
    },
    /// Triggers the anchor that its author's previous point proves.
    AnchorTrigger,
    /// The genesis point.
    Genesis,
}

/// A point: what a point record says.
#[derive(Clone, PartialEq, Eq, Debug)]
pub struct Point {
    /// Its id.
    pub id: PointId,
    /// How many messages its payload has.
    pub payload_len: u32,
    /// How many bytes they have.
    pub payload_bytes: u32,
    /// The points of the round before that it includes.
    pub includes: BTreeMap<PeerId, Digest>,
    /// The points of the round before that one that it witnesses.
    pub witness: BTreeMap<PeerId, Digest>,
    /// The peers that signed its author's previous point. Their signatures are not in the record: the host checks them.
    pub evidence: BTreeSet<PeerId>,
    /// Where its anchor proof is found.
    pub anchor_proof: AnchorLink,
    /// Where its anchor trigger is found.
    pub anchor_trigger: AnchorLink,
    /// What it is in its wave.
    pub role: PointRole,
    /// Its time, in milliseconds.
    pub time: u64,
    /// The time of its anchor.
    pub anchor_time: u64,
}

impl Point {
    /// A regular point without payload and dependencies, whose links are direct ones through its author.
    pub fn new(id: PointId, time: u64, anchor_time: u64) -> Self {
        let link = AnchorLink::Direct(Through::Includes(id.author));
        Self {
            id,
            payload_len: 0,
            payload_bytes: 0,
            includes: BTreeMap::new(),
            witness: BTreeMap::new(),
            evidence: BTreeSet::new(),
            anchor_proof: link,
            anchor_trigger: link,
            role: PointRole::Regular,
            time,
            anchor_time,
        }
    }

    /// With a point of the round before.
    pub fn include(mut self, author: PeerId, digest: Digest) -> Self {
        self.includes.insert(author, digest);
        self
    }

    /// With a point of the round before that one.
    pub fn witness(mut self, author: PeerId, digest: Digest) -> Self {
        self.witness.insert(author, digest);
        self
    }

    /// With a peer that signed the author's previous point.
    pub fn evidence(mut self, peer: PeerId) -> Self {
        self.evidence.insert(peer);
        self
    }

    /// With a link.
    pub fn link(mut self, role: AnchorStageRole, link: AnchorLink) -> Self {
        match role {
            AnchorStageRole::Proof => self.anchor_proof = link,
            AnchorStageRole::Trigger => self.anchor_trigger = link,
        }
        self
    }

    /// With a role.
    pub fn role(mut self, role: PointRole) -> Self {
        self.role = role;
        self
    }

    /// With a payload.
    pub fn payload(mut self, len: u32, bytes: u32) -> Self {
        (self.payload_len, self.payload_bytes) = (len, bytes);
        self
    }

    /// Its link of a role.
    pub fn anchor_link(&self, role: AnchorStageRole) -> AnchorLink {
        match role {
            AnchorStageRole::Proof => self.anchor_proof,
            AnchorStageRole::Trigger => self.anchor_trigger,
        }
    }

    /// The digest of its author's previous point, if it includes one. A genesis point includes one that no point has.
    pub fn prev_digest(&self) -> Option<Digest> {
        self.includes.get(&self.id.author).copied()
    }

    /// The points that it includes, of the round before, and those that it witnesses, of the round before that one.
    /// There are none below round 0. For a genesis point this gives its author's previous point, which nobody has.
    pub fn dependencies(&self) -> impl Iterator<Item = PointId> {
        let includes = self.includes.keys().copied().map(Through::Includes);
        let witness = self.witness.keys().copied().map(Through::Witness);
        includes.chain(witness).filter_map(|through| self.through_id(through))
    }

    /// The dependency that a link goes through; none where its map lacks the peer, or below round 0.
    pub fn through_id(&self, through: Through) -> Option<PointId> {
        let (map, rounds) = match through {
            Through::Includes(_) => (&self.includes, 1),
            Through::Witness(_) => (&self.witness, 2),
        };
        let (author, round) = (through.peer(), self.id.round.checked_sub(rounds)?);
        Some(PointId { round, digest: *map.get(&author)?, author })
    }

    /// The dependency that its link of a role goes through.
    pub fn link_source(&self, role: AnchorStageRole) -> Option<PointId> {
        self.through_id(self.anchor_link(role).through())
    }

    /// The point that its link of a role leads to: for a direct one, its source.
    pub fn link_target(&self, role: AnchorStageRole) -> Option<PointId> {
        match self.anchor_link(role) {
            AnchorLink::Direct(through) => self.through_id(through),
            AnchorLink::Indirect(link) => Some(link.to),
        }
    }
}

impl PointRole {
    /// Whether it counts as an anchor of a role: genesis in both, a proof with a seq_no over 0 as a trigger too.
    pub fn is_anchor_stage(self, role: AnchorStageRole) -> bool {
        match self {
            Self::Regular => false,
            Self::AnchorProof { seq_no, .. } => role == AnchorStageRole::Proof || seq_no > 0,
            Self::AnchorTrigger => role == AnchorStageRole::Trigger,
            Self::Genesis => true,
        }
    }
}
