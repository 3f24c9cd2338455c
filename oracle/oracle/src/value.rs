//! What document 01's bytes mean.

pub type Peer = [u8; 32];
pub type Digest = [u8; 32];

#[derive(Clone, Copy, PartialEq, Eq, Hash, Debug)]
pub struct Id {
    pub round: u32,
    pub digest: Digest,
    pub author: Peer,
}

/// The map that a link goes through.
#[derive(Clone, Copy, PartialEq, Eq, Debug)]
pub enum Through {
    Includes,
    Witness,
}

/// A direct link has no target of its own: its source is its target.
#[derive(Clone, Copy, PartialEq, Eq, Debug)]
pub struct AnchorLink {
    pub through: Through,
    pub peer: Peer,
    pub to: Option<Id>,
}

#[derive(Clone, Copy, PartialEq, Eq, Debug)]
pub enum PointRole {
    Regular,
    AnchorProof { seq_no: u8, is_last: bool },
    AnchorTrigger,
    Genesis,
}

#[derive(Clone, Copy, PartialEq, Eq, Debug)]
pub enum AnchorStageRole {
    Proof,
    Trigger,
}

impl AnchorStageRole {
    pub const ALL: [Self; 2] = [Self::Proof, Self::Trigger];
}

#[derive(Clone, PartialEq, Eq, Debug)]
pub struct Point {
    pub id: Id,
    pub payload_len: u32,
    pub payload_bytes: u32,
    pub includes: Vec<(Peer, Digest)>,
    pub witness: Vec<(Peer, Digest)>,
    pub evidence: Vec<Peer>,
    pub anchor_proof: AnchorLink,
    pub anchor_trigger: AnchorLink,
    pub role: PointRole,
    pub time: u64,
    pub anchor_time: u64,
}

#[derive(Clone, PartialEq, Eq, Debug)]
pub struct Settings {
    pub genesis_round: u32,
    pub genesis_digest: Digest,
    pub payload_batch_bytes: u32,
    pub sticky_anchors: u8,
    pub clock_skew_millis: u16,
    pub commit_history_rounds: u8,
}

#[derive(Clone, PartialEq, Eq, Debug)]
pub struct Span {
    pub first: u32,
    pub peers: Vec<Peer>,
}

#[derive(Clone, PartialEq, Eq, Debug)]
pub struct Schedule {
    pub spans: Vec<Span>,
    pub last_known: u32,
}

/// One dependency as the list gives it. `indirect` is the role of the link whose target it is.
#[derive(Clone, PartialEq, Eq, Debug)]
pub struct Entry {
    pub indirect: Option<AnchorStageRole>,
    pub certified: bool,
    pub first_valid: bool,
    pub state: State,
}

#[derive(Clone, PartialEq, Eq, Debug)]
pub enum State {
    Valid(Point),
    TransInvalid(Point, Id, u8),
    Invalid(Point, u8),
    IllFormed(Id, u8),
    NotFound(Id),
    Dropped,
}

impl State {
    pub fn id(&self) -> Option<&Id> {
        match self {
            Self::IllFormed(id, _) | Self::NotFound(id) => Some(id),
            Self::Dropped => None,
            _ => self.point().map(|point| &point.id),
        }
    }

    pub fn point(&self) -> Option<&Point> {
        match self {
            Self::Valid(point) | Self::TransInvalid(point, _, _) | Self::Invalid(point, _) => Some(point),
            Self::IllFormed(..) | Self::NotFound(_) | Self::Dropped => None,
        }
    }
}

impl Point {
    /// A genesis point: its author alone is in its includes, and its links lead to itself.
    pub fn genesis(id: Id, time: u64) -> Self {
        let own = AnchorLink { through: Through::Includes, peer: id.author, to: None };
        Self {
            id,
            payload_len: 0,
            payload_bytes: 0,
            includes: vec![(id.author, [0; 32])],
            witness: Vec::new(),
            evidence: Vec::new(),
            anchor_proof: own,
            anchor_trigger: own,
            role: PointRole::Genesis,
            time,
            anchor_time: time,
        }
    }

    pub fn link(&self, role: AnchorStageRole) -> &AnchorLink {
        match role {
            AnchorStageRole::Proof => &self.anchor_proof,
            AnchorStageRole::Trigger => &self.anchor_trigger,
        }
    }

    pub fn map(&self, through: Through) -> &[(Peer, Digest)] {
        match through {
            Through::Includes => &self.includes,
            Through::Witness => &self.witness,
        }
    }

    pub fn prev_digest(&self) -> Option<&Digest> {
        find(&self.includes, &self.id.author)
    }

    /// The ids that a map's pairs stand for.
    pub fn dependencies(&self, through: Through) -> impl Iterator<Item = Id> + '_ {
        let round = self.id.round - back(through);
        self.map(through).iter().map(move |&(author, digest)| Id { round, digest, author })
    }
}

/// How many rounds before its point a map's points lie.
pub fn back(through: Through) -> u32 {
    match through {
        Through::Includes => 1,
        Through::Witness => 2,
    }
}

/// The digest beside a peer in a rising map.
pub fn find<'a>(map: &'a [(Peer, Digest)], peer: &Peer) -> Option<&'a Digest> {
    let place = map.binary_search_by(|(other, _)| other.cmp(peer)).ok()?;
    Some(&map[place].1)
}

impl Schedule {
    /// The place of the span that a round belongs to.
    pub fn span(&self, round: u32) -> Option<usize> {
        if round > self.last_known {
            return None;
        }
        self.spans.iter().rposition(|span| span.first <= round)
    }

    pub fn peers(&self, round: u32) -> &[Peer] {
        self.span(round).map_or(&[], |place| &self.spans[place].peers)
    }
}
