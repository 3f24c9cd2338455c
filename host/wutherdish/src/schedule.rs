//! Which peers take part in which rounds.

use std::collections::BTreeSet;

use crate::build_error::{BuildError, MOST_SPANS};
use crate::field::{Content, Fields, Unreadable, field, field_of_rows, whole};
use crate::id::PeerId;

/// The peers from a round on.
#[derive(Clone, PartialEq, Eq, Debug)]
pub struct Span {
    /// The first round of the span; it lasts until the next one begins.
    pub first_round: u32,
    /// The peers, in any order; they are written rising.
    pub peers: BTreeSet<PeerId>,
}

/// A schedule of one to four spans.
#[derive(Clone, PartialEq, Eq, Debug)]
pub struct Schedule {
    /// The spans, in any order; they are written by rising round.
    pub spans: Vec<Span>,
    /// The last round whose peers are known.
    pub last_known_round: u32,
}

impl Schedule {
    /// A schedule without spans: add them with [`Schedule::span`].
    pub fn new(last_known_round: u32) -> Self {
        Self { spans: Vec::new(), last_known_round }
    }

    /// With the peers from a round on.
    pub fn span(mut self, first_round: u32, peers: impl IntoIterator<Item = PeerId>) -> Self {
        self.spans.push(Span { first_round, peers: peers.into_iter().collect() });
        self
    }

    /// Document 01's bytes.
    pub fn to_bytes(&self) -> Result<Vec<u8>, BuildError> {
        if self.spans.is_empty() || self.spans.len() > MOST_SPANS {
            return Err(BuildError::Spans { len: self.spans.len() });
        }
        let mut spans: Vec<&Span> = self.spans.iter().collect();
        spans.sort_by_key(|span| span.first_round);
        let mut bytes = Vec::new();
        let mut before = None;
        for Span { first_round, peers } in spans {
            let first_round = *first_round;
            if before.replace(first_round) == Some(first_round) {
                return Err(BuildError::SpanTwice { first_round });
            }
            let rows: Vec<[u8; 32]> = peers.iter().map(|peer| peer.0).collect();
            let span = field_of_rows(34, first_round.to_le_bytes(), &rows);
            bytes.extend(span.map_err(|len| BuildError::Span { first_round, len })?);
        }
        bytes.extend(field(35, self.last_known_round.to_le_bytes()));
        Ok(bytes)
    }

    /// The schedule at the front of some bytes, and the rest.
    pub fn read(bytes: &[u8]) -> Result<(Self, &[u8]), Unreadable> {
        let mut fields = Fields::new(bytes);
        let mut spans: Vec<Span> = Vec::new();
        while spans.is_empty() || fields.tag() == Some(34) {
            let span = fields.read(34, SPAN, |content| {
                let first_round = content.u32()?;
                let rises = spans.last().is_none_or(|last| last.first_round < first_round);
                let peers = rising_peers(content)?;
                (rises && spans.len() < MOST_SPANS).then_some(Span { first_round, peers })
            })?;
            spans.push(span);
        }
        let last_known_round = fields.read(35, "the last known round, tag 35 with 4 bytes", Content::u32)?;
        Ok((Self { spans, last_known_round }, fields.rest()))
    }
}

const SPAN: &str = "one of at most four spans, tag 34, by rising first rounds, each of at most 255 peers, rising";

/// A schedule with nothing after it.
impl TryFrom<&[u8]> for Schedule {
    type Error = Unreadable;

    fn try_from(bytes: &[u8]) -> Result<Self, Unreadable> {
        whole(bytes, Self::read(bytes)?)
    }
}

/// The peers of a set, which rise strictly.
pub(crate) fn rising_peers(content: &mut Content<'_>) -> Option<BTreeSet<PeerId>> {
    let rows = content.rows()?;
    rows.is_sorted_by(|x, y| x < y).then(|| rows.iter().copied().map(PeerId).collect())
}
