//! What makes a point ill-formed, by the rules of `BasicVerifierInner`, `check_structure` and `check_ill_formed`.

use std::fmt::{self, Display, Formatter};

use super::Part;
use crate::id::PeerId;
use crate::names::IllFormedNumber;
use crate::reasons::{IllFormedReason, PointMap, StructureIssue};

/// How many unknown peers are named.
const NAMED: usize = 8;

impl Display for IllFormedReason {
    fn fmt(&self, f: &mut Formatter<'_>) -> fmt::Result {
        let sentence = IllFormedNumber(self.number()).sentence();
        match self {
            Self::TooLargePayload { bytes } => write!(f, "{sentence}: {bytes} bytes"),
            Self::Structure(issue) => issue.fmt(f),
            Self::TooManyStickyAnchors { seq_no } => write!(f, "{sentence}: {seq_no}"),
            Self::MustBeEmpty { map } => f.write_str(&filled(sentence, *map)),
            Self::UnknownPeers { peers, map } => {
                write!(f, "{}: ", filled(sentence, *map))?;
                name_some(f, peers)
            }
            Self::UnknownPeerInAnchorLink { role } => f.write_str(&sentence.replace("{role}", &role.to_string())),
            Self::LackOfPeers { len, peer_count, map } => {
                let needed = match map {
                    PointMap::Evidence => peer_count.majority_of_others(),
                    PointMap::Includes | PointMap::Witness => peer_count.majority(),
                };
                write!(f, "{}: {len}, and with F = {} it needs {needed}", filled(sentence, *map), peer_count.0)
            }
            Self::BadWaveLink { is_leader: true } => f.write_str(
                "its author leads the round, and it is regular although its proof link is indirect and 4 or more \
                 rounds long, or a proof with seq_no 0 although that link is not",
            ),
            Self::BadWaveLink { is_leader: false } => {
                f.write_str("it is a proof with seq_no 0, but its author does not lead the round")
            }
            _ => f.write_str(sentence),
        }
    }
}

fn filled(sentence: &str, map: PointMap) -> String {
    sentence.replace("{map}", &map.to_string())
}

/// The first peers, and how many more there are.
fn name_some(f: &mut Formatter<'_>, peers: &[PeerId]) -> fmt::Result {
    for (place, peer) in peers.iter().take(NAMED).enumerate() {
        let comma = if place > 0 { ", " } else { "" };
        write!(f, "{comma}{}", Part(peer, f.alternate()))?;
    }
    match peers.len().saturating_sub(NAMED) {
        0 => Ok(()),
        more => write!(f, " and {more} more"),
    }
}

impl Display for StructureIssue {
    fn fmt(&self, f: &mut Formatter<'_>) -> fmt::Result {
        match self {
            Self::ExpectedGenesis { expected: true } => {
                f.write_str("it is of the genesis round, but its role is not genesis")
            }
            Self::ExpectedGenesis { expected: false } => {
                f.write_str("its role is genesis, but it is not of the genesis round")
            }
            Self::BadGenesisPrevPoint => f.write_str(
                "it is genesis, but doesn't include its author with a digest of zeros, or a link of it is not direct \
                 through that",
            ),
            Self::AuthorInMap { map: PointMap::Includes } => f.write_str(
                "it includes its author's previous point without evidence, or has evidence without including that",
            ),
            Self::AuthorInMap { map } => write!(f, "its author is in its {map}"),
            Self::TriggerBadProofLink => f.write_str(
                "it is a trigger or a proof with a seq_no over 0, but its proof link is not a direct one to its \
                 previous point",
            ),
            Self::Link { role, map } => {
                write!(f, "its {role} link goes through a peer that is not in its {map}, ")?;
                write!(f, "or leads to a point that is not older than its {map}")
            }
            Self::AnchorTime => f.write_str("its time is not after its anchor time, or at genesis not the same"),
            Self::NoPrevPoint => f.write_str("it is a proof or a trigger and includes no previous point of its author"),
        }
    }
}
