//! What makes a point invalid, by the rules of `validate`, `check_valid`, `is_proof_ok` and `check_indirect_links`.

use std::fmt::{self, Display, Formatter};

use super::Part;
use crate::invalid::InvalidReason;
use crate::names::{IllFormedNumber, InvalidNumber};
use crate::reasons::PointMap;

impl Display for InvalidReason {
    fn fmt(&self, f: &mut Formatter<'_>) -> fmt::Result {
        let mut sentence = InvalidNumber(self.number()).sentence().to_string();
        if let Some(id) = self.id() {
            sentence = sentence.replace("{point}", &Part(&id, f.alternate()).to_string());
        }
        match self {
            Self::NoRoundInDag { map } => f.write_str(match map {
                PointMap::Evidence => "its own round is not in the DAG",
                PointMap::Includes => "the round of its includes, one before its own, is not in the DAG",
                PointMap::Witness => "the round of its witness, two before its own, is not in the DAG",
            }),
            Self::NewerAnchorInDependency { role, .. }
            | Self::AnchorLink { role, .. }
            | Self::AnchorLinkRole { role, .. }
            | Self::AnchorLinkBadPath { role, .. } => f.write_str(&sentence.replace("{role}", &role.to_string())),
            Self::BadStickySequence { prev_seq_no: Some(previous), seq_no, .. } => {
                write!(f, "{sentence}: {seq_no} after {previous}")
            }
            Self::BadStickySequence { prev_seq_no: None, seq_no, .. } => {
                write!(f, "{sentence}: {seq_no} after a point that has none")
            }
            Self::TriggerProofMismatch { is_target, .. } => {
                f.write_str(&sentence.replace("{way}", if *is_target { "leads to" } else { "goes through" }))
            }
            Self::DepIllFormed { reason, .. } => write!(f, "{sentence}: {}", IllFormedNumber(*reason)),
            _ => f.write_str(&sentence),
        }
    }
}
