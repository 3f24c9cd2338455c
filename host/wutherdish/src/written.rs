//! A point's record, written by the library.

use std::collections::BTreeMap;

use crate::build_error::{BuildError, MOST_PEERS};
use crate::field::join;
use crate::id::{Digest, PeerId};
use crate::lent;
use crate::link::{AnchorLink, Through};
use crate::point::{Point, PointRole};
use crate::reasons::PointMap;
use crate::refusal::Refusal;

/// What a record has besides its maps, at most: with two indirect links and a proof's role.
const BESIDE_MAPS: usize = 326;
/// Where the round and the times stand, from the front and from the end of a record.
const ROUND: usize = 3;
const TIMES: usize = 16;
/// The least round that the call takes.
const LEAST_ROUND: u32 = 4;

impl Point {
    /// Document 01's point record. Whether the point is well formed is not tested: a drill may need one that is not.
    ///
    /// # Panics
    ///
    /// Where the linked library is of another ABI, which [`check_version`](crate::check_version) tells.
    pub fn to_bytes(&self) -> Result<Vec<u8>, BuildError> {
        let includes = columns(PointMap::Includes, &self.includes)?;
        let witness = columns(PointMap::Witness, &self.witness)?;
        let evidence: Vec<[u8; 32]> = self.evidence.iter().map(|peer| peer.0).collect();
        fits(PointMap::Evidence, evidence.len())?;
        let parts = Parts {
            point: self,
            id: self.id.to_bytes(),
            includes: includes.as_flattened(),
            witness: witness.as_flattened(),
            evidence: evidence.as_flattened(),
            time: self.time,
            anchor_time: self.anchor_time,
        };
        let record = parts.written().or_else(|_| parts.written_outside());
        Ok(record.expect("a library of this ABI writes maps of up to 255 peers, none twice"))
    }
}

/// A point as the call takes it.
#[derive(Clone, Copy)]
struct Parts<'a> {
    /// Of which payload, links and role are taken.
    point: &'a Point,
    id: [u8; 68],
    includes: &'a [u8],
    witness: &'a [u8],
    evidence: &'a [u8],
    time: u64,
    anchor_time: u64,
}

impl Parts<'_> {
    /// The record.
    fn written(&self) -> Result<Vec<u8>, Refusal> {
        let [role, seq_no, is_last] = role(self.point.role);
        let maps = self.includes.len() + self.witness.len() + self.evidence.len();
        let (mut out, mut written) = (vec![0; maps + BESIDE_MAPS], 0);
        let number = lent::write(
            &self.id,
            self.point.payload_len,
            self.point.payload_bytes,
            self.includes,
            self.witness,
            self.evidence,
            &link(self.point.anchor_proof),
            &link(self.point.anchor_trigger),
            role,
            seq_no,
            is_last,
            self.time,
            self.anchor_time,
            &mut out,
            &mut written,
        );
        out.truncate(written as usize);
        if number == 0 { Ok(out) } else { Err(Refusal::new(number)) }
    }

    /// The record of a point whose round or times the call refuses with 4: drills of that number need it. It is written with a
    /// round and times that the call takes, and then the point's own are put in their places.
    fn written_outside(&self) -> Result<Vec<u8>, Refusal> {
        let mut id = self.id;
        id[..4].copy_from_slice(&LEAST_ROUND.to_le_bytes());
        let mut record = Self { id, time: 0, anchor_time: 0, ..*self }.written()?;
        let times: [u8; TIMES] = join(self.time.to_le_bytes(), self.anchor_time.to_le_bytes());
        let end = record.len();
        record[ROUND..ROUND + 4].copy_from_slice(&self.id[..4]);
        record[end - TIMES..].copy_from_slice(&times);
        Ok(record)
    }
}

/// All peers, and then all digests.
fn columns(map: PointMap, pairs: &BTreeMap<PeerId, Digest>) -> Result<Vec<[u8; 32]>, BuildError> {
    fits(map, pairs.len())?;
    let peers = pairs.keys().map(|peer| peer.0);
    Ok(peers.chain(pairs.values().map(|digest| digest.0)).collect())
}

fn fits(map: PointMap, len: usize) -> Result<(), BuildError> {
    if len <= MOST_PEERS { Ok(()) } else { Err(BuildError::Map { map, len }) }
}

/// Kind, map, peer and target, of which a direct link has zeros: it is not read.
fn link(link: AnchorLink) -> [u8; 102] {
    let (map, peer) = match link.through() {
        Through::Includes(peer) => (0, peer.0),
        Through::Witness(peer) => (1, peer.0),
    };
    let (kind, target) = match link {
        AnchorLink::Direct(_) => (0, [0; 68]),
        AnchorLink::Indirect(link) => (1, link.to.to_bytes()),
    };
    join(join::<2, 32, 34>([kind, map], peer), target)
}

/// Kind, seq_no and is_last, of which the last two are read of a proof alone.
fn role(role: PointRole) -> [u8; 3] {
    match role {
        PointRole::Regular => [0; 3],
        PointRole::AnchorProof { seq_no, is_last } => [1, seq_no, u8::from(is_last)],
        PointRole::AnchorTrigger => [2, 0, 0],
        PointRole::Genesis => [3, 0, 0],
    }
}
