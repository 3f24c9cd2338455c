//! Document 01's point record, read.

use std::collections::BTreeMap;

use crate::field::{Content, Fields, Unreadable, whole};
use crate::id::{Digest, PeerId, PointId};
use crate::link::{AnchorLink, IndirectLink, Through};
use crate::point::{Point, PointRole};
use crate::schedule::rising_peers;

impl Point {
    /// The point record at the front of some bytes, and the rest.
    pub fn read(bytes: &[u8]) -> Result<(Self, &[u8]), Unreadable> {
        Self::read_in(&COLUMNS, bytes)
    }

    /// The point record at the front of some bytes, and the rest, where includes and witness are pairs of peer and digest, as
    /// before format 2. No other call takes such a record: [`pairs_to_columns`](crate::pairs_to_columns) converts it.
    pub fn read_pairs(bytes: &[u8]) -> Result<(Self, &[u8]), Unreadable> {
        Self::read_in(&PAIRS, bytes)
    }

    fn read_in<'a>(arrangement: &Arrangement, bytes: &'a [u8]) -> Result<(Self, &'a [u8]), Unreadable> {
        let mut fields = Fields::new(bytes);
        let id = fields.read(1, "a point's id, tag 1 with 68 bytes", PointId::read)?;
        let (payload_len, payload_bytes) = fields
            .read(2, "a point's payload, tag 2 with 8 bytes", |content| Some((content.u32()?, content.u32()?)))?;
        let includes = fields.read(3, arrangement.includes, arrangement.read_map)?;
        let witness = fields.read(4, arrangement.witness, arrangement.read_map)?;
        let evidence = fields.read(5, "a point's evidence, tag 5, at most 255 peers, rising", rising_peers)?;
        let anchor_proof = fields.read(6, "a point's anchor proof link, tag 6 with 34 or 102 bytes", read_link)?;
        let anchor_trigger = fields.read(7, "a point's anchor trigger link, tag 7 with 34 or 102 bytes", read_link)?;
        let role = fields.read(8, "a point's role, tag 8 with 1 or 3 bytes", read_role)?;
        let (time, anchor_time) =
            fields.read(9, "a point's times, tag 9 with 16 bytes", |content| Some((content.u64()?, content.u64()?)))?;
        let point = Self {
            id,
            payload_len,
            payload_bytes,
            includes,
            witness,
            evidence,
            anchor_proof,
            anchor_trigger,
            role,
            time,
            anchor_time,
        };
        Ok((point, fields.rest()))
    }
}

/// A point record with nothing after it.
impl TryFrom<&[u8]> for Point {
    type Error = Unreadable;

    fn try_from(bytes: &[u8]) -> Result<Self, Unreadable> {
        whole(bytes, Self::read(bytes)?)
    }
}

/// How the pairs of includes and witness lie in a record.
struct Arrangement {
    /// What should stand in tag 3.
    includes: &'static str,
    /// What should stand in tag 4.
    witness: &'static str,
    read_map: fn(&mut Content<'_>) -> Option<BTreeMap<PeerId, Digest>>,
}

/// All peers, and then all digests in the same order.
const COLUMNS: Arrangement = Arrangement {
    includes: "a point's includes, tag 3, at most 255 peers, rising, and then as many digests",
    witness: "a point's witness, tag 4, at most 255 peers, rising, and then as many digests",
    read_map: read_columns,
};

/// Each peer with its digest, as before format 2.
const PAIRS: Arrangement = Arrangement {
    includes: "a point's includes, tag 3, at most 255 pairs of peer and digest by rising peers",
    witness: "a point's witness, tag 4, at most 255 pairs of peer and digest by rising peers",
    read_map: read_pairs,
};

fn read_columns(content: &mut Content<'_>) -> Option<BTreeMap<PeerId, Digest>> {
    let rows = content.rows::<64>()?;
    let (peers, digests) = rows.as_flattened().as_chunks::<32>().0.split_at(rows.len());
    let pairs = peers.iter().zip(digests);
    let rises = peers.is_sorted_by(|x, y| x < y);
    rises.then(|| pairs.map(|(peer, digest)| (PeerId(*peer), Digest(*digest))).collect())
}

fn read_pairs(content: &mut Content<'_>) -> Option<BTreeMap<PeerId, Digest>> {
    let (peers_and_digests, _) = content.rows::<64>()?.as_flattened().as_chunks::<32>();
    let (rows, _) = peers_and_digests.as_chunks();
    let rises = rows.is_sorted_by(|[x, _], [y, _]| x < y);
    rises.then(|| rows.iter().map(|[peer, digest]| (PeerId(*peer), Digest(*digest))).collect())
}

fn read_link(content: &mut Content<'_>) -> Option<AnchorLink> {
    let is_indirect = content.flag()?;
    let through = Through::read(content)?;
    if is_indirect {
        Some(AnchorLink::Indirect(IndirectLink { to: PointId::read(content)?, through }))
    } else {
        Some(AnchorLink::Direct(through))
    }
}

fn read_role(content: &mut Content<'_>) -> Option<PointRole> {
    Some(match content.u8()? {
        0 => PointRole::Regular,
        1 => PointRole::AnchorProof { seq_no: content.u8()?, is_last: content.flag()? },
        2 => PointRole::AnchorTrigger,
        3 => PointRole::Genesis,
        _ => return None,
    })
}
