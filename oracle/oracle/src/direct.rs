//! A fast reader: records straight into the source's type. Nothing is kept between the bytes and the maps, and each map is
//! made with room for all its rows. `read` is the reader to compare with; this one takes what that one takes.

use tycho::models::{
    AnchorLink, Digest, IndirectLink, PointData, PointId, PointInfo, Round, Signature, Through, UnixTime,
};
use tycho::{FastHashMap, PeerId};

use crate::read::{self, Bytes};
use crate::run::convert;

/// A record's bytes as the source's type; `None` is unreadable.
pub fn record(bytes: &[u8]) -> Option<PointInfo> {
    let mut rest = Bytes(bytes);
    let info = point_info(&mut rest)?;
    rest.end()?;
    Some(info)
}

/// All records that stand in a list; `None` is unreadable. The order of direct and indirect entries is not tested.
pub fn records(list: &[u8]) -> Option<Vec<PointInfo>> {
    let mut rest = Bytes(list);
    let mut records = Vec::new();
    while rest.end().is_none() {
        match read::head(&mut rest)?.state {
            0 | 2 => records.push(point_info(&mut rest)?),
            1 => {
                rest.field(18, 69, 69)?;
                records.push(point_info(&mut rest)?);
            }
            3 | 4 => {
                rest.field(17, 68, 68)?;
            }
            5 => {}
            _ => return None,
        }
    }
    Some(records)
}

fn point_info(rest: &mut Bytes<'_>) -> Option<PointInfo> {
    let [id, mut payload, includes, witness, evidence, proof, trigger, role, mut times] = read::fields(rest)?;
    let data = PointData {
        includes: map(includes.0)?,
        witness: map(witness.0)?,
        evidence: rising(ids(evidence.0)?)?.map(|peer| (PeerId(*peer), Signature::none())).collect(),
        anchor_proof: link(proof.0)?,
        anchor_trigger: link(trigger.0)?,
        role: convert::role(&read::point_role(role)?),
        time: UnixTime::from_millis(times.u64()?),
        anchor_time: UnixTime::from_millis(times.u64()?),
    };
    Some(PointInfo::unsigned(point_id(id.0)?, payload.u32()?, payload.u32()?, data))
}

fn point_id(bytes: &[u8]) -> Option<PointId> {
    let (round, rest) = bytes.split_first_chunk()?;
    let (digest, author) = rest.split_first_chunk()?;
    let author = PeerId(author.try_into().ok()?);
    Some(PointId { round: Round(u32::from_le_bytes(*round)), digest: *Digest::wrap(digest), author })
}

fn link(field: &[u8]) -> Option<AnchorLink> {
    let (&[kind, map], rest) = field.split_first_chunk()?;
    let (peer, rest) = rest.split_first_chunk()?;
    let through = match map {
        0 => Through::Includes(PeerId(*peer)),
        1 => Through::Witness(PeerId(*peer)),
        _ => return None,
    };
    match kind {
        0 if rest.is_empty() => Some(AnchorLink::Direct(through)),
        1 => Some(AnchorLink::Indirect(IndirectLink { to: point_id(rest)?, through })),
        _ => None,
    }
}

fn map(field: &[u8]) -> Option<FastHashMap<PeerId, Digest>> {
    let ids = ids(field)?;
    let (peers, digests) = ids.split_at(ids.len() / 2);
    let digests = (peers.len() == digests.len()).then_some(digests)?.iter();
    Some(rising(peers)?.zip(digests).map(|(peer, digest)| (PeerId(*peer), *Digest::wrap(digest))).collect())
}

fn ids(field: &[u8]) -> Option<&[[u8; 32]]> {
    let (ids, rest) = field.as_chunks();
    rest.is_empty().then_some(ids)
}

/// Peers, each of which is greater than the one before it.
fn rising(peers: &[[u8; 32]]) -> Option<std::slice::Iter<'_, [u8; 32]>> {
    peers.windows(2).all(|pair| is_less(&pair[0], &pair[1])).then(|| peers.iter())
}

/// Most peers part in their first eight bytes.
fn is_less(lower: &[u8; 32], upper: &[u8; 32]) -> bool {
    let first = |peer: &[u8; 32]| u64::from_be_bytes(*peer.first_chunk().expect("8 of 32 bytes"));
    let (low, high) = (first(lower), first(upper));
    low < high || (low == high && lower < upper)
}
