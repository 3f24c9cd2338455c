//! A point that is handed over in parts, its maps in any order, and the record that comes of it (document 02, U1).

use std::collections::{BTreeMap, BTreeSet};

use crate::arrangement::Arrangement;
use crate::numbers::{DOMAIN, OUTPUT, RECORD, TWICE, in_domain};
use crate::read::{self, Bytes};
use crate::value::{AnchorLink, Digest, Peer, Point, PointRole};
use crate::write;

/// The kind of its cases in a file.
pub const COMPOSE: u8 = 16;
/// No map has more rows.
const MOST_ROWS: usize = 255;

/// A link is kind, map, peer and target.
#[derive(Clone, PartialEq, Eq, Debug)]
pub struct Draft {
    pub id: [u8; 68],
    pub payload_len: u32,
    pub payload_bytes: u32,
    pub includes: Vec<u8>,
    pub witness: Vec<u8>,
    pub evidence: Vec<u8>,
    pub anchor_proof: [u8; 102],
    pub anchor_trigger: [u8; 102],
    pub role: u8,
    pub seq_no: u8,
    pub is_last: u8,
    pub time: u64,
    pub anchor_time: u64,
}

impl Draft {
    /// A point taken apart. What isn't read of the parts is zero.
    pub fn of(point: &Point) -> Self {
        let map = |map| write::map(map, Arrangement::Columns);
        let [role, seq_no, is_last] = padded(&write::role(&point.role));
        Self {
            id: write::id(&point.id),
            payload_len: point.payload_len,
            payload_bytes: point.payload_bytes,
            includes: map(&point.includes),
            witness: map(&point.witness),
            evidence: point.evidence.as_flattened().to_vec(),
            anchor_proof: padded(&write::link(&point.anchor_proof)),
            anchor_trigger: padded(&write::link(&point.anchor_trigger)),
            role,
            seq_no,
            is_last,
            time: point.time,
            anchor_time: point.anchor_time,
        }
    }

    /// The same of a record, whose fields' contents are the parts; `None` where a field isn't there.
    pub fn of_record(record: &[u8]) -> Option<Self> {
        let [id, mut payload, includes, witness, evidence, proof, trigger, role, mut times] =
            read::fields(&mut Bytes(record))?;
        let [role, seq_no, is_last] = padded(role.0);
        Some(Self {
            id: id.0.try_into().ok()?,
            payload_len: payload.u32()?,
            payload_bytes: payload.u32()?,
            includes: includes.0.to_vec(),
            witness: witness.0.to_vec(),
            evidence: evidence.0.to_vec(),
            anchor_proof: padded(proof.0),
            anchor_trigger: padded(trigger.0),
            role,
            seq_no,
            is_last,
            time: times.u64()?,
            anchor_time: times.u64()?,
        })
    }

    /// The record, for an output of this length; else the number.
    pub fn composed(&self, output: usize) -> Result<Vec<u8>, u8> {
        let record = write::record(&self.point()?);
        if record.len() <= output { Ok(record) } else { Err(OUTPUT) }
    }

    /// What is handed over, its maps rising; else the number.
    pub fn point(&self) -> Result<Point, u8> {
        let includes = pairs(&self.includes).ok_or(RECORD)?;
        let witness = pairs(&self.witness).ok_or(RECORD)?;
        let evidence = peers(&self.evidence).ok_or(RECORD)?;
        let mut point = Point {
            id: read::id(&self.id),
            payload_len: self.payload_len,
            payload_bytes: self.payload_bytes,
            includes: Vec::new(),
            witness: Vec::new(),
            evidence: Vec::new(),
            anchor_proof: link(&self.anchor_proof).ok_or(DOMAIN)?,
            anchor_trigger: link(&self.anchor_trigger).ok_or(DOMAIN)?,
            role: self.point_role().ok_or(DOMAIN)?,
            time: self.time,
            anchor_time: self.anchor_time,
        };
        if !in_domain(&point) {
            return Err(DOMAIN);
        }
        point.includes = rising(&includes)?;
        point.witness = rising(&witness)?;
        let rising: BTreeSet<Peer> = evidence.iter().copied().collect();
        if rising.len() < evidence.len() {
            return Err(TWICE);
        }
        point.evidence = rising.into_iter().collect();
        Ok(point)
    }

    /// Number and flag are read of a proof alone.
    fn point_role(&self) -> Option<PointRole> {
        let role = [self.role, self.seq_no, self.is_last];
        read::point_role(Bytes(if self.role == 1 { &role } else { &role[..1] }))
    }

    /// As a file of cases holds it.
    pub fn blobs(&self) -> [Vec<u8>; 9] {
        [
            self.id.to_vec(),
            [self.payload_len, self.payload_bytes].map(u32::to_le_bytes).concat(),
            self.includes.clone(),
            self.witness.clone(),
            self.evidence.clone(),
            self.anchor_proof.to_vec(),
            self.anchor_trigger.to_vec(),
            vec![self.role, self.seq_no, self.is_last],
            [self.time, self.anchor_time].map(u64::to_le_bytes).concat(),
        ]
    }

    pub fn of_blobs(blobs: [&[u8]; 9]) -> Option<Self> {
        let [id, payload, includes, witness, evidence, proof, trigger, role, times] = blobs;
        let (mut payload, mut times) = (Bytes(payload), Bytes(times));
        let &[role, seq_no, is_last] = role else { return None };
        let draft = Self {
            id: id.try_into().ok()?,
            payload_len: payload.u32()?,
            payload_bytes: payload.u32()?,
            includes: includes.to_vec(),
            witness: witness.to_vec(),
            evidence: evidence.to_vec(),
            anchor_proof: proof.try_into().ok()?,
            anchor_trigger: trigger.try_into().ok()?,
            role,
            seq_no,
            is_last,
            time: times.u64()?,
            anchor_time: times.u64()?,
        };
        payload.end().and(times.end()).map(|()| draft)
    }
}

/// The answer as a file holds it: number, count and record; with a number a count of 0 and none.
pub fn answer_bytes(composed: &Result<Vec<u8>, u8>) -> Vec<u8> {
    match composed {
        Ok(record) => [&[0][..], &(record.len() as u32).to_le_bytes(), record].concat(),
        Err(number) => vec![*number, 0, 0, 0, 0],
    }
}

fn padded<const N: usize>(bytes: &[u8]) -> [u8; N] {
    std::array::from_fn(|place| bytes.get(place).copied().unwrap_or(0))
}

/// Of a direct link no target is read.
fn link(link: &[u8; 102]) -> Option<AnchorLink> {
    read::link(Bytes(if link[0] == 0 { &link[..34] } else { link }))
}

/// Whole peers, and not too many.
fn peers(set: &[u8]) -> Option<&[Peer]> {
    let (peers, rest) = set.as_chunks();
    (rest.is_empty() && peers.len() <= MOST_ROWS).then_some(peers)
}

/// Peers, and as many digests after them.
fn pairs(map: &[u8]) -> Option<Vec<(Peer, Digest)>> {
    let (rows, rest) = map.as_chunks::<64>();
    let (ids, _) = map.as_chunks::<32>();
    let (peers, digests) = ids.split_at(rows.len());
    let whole = rest.is_empty() && rows.len() <= MOST_ROWS;
    whole.then(|| peers.iter().copied().zip(digests.iter().copied()).collect())
}

/// The pairs by rising peers, of which none may be there twice.
fn rising(pairs: &[(Peer, Digest)]) -> Result<Vec<(Peer, Digest)>, u8> {
    let rising: BTreeMap<Peer, Digest> = pairs.iter().copied().collect();
    if rising.len() < pairs.len() { Err(TWICE) } else { Ok(rising.into_iter().collect()) }
}
