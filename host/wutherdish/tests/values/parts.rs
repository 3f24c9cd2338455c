//! A point in the parts of the call that writes it, and its record as the paper lays it down.

use std::collections::BTreeMap;

use wutherdish::{AnchorLink, Digest, IndirectLink, PeerId, Point, PointId, PointRole, Through, lent};

pub const FILL: u8 = 0xA5;
/// No record is longer.
pub const LONGEST: usize = 41_126;

/// A point as it is handed over. The rows of a map are in any order.
#[derive(Clone)]
pub struct Parts {
    pub id: [u8; 68],
    pub payload: [u32; 2],
    pub includes: Vec<[u8; 32]>,
    pub witness: Vec<[u8; 32]>,
    pub evidence: Vec<[u8; 32]>,
    /// How many bytes more or less there are of includes, witness and evidence than these rows have.
    pub cut: [isize; 3],
    pub links: [[u8; 102]; 2],
    pub role: [u8; 3],
    pub times: [u64; 2],
}

impl Parts {
    pub fn of(point: &Point) -> Self {
        let pairs = |map: &BTreeMap<PeerId, Digest>| {
            map.keys().map(|peer| peer.0).chain(map.values().map(|digest| digest.0)).collect()
        };
        let mut links = [[0; 102]; 2];
        for (bytes, link) in links.iter_mut().zip([point.anchor_proof, point.anchor_trigger]) {
            let written = link_bytes(link);
            bytes[..written.len()].copy_from_slice(&written);
        }
        let mut role = [0; 3];
        let written = role_bytes(point.role);
        role[..written.len()].copy_from_slice(&written);
        Self {
            id: id_bytes(point.id).try_into().expect("68 bytes"),
            payload: [point.payload_len, point.payload_bytes],
            includes: pairs(&point.includes),
            witness: pairs(&point.witness),
            evidence: point.evidence.iter().map(|peer| peer.0).collect(),
            cut: [0; 3],
            links,
            role,
            times: [point.time, point.anchor_time],
        }
    }

    /// Calls the library.
    pub fn write(&self, out: &mut [u8], written: &mut u32) -> u8 {
        let maps = [&self.includes, &self.witness, &self.evidence];
        let [includes, witness, evidence]: [Vec<u8>; 3] = std::array::from_fn(|map| {
            let mut bytes = maps[map].concat();
            bytes.resize(bytes.len().strict_add_signed(self.cut[map]), 7);
            bytes
        });
        let ([proof, trigger], [role, seq_no, is_last]) = (&self.links, self.role);
        let ([payload_len, payload_bytes], [time, anchor_time]) = (self.payload, self.times);
        lent::write(
            &self.id,
            payload_len,
            payload_bytes,
            &includes,
            &witness,
            &evidence,
            proof,
            trigger,
            role,
            seq_no,
            is_last,
            time,
            anchor_time,
            out,
            written,
        )
    }

    /// The record, which the call writes.
    pub fn record(&self) -> Vec<u8> {
        let (mut out, mut written) = (vec![FILL; LONGEST], 7);
        assert_eq!(self.write(&mut out, &mut written), 0);
        let rest = out.split_off(written as usize);
        assert!(rest.iter().all(|byte| *byte == FILL));
        out
    }

    /// The call gives this number, and changes nothing.
    pub fn assert_number(&self, number: u8, length: usize) {
        let (mut out, mut written) = (vec![FILL; length], 7);
        assert_eq!((self.write(&mut out, &mut written), written), (number, 7));
        assert!(out.iter().all(|byte| *byte == FILL));
    }

    /// With what another has and the good ones have not; what is bad already stays.
    pub fn with(&self, other: &Self, good: &Self) -> Self {
        fn pick<T: PartialEq + Clone>(own: &T, other: &T, good: &T) -> T {
            if own == good { other.clone() } else { own.clone() }
        }
        Self {
            id: pick(&self.id, &other.id, &good.id),
            includes: pick(&self.includes, &other.includes, &good.includes),
            witness: pick(&self.witness, &other.witness, &good.witness),
            evidence: pick(&self.evidence, &other.evidence, &good.evidence),
            links: pick(&self.links, &other.links, &good.links),
            role: pick(&self.role, &other.role, &good.role),
            times: pick(&self.times, &other.times, &good.times),
            ..self.clone()
        }
    }
}

// The record of a point, written by no call.

fn id_bytes(id: PointId) -> Vec<u8> {
    [&id.round.to_le_bytes()[..], &id.digest.0, &id.author.0].concat()
}

fn link_bytes(link: AnchorLink) -> Vec<u8> {
    let through = |kind, through| match through {
        Through::Includes(peer) => [&[kind, 0][..], &peer.0].concat(),
        Through::Witness(peer) => [&[kind, 1][..], &peer.0].concat(),
    };
    match link {
        AnchorLink::Direct(source) => through(0, source),
        AnchorLink::Indirect(IndirectLink { to, through: source }) => [through(1, source), id_bytes(to)].concat(),
    }
}

fn role_bytes(role: PointRole) -> Vec<u8> {
    match role {
        PointRole::Regular => vec![0],
        PointRole::AnchorProof { seq_no, is_last } => vec![1, seq_no, is_last.into()],
        PointRole::AnchorTrigger => vec![2],
        PointRole::Genesis => vec![3],
    }
}

/// The record that document 01 lays down.
pub fn plain(point: &Point) -> Vec<u8> {
    let Parts { payload, includes, witness, evidence, times, .. } = Parts::of(point);
    let contents = [
        id_bytes(point.id),
        payload.map(u32::to_le_bytes).concat(),
        includes.concat(),
        witness.concat(),
        evidence.concat(),
        link_bytes(point.anchor_proof),
        link_bytes(point.anchor_trigger),
        role_bytes(point.role),
        times.map(u64::to_le_bytes).concat(),
    ];
    let fields = (1..).zip(contents);
    fields.flat_map(|(tag, content)| [&[tag][..], &(content.len() as u16).to_le_bytes(), &content].concat()).collect()
}
