//! Reads document 01's bytes. `None` is unreadable. The domain is not tested here.

use crate::arrangement::Arrangement;
use crate::value::{
    AnchorLink, AnchorStageRole, Digest, Entry, Id, Peer, Point, PointRole, Schedule, Settings, Span, State, Through,
};

/// Tags 1 to 9 with their least and greatest lengths.
const RECORD: [(u8, usize, usize); 9] = [
    (1, 68, 68),
    (2, 8, 8),
    (3, 0, 16_320),
    (4, 0, 16_320),
    (5, 0, 8_160),
    (6, 34, 102),
    (7, 34, 102),
    (8, 1, 3),
    (9, 16, 16),
];

/// The bytes that are left to read.
#[derive(Clone)]
pub struct Bytes<'a>(pub &'a [u8]);

impl<'a> Bytes<'a> {
    fn take(&mut self, count: usize) -> Option<&'a [u8]> {
        let (head, rest) = self.0.split_at_checked(count)?;
        self.0 = rest;
        Some(head)
    }

    fn array<const N: usize>(&mut self) -> Option<[u8; N]> {
        self.take(N)?.try_into().ok()
    }

    fn byte(&mut self) -> Option<u8> {
        self.array::<1>().map(|[byte]| byte)
    }

    fn u16(&mut self) -> Option<u16> {
        self.array().map(u16::from_le_bytes)
    }

    pub fn u32(&mut self) -> Option<u32> {
        self.array().map(u32::from_le_bytes)
    }

    pub fn u64(&mut self) -> Option<u64> {
        self.array().map(u64::from_le_bytes)
    }

    fn flag(&mut self) -> Option<bool> {
        match self.byte()? {
            0 => Some(false),
            1 => Some(true),
            _ => None,
        }
    }

    pub fn id(&mut self) -> Option<Id> {
        let (&bytes, rest) = self.0.split_first_chunk()?;
        self.0 = rest;
        Some(id(&bytes))
    }

    fn next_tag(&self) -> Option<u8> {
        self.0.first().copied()
    }

    /// The content of a field with this tag and a length within limits.
    pub fn field(&mut self, tag: u8, least: usize, greatest: usize) -> Option<Bytes<'a>> {
        if self.byte()? != tag {
            return None;
        }
        let length = usize::from(self.u16()?);
        if length < least || length > greatest {
            return None;
        }
        self.take(length).map(Bytes)
    }

    /// Nothing may stand after what was read.
    pub fn end(&self) -> Option<()> {
        self.0.is_empty().then_some(())
    }
}

pub fn id(bytes: &[u8; 68]) -> Id {
    let (round, rest) = bytes.split_first_chunk().expect("4 of 68 bytes");
    let (digest, author) = rest.split_at(32);
    let all = "32 of 64 bytes";
    Id {
        round: u32::from_le_bytes(*round),
        digest: digest.try_into().expect(all),
        author: author.try_into().expect(all),
    }
}

/// What stands at the front of the bytes, with nothing after it.
fn alone<T>((value, rest): (T, &[u8])) -> Option<T> {
    rest.is_empty().then_some(value)
}

pub fn settings(bytes: &[u8]) -> Option<Settings> {
    settings_front(bytes).and_then(alone)
}

/// Settings at the front of the bytes, and what stands after them.
pub fn settings_front(bytes: &[u8]) -> Option<(Settings, &[u8])> {
    let mut rest = Bytes(bytes);
    let mut field = rest.field(32, 44, 44)?;
    let settings = Settings {
        genesis_round: field.u32()?,
        genesis_digest: field.array()?,
        payload_batch_bytes: field.u32()?,
        sticky_anchors: field.byte()?,
        clock_skew_millis: field.u16()?,
        commit_history_rounds: field.byte()?,
    };
    Some((settings, rest.0))
}

pub fn schedule(bytes: &[u8]) -> Option<Schedule> {
    schedule_front(bytes).and_then(alone)
}

/// A schedule at the front of the bytes, and what stands after it.
pub fn schedule_front(bytes: &[u8]) -> Option<(Schedule, &[u8])> {
    let mut rest = Bytes(bytes);
    let mut spans: Vec<Span> = Vec::new();
    while rest.next_tag() == Some(34) {
        let mut field = rest.field(34, 4, 4 + 255 * 32)?;
        let span = Span { first: field.u32()?, peers: peers(field)? };
        if spans.last().is_some_and(|before| before.first >= span.first) {
            return None;
        }
        spans.push(span);
    }
    let last_known = rest.field(35, 4, 4)?.u32()?;
    (1..=4).contains(&spans.len()).then_some((Schedule { spans, last_known }, rest.0))
}

pub fn record(bytes: &[u8]) -> Option<Point> {
    record_front(bytes).and_then(alone)
}

/// A record whose maps lie so.
pub fn record_in(arrangement: Arrangement, bytes: &[u8]) -> Option<Point> {
    let mut rest = Bytes(bytes);
    let point = point_in(arrangement, &mut rest)?;
    rest.end()?;
    Some(point)
}

/// A record at the front of the bytes, and what stands after it.
pub fn record_front(bytes: &[u8]) -> Option<(Point, &[u8])> {
    let mut rest = Bytes(bytes);
    let point = point(&mut rest)?;
    Some((point, rest.0))
}

/// The contents of a record's nine fields.
pub fn fields<'a>(rest: &mut Bytes<'a>) -> Option<[Bytes<'a>; 9]> {
    let mut fields = [const { Bytes(&[]) }; 9];
    for (field, (tag, least, greatest)) in fields.iter_mut().zip(RECORD) {
        *field = rest.field(tag, least, greatest)?;
    }
    Some(fields)
}

fn point(rest: &mut Bytes<'_>) -> Option<Point> {
    point_in(Arrangement::Columns, rest)
}

fn point_in(arrangement: Arrangement, rest: &mut Bytes<'_>) -> Option<Point> {
    let [mut id, mut payload, includes, witness, evidence, proof, trigger, role, mut times] = fields(rest)?;
    Some(Point {
        id: id.id()?,
        payload_len: payload.u32()?,
        payload_bytes: payload.u32()?,
        includes: map(includes, arrangement)?,
        witness: map(witness, arrangement)?,
        evidence: peers(evidence)?,
        anchor_proof: link(proof)?,
        anchor_trigger: link(trigger)?,
        role: point_role(role)?,
        time: times.u64()?,
        anchor_time: times.u64()?,
    })
}

fn peers(mut field: Bytes<'_>) -> Option<Vec<Peer>> {
    let mut peers: Vec<Peer> = Vec::with_capacity(field.0.len() / 32);
    while field.end().is_none() {
        let peer = field.array()?;
        if peers.last().is_some_and(|before| *before >= peer) {
            return None;
        }
        peers.push(peer);
    }
    Some(peers)
}

/// Peers that rise strictly, each with its digest.
fn map(field: Bytes<'_>, arrangement: Arrangement) -> Option<Vec<(Peer, Digest)>> {
    let (rows, []) = field.0.as_chunks::<64>() else { return None };
    let (ids, _) = rows.as_flattened().as_chunks::<32>();
    let map: Vec<(Peer, Digest)> = match arrangement {
        Arrangement::Pairs => ids.as_chunks().0.iter().map(|[peer, digest]| (*peer, *digest)).collect(),
        Arrangement::Columns => {
            let (peers, digests) = ids.split_at(rows.len());
            peers.iter().copied().zip(digests.iter().copied()).collect()
        }
    };
    map.is_sorted_by(|one, next| one.0 < next.0).then_some(map)
}

pub fn link(mut field: Bytes<'_>) -> Option<AnchorLink> {
    let indirect = field.flag()?;
    let through = if field.flag()? { Through::Witness } else { Through::Includes };
    let peer = field.array()?;
    let to = if indirect { Some(field.id()?) } else { None };
    field.end()?;
    Some(AnchorLink { through, peer, to })
}

pub fn point_role(mut field: Bytes<'_>) -> Option<PointRole> {
    let role = match field.byte()? {
        0 => PointRole::Regular,
        1 => PointRole::AnchorProof { seq_no: field.byte()?, is_last: field.flag()? },
        2 => PointRole::AnchorTrigger,
        3 => PointRole::Genesis,
        _ => return None,
    };
    field.end()?;
    Some(role)
}

/// A list; direct entries stand before indirect ones, and there are at most 65,535.
pub fn list(bytes: &[u8]) -> Option<Vec<Entry>> {
    let mut rest = Bytes(bytes);
    let mut entries: Vec<Entry> = Vec::new();
    while rest.end().is_none() {
        let entry = entry(&mut rest)?;
        let after_indirect = entries.last().is_some_and(|before| before.indirect.is_some());
        if entries.len() == 65_535 || (after_indirect && entry.indirect.is_none()) {
            return None;
        }
        entries.push(entry);
    }
    Some(entries)
}

/// What stands at an entry's front.
pub struct Head {
    indirect: Option<AnchorStageRole>,
    certified: bool,
    first_valid: bool,
    pub state: u8,
    reason: u8,
}

pub fn head(rest: &mut Bytes<'_>) -> Option<Head> {
    let indirect = match rest.next_tag()? {
        19 => Some(if rest.field(19, 1, 1)?.flag()? { AnchorStageRole::Trigger } else { AnchorStageRole::Proof }),
        _ => None,
    };
    let mut field = rest.field(16, 4, 4)?;
    let state = field.byte()?;
    let (certified, first_valid) = (field.flag()?, field.flag()?);
    let reason = field.byte()?;
    let reason_fits = match state {
        2 => (1..=20).contains(&reason),
        3 => (1..=16).contains(&reason),
        _ => reason == 0,
    };
    reason_fits.then_some(Head { indirect, certified, first_valid, state, reason })
}

fn entry(rest: &mut Bytes<'_>) -> Option<Entry> {
    let Head { indirect, certified, first_valid, state, reason } = head(rest)?;
    let state = entry_state(rest, state, reason)?;
    Some(Entry { indirect, certified, first_valid, state })
}

fn entry_state(rest: &mut Bytes<'_>, state: u8, reason: u8) -> Option<State> {
    Some(match state {
        0 => State::Valid(point(rest)?),
        1 => {
            let mut root = rest.field(18, 69, 69)?;
            let (id, reason) = (root.id()?, root.byte()?);
            (1..=20).contains(&reason).then_some(())?;
            State::TransInvalid(point(rest)?, id, reason)
        }
        2 => State::Invalid(point(rest)?, reason),
        3 => State::IllFormed(rest.field(17, 68, 68)?.id()?, reason),
        4 => State::NotFound(rest.field(17, 68, 68)?.id()?),
        5 => State::Dropped,
        _ => return None,
    })
}
