//! Writes values as document 01's bytes, so that the reader gives them back.

use crate::arrangement::Arrangement;
use crate::value::{
    AnchorLink, AnchorStageRole, Digest, Entry, Id, Peer, Point, PointRole, Schedule, Settings, State, Through,
};

pub fn field(out: &mut Vec<u8>, tag: u8, content: &[u8]) {
    out.push(tag);
    out.extend_from_slice(&(content.len() as u16).to_le_bytes());
    out.extend_from_slice(content);
}

pub fn id(id: &Id) -> [u8; 68] {
    let mut out = [0; 68];
    out[..4].copy_from_slice(&id.round.to_le_bytes());
    out[4..36].copy_from_slice(&id.digest);
    out[36..].copy_from_slice(&id.author);
    out
}

pub fn settings(settings: &Settings) -> Vec<u8> {
    let mut content = settings.genesis_round.to_le_bytes().to_vec();
    content.extend_from_slice(&settings.genesis_digest);
    content.extend_from_slice(&settings.payload_batch_bytes.to_le_bytes());
    content.push(settings.sticky_anchors);
    content.extend_from_slice(&settings.clock_skew_millis.to_le_bytes());
    content.push(settings.commit_history_rounds);
    let mut out = Vec::new();
    field(&mut out, 32, &content);
    out
}

pub fn schedule(schedule: &Schedule) -> Vec<u8> {
    let mut out = Vec::new();
    for span in &schedule.spans {
        let content = [&span.first.to_le_bytes()[..], span.peers.as_flattened()].concat();
        field(&mut out, 34, &content);
    }
    field(&mut out, 35, &schedule.last_known.to_le_bytes());
    out
}

pub fn record(point: &Point) -> Vec<u8> {
    record_in(Arrangement::Columns, point)
}

/// A record whose maps lie so.
pub fn record_in(arrangement: Arrangement, point: &Point) -> Vec<u8> {
    let mut out = Vec::new();
    add_record(&mut out, arrangement, point);
    out
}

fn add_record(out: &mut Vec<u8>, arrangement: Arrangement, point: &Point) {
    field(out, 1, &id(&point.id));
    field(out, 2, &[point.payload_len.to_le_bytes(), point.payload_bytes.to_le_bytes()].concat());
    field(out, 3, &map(&point.includes, arrangement));
    field(out, 4, &map(&point.witness, arrangement));
    field(out, 5, point.evidence.as_flattened());
    field(out, 6, &link(&point.anchor_proof));
    field(out, 7, &link(&point.anchor_trigger));
    field(out, 8, &role(&point.role));
    field(out, 9, &[point.time.to_le_bytes(), point.anchor_time.to_le_bytes()].concat());
}

pub fn map(map: &[(Peer, Digest)], arrangement: Arrangement) -> Vec<u8> {
    let (peers, digests): (Vec<Peer>, Vec<Digest>) = map.iter().copied().unzip();
    match arrangement {
        Arrangement::Pairs => {
            peers.iter().zip(&digests).flat_map(|(peer, digest)| [peer, digest]).flatten().copied().collect()
        }
        Arrangement::Columns => [peers, digests].concat().into_flattened(),
    }
}

pub fn link(link: &AnchorLink) -> Vec<u8> {
    let mut out = vec![u8::from(link.to.is_some()), u8::from(link.through == Through::Witness)];
    out.extend_from_slice(&link.peer);
    if let Some(to) = &link.to {
        out.extend_from_slice(&id(to));
    }
    out
}

pub fn role(role: &PointRole) -> Vec<u8> {
    match role {
        PointRole::Regular => vec![0],
        PointRole::AnchorProof { seq_no, is_last } => vec![1, *seq_no, u8::from(*is_last)],
        PointRole::AnchorTrigger => vec![2],
        PointRole::Genesis => vec![3],
    }
}

pub fn list(entries: &[Entry]) -> Vec<u8> {
    let mut out = Vec::new();
    for entry in entries {
        add_entry(&mut out, entry);
    }
    out
}

fn add_entry(out: &mut Vec<u8>, entry: &Entry) {
    if let Some(role) = entry.indirect {
        field(out, 19, &[u8::from(role == AnchorStageRole::Trigger)]);
    }
    let (state, reason) = match &entry.state {
        State::Valid(_) => (0, 0),
        State::TransInvalid(..) => (1, 0),
        State::Invalid(_, reason) => (2, *reason),
        State::IllFormed(_, reason) => (3, *reason),
        State::NotFound(_) => (4, 0),
        State::Dropped => (5, 0),
    };
    field(out, 16, &[state, u8::from(entry.certified), u8::from(entry.first_valid), reason]);
    match &entry.state {
        State::TransInvalid(_, root, reason) => field(out, 18, &[&id(root)[..], &[*reason]].concat()),
        State::IllFormed(named, _) | State::NotFound(named) => field(out, 17, &id(named)),
        _ => {}
    }
    if let Some(point) = entry.state.point() {
        add_record(out, Arrangement::Columns, point);
    }
}
