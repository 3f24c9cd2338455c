//! Document 01's numbers, and the tests for 1 to 9, read plainly from its table. They come in front of the Rust.

use std::collections::HashSet;

use crate::PEER_BUFFER;
use crate::read;
use crate::value::{AnchorLink, Entry, Id, Point, Schedule, Settings, State, Through, find};

pub const SETTINGS: u8 = 1;
pub const SCHEDULE: u8 = 2;
pub const RECORD: u8 = 3;
pub const DOMAIN: u8 = 4;
pub const SHORT: u8 = 5;
pub const HORIZON: u8 = 6;
pub const ENTRIES: u8 = 7;
pub const MISMATCH: u8 = 8;
pub const UNCOVERED: u8 = 9;
pub const BOOK: u8 = 10;
pub const KEPT: u8 = 11;
pub const FULL: u8 = 12;
/// Of the writer of points alone.
pub const TWICE: u8 = 13;
/// Of that and of the converters.
pub const OUTPUT: u8 = 14;
/// Of judging with a trail.
pub const ROWS: u8 = 15;

pub const WORDS: [&str; 15] = [
    "settings",
    "schedule",
    "record",
    "domain",
    "short",
    "horizon",
    "entries",
    "mismatch",
    "uncovered",
    "book",
    "kept",
    "full",
    "twice",
    "output",
    "rows",
];

/// What stands before any list is read.
pub struct Read {
    pub settings: Settings,
    pub schedule: Schedule,
    pub point: Point,
}

/// Numbers 1 to 5, in number order.
pub fn before(
    settings: &[u8],
    schedule: &[u8],
    record: &[u8],
    leader: u8,
    presence: u8,
    peer_buffer: u32,
) -> Result<Read, u8> {
    let settings = read::settings(settings).filter(within_limits).ok_or(SETTINGS)?;
    let schedule = read::schedule(schedule).ok_or(SCHEDULE)?;
    let point = read::record(record).ok_or(RECORD)?;
    if !in_domain(&point) || presence > 3 || leader > 1 {
        return Err(DOMAIN);
    }
    if peer_buffer < PEER_BUFFER {
        return Err(SHORT);
    }
    Ok(Read { settings, schedule, point })
}

pub fn within_limits(settings: &Settings) -> bool {
    round_in_domain(settings.genesis_round)
        && settings.payload_batch_bytes >= 1
        && settings.clock_skew_millis >= 1
        && settings.commit_history_rounds >= 1
}

/// The greatest round of the domain.
pub const LAST_ROUND: u32 = 2_147_483_647;

pub fn round_in_domain(round: u32) -> bool {
    (4..=LAST_ROUND).contains(&round)
}

pub fn in_domain(point: &Point) -> bool {
    let greatest = i64::MAX as u64;
    round_in_domain(point.id.round) && point.time <= greatest && point.anchor_time <= greatest
}

/// Number 6, asked of a verified point above genesis.
pub fn horizon(read: &Read) -> Result<(), u8> {
    let round = read.point.id.round;
    let known = read.schedule.span(round).is_some() && read.schedule.span(round + 4).is_some();
    known.then_some(()).ok_or(HORIZON)
}

/// Numbers 7 to 9, asked where the list is needed (presence 2 or 3).
pub fn needed(point: &Point, presence: u8, list: &[u8]) -> Result<Vec<Entry>, u8> {
    let entries = entries(list)?;
    if !matches(point, presence, &entries) {
        return Err(MISMATCH);
    }
    if !covered(point, &entries) {
        return Err(UNCOVERED);
    }
    Ok(entries)
}

/// Number 7.
pub fn entries(list: &[u8]) -> Result<Vec<Entry>, u8> {
    read::list(list).filter(|entries| entries.iter().all(entry_in_domain)).ok_or(ENTRIES)
}

fn entry_in_domain(entry: &Entry) -> bool {
    let root = match &entry.state {
        State::TransInvalid(_, root, _) => round_in_domain(root.round),
        _ => true,
    };
    root && entry.state.point().is_none_or(|point| in_domain(point) && names_its_peers(point))
}

/// A direct link names a peer of its map.
pub fn names_its_peers(point: &Point) -> bool {
    let named = |link: &AnchorLink| link.to.is_some() || find(point.map(link.through), &link.peer).is_some();
    named(&point.anchor_proof) && named(&point.anchor_trigger)
}

fn matches(point: &Point, presence: u8, entries: &[Entry]) -> bool {
    let (direct, indirect) = split(entries);
    direct_match(point, presence, direct) && indirect_match(point, presence, indirect)
}

/// The direct entries and the indirect ones after them.
pub fn split(entries: &[Entry]) -> (&[Entry], &[Entry]) {
    entries.split_at(entries.partition_point(|entry| entry.indirect.is_none()))
}

fn direct_match(point: &Point, presence: u8, direct: &[Entry]) -> bool {
    let maps: &[Through] = if presence == 2 { &[Through::Includes] } else { &[Through::Includes, Through::Witness] };
    let dependencies: HashSet<Id> = maps.iter().flat_map(|map| point.dependencies(*map)).collect();
    let mut listed: HashSet<Id> = HashSet::with_capacity(direct.len());
    let mut dropped = 0;
    for entry in direct {
        let Some(id) = entry.state.id() else {
            dropped += 1;
            continue;
        };
        if !(dependencies.contains(id) || is_version(point, id)) || !listed.insert(*id) {
            return false;
        }
    }
    let lacking = dependencies.iter().filter(|id| !listed.contains(id)).count();
    lacking <= dropped
}

/// Without a previous digest, any point of the author at r-1.
pub fn is_version(point: &Point, id: &Id) -> bool {
    point.prev_digest().is_none() && id.round == point.id.round - 1 && id.author == point.id.author
}

fn indirect_match(point: &Point, presence: u8, indirect: &[Entry]) -> bool {
    let mut seen = Vec::new();
    indirect.iter().all(|entry| {
        let Some(role) = entry.indirect else { return false };
        let Some(to) = &point.link(role).to else { return false };
        let named = entry.state.id().is_none_or(|id| id == to);
        let first = !seen.contains(&role);
        seen.push(role);
        presence == 3 && named && first
    })
}

fn covered(point: &Point, entries: &[Entry]) -> bool {
    let Some(digest) = point.prev_digest() else { return true };
    let prev = Id { round: point.id.round - 1, digest: *digest, author: point.id.author };
    entries.iter().all(|entry| entry.certified || entry.state.id() != Some(&prev))
}
