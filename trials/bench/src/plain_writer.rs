//! A writer of points in Rust, written for speed, beside which the library's is measured: of the same parts, or of sorted maps.

use std::collections::{BTreeMap, BTreeSet};

use oracle::draft::Draft;
use oracle::numbers::{DOMAIN, LAST_ROUND, OUTPUT, RECORD, TWICE};
use oracle::value::{Digest, Peer, Point};

const MOST_ROWS: usize = 255;
const GREATEST_TIME: u64 = i64::MAX as u64;

/// Positions of rows, by rising peers.
type Order = [u8; MOST_ROWS];

/// Writes the record of a draft at the front of the output and gives its length; else the number.
pub fn compose(draft: &Draft, out: &mut [u8]) -> Result<usize, u8> {
    let [includes, witness, evidence] =
        [rows(&draft.includes, 64), rows(&draft.witness, 64), rows(&draft.evidence, 32)].map(|rows| rows.ok_or(RECORD));
    let (includes, witness, evidence) = (includes?, witness?, evidence?);
    if !is_in_domain(draft) {
        return Err(DOMAIN);
    }
    let (mut first, mut second, mut third) = ([0; MOST_ROWS], [0; MOST_ROWS], [0; MOST_ROWS]);
    let includes = ordered(includes.0, includes.1, &mut first)?;
    let witness = ordered(witness.0, witness.1, &mut second)?;
    let evidence = ordered(evidence.0, evidence.1, &mut third)?;
    let out = out.get_mut(..length(draft)).ok_or(OUTPUT)?;
    let mut rest = &mut *out;
    rest = front(rest, draft);
    for (tag, rows) in [(3, includes), (4, witness), (5, evidence)] {
        rest = put_head(rest, tag, 32 * rows.blocks.len());
        rest = rows.put(rest);
    }
    back(rest, draft);
    Ok(out.len())
}

/// Peers, and as many digests or none, of which the first are to be written in an order, or as they come.
struct Rows<'a> {
    blocks: &'a [[u8; 32]],
    count: usize,
    order: Option<&'a Order>,
}

impl Rows<'_> {
    fn put<'a>(&self, out: &'a mut [u8]) -> &'a mut [u8] {
        let Some(order) = self.order else { return put(out, self.blocks.as_flattened()) };
        let (here, rest) = out.split_at_mut(32 * self.blocks.len());
        let columns = here.as_chunks_mut::<32>().0.chunks_mut(self.count).zip(self.blocks.chunks(self.count));
        for (to, from) in columns {
            to.iter_mut().zip(order).for_each(|(to, place)| *to = from[usize::from(*place)]);
        }
        rest
    }
}

/// The blocks of a map, and how many rows it has; none where they are not whole or too many.
fn rows(map: &[u8], width: usize) -> Option<(&[[u8; 32]], usize)> {
    let count = map.len() / width;
    (map.len().is_multiple_of(width) && count <= MOST_ROWS).then_some((map.as_chunks().0, count))
}

/// None is written in another order where the peers rise.
fn ordered<'a>(blocks: &'a [[u8; 32]], count: usize, order: &'a mut Order) -> Result<Rows<'a>, u8> {
    let peers = &blocks[..count];
    if peers.is_sorted_by(|one, next| one < next) {
        return Ok(Rows { blocks, count, order: None });
    }
    let places = &mut order[..count];
    places.iter_mut().zip(0..).for_each(|(place, at)| *place = at);
    places.sort_unstable_by_key(|place| &peers[usize::from(*place)]);
    if places.windows(2).any(|pair| peers[usize::from(pair[0])] == peers[usize::from(pair[1])]) {
        return Err(TWICE);
    }
    Ok(Rows { blocks, count, order: Some(order) })
}

fn is_in_domain(draft: &Draft) -> bool {
    let round = u32::from_le_bytes(*draft.id.first_chunk().expect("4 of 68 bytes"));
    let links = [&draft.anchor_proof, &draft.anchor_trigger];
    links.into_iter().all(|link| link[0] <= 1 && link[1] <= 1)
        && draft.role <= 3
        && (draft.role != 1 || draft.is_last <= 1)
        && (4..=LAST_ROUND).contains(&round)
        && draft.time <= GREATEST_TIME
        && draft.anchor_time <= GREATEST_TIME
}

fn link(link: &[u8; 102]) -> &[u8] {
    if link[0] == 0 { &link[..34] } else { link }
}

fn role(draft: &Draft) -> usize {
    if draft.role == 1 { 3 } else { 1 }
}

/// Nine heads, 92 bytes of id, payload numbers and times, and the rest.
fn length(draft: &Draft) -> usize {
    let maps = draft.includes.len() + draft.witness.len() + draft.evidence.len();
    27 + 92 + maps + link(&draft.anchor_proof).len() + link(&draft.anchor_trigger).len() + role(draft)
}

fn put<'a>(out: &'a mut [u8], bytes: &[u8]) -> &'a mut [u8] {
    let (here, rest) = out.split_at_mut(bytes.len());
    here.copy_from_slice(bytes);
    rest
}

fn put_head(out: &mut [u8], tag: u8, length: usize) -> &mut [u8] {
    let [low, high, ..] = length.to_le_bytes();
    put(out, &[tag, low, high])
}

fn put_field<'a>(out: &'a mut [u8], tag: u8, content: &[u8]) -> &'a mut [u8] {
    put(put_head(out, tag, content.len()), content)
}

/// Id and payload numbers.
fn front<'a>(out: &'a mut [u8], draft: &Draft) -> &'a mut [u8] {
    let out = put_head(put_field(out, 1, &draft.id), 2, 8);
    put(put(out, &draft.payload_len.to_le_bytes()), &draft.payload_bytes.to_le_bytes())
}

/// Links, role and times.
fn back<'a>(out: &'a mut [u8], draft: &Draft) -> &'a mut [u8] {
    let out = put_field(put_field(out, 6, link(&draft.anchor_proof)), 7, link(&draft.anchor_trigger));
    let out = put_field(out, 8, &[draft.role, draft.seq_no, draft.is_last][..role(draft)]);
    let out = put_head(out, 9, 16);
    put(put(out, &draft.time.to_le_bytes()), &draft.anchor_time.to_le_bytes())
}

/// A point's maps, sorted.
pub struct Maps {
    includes: BTreeMap<Peer, Digest>,
    witness: BTreeMap<Peer, Digest>,
    evidence: BTreeSet<Peer>,
}

impl Maps {
    pub fn of(point: &Point) -> Self {
        Self {
            includes: point.includes.iter().copied().collect(),
            witness: point.witness.iter().copied().collect(),
            evidence: point.evidence.iter().copied().collect(),
        }
    }

    /// Writes the record of a point whose maps these are; all else is taken from the draft.
    pub fn write(&self, draft: &Draft, out: &mut [u8]) -> usize {
        let before = out.len();
        let mut rest = front(out, draft);
        for (tag, map) in [(3, &self.includes), (4, &self.witness)] {
            rest = put_head(rest, tag, 64 * map.len());
            rest = map.keys().fold(rest, |rest, peer| put(rest, peer));
            rest = map.values().fold(rest, |rest, digest| put(rest, digest));
        }
        rest = put_head(rest, 5, 32 * self.evidence.len());
        rest = self.evidence.iter().fold(rest, |rest, peer| put(rest, peer));
        before - back(rest, draft).len()
    }
}
