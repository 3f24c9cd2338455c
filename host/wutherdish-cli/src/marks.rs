//! Why entries of a book are marked: the offer that marked each first, and the chain of dependencies that its mark came along.
//!
//! The entries in their order say it, since an offer that marks is always kept. The library marks by a proved walk; this one is
//! only for what is said of a mark, and tests compare the two.

use std::collections::BTreeMap;

use wutherdish::{Kept, PointId, Settings, Status, Through};

/// Why an entry is marked.
#[derive(Clone, PartialEq, Eq, Debug)]
pub struct Cause {
    /// The point whose offer marked it.
    pub by: PointId,
    /// From that point's previous point down to the entry itself, each a dependency of the one before it.
    pub chain: Vec<PointId>,
}

/// Why each entry is marked; none where no offer marked it.
pub fn causes(settings: &Settings, kept: &[Kept]) -> Vec<Option<Cause>> {
    let entries = entries(settings, kept);
    let mut causes = vec![None; kept.len()];
    for (place, entry) in entries.iter().enumerate() {
        // what a certificate goes on through is what needed its list, and so what marks
        let Some(top) = entry.prev.filter(|top| entry.passes_on && *top < place) else { continue };
        let walk = Walk::new(settings, &entries[..place], top);
        for reached in walk.reached() {
            let cause = || Cause { by: kept[place].id(), chain: walk.chain(reached, kept) };
            causes[reached].get_or_insert_with(cause);
        }
    }
    causes
}

/// What a walk asks of an entry. Other entries are given by their places.
struct Entry {
    /// Whether a mark goes on through it: above genesis, and not ill-formed.
    passes_on: bool,
    prev: Option<usize>,
    includes: Vec<usize>,
    witness: Vec<usize>,
}

fn entries(settings: &Settings, kept: &[Kept]) -> Vec<Entry> {
    let places: BTreeMap<PointId, usize> = kept.iter().enumerate().map(|(place, entry)| (entry.id(), place)).collect();
    let entry = |Kept { point, status, .. }: &Kept| {
        let place = |through| point.through_id(through).and_then(|id| places.get(&id).copied());
        Entry {
            passes_on: point.id.round > settings.genesis_round && !matches!(status, Status::IllFormed { .. }),
            prev: place(Through::Includes(point.id.author)),
            includes: point.includes.keys().filter_map(|peer| place(Through::Includes(*peer))).collect(),
            witness: point.witness.keys().filter_map(|peer| place(Through::Witness(*peer))).collect(),
        }
    };
    kept.iter().map(entry).collect()
}

/// A walk over the entries before an offer, from its previous point down: an include lies a round lower, a witness two.
struct Walk {
    /// By depth below the previous point, which is the only one at 0.
    levels: Vec<Vec<usize>>,
    /// Through which entry each was reached first; the previous point through itself.
    from: Vec<Option<usize>>,
}

impl Walk {
    fn new(settings: &Settings, entries: &[Entry], top: usize) -> Self {
        let mut walk = Self { levels: vec![vec![top]], from: vec![None; entries.len()] };
        walk.from[top] = Some(top);
        for depth in 1..=usize::from(settings.commit_history_rounds) {
            let mut level = Vec::new();
            for place in walk.above(depth, 1) {
                walk.enter(place, &entries[place], |entry| &entry.includes, &mut level);
            }
            for place in walk.above(depth, 2) {
                walk.enter(place, &entries[place], |entry| &entry.witness, &mut level);
            }
            walk.levels.push(level);
        }
        walk
    }

    /// What was reached as many levels above a depth.
    fn above(&self, depth: usize, levels: usize) -> Vec<usize> {
        depth.checked_sub(levels).map_or(Vec::new(), |depth| self.levels[depth].clone())
    }

    /// Goes on through an entry, if it passes the mark on, to what of one of its maps was there before the offer.
    fn enter(&mut self, from: usize, entry: &Entry, map: fn(&Entry) -> &[usize], level: &mut Vec<usize>) {
        let map = if entry.passes_on { map(entry) } else { &[] };
        for &place in map {
            if let Some(free @ None) = self.from.get_mut(place) {
                *free = Some(from);
                level.push(place);
            }
        }
    }

    fn reached(&self) -> impl Iterator<Item = usize> {
        self.levels.iter().flatten().copied()
    }

    fn chain(&self, to: usize, kept: &[Kept]) -> Vec<PointId> {
        let above = |place: &usize| self.from[*place].filter(|from| from != place);
        let mut chain: Vec<PointId> = std::iter::successors(Some(to), above).map(|place| kept[place].id()).collect();
        chain.reverse();
        chain
    }
}

#[cfg(test)]
mod tests {
    use wutherdish::{Book, Digest, PeerId, Point};

    use super::*;
    use crate::feed::Feed;

    /// That the marks are the library's, and that each chain leads from the offer's previous point to the entry.
    fn check(settings: &Settings, kept: &[Kept]) -> usize {
        let causes = causes(settings, kept);
        let point = |id: &PointId| &kept.iter().find(|entry| entry.id() == *id).expect("it is kept").point;
        for (entry, cause) in kept.iter().zip(&causes) {
            assert_eq!(entry.certified, cause.is_some(), "{entry}");
            let Some(Cause { by, chain }) = cause else { continue };
            let by = point(by);
            assert_eq!(by.through_id(Through::Includes(by.id.author)).as_ref(), chain.first());
            assert_eq!(chain.last(), Some(&entry.id()));
            chain.windows(2).for_each(|step| assert!(point(&step[0]).dependencies().any(|id| id == step[1])));
        }
        causes.iter().flatten().count()
    }

    #[test]
    fn marks_are_the_librarys_after_each_offer() {
        let mut marked = 0;
        for drill in wutherdish_drills::all() {
            let Ok(feed) = Feed::read(drill.input.bytes()) else { continue };
            let Ok(mut book) = Book::open(vec![0; 65_536], feed.settings) else { continue };
            for offer in feed.offers().flatten() {
                let _ = book.offer(feed.schedule, offer.leader, offer.record);
                marked += check(&feed.front.0, &book.kept().expect("it is a book"));
            }
        }
        assert!(marked > 100, "{marked}");
    }

    fn id(round: u32, author: u8) -> PointId {
        PointId { round, digest: Digest([round as u8; 32]), author: PeerId([author; 32]) }
    }

    /// The offer of d14 certifies d13, which includes c12, which witnesses b10, which includes a9.
    fn chain(history: u8, status: Status) -> Vec<Vec<PointId>> {
        let [a, b, c, d, last] = [(9, 1), (10, 2), (12, 3), (13, 4), (14, 4)].map(|(round, author)| id(round, author));
        let new = |id| Point::new(id, 0, 0);
        let points = [
            new(a),
            new(b).include(a.author, a.digest),
            new(c).witness(b.author, b.digest),
            new(d).include(c.author, c.digest),
            new(last).include(d.author, d.digest),
        ];
        let mut kept = points.map(|point| Kept { point, status: Status::Valid, certified: false });
        kept[2].status = status;
        let settings = Settings {
            genesis_round: 5,
            genesis_digest: Digest([0; 32]),
            payload_batch_bytes: 0,
            sticky_anchors: 0,
            clock_skew_millis: 0,
            commit_history_rounds: history,
        };
        let causes = causes(&settings, &kept);
        assert!(causes.iter().flatten().all(|cause| cause.by == last));
        causes.into_iter().flatten().map(|cause| cause.chain).collect()
    }

    #[test]
    fn a_chain_as_deep_as_the_history() {
        let [a, b, c, d] = [(9, 1), (10, 2), (12, 3), (13, 4)].map(|(round, author)| id(round, author));
        let whole = [vec![d, c, b, a], vec![d, c, b], vec![d, c], vec![d]];
        for (history, left) in [(4, 0), (3, 1), (2, 2), (1, 2)] {
            assert_eq!(chain(history, Status::Valid), whole[left..], "{history}");
        }
        assert_eq!(chain(4, Status::Invalid { reason: 19 }), whole);
        assert_eq!(chain(4, Status::IllFormed { reason: 14 }), whole[2..], "it passes nothing on");
    }
}
