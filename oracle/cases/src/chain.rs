//! Feeds of points, each after its dependencies, that show how far certificates spread.

use std::collections::{HashMap, HashSet};

use oracle::answer::INVALID;
use oracle::feed::Feed;
use oracle::value::{AnchorLink, Id, Peer, Point, PointRole, Schedule, Settings, Span, Through};
use oracle::{Answer, Verdict};

use crate::random::Random;

const GENESIS: u32 = 10;
const GENESIS_AUTHOR: Peer = [200; 32];
const PEERS: usize = 7;
/// 2F+1 of seven peers.
const MAJORITY: usize = 5;
/// The place of the peer whose points are only witnessed.
const WITNESSED: usize = PEERS - 1;

/// The same offers to the source's certificates and to the plain rule.
struct Chain {
    settings: Settings,
    schedule: Schedule,
    feed: Feed,
    points: HashMap<Id, Kept>,
    /// By the plain rule: see `certify`.
    heights: HashMap<Id, u32>,
}

struct Kept {
    dependencies: Vec<(Id, u32)>,
}

fn peer(place: usize) -> Peer {
    [place as u8 + 1; 32]
}

impl Chain {
    /// Seven peers above a genesis point, and a window of n rounds.
    fn new(history: u8) -> Self {
        let settings = Settings {
            genesis_round: GENESIS,
            genesis_digest: [9; 32],
            payload_batch_bytes: 1,
            sticky_anchors: 0,
            clock_skew_millis: 1,
            commit_history_rounds: history,
        };
        let spans = vec![
            Span { first: GENESIS, peers: vec![GENESIS_AUTHOR] },
            Span { first: GENESIS + 1, peers: (0..PEERS).map(peer).collect() },
        ];
        let schedule = Schedule { spans, last_known: 10_000 };
        let feed = Feed::new(settings.clone());
        let mut chain = Self { settings, schedule, feed, points: HashMap::new(), heights: HashMap::new() };
        chain.offer(&chain.genesis());
        chain
    }

    fn genesis_id(&self) -> Id {
        Id { round: GENESIS, digest: self.settings.genesis_digest, author: GENESIS_AUTHOR }
    }

    fn genesis(&self) -> Point {
        Point::genesis(self.genesis_id(), 1)
    }

    /// A regular point over these dependencies; it has a previous point if its author's is included.
    fn point(&self, round: u32, author: Peer, includes: &[Id], witness: &[Id]) -> Point {
        let pairs = |ids: &[Id]| {
            let mut pairs: Vec<_> = ids.iter().map(|id| (id.author, id.digest)).collect();
            pairs.sort_unstable();
            pairs
        };
        let to = (round > GENESIS + 1).then(|| self.genesis_id());
        let through = includes.first().map_or(author, |id| id.author);
        let link = AnchorLink { through: Through::Includes, peer: through, to };
        let has_prev = includes.iter().any(|id| id.author == author);
        let others = (0..PEERS).map(peer).filter(|peer| *peer != author);
        let mut digest = author;
        digest[..4].copy_from_slice(&round.to_be_bytes());
        Point {
            id: Id { round, digest, author },
            includes: pairs(includes),
            witness: pairs(witness),
            evidence: if has_prev { others.collect() } else { Vec::new() },
            anchor_proof: link,
            anchor_trigger: link,
            role: PointRole::Regular,
            time: u64::from(round),
            ..self.genesis()
        }
    }

    fn offer(&mut self, point: &Point) {
        let answer = self.feed.offer(&self.schedule, false, point);
        let Answer::Verdict(verdict) = answer else { return };
        self.keep(point, &verdict);
    }

    /// Only a point whose list was needed names its dependencies and certifies its previous point.
    fn keep(&mut self, point: &Point, verdict: &Verdict) {
        let mut dependencies = Vec::new();
        if verdict.kind <= INVALID && point.role != PointRole::Genesis {
            let history = u32::from(self.settings.commit_history_rounds);
            if let Some(digest) = point.prev_digest() {
                let prev = Id { round: point.id.round - 1, digest: *digest, author: point.id.author };
                self.certify(prev, history + 1);
            }
            dependencies.extend(point.dependencies(Through::Includes).map(|id| (id, 1)));
            dependencies.extend(point.dependencies(Through::Witness).map(|id| (id, 2)));
        }
        self.points.insert(point.id, Kept { dependencies });
    }

    /// The plain rule: a previous point has the height of the window plus 1, a dependency one less for every
    /// round that it lies lower, and what has a height above 0 is certified.
    fn certify(&mut self, id: Id, height: u32) {
        let Some(kept) = self.points.get(&id) else { return };
        if height == 0 || self.heights.get(&id).is_some_and(|old| *old >= height) {
            return;
        }
        self.heights.insert(id, height);
        for (id, back) in kept.dependencies.clone() {
            self.certify(id, height.saturating_sub(back));
        }
    }

    /// Points whose mark by the source isn't the plain rule's.
    fn differences(&self) -> usize {
        self.feed.marks().filter(|(id, mark)| *mark != self.heights.contains_key(id)).count()
    }

    fn marked(&self) -> HashSet<Id> {
        self.feed.marks().filter(|(_, mark)| *mark).map(|(id, _)| *id).collect()
    }

    /// The kept points of a round, by author.
    fn at(&self, round: u32) -> Vec<Id> {
        let mut ids: Vec<Id> = self.points.keys().filter(|id| id.round == round).copied().collect();
        ids.sort_unstable_by_key(|id| id.author);
        ids
    }
}

/// How deep a certificate reaches below the previous point that one point certifies.
pub struct Reach {
    /// The greatest depths of a certified point that is included, and of one that is only witnessed.
    pub included: u32,
    pub witnessed: u32,
    /// Whether all points between are certified.
    pub whole: bool,
    /// Points whose mark isn't the plain rule's.
    pub differences: usize,
}

/// Rounds of points without previous ones, then one point with one. One peer's points are only witnessed.
pub fn reach(history: u8, rounds: u32) -> Reach {
    let mut chain = Chain::new(history);
    let top = GENESIS + rounds;
    for round in GENESIS + 1..=top {
        let below = chain.at(round - 1);
        let seen: Vec<Id> = chain.at(round - 2).into_iter().filter(|id| id.author == peer(WITNESSED)).collect();
        for author in (0..PEERS).map(peer) {
            let includes: Vec<Id> =
                below.iter().filter(|id| id.author != author && id.author != peer(WITNESSED)).copied().collect();
            let witness: Vec<Id> = seen.iter().filter(|id| id.author != author).copied().collect();
            chain.offer(&chain.point(round, author, &includes, &witness));
        }
    }
    let included: Vec<Id> = chain.at(top).into_iter().filter(|id| id.author != peer(WITNESSED)).collect();
    chain.offer(&chain.point(top + 1, peer(0), &included, &[]));
    reach_below(&chain, top)
}

fn reach_below(chain: &Chain, top: u32) -> Reach {
    let marked = chain.marked();
    let depth = |witnessed: bool| {
        let of_kind = marked.iter().filter(|id| (id.author == peer(WITNESSED)) == witnessed);
        of_kind.map(|id| top - id.round).max().unwrap_or(0)
    };
    let (included, witnessed) = (depth(false), depth(true));
    // one round below the previous point its author's own is not included, and none is witnessed yet
    let whole = (2..=included.min(witnessed)).all(|depth| chain.at(top - depth).iter().all(|id| marked.contains(id)));
    Reach { included, witnessed, whole, differences: chain.differences() }
}

/// A feed by seed, with previous points, gaps and ill-formed points in it: how many points are kept and
/// certified, and how many marks differ from the plain rule's.
pub fn random_feed(random: &mut Random) -> (usize, usize, usize) {
    let history = random.between(1, 6) as u8;
    let mut chain = Chain::new(history);
    for round in GENESIS + 1..=GENESIS + 14 {
        let (below, lower) = (chain.at(round - 1), chain.at(round - 2));
        for author in (0..PEERS).map(peer) {
            if random.chance(1, 8) {
                continue;
            }
            let with_prev = random.chance(1, 6);
            let mut includes: Vec<Id> = below.iter().filter(|id| id.author != author || with_prev).copied().collect();
            if includes.len() > MAJORITY && random.chance(1, 2) {
                includes.remove(random.below(includes.len()));
            }
            let witness: Vec<Id> =
                lower.iter().filter(|id| id.author != author && random.chance(1, 3)).copied().collect();
            chain.offer(&chain.point(round, author, &includes, &witness));
        }
    }
    (chain.points.len(), chain.marked().len(), chain.differences())
}
