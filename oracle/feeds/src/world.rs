//! What a feed's points have in common: settings, and the sets of peers.

use cases::random::Random;
use cases::scene::peer_set;
use oracle::numbers::LAST_ROUND;
use oracle::value::{Id, Peer, Point, Schedule, Settings, Span, Through};

/// Sets are told this many rounds ahead; r and r+4 have to be known.
const AHEAD: u32 = 6;
/// A time so near to the domain's greatest that a feed ends below it.
const LATE: u64 = i64::MAX as u64 - 1_000_000;

pub struct World {
    pub settings: Settings,
    /// The second one has a genesis point too in some feeds, by schedules of its own.
    pub genesis_authors: [Peer; 2],
    pub two_geneses: bool,
    pub genesis_time: u64,
    /// The sets above genesis, each from its first round on.
    sets: Vec<Span>,
    /// Authors whose points nobody includes, themselves neither; each one's are witnessed by the next one's.
    pub shadows: Vec<Peer>,
    /// Most points leave their author's previous one out, so that certificates are rare.
    pub sparse: bool,
}

impl World {
    pub fn new(random: &mut Random) -> Self {
        let genesis_round = match random.below(8) {
            0 => 4,
            1 => LAST_ROUND - random.between(8, 30),
            _ => random.between(5, 60),
        };
        let settings = Settings {
            genesis_round,
            genesis_digest: random.bytes(),
            payload_batch_bytes: random.between(1, 1_000_000),
            sticky_anchors: random.pick(&[0, 0, 1, 2, 3]),
            clock_skew_millis: random.pick(&[1, 300, 2_000, 60_000]),
            commit_history_rounds: random.pick(&[1, 1, 2, 2, 3, 5, 21]),
        };
        let count = random.pick(&[3, 4, 4, 4, 4, 5, 5, 7, 7, 10]);
        let count = if random.chance(1, 100) { 253 + random.below(3) } else { count };
        let mut world = Self {
            settings,
            genesis_authors: [random.bytes(), random.bytes()],
            two_geneses: random.chance(1, 4),
            genesis_time: if random.chance(1, 16) { LATE } else { u64::from(random.between(1, 1_000_000)) },
            sets: Vec::new(),
            shadows: Vec::new(),
            sparse: false,
        };
        world.choose_sets(random, count);
        world
    }

    /// One genesis point, a window of any length, and few peers where it is long. In some worlds two of ten peers are shadows.
    pub fn ordered(random: &mut Random) -> Self {
        let mut world = Self::new(random);
        let history = match random.below(8) {
            0..4 => random.between(1, 4),
            4 | 5 => random.between(5, 20),
            6 => random.between(21, 100),
            _ => random.pick(&[101, 180, 254, 255, 255]),
        };
        let shadowed = history <= 20 && random.chance(1, 4);
        let count = match history {
            _ if shadowed => 10,
            101.. => 4,
            21.. => random.pick(&[4, 4, 5]),
            _ => random.pick(&[3, 4, 4, 5, 7, 7, 13]),
        };
        world.settings.genesis_round = random.between(5, 60);
        world.settings.commit_history_rounds = history as u8;
        world.two_geneses = false;
        world.sparse = random.chance(1, 3);
        world.sets.clear();
        if shadowed {
            // one set, so that there are shadows in every round
            let peers = peer_set(random, count);
            world.shadows = peers[..2].to_vec();
            world.sets.push(Span { first: world.settings.genesis_round + 1, peers });
        } else {
            world.choose_sets(random, count);
        }
        world
    }

    pub fn is_shadow(&self, peer: &Peer) -> bool {
        self.shadows.contains(peer)
    }

    /// Up to three sets; a later one has a few other peers, or the same.
    fn choose_sets(&mut self, random: &mut Random, count: usize) {
        let mut peers = peer_set(random, count);
        let mut first = self.settings.genesis_round + 1;
        if random.chance(1, 4) {
            peers[0] = self.genesis_authors[0];
            peers.sort_unstable();
        }
        for _ in 0..random.pick(&[1, 1, 2, 3]) {
            self.sets.push(Span { first, peers: peers.clone() });
            first += random.between(3, 14);
            for _ in 0..random.below(3) {
                let place = random.below(peers.len());
                peers[place] = random.bytes();
            }
            peers.sort_unstable();
        }
    }

    pub fn peer_count(&self) -> usize {
        self.sets[0].peers.len()
    }

    pub fn is_genesis(&self, round: u32) -> bool {
        round == self.settings.genesis_round
    }

    /// The set of a round above genesis.
    pub fn peers(&self, round: u32) -> &[Peer] {
        let set = self.sets.iter().rfind(|span| span.first <= round);
        set.map_or(&[], |span| &span.peers)
    }

    /// Whether the peer may have a point of the round.
    pub fn knows(&self, round: u32, peer: &Peer) -> bool {
        if self.is_genesis(round) {
            return self.genesis_authors.contains(peer);
        }
        self.peers(round).binary_search(peer).is_ok()
    }

    /// 2F+1 of a round's set; at genesis its one point.
    pub fn majority(&self, round: u32) -> usize {
        if self.is_genesis(round) { 1 } else { (self.peers(round).len() + 1) / 3 * 2 + 1 }
    }

    /// At least 2F peers of a round beside this one.
    pub fn evidence(&self, random: &mut Random, round: u32, author: &Peer) -> Vec<Peer> {
        let mut others: Vec<Peer> = self.peers(round).iter().filter(|peer| *peer != author).copied().collect();
        random.shuffle(&mut others);
        let least = (self.majority(round) - 1).min(others.len());
        others.truncate(least + random.below(others.len() - least + 1));
        others.sort_unstable();
        others
    }

    /// A time that rises with the rounds.
    pub fn time(&self, random: &mut Random, round: u32) -> u64 {
        let above = u64::from(round - self.settings.genesis_round);
        self.genesis_time + 1_000 * above + u64::from(random.between(0, 900))
    }

    /// Whether the sets of r and r+4 are in different spans.
    pub fn regular_required(&self, round: u32) -> bool {
        self.sets.iter().any(|span| round < span.first && span.first <= round + 4)
    }

    /// As it is known at a round: later sets come in with the rounds.
    pub fn schedule(&self, random: &mut Random, round: u32, genesis_author: Peer) -> Schedule {
        let first = self.settings.genesis_round;
        let known = round.saturating_add(AHEAD);
        let mut spans = vec![Span { first, peers: vec![genesis_author] }];
        spans.extend(self.sets.iter().filter(|span| span.first <= known).cloned());
        Schedule { spans, last_known: round + 4 + random.between(0, AHEAD - 4) }
    }

    /// One author leads in each wave of four rounds.
    pub fn leader(&self, round: u32) -> Option<Peer> {
        let peers = self.peers(round);
        let place = (round / 4) as usize % peers.len().max(1);
        if round % 4 == 2 { peers.get(place).copied() } else { None }
    }

    pub fn genesis(&self, author: Peer) -> Point {
        let id = Id { round: self.settings.genesis_round, digest: self.settings.genesis_digest, author };
        Point::genesis(id, self.genesis_time)
    }

    /// The genesis author that a point's schedule has to name.
    pub fn genesis_author(&self, point: &Point) -> Peer {
        if point.id.round <= self.settings.genesis_round {
            return if self.is_genesis(point.id.round) { point.id.author } else { self.genesis_authors[0] };
        }
        let maps = [Through::Includes, Through::Witness].into_iter().flat_map(|map| point.dependencies(map));
        let targets = [point.anchor_proof.to, point.anchor_trigger.to].into_iter().flatten();
        let mut named = maps.chain(targets).filter(|id| self.is_genesis(id.round)).map(|id| id.author);
        named.find(|author| self.genesis_authors.contains(author)).unwrap_or(self.genesis_authors[0])
    }
}
