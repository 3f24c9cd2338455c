//! A small generator with a seed, and values made by it.

use wutherdish::{AnchorLink, Digest, IndirectLink, PeerId, Point, PointId, PointRole, Schedule, Settings, Through};

/// SplitMix64.
pub struct Random(pub u64);

impl Random {
    pub fn next(&mut self) -> u64 {
        self.0 = self.0.wrapping_add(0x9E37_79B9_7F4A_7C15);
        let mut z = self.0;
        z = (z ^ (z >> 30)).wrapping_mul(0xBF58_476D_1CE4_E5B9);
        z = (z ^ (z >> 27)).wrapping_mul(0x94D0_49BB_1331_11EB);
        z ^ (z >> 31)
    }

    pub fn below(&mut self, bound: usize) -> usize {
        (self.next() % bound as u64) as usize
    }

    pub fn byte(&mut self) -> u8 {
        self.next() as u8
    }

    pub fn flag(&mut self) -> bool {
        self.below(2) == 1
    }

    fn number(&mut self) -> u32 {
        self.next() as u32
    }

    pub fn bytes(&mut self) -> [u8; 32] {
        std::array::from_fn(|_| self.byte())
    }

    pub fn peer(&mut self) -> PeerId {
        PeerId(self.bytes())
    }

    pub fn id(&mut self) -> PointId {
        PointId { round: self.number(), digest: Digest(self.bytes()), author: self.peer() }
    }

    pub fn settings(&mut self) -> Settings {
        Settings {
            genesis_round: self.number(),
            genesis_digest: Digest(self.bytes()),
            payload_batch_bytes: self.number(),
            sticky_anchors: self.byte(),
            clock_skew_millis: self.next() as u16,
            commit_history_rounds: self.byte(),
        }
    }

    /// A schedule whose spans rise, of at most n peers each.
    pub fn schedule(&mut self, most: usize) -> Schedule {
        let spans = 1 + self.below(4);
        (0..spans).fold(Schedule::new(self.number()), |schedule, place| {
            let first_round = (place as u32) << 30 | self.number() >> 2;
            let count = self.below(most + 1);
            schedule.span(first_round, (0..count).map(|_| self.peer()).collect::<Vec<_>>())
        })
    }

    fn through(&mut self) -> Through {
        if self.flag() { Through::Includes(self.peer()) } else { Through::Witness(self.peer()) }
    }

    fn link(&mut self) -> AnchorLink {
        let through = self.through();
        if self.flag() {
            AnchorLink::Direct(through)
        } else {
            AnchorLink::Indirect(IndirectLink { to: self.id(), through })
        }
    }

    fn role(&mut self) -> PointRole {
        match self.below(4) {
            0 => PointRole::Regular,
            1 => PointRole::AnchorProof { seq_no: self.byte(), is_last: self.flag() },
            2 => PointRole::AnchorTrigger,
            _ => PointRole::Genesis,
        }
    }

    /// A point with any numbers in it, and at most n peers in each map.
    pub fn point(&mut self, most: usize) -> Point {
        let [includes, witness, evidence] = std::array::from_fn(|_| self.below(most + 1));
        Point {
            id: self.id(),
            payload_len: self.number(),
            payload_bytes: self.number(),
            includes: (0..includes).map(|_| (self.peer(), Digest(self.bytes()))).collect(),
            witness: (0..witness).map(|_| (self.peer(), Digest(self.bytes()))).collect(),
            evidence: (0..evidence).map(|_| self.peer()).collect(),
            anchor_proof: self.link(),
            anchor_trigger: self.link(),
            role: self.role(),
            time: self.next(),
            anchor_time: self.next(),
        }
    }

    /// Fields with one damage, half of the time near the front of a field: a byte changed, lost or added, a row that
    /// stands twice, or the end cut off or lengthened.
    pub fn damaged(&mut self, good: &[u8]) -> Vec<u8> {
        let mut bytes = good.to_vec();
        let starts = starts(good);
        let start = starts[self.below(starts.len() - 1)];
        let place = if self.flag() { self.below(bytes.len()) } else { (start + self.below(7)).min(bytes.len() - 1) };
        match self.below(9) {
            0 => bytes[place] = self.byte(),
            1 => bytes[place] = self.below(5) as u8,
            2 => bytes[place] = bytes[place].wrapping_add(1),
            3 => bytes[place] = bytes[place].wrapping_sub(32),
            4 => drop(bytes.remove(place)),
            5 => bytes.insert(place, self.byte()),
            6 => bytes.truncate(place),
            7 => bytes.extend_from_slice(&good[place..]),
            _ => {
                let row = start + 3 + 4 * self.below(2);
                let next = row + 32 * (1 + self.below(2));
                if next + 32 <= bytes.len() {
                    bytes.copy_within(row..row + 32, next);
                }
            }
        }
        bytes
    }
}

/// Where the fields begin, and where the last one ends.
pub fn starts(bytes: &[u8]) -> Vec<usize> {
    let mut starts = vec![];
    let mut place = 0;
    while let Some(&[_, low, high]) = bytes.get(place..place + 3) {
        starts.push(place);
        place += 3 + usize::from(u16::from_le_bytes([low, high]));
    }
    starts.push(place);
    starts
}
