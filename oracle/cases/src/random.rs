//! A small generator of numbers by seed (splitmix64).

pub struct Random(u64);

impl Random {
    pub fn new(seed: u64, place: u64) -> Self {
        let mut random = Self(seed ^ 0x6A09_E667_F3BC_C908);
        let start = random.number() ^ place.wrapping_mul(0xD134_2543_DE82_EF95);
        Self(start)
    }

    pub fn number(&mut self) -> u64 {
        self.0 = self.0.wrapping_add(0x9E37_79B9_7F4A_7C15);
        let mut mixed = self.0;
        mixed = (mixed ^ (mixed >> 30)).wrapping_mul(0xBF58_476D_1CE4_E5B9);
        mixed = (mixed ^ (mixed >> 27)).wrapping_mul(0x94D0_49BB_1331_11EB);
        mixed ^ (mixed >> 31)
    }

    /// A number under `count`, which is at least 1.
    pub fn below(&mut self, count: usize) -> usize {
        (self.number() % count as u64) as usize
    }

    /// A number of a range, both ends included.
    pub fn between(&mut self, least: u32, greatest: u32) -> u32 {
        least + (self.number() % (u64::from(greatest - least) + 1)) as u32
    }

    /// True in `part` of `whole` calls.
    pub fn chance(&mut self, part: usize, whole: usize) -> bool {
        self.below(whole) < part
    }

    pub fn pick<T: Copy>(&mut self, among: &[T]) -> T {
        among[self.below(among.len())]
    }

    pub fn bytes(&mut self) -> [u8; 32] {
        let mut out = [0; 32];
        for chunk in out.chunks_mut(8) {
            chunk.copy_from_slice(&self.number().to_le_bytes());
        }
        out
    }

    pub fn shuffle<T>(&mut self, items: &mut [T]) {
        for place in (1..items.len()).rev() {
            items.swap(place, self.below(place + 1));
        }
    }
}
