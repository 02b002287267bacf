//! A small seeded generator (splitmix64), so that the cases are the same on every machine.
//! It is no source of secrets; it only has to be short and repeatable.

/// One seed for each kind of cases, fixed so that the files never change by themselves.
pub const FRAMES: u64 = 0x4C4C_4450_4854_4950;
pub const ANNOUNCEMENTS: u64 = 0x414E_4E4F_554E_4345;
pub const EVENTS: u64 = 0x4E45_4947_4842_5253;
pub const CAPTURES: u64 = 0x4341_5054_5552_4553;
pub const LOOKS: u64 = 0x5457_4F4C_4F4F_4B53;

pub struct Rng {
    state: u64,
}

impl Rng {
    pub fn new(seed: u64) -> Self {
        Rng { state: seed }
    }

    pub fn word(&mut self) -> u64 {
        self.state = self.state.wrapping_add(0x9E37_79B9_7F4A_7C15);
        let mut z = self.state;
        z = (z ^ (z >> 30)).wrapping_mul(0xBF58_476D_1CE4_E5B9);
        z = (z ^ (z >> 27)).wrapping_mul(0x94D0_49BB_1331_11EB);
        z ^ (z >> 31)
    }

    /// A number under `bound`, which is above 0. A remainder leans a little; that does no harm.
    pub fn below(&mut self, bound: usize) -> usize {
        (self.word() % bound as u64) as usize
    }

    /// A number from `low` to `high`, both included.
    pub fn between(&mut self, low: usize, high: usize) -> usize {
        low + self.below(high - low + 1)
    }

    /// True once in `n` times.
    pub fn once_in(&mut self, n: usize) -> bool {
        self.below(n) == 0
    }

    pub fn octet(&mut self) -> u8 {
        self.word() as u8
    }

    pub fn octets(&mut self, count: usize) -> Vec<u8> {
        (0..count).map(|_| self.octet()).collect()
    }

    pub fn address(&mut self) -> [u8; 6] {
        [0; 6].map(|_: u8| self.octet())
    }

    pub fn pick<T: Copy>(&mut self, among: &[T]) -> T {
        among[self.below(among.len())]
    }

    /// That many, each of them any of the list.
    pub fn picks<T: Copy>(&mut self, among: &[T], count: usize) -> Vec<T> {
        (0..count).map(|_| self.pick(among)).collect()
    }

    pub fn shuffle<T>(&mut self, list: &mut [T]) {
        for i in (1..list.len()).rev() {
            list.swap(i, self.below(i + 1));
        }
    }
}
