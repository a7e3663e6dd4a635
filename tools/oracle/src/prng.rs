//! A small generator of numbers, the same on every machine (splitmix64).

pub struct Prng(u64);

impl Prng {
    pub fn new(seed: u64) -> Prng {
        Prng(seed)
    }

    fn draw(&mut self) -> u64 {
        self.0 = self.0.wrapping_add(0x9E37_79B9_7F4A_7C15);
        let mut mixed = self.0;
        mixed = (mixed ^ mixed >> 30).wrapping_mul(0xBF58_476D_1CE4_E5B9);
        mixed = (mixed ^ mixed >> 27).wrapping_mul(0x94D0_49BB_1331_11EB);
        mixed ^ mixed >> 31
    }

    /// A number from 0 to below the bound, which is not 0.
    pub fn below(&mut self, bound: usize) -> usize {
        (self.draw() % bound as u64) as usize
    }

    /// A number from `least` to `most`, both included.
    pub fn between(&mut self, least: u8, most: u8) -> u8 {
        least + self.below(usize::from(most - least) + 1) as u8
    }

    /// True so many times out of a hundred.
    pub fn percent(&mut self, percent: usize) -> bool {
        self.below(100) < percent
    }

    pub fn pick<T: Copy>(&mut self, among: &[T]) -> T {
        among[self.below(among.len())]
    }

    pub fn byte(&mut self) -> u8 {
        self.draw() as u8
    }

    /// A byte in which the telling values 0xAA, 0x00, 0x80, 0xFF are common.
    pub fn telling_byte(&mut self) -> u8 {
        if self.percent(30) {
            self.pick(&[0xAA, 0x00, 0x80, 0xFF])
        } else {
            self.byte()
        }
    }

    pub fn telling_bytes(&mut self, count: usize) -> Vec<u8> {
        (0..count).map(|_| self.telling_byte()).collect()
    }

    /// A number of four bytes, often about one of the ends that it can have.
    pub fn telling_long(&mut self) -> u32 {
        let about = self.pick(&[0, 0x7FFF_FFFF, 0x8000_0001, 0xFFFF_FFFF]);
        match self.below(4) {
            0 => about,
            1 => u32::from(self.byte()) << 8 | u32::from(self.byte()),
            _ => self.draw() as u32,
        }
    }

    /// Another value than the one given.
    pub fn other_than(&mut self, byte: u8) -> u8 {
        byte.wrapping_add(self.between(1, 255))
    }
}
