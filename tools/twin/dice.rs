// Numbers that look random and are the same for the same seed.
pub struct Dice {
    state: u64,
}

impl Dice {
    pub fn new(seed: u64) -> Dice {
        Dice { state: seed }
    }

    // SplitMix64.
    pub fn number(&mut self) -> u64 {
        self.state = self.state.wrapping_add(0x9e37_79b9_7f4a_7c15);
        let mixed = (self.state ^ self.state >> 30).wrapping_mul(0xbf58_476d_1ce4_e5b9);
        let mixed = (mixed ^ mixed >> 27).wrapping_mul(0x94d0_49bb_1331_11eb);
        mixed ^ mixed >> 31
    }

    // One of 0 to `end` - 1, and 0 where there is none.
    pub fn below(&mut self, end: u64) -> u64 {
        self.number().checked_rem(end).unwrap_or(0)
    }

    pub fn place(&mut self, len: usize) -> usize {
        self.below(len as u64) as usize
    }

    // Whether something happens that happens `times` in a thousand.
    pub fn happens(&mut self, times: u64) -> bool {
        self.below(1000) < times
    }

    pub fn pick<T: Copy>(&mut self, items: &[T]) -> Option<T> {
        items.get(self.place(items.len())).copied()
    }

    // A set of `size` of the replicas below `replicas`.
    pub fn set(&mut self, size: u32, replicas: u64) -> u64 {
        let mut set = 0_u64;
        while set.count_ones() < size.min(replicas as u32) {
            set |= 1 << self.below(replicas);
        }
        set
    }
}
