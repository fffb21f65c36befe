// Bin weights, the record kind of the script program, and their words.
use crate::refusals::{Refusal, require};

const MOST: i64 = 1_000_000_000;
const LOTS: u64 = 100_000;

#[derive(Clone, Copy, Debug, PartialEq, Eq)]
pub struct Weight {
    pub grams: i64,
    pub lot: u64,
}

impl Weight {
    pub fn new(grams: i64, lot: u64) -> Result<Weight, Refusal> {
        require(
            (-MOST..=MOST).contains(&grams) && lot < LOTS,
            Refusal::NoValue,
        )?;
        Ok(Weight { grams, lot })
    }

    pub fn word(self) -> u64 {
        (self.grams + MOST) as u64 * LOTS + self.lot
    }

    pub fn from_word(word: u64) -> Result<Weight, Refusal> {
        require(word < (2 * MOST as u64 + 1) * LOTS, Refusal::NoValue)?;
        Ok(Weight {
            grams: (word / LOTS) as i64 - MOST,
            lot: word % LOTS,
        })
    }
}
