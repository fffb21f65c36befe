// What is asked of a sealer, and the texts that are sealed.
use crate::refusals::Refusal;
use crate::wire::{Configuration, Pair, Party, Set, Stamp};

// Bin weights are record kind 1, and configurations are told apart from every kind by 67.
const WEIGHT_TAG: u8 = 1;
const CONFIGURATION_TAG: u8 = 67;

// The sealed text: tag, party, epoch or count, set or word.
#[derive(Clone, Copy, PartialEq, Eq)]
pub struct Text {
    pub tag: u8,
    pub party: u8,
    pub number: u32,
    pub word: u64,
}

pub trait Sealer {
    fn has_seal_left(&self, party: Party) -> bool;

    // The seal of a text in this party's name, if it has one left.
    fn seal(&mut self, party: Party, text: Text) -> Result<u64, Refusal>;

    fn checks(&self, seal: u64, text: Text) -> bool;

    fn has_sealed_pair(&self, pair: Pair) -> bool {
        self.checks(pair.seal, pair_text(pair.stamp, pair.word))
    }

    fn has_sealed_configuration(&self, shown: Configuration) -> bool {
        self.checks(shown.seal, configuration_text(shown.epoch, shown.set))
    }

    fn seal_pair(&mut self, stamp: Stamp, word: u64) -> Result<Pair, Refusal> {
        let seal = self.seal(Party::Client(stamp.writer), pair_text(stamp, word))?;
        Ok(Pair { stamp, word, seal })
    }

    fn seal_configuration(&mut self, epoch: u32, set: Set) -> Result<Configuration, Refusal> {
        let seal = self.seal(Party::Source, configuration_text(epoch, set))?;
        Ok(Configuration { epoch, set, seal })
    }
}

fn pair_text(stamp: Stamp, word: u64) -> Text {
    Text {
        tag: WEIGHT_TAG,
        party: stamp.writer,
        number: stamp.count,
        word,
    }
}

fn configuration_text(epoch: u32, set: Set) -> Text {
    Text {
        tag: CONFIGURATION_TAG,
        party: Party::Source.number(),
        number: epoch,
        word: set,
    }
}
