// What every step goes by: who is in the hall, what a quorum is, what is genuine.
use crate::sealer::Sealer;
use crate::wire::{Configuration, Pair, Party, Set};

#[derive(Clone, Copy)]
pub struct Rules {
    pub f: u32,
    pub replicas: u8,
    pub clients: u8,
    pub first: Configuration,
    pub opening: Pair,
}

impl Rules {
    pub fn is_quorum(&self, counted: Set) -> bool {
        counted.count_ones() > 2 * self.f
    }

    pub fn has_party(&self, party: Party) -> bool {
        match party {
            Party::Source => true,
            Party::Client(client) => client <= self.clients,
            Party::Replica(replica) => replica < self.replicas,
        }
    }

    pub fn is_pair_genuine(&self, book: &impl Sealer, pair: Pair) -> bool {
        let by_client = (1..=self.clients).contains(&pair.stamp.writer);
        pair == self.opening || by_client && book.has_sealed_pair(pair)
    }

    pub fn is_configuration_genuine(&self, book: &impl Sealer, shown: Configuration) -> bool {
        shown == self.first || book.has_sealed_configuration(shown)
    }
}
