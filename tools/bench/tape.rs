// The tape in plain Rust: a record of 72 bytes for each save, of which the last of a replica counts.
use crate::refusals::Refusal;
use crate::replica::Card;
use crate::store::Store;
use crate::wire::{Configuration, Pair, Stamp};

pub const RECORD: usize = 72;

const MARK: &[u8; 4] = b"BIN1";

// The first bytes are whole records, and the others room for more.
pub struct Tape<'a> {
    bytes: &'a mut [u8],
    used: usize,
}

impl<'a> Tape<'a> {
    pub fn new(bytes: &'a mut [u8]) -> Tape<'a> {
        Tape { bytes, used: 0 }
    }
}

fn record_of(replica: u8, card: &Card) -> [u8; RECORD] {
    let mut record = [0; RECORD];
    record[..4].copy_from_slice(MARK);
    record[4] = replica;
    record[5] = u8::from(card.ready);
    record[6] = card.pair.stamp.writer;
    record[8..12].copy_from_slice(&card.present.epoch.to_le_bytes());
    record[12..16].copy_from_slice(&card.pair.stamp.count.to_le_bytes());
    let words = [
        card.present.set,
        card.present.seal,
        card.previous.set,
        card.previous.seal,
        card.heard,
        card.pair.word,
        card.pair.seal,
    ];
    for (place, word) in record[16..].chunks_exact_mut(8).zip(words) {
        place.copy_from_slice(&word.to_le_bytes());
    }
    record
}

fn card_of(record: &[u8; RECORD]) -> Card {
    let short = |at: usize| u32::from_le_bytes(record[at..at + 4].try_into().unwrap());
    let long = |at: usize| u64::from_le_bytes(record[at..at + 8].try_into().unwrap());
    let epoch = short(8);
    Card {
        present: Configuration {
            epoch,
            set: long(16),
            seal: long(24),
        },
        previous: Configuration {
            epoch: epoch.saturating_sub(1),
            set: long(32),
            seal: long(40),
        },
        heard: long(48),
        ready: record[5] == 1,
        pair: Pair {
            stamp: Stamp {
                count: short(12),
                writer: record[6],
            },
            word: long(56),
            seal: long(64),
        },
    }
}

impl Store for Tape<'_> {
    fn load(&self, replica: u8) -> Option<Card> {
        let (records, _) = self.bytes[..self.used].as_chunks::<RECORD>();
        let last = records.iter().rev().find(|record| record[4] == replica);
        last.map(card_of)
    }

    fn save(&mut self, replica: u8, card: Card) -> Result<(), Refusal> {
        let end = self.used + RECORD;
        let room = self.bytes.get_mut(self.used..end);
        // the twin has no refusal of its own for a tape that is full
        room.ok_or(Refusal::TableFull)?
            .copy_from_slice(&record_of(replica, &card));
        self.used = end;
        Ok(())
    }
}
