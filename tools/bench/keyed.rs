// The keyed sealer in plain Rust: a key and a number of seals for each party, and SipHash of a text's bytes as its seal.
#![allow(deprecated)]
use crate::refusals::Refusal;
use crate::sealer::{Sealer, Text};
use crate::wire::Party;
use std::hash::{Hasher, SipHasher};

const PARTIES: u64 = 97;

#[derive(Clone, Copy)]
struct Row {
    low: u64,
    high: u64,
    left: u32,
}

pub struct Keyed {
    rows: Vec<Row>,
}

impl Keyed {
    // The source, the clients and the replicas, each with this many seals.
    pub fn new(left: u32) -> Keyed {
        let row = |place: u64| Row {
            low: place,
            high: !place,
            left,
        };
        Keyed {
            rows: (0..PARTIES).map(row).collect(),
        }
    }
}

impl Row {
    fn seal(&self, text: Text) -> u64 {
        let mut hasher = SipHasher::new_with_keys(self.low, self.high);
        hasher.write(&bytes(text));
        hasher.finish()
    }
}

fn place(party: Party) -> usize {
    match party {
        Party::Source => 0,
        Party::Client(client) => usize::from(client),
        Party::Replica(replica) => 33 + usize::from(replica),
    }
}

// One byte, one byte, four and eight, each number with its lowest byte first.
fn bytes(text: Text) -> [u8; 14] {
    let mut bytes = [0; 14];
    bytes[0] = text.tag;
    bytes[1] = text.party;
    bytes[2..6].copy_from_slice(&text.number.to_le_bytes());
    bytes[6..].copy_from_slice(&text.word.to_le_bytes());
    bytes
}

impl Sealer for Keyed {
    fn has_seal_left(&self, party: Party) -> bool {
        self.rows[place(party)].left > 0
    }

    fn seal(&mut self, party: Party, text: Text) -> Result<u64, Refusal> {
        let row = &mut self.rows[place(party)];
        row.left = row.left.checked_sub(1).ok_or(Refusal::NoSealLeft)?;
        Ok(row.seal(text))
    }

    fn checks(&self, seal: u64, text: Text) -> bool {
        let party = Party::from_number(u64::from(text.party));
        party.is_some_and(|party| self.rows[place(party)].seal(text) == seal)
    }
}
