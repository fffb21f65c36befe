// The book: a row for each seal of each party, and which seals are genuine by it.
use crate::refusals::Refusal;
use crate::sealer::{Sealer, Text};
use crate::wire::Party;

pub struct Book {
    // How many seals each party has in all.
    share: u64,
    rows: Vec<Vec<Text>>,
}

impl Book {
    pub fn new(share: u64) -> Book {
        Book {
            share,
            rows: vec![Vec::new(); 164],
        }
    }
}

impl Sealer for Book {
    fn has_seal_left(&self, party: Party) -> bool {
        (self.rows[usize::from(party.number())].len() as u64) < self.share
    }

    fn seal(&mut self, party: Party, text: Text) -> Result<u64, Refusal> {
        if !self.has_seal_left(party) {
            return Err(Refusal::NoSealLeft);
        }
        let rows = &mut self.rows[usize::from(party.number())];
        rows.push(text);
        Ok(u64::from(party.number()) * self.share + rows.len() as u64 - 1)
    }

    fn checks(&self, seal: u64, text: Text) -> bool {
        let party = usize::try_from(seal / self.share).unwrap_or(usize::MAX);
        let rows = self.rows.get(party).map_or(&[][..], Vec::as_slice);
        rows.get((seal % self.share) as usize) == Some(&text)
    }
}
