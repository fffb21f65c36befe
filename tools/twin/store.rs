// What is asked of a store, and the cabinet, which keeps the cards in memory.
use crate::refusals::Refusal;
use crate::replica::Card;

pub trait Store {
    fn load(&self, replica: u8) -> Option<Card>;

    fn save(&mut self, replica: u8, card: Card) -> Result<(), Refusal>;
}

// The cards of the replicas from 0 on.
pub struct Cabinet {
    pub cards: Vec<Card>,
}

impl Cabinet {
    pub fn new() -> Cabinet {
        Cabinet { cards: Vec::new() }
    }
}

impl Store for Cabinet {
    fn load(&self, replica: u8) -> Option<Card> {
        self.cards.get(usize::from(replica)).copied()
    }

    fn save(&mut self, replica: u8, card: Card) -> Result<(), Refusal> {
        match self.cards.get_mut(usize::from(replica)) {
            Some(place) => *place = card,
            None => self.cards.push(card),
        }
        Ok(())
    }
}
