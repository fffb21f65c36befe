// The step of a replica.
use crate::refusals::{Objection, Refusal, Stepper, require};
use crate::rules::Rules;
use crate::sealer::Sealer;
use crate::wire::{Configuration, Entry, Kind, Pair, Party, Set, has, has_party, with_party};

#[derive(Clone, Copy)]
pub struct Card {
    pub present: Configuration,
    pub previous: Configuration,
    pub heard: Set,
    pub ready: bool,
    pub pair: Pair,
}

impl Card {
    // The card that a replica has from the opening on.
    pub fn new(replica: u8, rules: &Rules) -> Card {
        Card {
            present: rules.first,
            previous: Configuration {
                epoch: 0,
                set: 0,
                seal: 0,
            },
            heard: 0,
            ready: has(rules.first.set, replica),
            pair: rules.opening,
        }
    }
}

// A step: the card as it is, what came, and what the judgement rests on.
pub struct ReplicaStep<'a, L> {
    pub rules: &'a Rules,
    pub book: &'a L,
    pub replica: u8,
    pub card: Card,
}

// What a step saves and what it posts, if anything.
type Outcome = Result<(Option<Card>, Option<Entry>), Refusal>;

impl<L: Sealer> ReplicaStep<'_, L> {
    pub fn take(self, entry: &Entry) -> Outcome {
        match Kind::from_number(entry.kind) {
            Some(kind @ (Kind::Read | Kind::Write)) => self.asked(kind, entry),
            Some(Kind::Config) => self.reconfigured(entry.configuration()),
            Some(Kind::Transfer) => self.asked_for_stock(entry),
            Some(Kind::Stock) => self.stocked(entry),
            Some(Kind::Behind) => Ok((None, Some(self.own_configuration()))),
            Some(Kind::Pair | Kind::Ack) | None => Err(object(Objection::NotAwaited)),
        }
    }

    fn own(&self, kind: Kind) -> Entry {
        Entry::new(Party::Replica(self.replica), kind)
    }

    fn own_configuration(&self) -> Entry {
        self.own(Kind::Config).showing(self.card.present)
    }

    fn is_member(&self) -> bool {
        has(self.card.present.set, self.replica)
    }

    fn asked(&self, kind: Kind, entry: &Entry) -> Outcome {
        if entry.epoch < self.card.present.epoch {
            return Ok((None, Some(self.own_configuration())));
        }
        if entry.epoch > self.card.present.epoch {
            return Ok((None, Some(self.own(Kind::Behind).answering(entry))));
        }
        Stepper::Replica.require(self.is_member(), Objection::NotMember)?;
        require(self.card.ready, Refusal::NotReady)?;
        if kind == Kind::Read {
            let answer = self
                .own(Kind::Pair)
                .answering(entry)
                .carrying(self.card.pair);
            return Ok((None, Some(answer)));
        }
        self.require_pair(entry.pair())?;
        let pair = entry.pair();
        let is_higher = pair.stamp > self.card.pair.stamp;
        let card = is_higher.then_some(Card { pair, ..self.card });
        Ok((card, Some(self.own(Kind::Ack).answering(entry))))
    }

    fn reconfigured(&self, new: Configuration) -> Outcome {
        let old = self.card.present;
        let is_next = u64::from(new.epoch) == u64::from(old.epoch) + 1;
        Stepper::Replica.require(is_next, Objection::NotNewer)?;
        self.require_configuration(new)?;
        require(!self.is_member() || self.card.ready, Refusal::NotReady)?;
        let card = Card {
            present: new,
            previous: old,
            heard: 0,
            ready: false,
            pair: self.card.pair,
        };
        let asks = has(new.set, self.replica).then(|| self.own(Kind::Transfer).showing(old));
        Ok((Some(card), asks))
    }

    fn asked_for_stock(&self, entry: &Entry) -> Outcome {
        let shown = entry.configuration();
        self.require_configuration(shown)?;
        Stepper::Replica.require(has(shown.set, self.replica), Objection::NotMember)?;
        let answer = if self.card.present.epoch > shown.epoch {
            self.own(Kind::Stock).carrying(self.card.pair)
        } else {
            self.own(Kind::Behind)
        };
        Ok((None, Some(answer.answering(entry))))
    }

    fn stocked(&self, entry: &Entry) -> Outcome {
        let card = self.card;
        let is_from_before = u64::from(entry.epoch) + 1 == u64::from(card.present.epoch);
        let is_awaited = self.is_member() && !card.ready && is_from_before;
        Stepper::Replica.require(is_awaited, Objection::NotAwaited)?;
        Stepper::Replica.require(
            has_party(card.previous.set, entry.sender),
            Objection::NotMember,
        )?;
        Stepper::Replica.require(
            !has_party(card.heard, entry.sender),
            Objection::AlreadyCounted,
        )?;
        self.require_pair(entry.pair())?;
        let heard = with_party(card.heard, entry.sender);
        let pair = higher(card.pair, entry.pair());
        let card = Card {
            heard,
            pair,
            ready: self.rules.is_quorum(heard),
            ..card
        };
        Ok((Some(card), None))
    }

    fn require_pair(&self, pair: Pair) -> Result<(), Refusal> {
        let is_genuine = self.rules.is_pair_genuine(self.book, pair);
        Stepper::Replica.require(is_genuine, Objection::NotGenuine)
    }

    fn require_configuration(&self, shown: Configuration) -> Result<(), Refusal> {
        let is_genuine = self.rules.is_configuration_genuine(self.book, shown);
        Stepper::Replica.require(is_genuine, Objection::NotGenuine)
    }
}

fn object(objection: Objection) -> Refusal {
    Refusal::Step(Stepper::Replica, objection)
}

// The pair with the higher stamp, the present one where they are equal.
fn higher(present: Pair, other: Pair) -> Pair {
    if other.stamp > present.stamp {
        other
    } else {
        present
    }
}
