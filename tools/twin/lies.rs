// What a marked replica may say in a random script: true things at the wrong time, old ones, and made-up ones.
use crate::dice::Dice;
use crate::hall::Hall;
use crate::scripts::{some_party, some_word};
use crate::wire::{Configuration, Entry, Kind, Pair, Party, Stamp, has};

pub fn lie(dice: &mut Dice, hall: &Hall) -> String {
    let liars: Vec<u8> = (0..hall.rules.replicas)
        .filter(|liar| has(hall.marked, *liar))
        .collect();
    let any = dice.below(hall.rules.replicas.into()) as u8;
    let liar = if dice.happens(20) {
        any
    } else {
        dice.pick(&liars).unwrap_or(any)
    };
    let entry = said_by(dice, hall, liar);
    let Entry {
        kind,
        addressee,
        round,
        epoch,
        count,
        writer,
        word,
        seal,
        ..
    } = entry;
    let party = Party::Replica(liar).number();
    format!("M {party} {kind} {addressee} {round} {epoch} {count} {writer} {word} {seal}")
}

fn said_by(dice: &mut Dice, hall: &Hall, liar: u8) -> Entry {
    match dice.below(10) {
        0..=3 => answer(dice, hall, liar, Kind::Pair),
        4..=5 => answer(dice, hall, liar, Kind::Ack),
        6 => stock(dice, hall, liar),
        7 => Entry::new(Party::Replica(liar), Kind::Config).showing(configuration(dice, hall)),
        8 => Entry::new(Party::Replica(liar), Kind::Transfer).showing(configuration(dice, hall)),
        _ => anything(dice, hall),
    }
}

// An answer to a client's round, to one before it, or to one that is still to come.
fn answer(dice: &mut Dice, hall: &Hall, liar: u8, kind: Kind) -> Entry {
    let seat = &hall.seats[dice.place(hall.seats.len())];
    let round = match dice.below(10) {
        0 => seat.line.round.saturating_sub(1),
        1..=2 => seat.line.round.saturating_add(1),
        _ => seat.line.round,
    };
    let entry = Entry {
        addressee: seat.line.client,
        ..Entry::new(Party::Replica(liar), kind)
    };
    let entry = entry.asking(round, seat.line.configuration.epoch);
    if kind == Kind::Pair {
        entry.carrying(pair(dice, hall))
    } else {
        entry
    }
}

fn stock(dice: &mut Dice, hall: &Hall, liar: u8) -> Entry {
    let place = dice.place(hall.cabinet.cards.len());
    let epoch = hall.cabinet.cards[place].previous.epoch;
    let entry = Entry::new(Party::Replica(liar), Kind::Stock).carrying(pair(dice, hall));
    Entry {
        addressee: Party::Replica(place as u8).number(),
        ..entry
    }
    .asking(0, epoch)
}

// The opening pair, one that was written, or one that nobody sealed.
fn pair(dice: &mut Dice, hall: &Hall) -> Pair {
    let written: Vec<Pair> = hall
        .log
        .iter()
        .filter_map(|operation| operation.pair)
        .collect();
    match dice.below(10) {
        0..=2 => hall.rules.opening,
        3..=8 => dice.pick(&written).unwrap_or(hall.rules.opening),
        _ => {
            let writer = 1 + dice.below(hall.rules.clients.into()) as u8;
            let stamp = Stamp {
                count: 1 + dice.below(9) as u32,
                writer,
            };
            let seal = u64::from(writer) * 64 + dice.below(8);
            Pair {
                stamp,
                word: some_word(dice),
                seal,
            }
        }
    }
}

fn configuration(dice: &mut Dice, hall: &Hall) -> Configuration {
    let known = dice.pick(&hall.roll).unwrap_or(hall.rules.first);
    if dice.happens(800) {
        return known;
    }
    let set = dice.set(3 * hall.rules.f + 1, hall.rules.replicas.into());
    Configuration {
        epoch: known.epoch + 1,
        set,
        seal: dice.below(17),
    }
}

fn anything(dice: &mut Dice, hall: &Hall) -> Entry {
    Entry {
        sender: 0,
        kind: dice.below(10) as u8,
        addressee: some_party(dice, hall),
        round: dice.below(6) as u32,
        epoch: dice.below(4) as u32,
        count: dice.below(4) as u32,
        writer: dice.below(4) as u8,
        word: some_word(dice),
        seal: dice.below(200),
    }
}
