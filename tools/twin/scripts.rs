// Random scripts: what happens next is drawn with an eye on the hall, so that operations get far.
use crate::dice::Dice;
use crate::hall::Hall;
use crate::lies::lie;
use crate::rules::Rules;
use crate::script::{Script, Stage};
use crate::weights::Weight;
use crate::wire::{Entry, Kind, Party, has};

// An entry by its number, and a party that may receive it.
type Way = (usize, u8);

// How often, of a thousand lines, something happens in one script.
struct Habits {
    begins: u64,
    collections: u64,
    callings_off: u64,
    issues: u64,
    lies: u64,
    delays: u64,
    lost_writes: u64,
    rubbish: u64,
}

pub struct Writer {
    dice: Dice,
    habits: Habits,
    script: Script,
    text: Vec<u8>,
    // How many entries have been looked at, and the ways that they have not gone yet.
    seen: usize,
    ways: Vec<Way>,
}

pub fn random_script(seed: u64) -> Vec<u8> {
    let mut dice = Dice::new(seed);
    let mut often = |choices: &[u64]| dice.pick(choices).unwrap_or(0);
    let habits = Habits {
        begins: often(&[30, 80]),
        collections: often(&[30, 80]),
        callings_off: often(&[0, 2, 20]),
        issues: often(&[0, 4, 10, 40]),
        lies: often(&[0, 20, 100]),
        delays: often(&[0, 200, 500]),
        lost_writes: often(&[0, 200, 600]),
        rubbish: often(&[0, 5, 30]),
    };
    let script = Script::new();
    Writer {
        dice,
        habits,
        script,
        text: Vec::new(),
        seen: 0,
        ways: Vec::new(),
    }
    .write()
}

impl Writer {
    fn write(mut self) -> Vec<u8> {
        while self.dice.happens(60) {
            let line = self.rubbish();
            self.say(&line);
        }
        let opening = opening(&mut self.dice);
        self.say(opening.as_bytes());
        let most = self.dice.pick(&[5, 60, 300, 300, 700, 1500]).unwrap_or(5);
        for _ in 0..self.dice.below(most) {
            let is_rubbish = self.dice.happens(self.habits.rubbish);
            let line = if is_rubbish {
                self.rubbish()
            } else {
                self.next()
            };
            self.say(&line);
        }
        if self.dice.happens(100) {
            self.text.pop();
        }
        if self.dice.happens(20) {
            self.swell();
        }
        self.text
    }

    fn say(&mut self, line: &[u8]) {
        self.script.take(line);
        self.text.extend(line);
        self.text.push(b'\n');
        self.follow();
    }

    // Looks at what the last line has posted: each entry has ways to go, and some are lost or come late.
    fn follow(&mut self) {
        let Stage::Opened(hall) = &self.script.stage else {
            return;
        };
        for number in self.seen..hall.post.len() {
            let is_write = hall.post[number].kind == Kind::Write.number();
            let lost = if is_write { self.habits.lost_writes } else { 0 };
            for way in ways(&mut self.dice, hall, number) {
                let is_lost = self.dice.happens(lost);
                let is_late = self.dice.happens(self.habits.delays);
                let late = self.dice.place(self.ways.len() + 1);
                if !is_lost {
                    self.ways
                        .insert(if is_late { late } else { self.ways.len() }, way);
                }
            }
        }
        self.seen = hall.post.len();
    }

    // Now and then a line without end takes the text to about the limit of what is read.
    fn swell(&mut self) {
        self.text.extend(b"R ");
        let limit = 32_766 + self.dice.place(5);
        self.text.resize(limit.max(self.text.len()), b'0');
        self.text.extend(b"1\nR 1\n");
        let cut = self.dice.place(6);
        self.text.truncate(self.text.len() - cut);
    }

    // A line that is no line, or one that hardly fits.
    fn rubbish(&mut self) -> Vec<u8> {
        let mut line = self.next();
        let place = self.dice.place(line.len() + 1);
        match self.dice.below(5) {
            0 => line.truncate(place),
            1 => line.insert(place, b' '),
            2 => line.insert(place, b'0' + self.dice.below(10) as u8),
            3 => line.insert(place, self.dice.pick(b"-+xSR0\t.\xff").unwrap_or(b'-')),
            _ => line.extend(b" 1"),
        }
        line
    }

    fn next(&mut self) -> Vec<u8> {
        match &self.script.stage {
            Stage::Opened(hall) => {
                next(&mut self.dice, &self.habits, hall, &mut self.ways).into_bytes()
            }
            _ => b"R 1".to_vec(),
        }
    }
}

// What lies at its limit, or beyond it, in the line that opens the hall.
#[derive(Clone, Copy, PartialEq, Eq)]
enum Odd {
    Nothing,
    F,
    Replicas,
    Clients,
    Set,
    Marks,
}

const ODD: [Odd; 5] = [Odd::F, Odd::Replicas, Odd::Clients, Odd::Set, Odd::Marks];

fn opening(dice: &mut Dice) -> String {
    let odd = dice
        .pick(&ODD)
        .filter(|_| dice.happens(100))
        .unwrap_or(Odd::Nothing);
    let fs: &[u64] = if odd == Odd::F {
        &[0, 4, 5, 6]
    } else {
        &[1, 1, 1, 1, 2, 3]
    };
    let f = dice.pick(fs).unwrap_or(1);
    let members = 3 * f + 1;
    let replicas = match odd {
        Odd::Replicas => dice.pick(&[members - 1, 64, 65]).unwrap_or(members),
        _ => members + dice.below(4),
    };
    let clients = match odd {
        Odd::Clients => dice.pick(&[0, 32, 33]).unwrap_or(1),
        _ => 1 + dice.below(4),
    };
    let first = dice.set(members as u32, replicas.min(64));
    let first = if odd == Odd::Set {
        first ^ 1 << dice.below(64)
    } else {
        first
    };
    let liars = dice.below(f + if odd == Odd::Marks { 4 } else { 1 });
    let marked = dice.set(liars as u32, replicas.min(64));
    let grams = 50_000 - dice.below(100_000) as i64;
    format!(
        "S {f} {replicas} {clients} {first} {marked} {grams} {}",
        dice.below(1000)
    )
}

// What happens next, by the habits of the script.
fn next(dice: &mut Dice, habits: &Habits, hall: &Hall, ways: &mut Vec<Way>) -> String {
    let mut left = dice.below(1000);
    let mut falls = |share: u64| {
        let falls = left < share;
        left = left.saturating_sub(share);
        falls
    };
    if falls(habits.begins) {
        begin(dice, hall)
    } else if falls(habits.collections) {
        collection(dice, hall)
    } else if falls(habits.callings_off) {
        format!("O {}", dice.below(hall.seats.len() as u64 + 2))
    } else if falls(habits.issues) {
        issue(dice, &hall.rules)
    } else if falls(habits.lies) {
        lie(dice, hall)
    } else {
        delivery(dice, hall, ways)
    }
}

fn replicas(hall: &Hall) -> impl Iterator<Item = u8> {
    (0..hall.rules.replicas).map(|replica| 100 + replica)
}

// Those who may receive an entry, mostly without those who could only refuse it.
fn ways(dice: &mut Dice, hall: &Hall, number: usize) -> Vec<Way> {
    let Some(entry) = hall.post.get(number) else {
        return Vec::new();
    };
    let any = dice
        .pick(&replicas(hall).collect::<Vec<u8>>())
        .filter(|_| dice.happens(200));
    let receivers: Vec<u8> = match Kind::from_number(entry.kind) {
        Some(Kind::Read | Kind::Write) => asked(hall, entry).chain(any).collect(),
        Some(Kind::Transfer) => replicas(hall)
            .filter(|party| has(entry.word, party - 100))
            .chain(any)
            .collect(),
        Some(Kind::Config) => behind(hall, entry).chain(any).collect(),
        Some(Kind::Pair | Kind::Ack | Kind::Stock | Kind::Behind) => vec![entry.addressee],
        None => Vec::new(),
    };
    receivers
        .into_iter()
        .map(|receiver| (number, receiver))
        .collect()
}

// The members of the set that the asking client goes by.
fn asked(hall: &Hall, entry: &Entry) -> impl Iterator<Item = u8> {
    let seat = hall
        .seats
        .iter()
        .find(|seat| seat.line.client == entry.sender);
    let set = seat.map_or(0, |seat| seat.line.configuration.set);
    replicas(hall).filter(move |party| has(set, party - 100))
}

// Those to whom a configuration is new.
fn behind(hall: &Hall, shown: &Entry) -> impl Iterator<Item = u8> {
    let epoch = shown.epoch;
    let clients = hall
        .seats
        .iter()
        .map(|seat| (seat.line.client, seat.line.configuration.epoch));
    let cards = hall.cabinet.cards.iter().map(|card| card.present.epoch);
    clients
        .chain(replicas(hall).zip(cards))
        .filter(move |each| each.1 < epoch)
        .map(|each| each.0)
}

// Mostly one of the newest ways, now and then any entry to any party. Where nothing is under way, something begins.
fn delivery(dice: &mut Dice, hall: &Hall, ways: &mut Vec<Way>) -> String {
    if ways.is_empty() && dice.happens(800) {
        return begin(dice, hall);
    }
    if ways.is_empty() || dice.happens(20) {
        let party = dice
            .pick(&[0, 1, 2, 3, 99, 100, 101, 102, 103, 104, 110, 164, 256])
            .unwrap_or(0);
        return format!("D {} {party}", dice.below(hall.post.len() as u64 + 1));
    }
    let newest = ways.len().min(if dice.happens(800) { 12 } else { 200 });
    let place = ways.len() - 1 - dice.place(newest);
    let (number, receiver) = ways[place];
    if dice.happens(950) {
        ways.remove(place);
    }
    format!("D {number} {receiver}")
}

fn begin(dice: &mut Dice, hall: &Hall) -> String {
    let idle: Vec<u64> = hall
        .seats
        .iter()
        .filter(|seat| seat.line.is_idle())
        .map(|seat| seat.line.client.into())
        .collect();
    let any = dice.below(hall.seats.len() as u64 + 2);
    let client = if dice.happens(50) {
        any
    } else {
        dice.pick(&idle).unwrap_or(any)
    };
    if dice.happens(500) {
        return format!("R {client}");
    }
    let grams = if dice.happens(20) {
        1_000_000_001
    } else {
        dice.below(90_000)
    };
    let lot = if dice.happens(20) {
        99_999 + dice.below(2)
    } else {
        dice.below(1000)
    };
    format!("W {client} {grams} {lot}")
}

fn collection(dice: &mut Dice, hall: &Hall) -> String {
    let over: Vec<u64> = hall
        .seats
        .iter()
        .filter(|seat| seat.line.is_over())
        .map(|seat| seat.line.client.into())
        .collect();
    let any = dice.below(hall.seats.len() as u64 + 2);
    let client = if dice.happens(50) {
        any
    } else {
        dice.pick(&over).unwrap_or(any)
    };
    format!("T {client}")
}

fn issue(dice: &mut Dice, rules: &Rules) -> String {
    let size = 3 * rules.f
        + if dice.happens(900) {
            1
        } else {
            dice.below(3) as u32
        };
    let replicas = u64::from(rules.replicas) + u64::from(dice.happens(50));
    format!("I {}", dice.set(size, replicas))
}

// A weight that the lies use.
pub fn some_word(dice: &mut Dice) -> u64 {
    let grams = 50_000 - dice.below(100_000) as i64;
    Weight::new(grams, dice.below(1000)).map_or(0, Weight::word)
}

// Some party of the hall.
pub fn some_party(dice: &mut Dice, hall: &Hall) -> u8 {
    if dice.happens(500) {
        1 + dice.below(hall.rules.clients.into()) as u8
    } else {
        Party::Replica(dice.below(hall.rules.replicas.into()) as u8).number()
    }
}
