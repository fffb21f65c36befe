// The set-up, the marking of liars, the opening, and the nine calls of a hall.
use crate::book::Book;
use crate::client::{Event, Line, Stage};
use crate::refusals::{Objection, Refusal, Stepper, require};
use crate::replica::{Card, ReplicaStep};
use crate::rules::Rules;
use crate::sealer::Sealer;
use crate::store::{Cabinet, Store};
use crate::weights::Weight;
use crate::wire::{Configuration, Entry, Kind, Pair, Party, Set, Stamp, has};

// How many places the tables have.
#[derive(Clone, Copy)]
pub struct Places {
    pub post: usize,
    pub log: usize,
    pub roll: usize,
}

pub struct SetUp {
    f: u32,
    replicas: u8,
    clients: u8,
    first: Set,
    marked: Set,
}

impl SetUp {
    pub fn new(f: u64, replicas: u64, clients: u64, first: Set) -> Result<SetUp, Refusal> {
        require((1..=5).contains(&f), Refusal::LimitBroken)?;
        require((3 * f + 1..=64).contains(&replicas), Refusal::LimitBroken)?;
        require((1..=32).contains(&clients), Refusal::LimitBroken)?;
        let (f, replicas, clients) = (f as u32, replicas as u8, clients as u8);
        require(is_full_set(f, replicas, first), Refusal::WrongSet)?;
        Ok(SetUp {
            f,
            replicas,
            clients,
            first,
            marked: 0,
        })
    }

    pub fn mark(&mut self, party: u64) -> Result<(), Refusal> {
        let replica = match Party::from_number(party) {
            Some(Party::Replica(replica)) if replica < self.replicas => replica,
            _ => return Err(Refusal::NoSuch),
        };
        let marked = self.marked | 1 << replica;
        let liars = (marked & self.first).count_ones();
        require(liars <= self.f, Refusal::TooManyMarked)?;
        self.marked = marked;
        Ok(())
    }

    pub fn open<L: Sealer, S: Store>(
        self,
        opening: Weight,
        places: Places,
        book: L,
        mut cabinet: S,
    ) -> Result<Hall<L, S>, Refusal> {
        let rules = self.rules(opening);
        let first = rules.first;
        let clients = 1..=rules.clients;
        for replica in 0..rules.replicas {
            cabinet.save(replica, Card::new(replica, &rules))?;
        }
        Ok(Hall {
            rules,
            marked: self.marked,
            places,
            book,
            post: Vec::new(),
            log: Vec::new(),
            roll: vec![first],
            seats: clients.map(|client| Seat::new(client, first)).collect(),
            cabinet,
            moment: 0,
        })
    }

    fn rules(&self, opening: Weight) -> Rules {
        let stamp = Stamp {
            count: 0,
            writer: 0,
        };
        Rules {
            f: self.f,
            replicas: self.replicas,
            clients: self.clients,
            first: Configuration {
                epoch: 0,
                set: self.first,
                seal: 0,
            },
            opening: Pair {
                stamp,
                word: opening.word(),
                seal: 0,
            },
        }
    }
}

// Exactly 3f+1 replicas of the hall.
fn is_full_set(f: u32, replicas: u8, set: Set) -> bool {
    let hall = u64::MAX >> (64 - u32::from(replicas));
    set & !hall == 0 && set.count_ones() == 3 * f + 1
}

#[derive(Clone, Copy)]
pub struct Operation {
    pub client: u8,
    // The value of a write; a read has none.
    pub write: Option<Weight>,
    pub began: u64,
    pub ended: Option<u64>,
    // A write's from its stamp on, a read's from its end on.
    pub pair: Option<Pair>,
}

#[derive(Clone, Copy, PartialEq, Eq)]
pub struct Slip {
    client: u64,
    operation: usize,
}

// A client's line with the operation that it has begun and the slip that it holds.
pub struct Seat {
    pub line: Line,
    operation: Option<usize>,
    pub lodged: Option<Slip>,
}

impl Seat {
    fn new(client: u8, first: Configuration) -> Seat {
        Seat {
            line: Line::new(client, first),
            operation: None,
            lodged: None,
        }
    }
}

// A slip comes back with each refusal.
pub type Returned = (Slip, Refusal);

// Over a sealer and a store: a book and a cabinet where no others are named.
pub struct Hall<L = Book, S = Cabinet> {
    pub rules: Rules,
    pub marked: Set,
    places: Places,
    pub book: L,
    pub post: Vec<Entry>,
    pub log: Vec<Operation>,
    pub roll: Vec<Configuration>,
    pub seats: Vec<Seat>,
    pub cabinet: S,
    moment: u64,
}

impl<L: Sealer, S: Store> Hall<L, S> {
    pub fn issue(&mut self, set: Set) -> Result<(), Refusal> {
        let Rules { f, replicas, .. } = self.rules;
        require(is_full_set(f, replicas, set), Refusal::WrongSet)?;
        require(
            (set & self.marked).count_ones() <= f,
            Refusal::TooManyMarked,
        )?;
        require(
            self.roll.len() < self.places.roll && self.post.len() < self.places.post,
            Refusal::TableFull,
        )?;
        let configuration = self.book.seal_configuration(self.roll.len() as u32, set)?;
        self.roll.push(configuration);
        self.post
            .push(Entry::new(Party::Source, Kind::Config).showing(configuration));
        Ok(())
    }

    pub fn begin_read(&mut self, client: u64) -> Result<Slip, Refusal> {
        self.begin(client, None)
    }

    pub fn begin_write(&mut self, client: u64, value: Weight) -> Result<Slip, Refusal> {
        self.begin(client, Some(value))
    }

    fn begin(&mut self, client: u64, write: Option<Weight>) -> Result<Slip, Refusal> {
        let place = seat_place(client).filter(|place| *place < self.seats.len());
        let seat = &mut self.seats[place.ok_or(Refusal::NoSuch)?];
        require(seat.line.is_idle(), Refusal::Busy)?;
        require(
            self.log.len() < self.places.log && self.post.len() < self.places.post,
            Refusal::TableFull,
        )?;
        let has_seal = self.book.has_seal_left(Party::Client(seat.line.client));
        let turn = seat.line.begin(write.map(Weight::word), has_seal)?;
        let operation = self.log.len();
        seat.line = turn.line;
        seat.operation = Some(operation);
        self.moment += 1;
        let began = self.moment;
        self.log.push(Operation {
            client: turn.line.client,
            write,
            began,
            ended: None,
            pair: None,
        });
        self.post.extend(turn.posted);
        Ok(Slip { client, operation })
    }

    pub fn deliver(&mut self, number: u64, party: u64) -> Result<(), Refusal> {
        let number = usize::try_from(number).map_err(|_| Refusal::NoSuch)?;
        let entry = *self.post.get(number).ok_or(Refusal::NoSuch)?;
        let receiver = self.party(party)?;
        require(self.post.len() < self.places.post, Refusal::TableFull)?;
        require(fits(&entry, receiver), Refusal::DoesNotFit)?;
        let posted = match receiver {
            Party::Client(client) => self.step_client(client, &entry)?,
            Party::Replica(replica) => self.step_replica(replica, &entry)?,
            Party::Source => None,
        };
        self.post.extend(posted);
        Ok(())
    }

    fn party(&self, number: u64) -> Result<Party, Refusal> {
        Party::from_number(number)
            .filter(|party| self.rules.has_party(*party))
            .ok_or(Refusal::NoSuch)
    }

    fn step_client(&mut self, client: u8, entry: &Entry) -> Result<Option<Entry>, Refusal> {
        let seat = &mut self.seats[usize::from(client) - 1];
        let turn = seat.line.step(&self.rules, &mut self.book, entry)?;
        seat.line = turn.line;
        if let Some(operation) = seat.operation.and_then(|place| self.log.get_mut(place)) {
            match turn.event {
                Event::Nothing => {}
                Event::Stamped(pair) => operation.pair = Some(pair),
                Event::Ended(pair) => {
                    self.moment += 1;
                    operation.pair = Some(pair);
                    operation.ended = Some(self.moment);
                }
            }
        }
        Ok(turn.posted)
    }

    fn step_replica(&mut self, replica: u8, entry: &Entry) -> Result<Option<Entry>, Refusal> {
        let none = Refusal::Step(Stepper::Replica, Objection::NotMember);
        let step = ReplicaStep {
            rules: &self.rules,
            book: &self.book,
            replica,
            card: self.cabinet.load(replica).ok_or(none)?,
        };
        let (card, posted) = step.take(entry)?;
        if let Some(card) = card {
            self.cabinet.save(replica, card)?;
        }
        Ok(posted)
    }

    // The seat whose present operation the slip is of.
    fn seat(&mut self, slip: Slip) -> Result<&mut Seat, Returned> {
        let place = seat_place(slip.client);
        place
            .and_then(|place| self.seats.get_mut(place))
            .filter(|seat| seat.operation == Some(slip.operation))
            .ok_or((slip, Refusal::WrongSlip))
    }

    pub fn collect(&mut self, slip: Slip) -> Result<(Pair, Weight), Returned> {
        let seat = self.seat(slip)?;
        let Stage::Over(pair) = seat.line.stage else {
            return Err((slip, Refusal::NotAtThisStage));
        };
        let weight = Weight::from_word(pair.word).map_err(|refusal| (slip, refusal))?;
        seat.line.stage = Stage::Idle;
        seat.operation = None;
        Ok((pair, weight))
    }

    pub fn call_off(&mut self, slip: Slip) -> Result<(), Returned> {
        let seat = self.seat(slip)?;
        if seat.line.is_over() {
            return Err((slip, Refusal::NotAtThisStage));
        }
        seat.line.stage = Stage::Idle;
        seat.operation = None;
        Ok(())
    }

    pub fn lodge(&mut self, slip: Slip) -> Result<(), Returned> {
        self.seat(slip)?.lodged = Some(slip);
        Ok(())
    }

    pub fn redeem(&mut self, client: u64) -> Result<Slip, Refusal> {
        let place = seat_place(client).ok_or(Refusal::WrongSlip)?;
        let seat = self.seats.get_mut(place).ok_or(Refusal::WrongSlip)?;
        seat.lodged.take().ok_or(Refusal::WrongSlip)
    }

    pub fn meddle(&mut self, party: u64, entry: Entry) -> Result<(), Refusal> {
        let liar = match self.party(party)? {
            Party::Replica(replica) if has(self.marked, replica) => Party::Replica(replica),
            _ => return Err(Refusal::NotMarked),
        };
        require(self.post.len() < self.places.post, Refusal::TableFull)?;
        self.post.push(Entry {
            sender: liar.number(),
            ..entry
        });
        Ok(())
    }
}

// Clients are counted from 1, their seats from 0.
fn seat_place(client: u64) -> Option<usize> {
    usize::try_from(client.checked_sub(1)?).ok()
}

// Whether an entry of this kind goes from its sender to this receiver.
fn fits(entry: &Entry, receiver: Party) -> bool {
    let (Some(sender), Some(kind)) = (
        Party::from_number(entry.sender.into()),
        Kind::from_number(entry.kind),
    ) else {
        return false;
    };
    let is_addressed = entry.addressee == receiver.number();
    match (sender, kind, receiver) {
        (Party::Client(_), Kind::Read | Kind::Write, Party::Replica(_)) => true,
        (Party::Replica(_), Kind::Transfer, Party::Replica(_)) => true,
        (Party::Replica(_), Kind::Pair | Kind::Ack, Party::Client(_)) => is_addressed,
        (Party::Replica(_), Kind::Stock, Party::Replica(_)) => is_addressed,
        (_, Kind::Config, Party::Client(_) | Party::Replica(_)) => true,
        (Party::Replica(_), Kind::Behind, Party::Client(_) | Party::Replica(_)) => is_addressed,
        _ => false,
    }
}
