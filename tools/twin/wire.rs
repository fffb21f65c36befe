// Parties, sets, stamps, pairs, configurations and entries.

// A set of replicas: bit n stands for replica n.
pub type Set = u64;

#[derive(Clone, Copy, Debug, PartialEq, Eq)]
pub enum Party {
    Source,
    Client(u8),
    Replica(u8),
}

impl Party {
    pub fn number(self) -> u8 {
        match self {
            Party::Source => 0,
            Party::Client(client) => client,
            Party::Replica(replica) => 100 + replica,
        }
    }

    pub fn from_number(number: u64) -> Option<Party> {
        match u8::try_from(number).ok()? {
            0 => Some(Party::Source),
            client @ 1..=32 => Some(Party::Client(client)),
            replica @ 100..=163 => Some(Party::Replica(replica - 100)),
            _ => None,
        }
    }
}

pub fn has(set: Set, replica: u8) -> bool {
    set >> replica & 1 == 1
}

// Whether the party with this number is a replica of the set.
pub fn has_party(set: Set, number: u8) -> bool {
    match Party::from_number(number.into()) {
        Some(Party::Replica(replica)) => has(set, replica),
        _ => false,
    }
}

pub fn with_party(set: Set, number: u8) -> Set {
    set | 1 << (number - 100)
}

// The derived order is the rule: counts first, then writers.
#[derive(Clone, Copy, Debug, PartialEq, Eq, PartialOrd, Ord)]
pub struct Stamp {
    pub count: u32,
    pub writer: u8,
}

#[derive(Clone, Copy, Debug, PartialEq, Eq)]
pub struct Pair {
    pub stamp: Stamp,
    pub word: u64,
    pub seal: u64,
}

#[derive(Clone, Copy, Debug, PartialEq, Eq)]
pub struct Configuration {
    pub epoch: u32,
    pub set: Set,
    pub seal: u64,
}

#[derive(Clone, Copy, Debug, PartialEq, Eq)]
pub enum Kind {
    Read,
    Write,
    Transfer,
    Pair,
    Ack,
    Stock,
    Config,
    Behind,
}

impl Kind {
    pub fn from_number(number: u8) -> Option<Kind> {
        Some(match number {
            1 => Kind::Read,
            2 => Kind::Write,
            3 => Kind::Transfer,
            4 => Kind::Pair,
            5 => Kind::Ack,
            6 => Kind::Stock,
            7 => Kind::Config,
            8 => Kind::Behind,
            _ => return None,
        })
    }

    pub fn number(self) -> u8 {
        match self {
            Kind::Read => 1,
            Kind::Write => 2,
            Kind::Transfer => 3,
            Kind::Pair => 4,
            Kind::Ack => 5,
            Kind::Stock => 6,
            Kind::Config => 7,
            Kind::Behind => 8,
        }
    }
}

#[derive(Clone, Copy, Debug, Default, PartialEq, Eq)]
pub struct Entry {
    pub sender: u8,
    pub kind: u8,
    pub addressee: u8,
    pub round: u32,
    pub epoch: u32,
    pub count: u32,
    pub writer: u8,
    pub word: u64,
    pub seal: u64,
}

impl Entry {
    pub fn new(sender: Party, kind: Kind) -> Entry {
        Entry {
            sender: sender.number(),
            kind: kind.number(),
            ..Entry::default()
        }
    }

    pub fn asking(self, round: u32, epoch: u32) -> Entry {
        Entry {
            round,
            epoch,
            ..self
        }
    }

    // An answer goes to the sender of what was asked and repeats its round and epoch.
    pub fn answering(self, asked: &Entry) -> Entry {
        Entry {
            addressee: asked.sender,
            round: asked.round,
            epoch: asked.epoch,
            ..self
        }
    }

    pub fn carrying(self, pair: Pair) -> Entry {
        let Pair {
            stamp: Stamp { count, writer },
            word,
            seal,
        } = pair;
        Entry {
            count,
            writer,
            word,
            seal,
            ..self
        }
    }

    pub fn showing(self, configuration: Configuration) -> Entry {
        let Configuration { epoch, set, seal } = configuration;
        Entry {
            epoch,
            word: set,
            seal,
            ..self
        }
    }

    pub fn pair(&self) -> Pair {
        let stamp = Stamp {
            count: self.count,
            writer: self.writer,
        };
        Pair {
            stamp,
            word: self.word,
            seal: self.seal,
        }
    }

    pub fn configuration(&self) -> Configuration {
        Configuration {
            epoch: self.epoch,
            set: self.word,
            seal: self.seal,
        }
    }
}
