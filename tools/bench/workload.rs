// The same workload as that of the static library, over the twin.
use crate::book::Book;
use crate::hall::{Hall, Operation, Places, SetUp};
use crate::keyed::Keyed;
use crate::refusals::Refusal;
use crate::sealer::Sealer;
use crate::store::{Cabinet, Store};
use crate::tape::Tape;
use crate::weights::Weight;
use crate::wire::Entry;
use crate::{Plan, Tally};

const SEALS: u64 = 256;

// The tables of a hall between two openings.
#[derive(Default)]
struct Memory {
    post: Vec<Entry>,
    log: Vec<Operation>,
}

impl Plan {
    fn members(&self) -> u64 {
        3 * u64::from(self.faults) + 1
    }

    fn first_set(&self) -> u64 {
        u64::MAX >> (64 - self.members())
    }

    fn quorum(&self) -> u64 {
        2 * u64::from(self.faults) + 1
    }

    fn marked(&self) -> u64 {
        100 + 3 * u64::from(self.faults)
    }

    fn places(&self) -> Places {
        Places {
            post: usize::from(self.places),
            log: 1024,
            roll: 256,
        }
    }
}

impl Tally {
    fn count(&mut self, done: bool) {
        self.calls += 1;
        self.refused += u64::from(!done);
    }

    fn refuse(&mut self, calls: u64) {
        self.calls += calls;
        self.refused += calls;
    }
}

// A hall at work, and the tally of its calls.
struct Driven<'a, L, S> {
    hall: Hall<L, S>,
    tally: &'a mut Tally,
}

fn mixed(sum: u64, operation: &Operation) -> u64 {
    let written = operation.write.map_or(0, Weight::word);
    sum.wrapping_mul(31)
        .wrapping_add(operation.began)
        .wrapping_add(operation.ended.unwrap_or(0))
        .wrapping_add(operation.pair.map_or(0, |pair| u64::from(pair.stamp.count)))
        .wrapping_add(operation.pair.map_or(written, |pair| pair.word))
        .wrapping_add(operation.pair.map_or(0, |pair| pair.seal))
}

impl<L: Sealer, S: Store> Driven<'_, L, S> {
    fn begin(&mut self, client: u64, value: Option<Weight>) {
        let begun = match value {
            Some(value) => self.hall.begin_write(client, value),
            None => self.hall.begin_read(client),
        };
        match begun {
            Ok(slip) => {
                self.tally.count(true);
                self.tally.count(self.hall.lodge(slip).is_ok());
            }
            Err(_) => self.tally.refuse(2),
        }
    }

    fn collect(&mut self, client: u64) {
        match self.hall.redeem(client) {
            Ok(slip) => {
                self.tally.count(true);
                let collected = self.hall.collect(slip);
                self.tally.count(collected.is_ok());
                if let Err((slip, _)) = collected {
                    let _ = self.hall.lodge(slip);
                }
            }
            Err(_) => self.tally.refuse(2),
        }
    }

    fn deliver(&mut self, entry: u64, party: u64) {
        let done = self.hall.deliver(entry, party);
        self.tally.count(done.is_ok());
    }

    fn newest(&self) -> u64 {
        (self.hall.post.len() as u64).saturating_sub(1)
    }

    fn announce(&mut self, plan: &Plan) {
        let done = self.hall.issue(plan.first_set());
        self.tally.count(done.is_ok());
        let shown = self.newest();
        for outsider in plan.members()..u64::from(plan.replicas) {
            self.deliver(shown, 100 + outsider);
        }
    }

    fn round(&mut self, client: u64, quorum: u64) {
        let asked = self.newest();
        for replica in 0..quorum {
            self.deliver(asked, 100 + replica);
        }
        for answer in 0..quorum {
            self.deliver(asked + 1 + answer, client);
        }
    }

    fn work(&mut self, plan: &Plan, value: Weight) {
        for _ in 0..plan.filled {
            let done = self.hall.meddle(plan.marked(), Entry::default());
            self.tally.count(done.is_ok());
        }
        for _ in 0..plan.issues {
            self.announce(plan);
        }
        let quorum = plan.quorum();
        for _ in 0..plan.turns {
            self.begin(1, Some(value));
            self.round(1, quorum);
            self.round(1, quorum);
            self.collect(1);
            let reader = u64::from(plan.clients);
            self.begin(reader, None);
            self.round(reader, quorum);
            self.collect(reader);
        }
        let asked = self.newest().saturating_sub(quorum);
        for _ in 0..plan.loads {
            self.deliver(asked, 100 + u64::from(plan.loader));
        }
        self.tally.sum = self.hall.log.iter().fold(self.tally.sum, mixed);
    }
}

fn opening<L: Sealer, S: Store>(
    plan: &Plan,
    memory: &mut Memory,
    sealer: L,
    store: S,
    tally: &mut Tally,
) -> Result<L, Refusal> {
    let value = Weight::new(50_000, 412)?;
    let mut set_up = SetUp::new(
        plan.faults.into(),
        plan.replicas.into(),
        plan.clients.into(),
        plan.first_set(),
    )?;
    set_up.mark(plan.marked())?;
    let mut hall = set_up.open(value, plan.places(), sealer, store)?;
    hall.post = std::mem::take(&mut memory.post);
    hall.post.clear();
    hall.log = std::mem::take(&mut memory.log);
    hall.log.clear();
    let mut driven = Driven { hall, tally };
    driven.work(plan, value);
    let hall = driven.hall;
    memory.post = hall.post;
    memory.log = hall.log;
    Ok(hall.book)
}

fn stored<L: Sealer>(
    plan: &Plan,
    memory: &mut Memory,
    bytes: &mut [u8],
    sealer: L,
    tally: &mut Tally,
) -> Result<L, Refusal> {
    if plan.taped {
        opening(plan, memory, sealer, Tape::new(bytes), tally)
    } else {
        opening(plan, memory, sealer, Cabinet::new(), tally)
    }
}

pub fn drive(plan: &Plan, bytes: &mut [u8], tally: &mut Tally) -> Result<(), Refusal> {
    let mut memory = Memory::default();
    let mut keyed = Keyed::new(1_000_000);
    for _ in 0..plan.openings {
        if plan.keyed {
            keyed = stored(plan, &mut memory, bytes, keyed, tally)?;
        } else {
            stored(plan, &mut memory, bytes, Book::new(SEALS), tally)?;
        }
    }
    Ok(())
}
