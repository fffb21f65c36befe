// A script run line by line over one hall, and what is printed at its end.
use crate::book::Book;
use crate::commands::{Command, Value};
use crate::hall::{Hall, Operation, Places, SetUp, Slip};
use crate::refusals::{Refusal, require};
use crate::store::Cabinet;
use crate::weights::Weight;
use crate::wire::{Pair, Set, Stamp};
use std::fmt::{self, Write};

// The places of the tables, and how many seals each party has.
const PLACES: Places = Places {
    post: 512,
    log: 64,
    roll: 16,
};
const SEALS: u64 = 64;

pub enum Stage {
    Unopened,
    Opened(Hall),
    Refused,
}

pub struct Script {
    pub stage: Stage,
    lines: usize,
    refused: Vec<(usize, Refusal)>,
}

impl Script {
    pub fn new() -> Script {
        Script {
            stage: Stage::Unopened,
            lines: 0,
            refused: Vec::new(),
        }
    }

    pub fn take(&mut self, line: &[u8]) {
        let done = match Command::read(line) {
            Some(command) => self.obey(command),
            None => Err(Refusal::Unreadable),
        };
        self.note(done);
    }

    fn note(&mut self, done: Result<(), Refusal>) {
        self.lines += 1;
        if let Err(refusal) = done {
            self.refused.push((self.lines, refusal));
        }
    }

    fn obey(&mut self, command: Command) -> Result<(), Refusal> {
        match (&mut self.stage, command) {
            (
                Stage::Unopened,
                Command::SetUp {
                    f,
                    replicas,
                    clients,
                    first,
                    marked,
                    value,
                },
            ) => {
                self.stage = Stage::Refused;
                let set_up = |value| set_up(f, replicas, clients, first, marked, value);
                let hall = weight(value).and_then(set_up)?;
                self.stage = Stage::Opened(hall);
                Ok(())
            }
            (Stage::Opened(hall), command) => obey(hall, command),
            _ => Err(Refusal::Unreadable),
        }
    }
}

fn weight(value: Value) -> Result<Weight, Refusal> {
    Weight::new(value.grams, value.lot)
}

// Marks outside the hall are refused before too many marks are.
fn set_up(
    f: u64,
    replicas: u64,
    clients: u64,
    first: Set,
    marked: Set,
    opening: Weight,
) -> Result<Hall, Refusal> {
    let mut set_up = SetUp::new(f, replicas, clients, first)?;
    let bits = (0..64).filter(|bit| marked >> bit & 1 == 1);
    require(bits.clone().all(|bit| bit < replicas), Refusal::NoSuch)?;
    for bit in bits {
        set_up.mark(100 + bit)?;
    }
    set_up.open(opening, PLACES, Book::new(SEALS), Cabinet::new())
}

fn obey(hall: &mut Hall, command: Command) -> Result<(), Refusal> {
    match command {
        Command::SetUp { .. } => Err(Refusal::Unreadable),
        Command::Issue(set) => hall.issue(set),
        Command::Deliver { entry, party } => hall.deliver(entry, party),
        Command::Meddle { party, entry } => hall.meddle(party, entry),
        Command::Read(client) => {
            let slip = hall.begin_read(client)?;
            lodge(hall, slip, Ok(()))
        }
        Command::Write { client, value } => {
            let slip = hall.begin_write(client, weight(value)?)?;
            lodge(hall, slip, Ok(()))
        }
        Command::CallOff(client) => {
            let slip = hall.redeem(client)?;
            hall.call_off(slip)
                .or_else(|(slip, refusal)| lodge(hall, slip, Err(refusal)))
        }
        Command::Collect(client) => {
            let slip = hall.redeem(client)?;
            let collected = hall.collect(slip).map(|_| ());
            collected.or_else(|(slip, refusal)| lodge(hall, slip, Err(refusal)))
        }
    }
}

// The slip goes to its client's line, and the answer of the script's line stays what it is.
fn lodge(hall: &mut Hall, slip: Slip, answer: Result<(), Refusal>) -> Result<(), Refusal> {
    hall.lodge(slip).map_err(|(_, refusal)| refusal)?;
    answer
}

impl fmt::Display for Script {
    fn fmt(&self, out: &mut fmt::Formatter) -> fmt::Result {
        let (roll, log) = match &self.stage {
            Stage::Opened(hall) => (&hall.roll[..], &hall.log[..]),
            _ => (&[][..], &[][..]),
        };
        writeln!(out, "configurations {}", roll.len())?;
        for configuration in roll {
            writeln!(out, "{} {}", configuration.epoch, configuration.set)?;
        }
        writeln!(out, "operations {}", log.len())?;
        log.iter()
            .try_for_each(|operation| write_operation(out, operation))?;
        writeln!(out, "refusals {}", self.refused.len())?;
        for (line, refusal) in &self.refused {
            writeln!(out, "{line} {refusal}")?;
        }
        Ok(())
    }
}

fn write_operation(out: &mut impl Write, operation: &Operation) -> fmt::Result {
    let Operation {
        client,
        write,
        began,
        ended,
        pair,
    } = *operation;
    let letter = if write.is_some() { 'W' } else { 'R' };
    let ended = ended.unwrap_or(0);
    let Stamp { count, writer } = pair.map_or(
        Stamp {
            count: 0,
            writer: 0,
        },
        |pair| pair.stamp,
    );
    let value = write.or_else(|| pair.and_then(value_of));
    let (grams, lot) = value.map_or((0, 0), |weight| (weight.grams, weight.lot));
    writeln!(
        out,
        "{client} {letter} {began} {ended} {count} {writer} {grams} {lot}"
    )
}

fn value_of(pair: Pair) -> Option<Weight> {
    Weight::from_word(pair.word).ok()
}
