// The lines of a script: a letter and its fields, with one space between two of them.
use crate::wire::{Entry, Set};
use std::str::{self, FromStr};

#[derive(Clone, Copy, Debug)]
pub enum Command {
    SetUp {
        f: u64,
        replicas: u64,
        clients: u64,
        first: Set,
        marked: Set,
        value: Value,
    },
    Issue(Set),
    Read(u64),
    Write {
        client: u64,
        value: Value,
    },
    Deliver {
        entry: u64,
        party: u64,
    },
    CallOff(u64),
    Collect(u64),
    Meddle {
        party: u64,
        entry: Entry,
    },
}

// The numbers of a value, which may be none of the kind.
#[derive(Clone, Copy, Debug)]
pub struct Value {
    pub grams: i64,
    pub lot: u64,
}

struct Fields<'a>(str::Split<'a, char>);

impl Fields<'_> {
    fn number<N: FromStr>(&mut self) -> Option<N> {
        let field = self.0.next()?;
        if is_digits(field) {
            field.parse().ok()
        } else {
            None
        }
    }

    // Only grams may have a minus sign.
    fn grams(&mut self) -> Option<i64> {
        let field = self.0.next()?;
        let digits = field.strip_prefix('-').unwrap_or(field);
        if is_digits(digits) {
            field.parse().ok()
        } else {
            None
        }
    }

    fn value(&mut self) -> Option<Value> {
        Some(Value {
            grams: self.grams()?,
            lot: self.number()?,
        })
    }

    fn set_up(&mut self) -> Option<Command> {
        Some(Command::SetUp {
            f: self.number()?,
            replicas: self.number()?,
            clients: self.number()?,
            first: self.number()?,
            marked: self.number()?,
            value: self.value()?,
        })
    }

    fn meddle(&mut self) -> Option<Command> {
        let party = self.number()?;
        let entry = Entry {
            sender: 0,
            kind: self.number()?,
            addressee: self.number()?,
            round: self.number()?,
            epoch: self.number()?,
            count: self.number()?,
            writer: self.number()?,
            word: self.number()?,
            seal: self.number()?,
        };
        Some(Command::Meddle { party, entry })
    }

    fn command(&mut self) -> Option<Command> {
        Some(match self.0.next()? {
            "S" => self.set_up()?,
            "I" => Command::Issue(self.number()?),
            "R" => Command::Read(self.number()?),
            "W" => Command::Write {
                client: self.number()?,
                value: self.value()?,
            },
            "D" => Command::Deliver {
                entry: self.number()?,
                party: self.number()?,
            },
            "O" => Command::CallOff(self.number()?),
            "T" => Command::Collect(self.number()?),
            "M" => self.meddle()?,
            _ => return None,
        })
    }
}

fn is_digits(field: &str) -> bool {
    !field.is_empty() && field.bytes().all(|byte| byte.is_ascii_digit())
}

impl Command {
    pub fn read(line: &[u8]) -> Option<Command> {
        let mut fields = Fields(str::from_utf8(line).ok()?.split(' '));
        let command = fields.command()?;
        fields.0.next().is_none().then_some(command)
    }
}
