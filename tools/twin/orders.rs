// What is printed, read back, and whether its finished operations have one order.
use crate::commands::{Command, Value};

#[derive(Clone, Copy, Debug)]
pub struct Printed {
    client: u64,
    is_write: bool,
    began: u64,
    ended: u64,
    count: u64,
    writer: u64,
    value: (i64, u64),
}

// The sections of an output.
pub struct Report {
    pub configurations: Vec<Vec<i64>>,
    pub operations: Vec<Printed>,
    // Line, number, layer.
    pub refusals: Vec<(u64, u64, String)>,
}

impl Printed {
    pub fn is_finished(&self) -> bool {
        self.ended != 0
    }

    fn is_stamped(&self) -> bool {
        self.count != 0
    }

    // Where it stands in the order: by its stamp, a write before those who read it.
    fn place(&self) -> (u64, u64, bool, u64) {
        (self.count, self.writer, !self.is_write, self.began)
    }

    fn ended_before(&self, other: &Printed) -> bool {
        self.is_finished() && self.ended < other.began
    }

    fn read(line: &str) -> Option<Printed> {
        let mut fields = line.split(' ');
        let client = fields.next()?.parse().ok()?;
        let is_write = match fields.next()? {
            "W" => true,
            "R" => false,
            _ => return None,
        };
        let mut number = || fields.next()?.parse::<i64>().ok();
        let (began, ended) = (number()? as u64, number()? as u64);
        let (count, writer) = (number()? as u64, number()? as u64);
        let value = (number()?, number()? as u64);
        let printed = Printed {
            client,
            is_write,
            began,
            ended,
            count,
            writer,
            value,
        };
        fields.next().is_none().then_some(printed)
    }
}

// The lines of a section, whose head is its name and their number.
fn section<'a>(lines: &mut impl Iterator<Item = &'a str>, name: &str) -> Option<Vec<&'a str>> {
    let count = lines
        .next()?
        .strip_prefix(name)?
        .strip_prefix(' ')?
        .parse()
        .ok()?;
    let section: Vec<&str> = lines.by_ref().take(count).collect();
    (section.len() == count).then_some(section)
}

fn refusal(line: &str) -> Option<(u64, u64, String)> {
    let (place, rest) = line.split_once(' ')?;
    let (number, layer) = rest.split_once(' ')?;
    Some((place.parse().ok()?, number.parse().ok()?, layer.to_owned()))
}

fn numbers(line: &str) -> Option<Vec<i64>> {
    line.split(' ')
        .map(|field| field.parse::<u64>().ok().map(|number| number as i64))
        .collect()
}

impl Report {
    pub fn read(output: &str) -> Option<Report> {
        let mut lines = output.lines();
        let configurations = section(&mut lines, "configurations")?;
        let operations = section(&mut lines, "operations")?;
        let refusals = section(&mut lines, "refusals")?;
        if lines.next().is_some() {
            return None;
        }
        Some(Report {
            configurations: configurations
                .into_iter()
                .map(numbers)
                .collect::<Option<_>>()?,
            operations: operations
                .into_iter()
                .map(Printed::read)
                .collect::<Option<_>>()?,
            refusals: refusals.into_iter().map(refusal).collect::<Option<_>>()?,
        })
    }

    // What is wrong with the operations, if anything is.
    pub fn objection(&self, script: &[u8]) -> Option<String> {
        let by_itself = self.operations.iter().find_map(Printed::objection);
        by_itself
            .or_else(|| self.moments())
            .or_else(|| self.order(opening(script)))
    }

    // Beginnings and ends take the moments 1, 2, .. each once, and operations begin in the order of the log.
    fn moments(&self) -> Option<String> {
        let began: Vec<u64> = self
            .operations
            .iter()
            .map(|operation| operation.began)
            .collect();
        if !began.is_sorted() {
            return Some("the log is not in the order of the beginnings".to_owned());
        }
        let ended = self.operations.iter().map(|operation| operation.ended);
        let mut taken: Vec<u64> = ended.filter(|ended| *ended != 0).chain(began).collect();
        taken.sort_unstable();
        let is_dense = taken.iter().copied().eq(1..=taken.len() as u64);
        (!is_dense).then(|| "the moments are not 1, 2, 3 and so on".to_owned())
    }

    // Finished operations and stamped writes, by stamp: they keep real time, and reads give the write before them.
    fn order(&self, opening: (i64, u64)) -> Option<String> {
        let counts = |operation: &&Printed| {
            operation.is_finished() || operation.is_write && operation.is_stamped()
        };
        let mut order: Vec<&Printed> = self.operations.iter().filter(counts).collect();
        order.sort_by_key(|operation| operation.place());
        let mut held = (0, 0, opening);
        for (place, operation) in order.iter().enumerate() {
            if let Some(late) = order[place + 1..]
                .iter()
                .find(|late| late.ended_before(operation))
            {
                return Some(format!(
                    "{late:?} ended before {operation:?} began, and stands after it"
                ));
            }
            let own = (operation.count, operation.writer, operation.value);
            if operation.is_write && (own.0, own.1) == (held.0, held.1) {
                return Some(format!("{operation:?} has the stamp of another write"));
            }
            if operation.is_write {
                held = own;
            } else if own != held {
                return Some(format!("{operation:?} reads what is not written: {held:?}"));
            }
        }
        None
    }
}

impl Printed {
    fn objection(&self) -> Option<String> {
        let is_blank = (self.count, self.writer) == (0, 0);
        let is_own = self.count > 0 && self.writer == self.client;
        let wrong = if self.is_finished() && self.ended <= self.began {
            "ends before it begins"
        } else if self.is_write && !is_own && (self.is_finished() || !is_blank) {
            "is a write without a stamp of its own"
        } else if !self.is_write && !self.is_finished() && !(is_blank && self.value == (0, 0)) {
            "is an unfinished read that gives something"
        } else {
            return None;
        };
        Some(format!("{self:?} {wrong}"))
    }
}

// The opening value is that of the first line S that can be read.
fn opening(script: &[u8]) -> (i64, u64) {
    let mut lines = script.split(|byte| *byte == b'\n');
    let value = lines.find_map(|line| match Command::read(line) {
        Some(Command::SetUp { value, .. }) => Some(value),
        _ => None,
    });
    value.map_or((0, 0), |Value { grams, lot }| (grams, lot))
}
