// The begin and the step of a client.
use crate::refusals::{Objection, Refusal, Stepper, require};
use crate::rules::Rules;
use crate::sealer::Sealer;
use crate::wire::{Configuration, Entry, Kind, Pair, Party, Set, Stamp, has_party, with_party};

// What a round of reading has heard: the highest pair, of equal stamps the first.
#[derive(Clone, Copy)]
pub struct Heard {
    highest: Pair,
    all_agree: bool,
}

#[derive(Clone, Copy)]
pub enum Stage {
    Idle,
    Reading(Option<Heard>),
    Writing(Pair),
    WritingBack(Pair),
    Over(Pair),
}

#[derive(Clone, Copy)]
pub struct Line {
    pub client: u8,
    pub stage: Stage,
    // The word to write, if the operation is a write.
    pub word: Option<u64>,
    pub configuration: Configuration,
    pub round: u32,
    pub counted: Set,
    pub last_count: u32,
}

// What a step tells the log.
pub enum Event {
    Nothing,
    Stamped(Pair),
    Ended(Pair),
}

// The line after a step, what it posts, and what it tells the log.
pub struct Turn {
    pub line: Line,
    pub posted: Option<Entry>,
    pub event: Event,
}

impl Turn {
    fn quiet(line: Line) -> Turn {
        Turn {
            line,
            posted: None,
            event: Event::Nothing,
        }
    }

    fn posting(line: Line, entry: Entry) -> Turn {
        Turn {
            line,
            posted: Some(entry),
            event: Event::Nothing,
        }
    }

    fn ending(line: Line, pair: Pair) -> Turn {
        let line = Line {
            stage: Stage::Over(pair),
            ..line
        };
        Turn {
            line,
            posted: None,
            event: Event::Ended(pair),
        }
    }
}

impl Line {
    pub fn new(client: u8, configuration: Configuration) -> Line {
        let stage = Stage::Idle;
        Line {
            client,
            stage,
            word: None,
            configuration,
            round: 0,
            counted: 0,
            last_count: 0,
        }
    }

    pub fn is_idle(&self) -> bool {
        matches!(self.stage, Stage::Idle)
    }

    pub fn is_over(&self) -> bool {
        matches!(self.stage, Stage::Over(_))
    }

    fn has_open_round(&self) -> bool {
        !self.is_idle() && !self.is_over()
    }

    fn own(&self, kind: Kind) -> Entry {
        Entry::new(Party::Client(self.client), kind)
    }

    fn ask(&self, kind: Kind) -> Entry {
        self.own(kind).asking(self.round, self.configuration.epoch)
    }

    fn next_round(self) -> Result<Line, Refusal> {
        let round = self.round.checked_add(1).ok_or(Refusal::NumberTooHigh)?;
        Ok(Line {
            round,
            counted: 0,
            ..self
        })
    }

    fn read_round(self) -> Result<Turn, Refusal> {
        let line = Line {
            stage: Stage::Reading(None),
            ..self.next_round()?
        };
        Ok(Turn::posting(line, line.ask(Kind::Read)))
    }

    // A round of WRITE with the pair that the stage holds.
    fn write_round(self, stage: Stage, pair: Pair) -> Result<Turn, Refusal> {
        let line = Line {
            stage,
            ..self.next_round()?
        };
        Ok(Turn::posting(line, line.ask(Kind::Write).carrying(pair)))
    }

    // Begins a read, or the write of a word.
    pub fn begin(self, word: Option<u64>, has_seal: bool) -> Result<Turn, Refusal> {
        let turn = Line { word, ..self }.read_round()?;
        require(word.is_none() || has_seal, Refusal::NoSealLeft)?;
        Ok(turn)
    }

    pub fn step(self, rules: &Rules, book: &mut impl Sealer, entry: &Entry) -> Result<Turn, Refusal> {
        match Kind::from_number(entry.kind) {
            Some(Kind::Pair) => self.heard_pair(rules, book, entry),
            Some(Kind::Ack) => self.heard_ack(rules, entry),
            Some(Kind::Config) => self.reconfigured(rules, book, entry.configuration()),
            Some(Kind::Behind) => self.told_behind(entry),
            Some(Kind::Read | Kind::Write | Kind::Transfer | Kind::Stock) | None => {
                Err(object(Objection::NotAwaited))
            }
        }
    }

    // The sender is counted, if it is a member that has not been.
    fn count(self, sender: u8) -> Result<Line, Refusal> {
        Stepper::Client.require(
            has_party(self.configuration.set, sender),
            Objection::NotMember,
        )?;
        Stepper::Client.require(!has_party(self.counted, sender), Objection::AlreadyCounted)?;
        Ok(Line {
            counted: with_party(self.counted, sender),
            ..self
        })
    }

    fn heard_pair(self, rules: &Rules, book: &mut impl Sealer, entry: &Entry) -> Result<Turn, Refusal> {
        let heard = match self.stage {
            Stage::Reading(heard) if entry.round == self.round => heard,
            _ => return Err(object(Objection::NotAwaited)),
        };
        let line = self.count(entry.sender)?;
        let pair = entry.pair();
        Stepper::Client.require(rules.is_pair_genuine(book, pair), Objection::NotGenuine)?;
        let heard = heard.map_or(
            Heard {
                highest: pair,
                all_agree: true,
            },
            |heard| heard.with(pair),
        );
        let line = Line {
            stage: Stage::Reading(Some(heard)),
            ..line
        };
        if !rules.is_quorum(line.counted) {
            return Ok(Turn::quiet(line));
        }
        match line.word {
            Some(word) => line.stamp(book, heard.highest, word),
            None if heard.all_agree => Ok(Turn::ending(line, heard.highest)),
            None => line.write_round(Stage::WritingBack(heard.highest), heard.highest),
        }
    }

    fn stamp(self, book: &mut impl Sealer, highest: Pair, word: u64) -> Result<Turn, Refusal> {
        let last = self.last_count.max(highest.stamp.count);
        let count = last.checked_add(1).ok_or(Refusal::NumberTooHigh)?;
        self.next_round()?;
        let pair = book.seal_pair(
            Stamp {
                count,
                writer: self.client,
            },
            word,
        )?;
        let turn = Line {
            last_count: count,
            ..self
        }
        .write_round(Stage::Writing(pair), pair)?;
        Ok(Turn {
            event: Event::Stamped(pair),
            ..turn
        })
    }

    fn heard_ack(self, rules: &Rules, entry: &Entry) -> Result<Turn, Refusal> {
        let pair = match self.stage {
            Stage::Writing(pair) | Stage::WritingBack(pair) if entry.round == self.round => pair,
            _ => return Err(object(Objection::NotAwaited)),
        };
        let line = self.count(entry.sender)?;
        if rules.is_quorum(line.counted) {
            Ok(Turn::ending(line, pair))
        } else {
            Ok(Turn::quiet(line))
        }
    }

    fn reconfigured(self, rules: &Rules, book: &impl Sealer, new: Configuration) -> Result<Turn, Refusal> {
        Stepper::Client.require(new.epoch > self.configuration.epoch, Objection::NotNewer)?;
        let is_genuine = rules.is_configuration_genuine(book, new);
        Stepper::Client.require(is_genuine, Objection::NotGenuine)?;
        let line = Line {
            configuration: new,
            ..self
        };
        match line.stage {
            Stage::Idle | Stage::Over(_) => Ok(Turn::quiet(line)),
            Stage::Writing(pair) => line.write_round(line.stage, pair),
            Stage::Reading(_) | Stage::WritingBack(_) => line.read_round(),
        }
    }

    fn told_behind(self, entry: &Entry) -> Result<Turn, Refusal> {
        let is_open = self.has_open_round() && entry.round == self.round;
        Stepper::Client.require(is_open, Objection::NotAwaited)?;
        Ok(Turn::posting(
            self,
            self.own(Kind::Config).showing(self.configuration),
        ))
    }
}

impl Heard {
    fn with(self, pair: Pair) -> Heard {
        let all_agree = self.all_agree && pair.stamp == self.highest.stamp;
        let highest = if pair.stamp > self.highest.stamp {
            pair
        } else {
            self.highest
        };
        Heard { highest, all_agree }
    }
}

fn object(objection: Objection) -> Refusal {
    Refusal::Step(Stepper::Client, objection)
}
