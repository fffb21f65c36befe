// What is refused: its number, and the layer that refuses it.
use std::fmt;

#[derive(Clone, Copy, Debug, PartialEq, Eq)]
pub enum Refusal {
    LimitBroken,
    WrongSet,
    TooManyMarked,
    NoSuch,
    TableFull,
    Busy,
    NoSealLeft,
    NumberTooHigh,
    DoesNotFit,
    Step(Stepper, Objection),
    NotReady,
    WrongSlip,
    NotAtThisStage,
    NotMarked,
    NoValue,
    Unreadable,
}

// Whose step objects.
#[derive(Clone, Copy, Debug, PartialEq, Eq)]
pub enum Stepper {
    Client,
    Replica,
}

// What both steps object to.
#[derive(Clone, Copy, Debug, PartialEq, Eq)]
pub enum Objection {
    NotGenuine,
    NotMember,
    AlreadyCounted,
    NotAwaited,
    NotNewer,
}

impl Objection {
    fn number(self) -> u8 {
        match self {
            Objection::NotGenuine => 12,
            Objection::NotMember => 13,
            Objection::AlreadyCounted => 14,
            Objection::NotAwaited => 15,
            Objection::NotNewer => 16,
        }
    }
}

impl Stepper {
    fn layer(self) -> &'static str {
        match self {
            Stepper::Client => "client",
            Stepper::Replica => "replica",
        }
    }

    // `Ok` where `holds`, else this step's objection.
    pub fn require(self, holds: bool, objection: Objection) -> Result<(), Refusal> {
        require(holds, Refusal::Step(self, objection))
    }
}

impl Refusal {
    pub fn number(self) -> u8 {
        match self {
            Refusal::LimitBroken => 1,
            Refusal::WrongSet => 2,
            Refusal::TooManyMarked => 3,
            Refusal::NoSuch => 5,
            Refusal::TableFull => 6,
            Refusal::Busy => 7,
            Refusal::NoSealLeft => 8,
            Refusal::NumberTooHigh => 10,
            Refusal::DoesNotFit => 11,
            Refusal::Step(_, objection) => objection.number(),
            Refusal::NotReady => 17,
            Refusal::WrongSlip => 18,
            Refusal::NotAtThisStage => 19,
            Refusal::NotMarked => 20,
            Refusal::NoValue => 21,
            Refusal::Unreadable => 23,
        }
    }

    fn layer(self) -> &'static str {
        match self {
            Refusal::LimitBroken
            | Refusal::WrongSet
            | Refusal::TooManyMarked
            | Refusal::NoSuch
            | Refusal::TableFull
            | Refusal::DoesNotFit
            | Refusal::NotMarked => "hall",
            Refusal::Busy
            | Refusal::NumberTooHigh
            | Refusal::WrongSlip
            | Refusal::NotAtThisStage => "client",
            Refusal::NoSealLeft => "sealer",
            Refusal::Step(stepper, _) => stepper.layer(),
            Refusal::NotReady => "replica",
            Refusal::NoValue => "kind",
            Refusal::Unreadable => "script",
        }
    }
}

impl fmt::Display for Refusal {
    fn fmt(&self, out: &mut fmt::Formatter) -> fmt::Result {
        write!(out, "{} {}", self.number(), self.layer())
    }
}

pub fn require(holds: bool, refusal: Refusal) -> Result<(), Refusal> {
    if holds { Ok(()) } else { Err(refusal) }
}
