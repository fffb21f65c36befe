// Compares the proved hall, through its static library, with the twin in plain Rust: first what both answer, then the time of a call.
#![allow(dead_code)]
#[path = "../twin/book.rs"]
mod book;
#[path = "../twin/client.rs"]
mod client;
#[path = "../twin/hall.rs"]
mod hall;
mod keyed;
#[path = "../twin/refusals.rs"]
mod refusals;
#[path = "../twin/replica.rs"]
mod replica;
#[path = "../twin/rules.rs"]
mod rules;
#[path = "../twin/sealer.rs"]
mod sealer;
#[path = "../twin/store.rs"]
mod store;
mod tape;
#[path = "../twin/weights.rs"]
mod weights;
#[path = "../twin/wire.rs"]
mod wire;
mod workload;

use std::hint::black_box;
use std::time::Instant;

// What is to be done, as the library lays it out.
#[repr(C)]
#[derive(Clone, Copy, Debug)]
pub struct Plan {
    openings: u32,
    places: u16,
    filled: u16,
    issues: u16,
    turns: u16,
    loads: u16,
    faults: u8,
    replicas: u8,
    clients: u8,
    loader: u8,
    keyed: bool,
    taped: bool,
}

#[repr(C)]
#[derive(Clone, Copy, Debug, Default, PartialEq, Eq)]
pub struct Tally {
    calls: u64,
    refused: u64,
    sum: u64,
}

unsafe extern "C" {
    fn dagbirin_drive(plan: *const Plan, bytes: *mut u8, length: usize, tally: *mut Tally);
}

// How many calls a run makes at least, and how many runs of each side are made.
const CALLS: u64 = 100_000;
const RUNS: usize = 100;

// A write and a read post so many entries with a quorum of q.
fn entries(q: u64) -> u64 {
    3 + 3 * q
}

fn library(plan: &Plan, bytes: &mut [u8]) -> Tally {
    let mut tally = Tally::default();
    unsafe { dagbirin_drive(plan, bytes.as_mut_ptr(), bytes.len(), &mut tally) };
    tally
}

fn twin(plan: &Plan, bytes: &mut [u8]) -> Tally {
    let mut tally = Tally::default();
    workload::drive(plan, bytes, &mut tally).expect("the twin opens its hall");
    tally
}

// The seconds of a run.
fn seconds(plan: &Plan, bytes: &mut [u8], side: fn(&Plan, &mut [u8]) -> Tally) -> f64 {
    let start = Instant::now();
    black_box(side(black_box(plan), bytes));
    start.elapsed().as_secs_f64()
}

// The least seconds of each side, which run in turn.
fn least(plan: &Plan, bytes: &mut [u8]) -> (f64, f64) {
    let (mut ours, mut theirs) = (f64::MAX, f64::MAX);
    for _ in 0..RUNS {
        ours = ours.min(seconds(plan, bytes, library));
        theirs = theirs.min(seconds(plan, bytes, twin));
    }
    (ours, theirs)
}

// Sees that both sides answer the same, and that nothing is refused.
fn same(plan: &Plan, bytes: &mut [u8]) -> u64 {
    let (ours, theirs) = (library(plan, bytes), twin(plan, bytes));
    assert_eq!(ours, theirs, "{plan:?}");
    assert_eq!(ours.refused, 0, "{plan:?}");
    ours.calls
}

// As many openings as make enough calls.
fn enough(plan: Plan, bytes: &mut [u8]) -> (Plan, u64) {
    let once = same(&Plan { openings: 1, ..plan }, bytes);
    let openings = CALLS.div_ceil(once) as u32;
    let plan = Plan { openings, ..plan };
    let calls = same(&plan, bytes);
    (plan, calls)
}

fn names(plan: &Plan) -> String {
    let sealer = if plan.keyed { "keyed" } else { "book" };
    let store = if plan.taped { "tape" } else { "cabinet" };
    format!("{sealer} and {store}")
}

// A post of so many places, as full as writes and reads make it.
fn full(places: u16, faults: u8, clients: u8, keyed: bool, taped: bool) -> Plan {
    // a book has no more seals for a writer
    let turns = (u64::from(places) / entries(2 * u64::from(faults) + 1)).min(250) as u16;
    Plan {
        openings: 1,
        places,
        filled: 0,
        issues: 0,
        turns,
        loads: 0,
        faults,
        replicas: 3 * faults + 1,
        clients,
        loader: 0,
        keyed,
        taped,
    }
}

fn compare(plan: Plan, bytes: &mut [u8]) {
    let (plan, calls) = enough(plan, bytes);
    let (ours, theirs) = least(&plan, bytes);
    let millions = |seconds: f64| calls as f64 / seconds / 1e6;
    println!(
        "{:18} f {}, {:4} places: {:6.2} million calls a second, the twin {:6.2}, ratio {:.2}",
        names(&plan),
        plan.faults,
        plan.places,
        millions(ours),
        millions(theirs),
        theirs / ours,
    );
}

// How much longer a delivery makes a run, in ns on each side: the run without these deliveries is taken off.
fn delivery(plan: Plan, bytes: &mut [u8]) -> (f64, f64) {
    let (plan, calls) = enough(plan, bytes);
    let bare = Plan { loads: 0, ..plan };
    let made = (calls - same(&bare, bytes)) as f64;
    let (ours, theirs) = least(&plan, bytes);
    let (ours_bare, theirs_bare) = least(&bare, bytes);
    let ns = |all: f64, bare: f64| (all - bare) / made * 1e9;
    (ns(ours, ours_bare), ns(theirs, theirs_bare))
}

// A delivery of READ over a post with so many entries and more.
fn behind(filled: u16, bytes: &mut [u8]) {
    let plan = Plan {
        filled,
        turns: 1,
        loads: 2000,
        ..full(4096, 1, 1, false, false)
    };
    let (ours, theirs) = delivery(plan, bytes);
    println!("behind {filled:4} entries a delivery takes {ours:5.1} ns, the twin's {theirs:5.1} ns");
}

// A delivery that loads a card from a tape, of a replica whose last record is near the end, or far from it.
fn loading(plan: Plan, bytes: &mut [u8]) {
    for (place, loader) in [("near", 0), ("far", 3)] {
        let plan = Plan {
            loads: 3900,
            loader,
            ..plan
        };
        let (ours, theirs) = delivery(plan, bytes);
        println!(
            "{:4} records behind the card, {place:4}: a delivery takes {ours:7.1} ns, the twin's {theirs:7.1} ns",
            records(&plan, loader),
        );
    }
}

// How many records lie behind the last one of a replica, 0 or 3.
fn records(plan: &Plan, loader: u8) -> u64 {
    let outsiders = u64::from(plan.replicas) - 4;
    match loader {
        0 => 2,
        _ => outsiders + u64::from(plan.issues) * outsiders + 3 * u64::from(plan.turns),
    }
}

fn main() {
    let mut bytes = vec![0; 72 * 8192];
    for (keyed, taped) in [(false, false), (true, false), (false, true), (true, true)] {
        for places in [64, 512, 4096] {
            compare(full(places, 1, 1, keyed, taped), &mut bytes);
        }
        compare(full(4096, 5, 2, keyed, taped), &mut bytes);
    }
    for filled in [0, 500, 2000] {
        behind(filled, &mut bytes);
    }
    // 16, 256 and 4,096 records behind the card that is far
    for (replicas, issues, turns) in [(17, 0, 1), (23, 12, 3), (57, 76, 5)] {
        let plan = Plan {
            replicas,
            issues,
            turns,
            ..full(4096, 1, 1, true, true)
        };
        loading(plan, &mut bytes);
    }
}
