// Runs two programs on random scripts, compares what they print, and checks that finished operations have one order.
mod book;
mod client;
mod commands;
mod dice;
mod hall;
mod lies;
mod orders;
mod programs;
mod refusals;
mod replica;
mod rules;
mod script;
mod scripts;
mod sealer;
mod store;
mod weights;
mod wire;

use orders::Report;
use programs::{answer, first_difference};
use std::collections::BTreeMap;
use std::process::ExitCode;
use std::{env, fs};

const USAGE: &str = "usage: compare PROGRAM PROGRAM [SCRIPTS [SEED]]";
const SHOWN: &str = "target/twin/differing.script";

// What the scripts came to, so that it can be seen that they get somewhere.
#[derive(Default)]
struct Tally {
    scripts: u64,
    configurations: usize,
    operations: usize,
    finished: usize,
    refusals: BTreeMap<u64, usize>,
}

impl Tally {
    fn add(&mut self, report: &Report) {
        self.scripts += 1;
        self.configurations += report.configurations.len();
        self.operations += report.operations.len();
        self.finished += report
            .operations
            .iter()
            .filter(|each| each.is_finished())
            .count();
        for (_, number, _) in &report.refusals {
            *self.refusals.entry(*number).or_default() += 1;
        }
    }

    fn print(&self) {
        let Tally {
            scripts,
            configurations,
            operations,
            finished,
            refusals,
        } = self;
        println!("{scripts} scripts compared, all alike and in order");
        println!("{configurations} configurations, {operations} operations, {finished} finished");
        let refusals: Vec<String> = refusals
            .iter()
            .map(|(number, times)| format!("{number} {times} times"))
            .collect();
        println!("refusals: {}", refusals.join(", "));
    }
}

struct Pairing {
    one: String,
    other: String,
}

impl Pairing {
    fn run(&self, program: &str, script: &[u8]) -> Result<String, String> {
        answer(program, script).map_err(|failure| format!("{program}: {failure}"))
    }

    // What is printed by both, if both print the same and it is in order.
    fn compare(&self, script: &[u8]) -> Result<Report, String> {
        let printed = self.run(&self.one, script)?;
        let other = self.run(&self.other, script)?;
        if let Some(difference) = first_difference(&printed, &other) {
            return Err(difference);
        }
        let report = Report::read(&printed).ok_or("what is printed cannot be read back")?;
        report.objection(script).map_or(Ok(report), Err)
    }
}

fn compare_all(programs: &Pairing, scripts: u64, seed: u64) -> ExitCode {
    let mut tally = Tally::default();
    for seed in (seed..).take(scripts as usize) {
        let script = scripts::random_script(seed);
        match programs.compare(&script) {
            Ok(report) => tally.add(&report),
            Err(difference) => {
                println!(
                    "{} scripts alike, then seed {seed}: {difference}",
                    tally.scripts
                );
                match fs::write(SHOWN, &script) {
                    Ok(()) => println!("the script is {SHOWN}"),
                    Err(error) => println!("{SHOWN}: {error}"),
                }
                return ExitCode::FAILURE;
            }
        }
    }
    tally.print();
    ExitCode::SUCCESS
}

fn main() -> ExitCode {
    let mut arguments = env::args().skip(1);
    let (Some(one), Some(other)) = (arguments.next(), arguments.next()) else {
        eprintln!("{USAGE}");
        return ExitCode::FAILURE;
    };
    let numbers: Result<Vec<u64>, _> = arguments.map(|number| number.parse()).collect();
    match numbers.as_deref() {
        Ok([]) => compare_all(&Pairing { one, other }, 1000, 1),
        Ok([scripts]) => compare_all(&Pairing { one, other }, *scripts, 1),
        Ok([scripts, seed]) => compare_all(&Pairing { one, other }, *scripts, *seed),
        _ => {
            eprintln!("{USAGE}");
            ExitCode::FAILURE
        }
    }
}
