// Runs a program on every script of the trials and compares what it prints.
#[path = "../../crates/script_trials/src/calls.rt"]
mod calls;
#[path = "../../crates/script_trials/src/case.rt"]
mod case;
#[path = "../../crates/script_trials/src/epochs.rt"]
mod epochs;
#[path = "../../crates/script_trials/src/liars.rt"]
mod liars;
#[path = "../../crates/script_trials/src/lines.rt"]
mod lines;
#[path = "../../crates/script_trials/src/openings.rt"]
mod openings;
#[path = "../../crates/script_trials/src/operations.rt"]
mod operations;
mod programs;
#[path = "../../crates/script_trials/src/stages.rt"]
mod stages;
#[path = "../../crates/script_trials/src/tables.rt"]
mod tables;
#[path = "../../crates/script_trials/src/transfer.rt"]
mod transfer;

use case::{Case, Repeated};
use programs::{Failure, answer, first_difference};
use std::env;
use std::process::ExitCode;

// A whole script with its name and what is to be printed.
type Whole = (&'static str, String, &'static str);

fn whole(case: &Case) -> Whole {
    (case.name, case.script.to_owned(), case.printed)
}

fn written_out(case: &Repeated) -> Whole {
    let Repeated {
        name,
        head,
        part,
        times,
        tail,
        printed,
    } = *case;
    (name, [head, &part.repeat(times), tail].concat(), printed)
}

fn all() -> impl Iterator<Item = Whole> {
    let single = [
        &lines::CASES[..],
        &openings::CASES,
        &calls::CASES,
        &operations::CASES,
        &liars::CASES,
        &stages::CASES,
        &epochs::CASES,
        &transfer::CASES,
    ];
    single
        .into_iter()
        .flatten()
        .map(whole)
        .chain(tables::CASES.iter().map(written_out))
}

fn check(program: &str) -> Result<usize, Failure> {
    let mut differing = 0;
    for (name, script, printed) in all() {
        let got = answer(program, script.as_bytes())?;
        if let Some(difference) = first_difference(printed, &got) {
            println!("{name}: {difference}");
            differing += 1;
        }
    }
    Ok(differing)
}

fn main() -> ExitCode {
    let Some(program) = env::args().nth(1) else {
        eprintln!("usage: cases PROGRAM");
        return ExitCode::FAILURE;
    };
    match check(&program) {
        Ok(differing) => {
            println!("{} cases, {differing} differ", all().count());
            ExitCode::from(u8::from(differing > 0))
        }
        Err(failure) => {
            eprintln!("{program}: {failure}");
            ExitCode::FAILURE
        }
    }
}
