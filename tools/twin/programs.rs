// Runs a program on a script, and lays what it prints beside what is wanted.
use std::fmt;
use std::io::{self, Write};
use std::process::{Command, ExitStatus, Stdio};
use std::thread;

// Why there is no answer to compare.
pub enum Failure {
    NotRun(io::Error),
    Status(ExitStatus),
}

impl fmt::Display for Failure {
    fn fmt(&self, out: &mut fmt::Formatter) -> fmt::Result {
        match self {
            Failure::NotRun(error) => write!(out, "cannot be run: {error}"),
            Failure::Status(status) => write!(out, "ended with {status}"),
        }
    }
}

impl From<io::Error> for Failure {
    fn from(error: io::Error) -> Failure {
        Failure::NotRun(error)
    }
}

// A program may stop reading at its limit, so that writing the rest of a script can fail.
pub fn answer(program: &str, script: &[u8]) -> Result<String, Failure> {
    let mut child = Command::new(program)
        .stdin(Stdio::piped())
        .stdout(Stdio::piped())
        .spawn()?;
    let input = child.stdin.take();
    let output = thread::scope(|scope| {
        scope.spawn(move || input.map(|mut input| input.write_all(script)));
        child.wait_with_output()
    })?;
    if !output.status.success() {
        return Err(Failure::Status(output.status));
    }
    Ok(String::from_utf8_lossy(&output.stdout).into_owned())
}

pub fn first_difference(wanted: &str, got: &str) -> Option<String> {
    if wanted == got {
        return None;
    }
    let (mut left, mut right) = (wanted.lines(), got.lines());
    for number in 1.. {
        match (left.next(), right.next()) {
            (Some(a), Some(b)) if a == b => {}
            (None, None) => break,
            (a, b) => return Some(format!("line {number}: {} against {}", shown(a), shown(b))),
        }
    }
    Some("the line ends differ".to_owned())
}

fn shown(line: Option<&str>) -> String {
    line.map_or("nothing".to_owned(), |line| format!("`{line}`"))
}
