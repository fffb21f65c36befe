// The hall written a second time from its rules alone: a script on standard input, what came of it on standard output.
mod book;
mod client;
mod commands;
mod hall;
mod refusals;
mod replica;
mod rules;
mod script;
mod sealer;
mod store;
mod weights;
mod wire;

use script::Script;
use std::io::{self, Read, Write};

// At most this much of a script is read.
const INPUT: usize = 32_768;

// Where the limit is reached within a line, the line may be cut, and is taken as one that cannot be read.
fn run(text: &[u8]) -> String {
    let mut script = Script::new();
    for piece in text.split_inclusive(|byte| *byte == b'\n') {
        match piece.strip_suffix(b"\n") {
            Some(line) => script.take(line),
            None if text.len() == INPUT => script.take(b""),
            None => script.take(piece),
        }
    }
    script.to_string()
}

fn main() -> io::Result<()> {
    let mut text = Vec::new();
    io::stdin()
        .lock()
        .take(INPUT as u64)
        .read_to_end(&mut text)?;
    io::stdout().lock().write_all(run(&text).as_bytes())
}
