//! The rules of docs/PROTOCOL.md in plain Rust, for the commands `replay`, `gen N` and `bench N` of `lat`: the measure of their pace
//! and their memory, and a second reader of the documents. It prints what `lat` prints, with the same statuses.

mod core;
mod generate;
mod layout;
mod node;
mod schedule;
mod server;
mod session;
mod world;

use schedule::Played;
use std::io::{Read, Write};
use std::process::ExitCode;

fn replay() -> (String, u8) {
    let mut bytes = Vec::new();
    if std::io::stdin().lock().read_to_end(&mut bytes).is_err() {
        return (String::new(), 4);
    }
    // A text that isn't UTF-8 has a wrong line: the first in which it isn't.
    let text = String::from_utf8_lossy(&bytes);
    match schedule::play(&text) {
        Played::Report(report) => (report, 0),
        Played::Wrong(line) => (format!("line {line} form\n"), 2),
        Played::TooMany => ("limit events\n".to_string(), 6),
        Played::Refused(line, fault) => {
            let status = if fault == world::Fault::Frames { 6 } else { 3 };
            (schedule::fault_text(line, &fault), status)
        }
    }
}

fn main() -> ExitCode {
    let words: Vec<String> = std::env::args().skip(1).collect();
    let words: Vec<&str> = words.iter().map(String::as_str).collect();
    let (text, status) = match words[..] {
        ["replay"] => replay(),
        ["gen", n] => match n.parse() {
            Ok(n) => (generate::gen(n), 0),
            Err(_) => ("words\n".to_string(), 1),
        },
        ["bench", n] => match n.parse() {
            Ok(n) => (generate::bench(n), 0),
            Err(_) => ("words\n".to_string(), 1),
        },
        _ => ("words\n".to_string(), 1),
    };
    match std::io::stdout().lock().write_all(text.as_bytes()) {
        Ok(()) => ExitCode::from(status),
        Err(_) => ExitCode::from(5),
    }
}
