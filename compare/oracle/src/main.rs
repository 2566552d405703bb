// The supplied Rust, asked in the lines of the program `cases`: a line on standard input, an answer on standard output.
//
//   oracle [zero|error] < lines
//
// The word says what a packed integer inside an event is if its first byte is 251 or 255: io.rs has a reader for which it is 0, and one for which it is an error. What the Rust refuses is `error`,
// and where it panics the answer is `panic`.
#![allow(dead_code, unused)]

use std::{
    io::{BufRead, Write},
    panic,
    sync::atomic::{AtomicBool, Ordering},
};

#[macro_use]
mod bitflags_ext;
mod binlog;
mod constants;
mod io;
mod misc;
mod proto;
mod value;

mod events;
mod packed;
mod values;

static PACKED_ERRS: AtomicBool = AtomicBool::new(false);

pub fn packed_errs() -> bool {
    PACKED_ERRS.load(Ordering::Relaxed)
}

pub const ERROR: &str = "error";

pub fn unhex(word: &str) -> Vec<u8> {
    if word == "-" {
        return Vec::new();
    }
    let digit = |c: u8| (c as char).to_digit(16).expect("a hexadecimal digit") as u8;
    word.as_bytes()
        .chunks(2)
        .map(|two| 16 * digit(two[0]) + digit(two[1]))
        .collect()
}

pub fn hex(bytes: &[u8]) -> String {
    if bytes.is_empty() {
        return "-".into();
    }
    bytes.iter().map(|b| format!("{b:02x}")).collect()
}

pub fn number<T: std::str::FromStr>(word: &str) -> T {
    word.parse().ok().expect("a number")
}

// The answer, or `panic`.
pub fn caught(f: impl FnOnce() -> String) -> String {
    panic::catch_unwind(panic::AssertUnwindSafe(f)).unwrap_or_else(|_| "panic".into())
}

fn answer(line: &str) -> String {
    let words: Vec<&str> = line.split(' ').collect();
    match words[0] {
        "packed" => packed::read(&unhex(words[1]), number(words[2])),
        "pack" => packed::write(number(words[1])),
        "value" => values::lone(
            number(words[1]),
            &[number(words[2]), number(words[3])],
            words[4] == "1",
            &unhex(words[5]),
        ),
        "image" => values::image(&unhex(words[1]), &unhex(words[2]), &unhex(words[3])),
        "event" => events::event(number(words[1]), &unhex(words[2])),
        "fields-as" => events::fields(&unhex(words[2]), &unhex(words[3])),
        "list" => events::lists(words[1], &unhex(words[2])),
        "check-as" => events::record(number(words[2]), &unhex(words[3])),
        word => panic!("no such word: {word}"),
    }
}

fn main() {
    match std::env::args().nth(1).as_deref() {
        Some("error") => PACKED_ERRS.store(true, Ordering::Relaxed),
        Some("zero") | None => {}
        Some(word) => panic!("zero or error, not {word}"),
    }
    panic::set_hook(Box::new(|_| {}));
    let mut out = std::io::stdout().lock();
    for line in std::io::stdin().lock().lines() {
        let line = line.expect("a line");
        writeln!(out, "{}", caught(|| answer(&line))).expect("standard output");
    }
}
