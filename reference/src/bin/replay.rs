//! `replay`: reads single event cases from standard input and prints their outcomes.

use reference::text::{read_cases, Writer};
use std::io::{self, Read, Write};

fn main() -> io::Result<()> {
    let mut text = String::new();
    io::stdin().lock().read_to_string(&mut text)?;
    let mut outcomes = Writer::default();
    for case in read_cases(&text) {
        outcomes.outcome(&case.outcome(&mut ()));
    }
    io::stdout().lock().write_all(outcomes.text.as_bytes())
}
