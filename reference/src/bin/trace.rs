//! `trace [--all] FILE`: what happened in the stored run, event by event, as docs/TRACE.md has it.
//! `trace --why FILE`: every failed ask with the outputs in the way, and how often each of them was.
//! `trace --apart FILE`: for every site those far apart from it.

use reference::apart::apart;
use reference::print::read_seen;
use reference::trace::trace;
use reference::why::why;
use std::fs::File;
use std::io::{self, Write};
use std::process::ExitCode;

/// The options, of which one at most is given.
const OPTIONS: [&str; 3] = ["--all", "--why", "--apart"];

fn main() -> io::Result<ExitCode> {
    let words: Vec<_> = std::env::args_os().skip(1).collect();
    let options = words.iter().take_while(|word| OPTIONS.iter().any(|option| word == option)).count();
    let (options @ ([] | [_]), [name]) = words.split_at(options) else {
        eprintln!("usage: trace [--all | --why | --apart] FILE");
        return Ok(ExitCode::from(2));
    };
    let bytes = read_seen(File::open(name)?)?;
    let told = match options.first() {
        Some(option) if option == "--why" => why(&bytes),
        Some(option) if option == "--apart" => apart(&bytes),
        all => trace(&bytes, all.is_some()),
    };
    let mut out = io::stdout().lock();
    match told {
        Ok(text) => out.write_all(text.as_bytes())?,
        Err(refusal) => {
            writeln!(out, "refused {}", refusal.number())?;
            return Ok(ExitCode::from(1));
        }
    }
    Ok(ExitCode::SUCCESS)
}
