//! `batch [--services] [NAME..]`: plays many archives, one line a file, names also from standard input.
//!
//! With `--services` each file's services come before its line, as `play` prints them.

use reference::print::{read_seen, report};
use std::ffi::OsString;
use std::fs::File;
use std::io::{self, BufRead, BufWriter, Write};
use std::os::unix::ffi::{OsStrExt, OsStringExt};

#[derive(Default)]
struct Totals {
    files: u64,
    played: u64,
    refused: u64,
    unreadable: u64,
}

fn main() -> io::Result<()> {
    let mut names: Vec<OsString> = std::env::args_os().skip(1).collect();
    let services = names.first().is_some_and(|first| first == "--services");
    if services {
        names.remove(0);
    }
    let mut out = BufWriter::new(io::stdout().lock());
    let mut totals = Totals::default();
    if names.is_empty() {
        for line in io::stdin().lock().split(b'\n') {
            one(&OsString::from_vec(line?), services, &mut totals, &mut out)?;
        }
    } else {
        for name in &names {
            one(name, services, &mut totals, &mut out)?;
        }
    }
    let Totals { files, played, refused, unreadable } = totals;
    writeln!(out, "files {files} played {played} refused {refused} unreadable {unreadable}")
}

fn one(name: &OsString, services: bool, totals: &mut Totals, out: &mut impl Write) -> io::Result<()> {
    totals.files += 1;
    let Ok(bytes) = File::open(name).and_then(read_seen) else {
        totals.unreadable += 1;
        out.write_all(name.as_bytes())?;
        return writeln!(out, ": cannot be read");
    };
    let report = report(&bytes);
    match report.outcome {
        Ok(_) => totals.played += 1,
        Err(_) => totals.refused += 1,
    }
    if services {
        out.write_all(report.services.as_bytes())?;
    }
    out.write_all(name.as_bytes())?;
    writeln!(out, ": {}", report.line)
}
