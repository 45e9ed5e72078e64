//! `play`: plays the archive on standard input, of which it sees up to 65,536 bytes.
//!
//! It prints each service as `draw packet site`, then the counts; or only `refused N`.

use reference::print::{read_seen, report};
use std::io::{self, Write};

fn main() -> io::Result<()> {
    let report = report(&read_seen(io::stdin().lock())?);
    let mut out = io::stdout().lock();
    writeln!(out, "{}{}", report.services, report.line)
}
