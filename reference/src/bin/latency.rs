//! `latency`: prints the stored table of latencies (tests/latency/table.txt), a row a line.

use reference::latency::row;
use reference::making::latency::rows;
use std::io::{self, BufWriter, Write};

fn main() -> io::Result<()> {
    if std::env::args_os().len() > 1 {
        eprintln!("usage: latency");
        std::process::exit(2);
    }
    let mut out = BufWriter::new(io::stdout().lock());
    for arguments in rows() {
        writeln!(out, "{}", row(arguments))?;
    }
    out.flush()
}
