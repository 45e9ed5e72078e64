//! `inspect NAME..`: says of each file whether it is an archive, and if not what is wrong and where, a line each.

use reference::faults::told;
use reference::print::read_seen;
use std::fs::{metadata, File};
use std::io::{self, BufWriter, Write};
use std::os::unix::ffi::OsStrExt;

fn main() -> io::Result<()> {
    let mut out = BufWriter::new(io::stdout().lock());
    for name in std::env::args_os().skip(1) {
        let file = metadata(&name).is_ok_and(|known| known.is_file());
        let bytes = if file { File::open(&name).and_then(read_seen).ok() } else { None };
        let line = bytes.map_or("cannot be read".to_string(), |bytes| told(&bytes));
        out.write_all(&shown(name.as_bytes()))?;
        writeln!(out, ": {line}")?;
    }
    Ok(())
}

/// The name with control characters and backslashes escaped.
fn shown(name: &[u8]) -> Vec<u8> {
    let mut text = Vec::new();
    for &byte in name {
        match byte {
            b'\n' => text.extend(b"\\n"),
            b'\r' => text.extend(b"\\r"),
            b'\t' => text.extend(b"\\t"),
            b'\\' => text.extend(b"\\\\"),
            0..=31 | 127 => text.extend(format!("\\x{byte:02x}").bytes()),
            _ => text.push(byte),
        }
    }
    text
}
