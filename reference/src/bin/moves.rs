//! `moves over|back FROM-FOLDER TO-FOLDER`: moves every `*.bin` of a folder to the other version, into a folder that
//! exists, under the same name.
//!
//! It prints a line for each, sorted by name: how many bytes it has there, or its refusal; then the totals.

use reference::archive::LONGEST;
use reference::moves::{back, over};
use reference::print::read_seen;
use std::ffi::OsString;
use std::fs::{self, File};
use std::io::{self, BufWriter, Write};
use std::os::unix::ffi::OsStrExt;
use std::path::Path;

fn main() -> io::Result<()> {
    let args: Vec<OsString> = std::env::args_os().skip(1).collect();
    let [way, from, to] = &args[..] else { usage() };
    let (from, to) = (Path::new(from), Path::new(to));
    let go = match way.as_bytes() {
        b"over" => over,
        b"back" => back,
        _ => usage(),
    };
    let mut out = BufWriter::new(io::stdout().lock());
    let mut room = [0; LONGEST];
    let (mut moved, mut refused) = (0, 0);
    for name in archives(from)? {
        let file = read_seen(File::open(from.join(&name))?)?;
        out.write_all(name.as_bytes())?;
        match go(&file, &mut room) {
            Ok(length) => {
                moved += 1;
                fs::write(to.join(&name), &room[..length])?;
                writeln!(out, ": {length} bytes")?;
            }
            Err(refusal) => {
                refused += 1;
                writeln!(out, ": refused {}", refusal.number())?;
            }
        }
    }
    writeln!(out, "files {} moved {moved} refused {refused}", moved + refused)
}

/// The names in the folder that end in `.bin`, sorted.
fn archives(folder: &Path) -> io::Result<Vec<OsString>> {
    let names: io::Result<Vec<OsString>> =
        fs::read_dir(folder)?.map(|entry| entry.map(|entry| entry.file_name())).collect();
    let mut names = names?;
    names.retain(|name| name.as_bytes().ends_with(b".bin"));
    names.sort();
    Ok(names)
}

fn usage() -> ! {
    eprintln!("usage: moves over|back FROM-FOLDER TO-FOLDER");
    std::process::exit(2);
}
