//! `corpus FOLDER`: writes the archives of the corpus into a folder that exists.

use reference::making::corpus;
use std::io;
use std::path::Path;

fn main() -> io::Result<()> {
    let Some(folder) = std::env::args().nth(1) else {
        eprintln!("usage: corpus FOLDER");
        std::process::exit(2);
    };
    for (name, bytes) in corpus::all() {
        std::fs::write(Path::new(&folder).join(name), bytes)?;
    }
    Ok(())
}
