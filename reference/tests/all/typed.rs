//! Archives and outputs typed by hand from the documents (corpus/typed) against the corpus and the model.

use reference::print::report;
use std::fs;
use std::path::{Path, PathBuf};

fn corpus() -> PathBuf {
    Path::new(env!("CARGO_MANIFEST_DIR")).join("../corpus")
}

/// The bytes of a text of hex pairs; what follows a `#` is a remark.
fn bytes(text: &str) -> Vec<u8> {
    let words = text.lines().flat_map(|line| line.split('#').next().unwrap_or("").split_whitespace());
    words.map(|pair| u8::from_str_radix(pair, 16).expect("two hex digits")).collect()
}

#[test]
fn typed_archives_play_as_typed() {
    let mut seen = 0;
    for entry in fs::read_dir(corpus().join("typed")).expect("the folder") {
        let hex = entry.expect("an entry").path();
        if hex.extension().is_none_or(|extension| extension != "hex") {
            continue;
        }
        let name = hex.file_stem().expect("a name").to_string_lossy().into_owned();
        let archive = bytes(&fs::read_to_string(&hex).expect("text"));
        let typed = fs::read_to_string(hex.with_extension("out")).expect("the output");
        let report = report(&archive);
        assert_eq!(format!("{}{}\n", report.services, report.line), typed, "{name}");
        let stored = fs::read(corpus().join(format!("{name}.bin"))).expect("the corpus has it too");
        assert!(stored == archive, "{name}: the corpus holds other bytes");
        seen += 1;
    }
    assert_eq!(seen, 45, "typed archives");
}
