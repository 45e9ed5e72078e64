//! What every moved file keeps: the corpus and made archives of both versions, a third of them damaged, both ways.

use crate::moves::{moved, with_room, Move};
use reference::archive::{read, Run};
use reference::format::VERSION_AT;
use reference::making::{damage::damaged, rng::Rng, runs::either_run};
use reference::moves::{back, over};
use reference::network::NO_CHANNEL;
use reference::player::{play, BOOK};
use reference::refusal::{Refusal, NUMBERS};

/// What the files of one way met.
#[derive(Default)]
struct Met {
    refused: [usize; NUMBERS],
    moved: usize,
    /// Moved with a channel that is none, with a set beyond bit 7, with 16 sites.
    none: usize,
    beyond_bit_7: usize,
    sixteen: usize,
}

/// One way: its move, the other one, and the version that it takes.
struct Way {
    go: Move,
    other: Move,
    from: u8,
    met: Met,
}

impl Way {
    fn over() -> Way {
        Way { go: over, other: back, from: 1, met: Met::default() }
    }

    fn back() -> Way {
        Way { go: back, other: over, from: 2, met: Met::default() }
    }

    /// The run that moves, or the number, by the reader's answer and the file's version, sites and edition.
    fn judged(&self, file: &[u8]) -> Result<Run, u8> {
        match read(file) {
            Err(Refusal::Length) => Err(1),
            _ if file[VERSION_AT] != self.from => Err(2),
            Ok(run) if self.from == 2 && (run.network.sites > 16 || run.network.edition != 1) => Err(15),
            judged => judged.map_err(Refusal::number),
        }
    }

    fn file(&mut self, file: &[u8]) {
        match self.judged(file) {
            Ok(run) => self.moves(file, &run),
            Err(number) => {
                assert_eq!(moved(self.go, file), Err(number));
                assert_eq!(with_room(self.go, file, 0), Err(number));
                self.met.refused[number as usize] += 1;
            }
        }
    }

    fn moves(&mut self, file: &[u8], run: &Run) {
        let gone = moved(self.go, file).expect("it moves");
        let (sites, sends) = (run.network.sites as usize, run.sends.len());
        let lengths = [13 + 4 * sites, 14 + 8 * sites].map(|front| front + 2 * sites * sites);
        let lengths = [lengths[0] + 5 * sends, lengths[1] + 11 * sends];
        let (narrow, wide) = if self.from == 1 { (file, &gone[..]) } else { (&gone[..], file) };
        assert_eq!([narrow.len(), wide.len()], lengths);
        assert_eq!(widened(narrow), wide);
        assert_eq!(moved(self.other, &gone).as_deref(), Ok(file));
        assert_eq!(with_room(self.go, file, gone.len()).as_ref(), Ok(&gone));
        assert_eq!(with_room(self.go, file, gone.len() - 1), Err(14));
        assert_eq!(played(&gone), played(file));
        let met = &mut self.met;
        met.refused[14] += 1;
        met.moved += 1;
        met.none += usize::from(run.network.channels[..4 * sites].contains(&NO_CHANNEL));
        met.beyond_bit_7 += usize::from(run.sends.iter().any(|send| send.set > 255));
        met.sixteen += usize::from(sites == 16);
    }

    /// Exactly these numbers were met, and each kind of moved file.
    fn met(&self, numbers: &[usize]) {
        let Met { refused, moved, none, beyond_bit_7, sixteen } = &self.met;
        let found: Vec<usize> = (0..NUMBERS).filter(|&number| refused[number] > 0).collect();
        assert_eq!(found, numbers);
        for count in [moved, none, beyond_bit_7, sixteen] {
            assert!(*count > 0, "{moved} moved, {none} {beyond_bit_7} {sixteen}");
        }
    }
}

/// The counts and the book of a valid archive.
fn played(file: &[u8]) -> ([u32; 4], Vec<u8>) {
    let mut book = vec![7; BOOK];
    let counts = play(file, &mut book).expect("a valid archive");
    ([counts.accepted, counts.pairs, counts.serviced, counts.owed], book)
}

/// What version 2 has for a valid file of version 1, part by part.
fn widened(file: &[u8]) -> Vec<u8> {
    let (sites, sends) = (file[3] as usize, file[12] as usize);
    let (channels, rest) = file[13..].split_at(4 * sites);
    let (routes, stored) = rest.split_at(2 * sites * sites);
    let length = 14 + 8 * sites + 2 * sites * sites + 11 * sends;
    let mut wide = vec![(length / 256) as u8, length as u8, 2, 1];
    wide.extend(&file[3..13]);
    wide.extend(channels.iter().flat_map(|&end| [if end == 255 { 255 } else { 0 }, end]));
    wide.extend(routes);
    for send in stored.chunks_exact(5) {
        wide.extend([&send[..3], &[0; 6], &send[3..]].concat());
    }
    wide
}

#[test]
fn the_corpus() {
    let (mut over, mut back) = (Way::over(), Way::back());
    let mut seen = 0;
    for entry in std::fs::read_dir(concat!(env!("CARGO_MANIFEST_DIR"), "/../corpus")).expect("the folder") {
        let path = entry.expect("an entry").path();
        if path.extension().is_some_and(|extension| extension == "bin") {
            let file = std::fs::read(&path).expect("an archive");
            over.file(&file);
            back.file(&file);
            seen += 1;
        }
    }
    assert_eq!(seen, over.met.moved + over.met.refused.iter().sum::<usize>() - over.met.refused[14]);
    over.met(&[1, 2, 3, 4, 5, 6, 7, 8, 14]);
    back.met(&[1, 2, 3, 4, 5, 6, 7, 8, 14, 15, 17]);
}

#[test]
fn made_archives() {
    let mut rng = Rng::new(71);
    let (mut over, mut back) = (Way::over(), Way::back());
    for _ in 0..3_000 {
        let mut file = either_run(&mut rng, false).bytes();
        if rng.one_in(3) {
            file = damaged(&mut rng, &file);
        }
        over.file(&file);
        back.file(&file);
    }
    over.met(&[1, 2, 3, 4, 5, 6, 7, 8, 14]);
    back.met(&[1, 2, 3, 4, 5, 6, 7, 8, 14, 15, 17]);
}
