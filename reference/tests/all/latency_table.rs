//! The stored table of latencies: its form, what its rows are about, and that it is what the program prints.

use reference::latency::{row, Arguments};
use reference::making::latency::rows;
use std::cmp::Ordering;
use std::collections::BTreeSet;
use std::process::{Command, Output};

const STORED: &str = include_str!("../../../tests/latency/table.txt");

/// Rows of the table, and how many of them are refused.
const ROWS: usize = 1_509;
const REFUSED: usize = 72;

fn program(words: &[&str]) -> Output {
    Command::new(env!("CARGO_BIN_EXE_latency")).args(words).output().expect("it runs")
}

#[test]
fn rows_typed_by_hand() {
    assert_eq!(row([8, 256, 8, 4, 8]), "8 256 8 4 8: 40 89.5 43 53.5: 80 179 86 107");
    assert_eq!(row([1, 1, 1, 1, 1]), "1 1 1 1 1: 2 2 2 2: 4 4 4 4");
    assert_eq!(row([8, 0, 8, 4, 65_536]), "8 0 8 4 65536: refused 20: refused 20");
}

#[test]
fn the_program_prints_the_stored_table() {
    let told = program(&[]);
    assert!(told.status.success() && told.stderr.is_empty());
    assert!(told.stdout == STORED.as_bytes(), "scripts/expected.sh names the difference");
    let wrong = program(&["8"]);
    assert_eq!((wrong.status.code(), wrong.stdout.len()), (Some(2), 0));
    assert_eq!(wrong.stderr, b"usage: latency\n");
}

/// The number of halves that a text says: `12` or `12.5`, without a sign or leading zeros.
fn halves(text: &str) -> u64 {
    let (whole, half) = text.strip_suffix(".5").map_or((text, 0), |whole| (whole, 1));
    assert!(whole.bytes().all(|byte| byte.is_ascii_digit()) && !whole.starts_with('0'), "{text}");
    2 * whole.parse::<u64>().expect("a number") + half
}

/// What a stored line says: the arguments, and twice the latencies, or none for a refusal.
fn read(line: &str) -> (Arguments, Option<[u64; 4]>) {
    let [arguments, plain, twice] = line.split(": ").collect::<Vec<_>>()[..] else { panic!("{line}") };
    let numbers = |text: &str| text.split(' ').map(|word| word.parse().expect(line)).collect::<Vec<u64>>();
    let arguments = numbers(arguments).try_into().expect("five arguments");
    if plain == "refused 20" {
        assert_eq!(twice, plain, "{line}");
        return (arguments, None);
    }
    let told: [u64; 4] = numbers(twice).try_into().expect("four latencies");
    assert_eq!(plain.split(' ').map(halves).collect::<Vec<_>>(), told, "{line}");
    (arguments, Some(told))
}

/// Twice the latencies, in whole numbers alone.
fn twice([t, l, d, n, w]: Arguments) -> [u64; 4] {
    let (a, b) = (t.div_ceil(w), l.div_ceil(w));
    let more = [0, (n - 1) * a + (n - 1) * b, 2 * (n - 1) * a, (n - 1) * a + (n - 1) * a * d];
    more.map(|more| 2 * a * d + 2 * b + more)
}

#[test]
fn every_row() {
    let (mut seen, mut refused) = (BTreeSet::new(), 0);
    for line in STORED.lines() {
        let (arguments, told) = read(line);
        assert!(seen.insert(arguments), "twice: {line}");
        match told {
            Some(told) => assert_eq!(told, twice(arguments), "{line}"),
            None => refused += 1,
        }
        assert_eq!(
            told.is_some(),
            arguments.iter().all(|argument| (1..=65_535).contains(argument)),
            "{line}"
        );
    }
    assert!(STORED.ends_with('\n'));
    assert_eq!((seen.len(), refused), (ROWS, REFUSED));
    assert_eq!(rows().len(), ROWS);
}

/// The rows of each kind that the table has at least.
#[test]
fn kinds_of_rows() {
    let accepted = |line| Some(read(line)).filter(|(_, told)| told.is_some()).map(|(arguments, _)| arguments);
    let rows: Vec<Arguments> = STORED.lines().filter_map(accepted).collect();
    let order = |[t, l, d, n, w]: Arguments| (n > 1).then(|| (t.div_ceil(w) * d).cmp(&l.div_ceil(w)));
    let ends = |argument: &u64| [1, 2, 65_534, 65_535].contains(argument);
    type Kind<'a> = (&'a str, usize, &'a dyn Fn(Arguments) -> bool);
    let kinds: [Kind; 12] = [
        ("every argument at an end", 1_024, &|row| row.iter().all(ends)),
        ("no argument at an end", 200, &|row| !row.iter().any(ends)),
        ("one target", 290, &|row| row[3] == 1),
        ("restricted below multi-unicast", 100, &|row| order(row) == Some(Ordering::Less)),
        ("restricted equal to it", 160, &|row| order(row) == Some(Ordering::Equal)),
        ("restricted above it", 850, &|row| order(row) == Some(Ordering::Greater)),
        ("half a cycle in multi-unicast", 250, &|row| twice(row)[1] % 2 == 1),
        ("half a cycle in restricted", 240, &|row| twice(row)[3] % 2 == 1),
        ("t a multiple of W", 580, &|row| row[0] % row[4] == 0),
        ("t one above a multiple of W", 180, &|row| row[0] > row[4] && row[0] % row[4] == 1),
        ("L one below a multiple of W", 100, &|row| row[4] > 1 && row[1] % row[4] == row[4] - 1),
        ("resumable above multi-unicast", 200, &|row| twice(row)[2] > twice(row)[1]),
    ];
    for (name, least, is) in kinds {
        let count = rows.iter().filter(|&&row| is(row)).count();
        assert!(count >= least, "{name}: {count}");
    }
}
