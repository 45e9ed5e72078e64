//! Uncontended latency, by the equations of source document 001, section 2, in cycles and exact fractions of them.
//!
//! t is the bits of a target, L the bits of the data, D the channels that a packet traverses, n the targets and W the
//! bits of a channel. They are not the T and D of a network.

use crate::rational::Rational;
use crate::refusal::Refusal;

/// t, L, D, n and W.
pub type Arguments = [u64; 5];

/// The largest argument; the smallest is 1.
pub const LARGEST: u64 = 65_535;

/// T, and the averages of multi-unicast, of resumable and of restricted branch multicast.
pub type Latencies = [Rational; 4];

/// The four of them; refusal 20 for an argument outside its range.
pub fn latencies(t: u64, l: u64, d: u64, n: u64, w: u64) -> Result<Latencies, Refusal> {
    if [t, l, d, n, w].iter().any(|argument| !(1..=LARGEST).contains(argument)) {
        return Err(Refusal::Argument);
    }
    let [one, two] = [1, 2].map(Rational::from);
    let [t, l, d, n, w] = [t, l, d, n, w].map(Rational::from);
    let (target, data) = ((t / w).ceiling(), (l / w).ceiling());
    let unicast = target * d + data;
    let multi = unicast + (n - one) / two * target + (n - one) / two * data;
    let resumable = unicast + (n - one) * target;
    let restricted = (n + one) / two * target * d + data + (n - one) / two * target;
    Ok([unicast, multi, resumable, restricted])
}

/// Twice each, which are whole numbers.
pub fn doubled(values: Latencies) -> [u64; 4] {
    values.map(|value| {
        let twice = (value + value).whole().expect("a whole number of half cycles");
        u64::try_from(twice).expect("not below 0")
    })
}

/// A latency as it is quoted: `12` or `12.5`.
pub fn text(value: Rational) -> String {
    if let Some(cycles) = value.whole() {
        return cycles.to_string();
    }
    let below = (value - Rational::new(1, 2)).whole().expect("a whole number of half cycles");
    format!("{below}.5")
}

/// A row of the stored table: the arguments, the four latencies, and twice each; or the refusal, for both.
pub fn row(arguments: Arguments) -> String {
    let [t, l, d, n, w] = arguments;
    let (plain, twice) = match latencies(t, l, d, n, w) {
        Ok(values) => (values.map(text).join(" "), doubled(values).map(|value| value.to_string()).join(" ")),
        Err(refusal) => {
            let line = format!("refused {}", refusal.number());
            (line.clone(), line)
        }
    };
    format!("{t} {l} {d} {n} {w}: {plain}: {twice}")
}
