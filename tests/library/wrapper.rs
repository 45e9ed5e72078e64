//! The safe wrapper (bindings/rust): its types against what the second model says.

use crate::judged::Judged;
use fennqualo::{Player, Refusal, Service};

/// Calls each function of the wrapper on an archive, with a player that has played others before; answers how many
/// calls were made.
pub fn compare(name: &str, bytes: &[u8], judged: &Judged, player: &mut Player) -> usize {
    let checked = fennqualo::check(bytes).map_err(Refusal::number);
    let played = player.play(bytes);
    match (judged.counts, played) {
        (None, Err(refusal)) => {
            assert_eq!(refusal.number(), judged.refusal, "{name}: the wrapper's play");
            tell(name, refusal);
            assert_eq!(checked, Err(judged.refusal), "{name}: the wrapper's check");
        }
        (Some(counts), Ok(played)) => {
            let found = played.counts;
            let four = [found.accepted, found.pairs, found.serviced, found.owed];
            assert_eq!(four, counts, "{name}: the wrapper's counts");
            assert_eq!(played.book(), judged.book, "{name}: the wrapper's book");
            let again: Vec<u8> = played.services().flat_map(entry).collect();
            assert_eq!(again, judged.book, "{name}: the wrapper's services");
            assert_eq!(checked, Ok(()), "{name}: the wrapper's check");
        }
        (_, played) => {
            panic!("{name}: the wrapper's play answers {played:?}, the second model {}", judged.refusal)
        }
    }
    for (call, answer, written) in [
        ("copy", fennqualo::copy(bytes), &judged.copied),
        ("over", fennqualo::over(bytes), &judged.over),
        ("back", fennqualo::back(bytes), &judged.back),
    ] {
        if let Err(refusal) = answer {
            tell(name, refusal);
        }
        assert_eq!(answer.map_err(Refusal::number), *written, "{name}: the wrapper's {call}");
    }
    5
}

/// A refusal's words begin with its number, and there are some.
fn tell(name: &str, refusal: Refusal) {
    let (words, start) = (refusal.to_string(), format!("refused {}: ", refusal.number()));
    assert!(words.starts_with(&start) && words.len() > start.len(), "{name}: {words}");
}

fn entry(service: Service) -> [u8; 4] {
    let [high, low] = service.draw.to_be_bytes();
    [high, low, service.packet, service.site]
}
