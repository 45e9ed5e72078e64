//! Uncontended latency: cases worked out by hand from source document 001, section 2, and what holds of all arguments.

use reference::latency::{doubled, latencies, text, Arguments, Latencies, LARGEST};
use reference::making::latency::{around_equality, of_any_length};
use reference::making::rng::Rng;
use reference::rational::Rational;
use reference::refusal::Refusal;

fn values([t, l, d, n, w]: Arguments) -> Latencies {
    latencies(t, l, d, n, w).expect("in range")
}

/// Arguments of any lengths, and such that ceiling(t / W) times D is near ceiling(L / W).
fn many(seed: u64) -> Vec<Arguments> {
    let mut rng = Rng::new(seed);
    let mut all = of_any_length(&mut rng, 6_000);
    all.extend((0..2_000).flat_map(|_| around_equality(&mut rng)));
    all
}

/// ceiling(t / W) and ceiling(L / W), by whole numbers alone.
fn ceilings([t, l, _, _, w]: Arguments) -> [u64; 2] {
    [t, l].map(|bits| bits / w + u64::from(bits % w != 0))
}

/// One number for the arguments of the set, another for those that it lacks.
fn at(set: u32, one: u64, other: u64) -> Arguments {
    [0, 1, 2, 3, 4].map(|place| if set >> place & 1 == 1 { one } else { other })
}

/// Arguments, the four latencies as quoted, and doubled. Before each the sums: T, then what multi-unicast and what
/// resumable adds to it, then the first line of restricted.
const TYPED: [(Arguments, [&str; 4], [u64; 4]); 15] = [
    // 1·8 + 32; + 3/2·1 + 3/2·32; + 3·1; 5/2·1·8 + 32 + 3/2·1
    ([8, 256, 8, 4, 8], ["40", "89.5", "43", "53.5"], [80, 179, 86, 107]),
    // 1·1 + 1; + 0 + 0; + 0; 1·1·1 + 1 + 0
    ([1, 1, 1, 1, 1], ["2", "2", "2", "2"], [4, 4, 4, 4]),
    // 1·1 + 1; + 1/2 + 1/2; + 1; 3/2·1·1 + 1 + 1/2
    ([1, 1, 1, 2, 1], ["2", "3", "3", "3"], [4, 6, 6, 6]),
    // ceilings 6/16 -> 1, 64/16 = 4: 1·5 + 4; + 7/2 + 7/2·4; + 7; 9/2·5 + 4 + 7/2
    ([6, 64, 5, 8, 16], ["9", "26.5", "16", "30"], [18, 53, 32, 60]),
    // 6/16 -> 1, 512/16 = 32: 1·4 + 32; + 31 + 31·32; + 62; 32·4 + 32 + 31
    ([6, 512, 4, 63, 16], ["36", "1059", "98", "191"], [72, 2118, 196, 382]),
    // 17/16 -> 2, 33/16 -> 3: 2·3 + 3; + 1/2·2 + 1/2·3; + 2; 3/2·2·3 + 3 + 1/2·2
    ([17, 33, 3, 2, 16], ["9", "11.5", "11", "13"], [18, 23, 22, 26]),
    // one bit less, and two: 1 and 2: 1·3 + 2; + 1/2 + 1/2·2; + 1; 3/2·3 + 2 + 1/2
    ([16, 32, 3, 2, 16], ["5", "6.5", "6", "7"], [10, 13, 12, 14]),
    ([15, 31, 3, 2, 16], ["5", "6.5", "6", "7"], [10, 13, 12, 14]),
    // 1·2 below 10: 1·2 + 10; + 1 + 10; + 2; 2·2 + 10 + 1
    ([4, 100, 2, 3, 10], ["12", "23", "14", "15"], [24, 46, 28, 30]),
    // 1·4 equal to 4: 1·4 + 4; + 5/2 + 5/2·4; + 5; 7/2·4 + 4 + 5/2
    ([10, 40, 4, 6, 10], ["8", "20.5", "13", "20.5"], [16, 41, 26, 41]),
    // 3·2 above 4: 3·2 + 4; + 3/2·3 + 3/2·4; + 3·3; 5/2·3·2 + 4 + 3/2·3
    ([30, 40, 2, 4, 10], ["10", "20.5", "19", "23.5"], [20, 41, 38, 47]),
    // more bits of a target than of data: 5·1 + 1; + 5 + 1; + 2·5; 2·5·1 + 1 + 5
    ([50, 10, 1, 3, 10], ["6", "12", "16", "16"], [12, 24, 32, 32]),
    // 65535/65534 -> 2, 1/65534 -> 1: 2·65535 + 1, and one target
    ([65_535, 1, 65_535, 1, 65_534], ["131071"; 4], [262_142; 4]),
    // 1·1 + 1; + 32767 + 32767; + 65534; 32768·1·1 + 1 + 32767
    ([65_535, 65_535, 1, 65_535, 65_535], ["2", "65536", "65536", "65536"], [4, 131_072, 131_072, 131_072]),
    // with m = 65535: m·m + m; + (m-1)/2·2m, all 2·m·m; + (m-1)·m, the same; (m+1)/2·m·m + m + (m-1)/2·m, which is
    // m·(m+1)²/2 = 65535·2^31
    (
        [65_535, 65_535, 65_535, 65_535, 1],
        ["4294901760", "8589672450", "8589672450", "140735340871680"],
        [8_589_803_520, 17_179_344_900, 17_179_344_900, 281_470_681_743_360],
    ),
];

#[test]
fn typed_by_hand() {
    for (arguments, quoted, twice) in TYPED {
        assert_eq!(values(arguments).map(text), quoted, "{arguments:?}");
        assert_eq!(doubled(values(arguments)), twice, "{arguments:?}");
    }
}

#[test]
fn as_it_is_quoted() {
    let half = |halves: i128| text(Rational::new(halves, 2));
    assert_eq!(
        [0, 1, 2, 3, 24, 25, 199, 200].map(half),
        ["0", "0.5", "1", "1.5", "12", "12.5", "99.5", "100"]
    );
}

#[test]
#[should_panic(expected = "half cycles")]
fn no_thirds_are_quoted() {
    text(Rational::new(1, 3));
}

#[test]
#[should_panic(expected = "half cycles")]
fn no_thirds_are_doubled() {
    doubled([Rational::new(1, 3); 4]);
}

/// For one target all four agree; for more T is below the others, and does not depend on how many.
#[test]
fn one_target() {
    let mut several = 0;
    for arguments in many(141) {
        let [t, l, d, n, w] = arguments;
        let [unicast, others @ ..] = values([t, l, d, 1, w]);
        assert_eq!(others, [unicast; 3], "{arguments:?}");
        let [same, others @ ..] = values(arguments);
        assert_eq!(same, unicast);
        assert!(n == 1 || others.iter().all(|other| *other > unicast), "{arguments:?}");
        several += usize::from(n > 1);
    }
    assert!(several > 10_000, "{several} with several targets");
}

/// For two or more targets restricted is to multi-unicast as ceiling(t / W) times D is to ceiling(L / W).
#[test]
fn restricted_below_multi_unicast() {
    let mut met = [0; 3];
    for arguments in many(142) {
        let [target, data] = ceilings(arguments);
        let [_, multi, _, restricted] = values(arguments);
        if arguments[3] == 1 {
            assert_eq!(restricted, multi, "{arguments:?}");
            continue;
        }
        let order = (target * arguments[2]).cmp(&data);
        assert_eq!(restricted.cmp(&multi), order, "{arguments:?}");
        met[(order as i8 + 1) as usize] += 1;
    }
    assert!(met.iter().all(|&count| count > 2_000), "below, equal and above: {met:?}");
}

/// 001, 2.4: with L not below t, and D at least 1, resumable is never above the two others. It is above multi-unicast
/// exactly if there are several targets and ceiling(t / W) is above ceiling(L / W); above restricted never; and equal
/// to restricted exactly for one target or one channel.
#[test]
fn resumable_against_the_others() {
    let (mut long, mut above, mut equal) = (0, 0, 0);
    for arguments in many(143) {
        let [t, l, d, n, _] = arguments;
        let [target, data] = ceilings(arguments);
        let [_, multi, resumable, restricted] = values(arguments);
        if l >= t {
            assert!(resumable <= multi && resumable <= restricted, "{arguments:?}");
            long += 1;
        }
        assert_eq!(resumable > multi, n > 1 && target > data, "{arguments:?}");
        assert!(resumable <= restricted, "{arguments:?}");
        assert_eq!(resumable == restricted, n == 1 || d == 1, "{arguments:?}");
        above += usize::from(resumable > multi);
        equal += usize::from(n > 1 && resumable == multi);
    }
    assert!([long, above, equal].iter().all(|&count| count > 500), "{long} {above} {equal}");
}

/// The second line of restricted in 001, the two terms of one half of multi-unicast taken together, and all of it
/// doubled in whole numbers.
#[test]
fn otherwise_written() {
    for arguments in many(144) {
        let [_, _, d, n, _] = arguments;
        let [target, data] = ceilings(arguments);
        let [unicast, multi, resumable, restricted] = values(arguments);
        let [a, b, hops] = [target, data, d].map(Rational::from);
        let waiting = Rational::new(i128::from(n) - 1, 2);
        assert_eq!(restricted, a * hops + b + waiting * a + waiting * a * hops, "{arguments:?}");
        assert_eq!(multi, unicast + waiting * (a + b), "{arguments:?}");
        assert_eq!(resumable, unicast + waiting * a + waiting * a, "{arguments:?}");
        let more = [0, (n - 1) * (target + data), 2 * (n - 1) * target, (n - 1) * target * (d + 1)];
        let twice = more.map(|more| 2 * (target * d + data) + more);
        assert_eq!(doubled(values(arguments)), twice, "{arguments:?}");
    }
}

/// T and resumable are whole. The two others have a half exactly if n is even and what (n - 1) / 2 stands before is odd.
#[test]
fn halves() {
    let mut met = [0; 2];
    for arguments in many(145) {
        let [_, _, d, n, _] = arguments;
        let [target, data] = ceilings(arguments);
        let odd = [0, target + data, 0, target * (d + 1)].map(|part| n % 2 == 0 && part % 2 == 1);
        assert_eq!(values(arguments).map(|value| value.denominator() == 2), odd, "{arguments:?}");
        assert!(values(arguments).iter().all(|value| value.denominator() <= 2));
        assert_eq!(values(arguments).map(|value| text(value).ends_with(".5")), odd);
        met[0] += usize::from(odd[1]);
        met[1] += usize::from(odd[3]);
    }
    assert!(met.iter().all(|&count| count > 1_000), "{met:?} halves");
}

/// The largest of each, at the bounds and anywhere.
#[test]
fn largest() {
    let greatest = [8_589_803_520, 17_179_344_900, 17_179_344_900, (1 << 48) - (1 << 32)];
    let mut reached = [0; 4];
    for arguments in (0..32).map(|set| at(set, LARGEST, 1)).chain(many(146)) {
        for (scheme, value) in doubled(values(arguments)).into_iter().enumerate() {
            assert!(value <= greatest[scheme] && value < 1 << 49, "{arguments:?}");
            reached[scheme] += usize::from(value == greatest[scheme]);
        }
    }
    // T does not depend on n: 1 and 65535 reach it
    assert_eq!(reached, [2, 1, 1, 1]);
}

/// The ceilings are the least whole numbers not below t / W and L / W. T over one channel is their sum.
#[test]
fn least_whole_numbers() {
    let mut exact = 0;
    for [t, l, _, n, w] in many(147) {
        let cycles = |bits: u64| (values([bits, 1, 1, n, w])[0] - Rational::from(1)).whole().expect("whole");
        for bits in [t, l] {
            let ceiling = cycles(bits);
            let (bits, w) = (i128::from(bits), i128::from(w));
            assert!((ceiling - 1) * w < bits && bits <= ceiling * w, "{bits} / {w}");
            exact += usize::from(bits == ceiling * w);
        }
        assert_eq!(values([t, l, 1, n, w])[0], Rational::new(cycles(t) + cycles(l), 1));
    }
    assert!(exact > 500, "{exact} without a remainder");
}

/// Each set of arguments at a number, the others inside: refused exactly if the number is outside.
#[test]
fn refusals() {
    let powers = (2..64).flat_map(|power| [(1 << power) - 1, 1 << power, (1 << power) + 1]);
    let numbers: Vec<u64> = [0, 1, 2, 65_543, u64::MAX].into_iter().chain(powers).collect();
    let mut met = [0; 2];
    for (number, set) in numbers.into_iter().flat_map(|number| (1..32).map(move |set| (number, set))) {
        for other in [1, 2, 8, LARGEST] {
            let [t, l, d, n, w] = at(set, number, other);
            let outside = number == 0 || number > 65_535;
            let told = latencies(t, l, d, n, w).err();
            assert_eq!(told, outside.then_some(Refusal::Argument), "{t} {l} {d} {n} {w}");
            met[usize::from(outside)] += 1;
        }
    }
    assert_eq!(Refusal::Argument.number(), 20);
    assert!(met[0] > 5_000 && met[1] > 15_000, "passed and refused: {met:?}");
    assert_eq!(latencies(0, 65_536, 1, 0, u64::MAX), Err(Refusal::Argument));
}
