//! Exact fractions: cases typed by hand, and the laws over all small ones, held to whole numbers of sixtieths.

use reference::rational::Rational;

fn over(numerator: i128, denominator: i128) -> Rational {
    Rational::new(numerator, denominator)
}

fn parts(value: Rational) -> (i128, i128) {
    (value.numerator(), value.denominator())
}

#[test]
fn typed_by_hand() {
    let (half, third) = (over(1, 2), over(1, 3));
    assert_eq!(parts(half + third), (5, 6));
    assert_eq!(parts(half - third), (1, 6));
    assert_eq!(parts(third - half), (-1, 6));
    assert_eq!(parts(over(2, 3) * over(3, 4)), (1, 2));
    assert_eq!(parts(half / over(3, 4)), (2, 3));
    assert_eq!(parts(half / over(-3, 4)), (-2, 3));
    assert_eq!(parts(half + half), (1, 1));
    assert_eq!(parts(half - half), (0, 1));
    assert_eq!(
        [over(-6, 4), over(6, -4), over(-6, -4), over(0, -5)].map(parts),
        [(-3, 2), (-3, 2), (3, 2), (0, 1)]
    );
    assert_eq!(parts(Rational::from(u64::MAX)), (18_446_744_073_709_551_615, 1));
    assert!(third < half && over(-1, 2) < over(-1, 3) && over(-1, 2) < third && over(2, 4) == half);
    assert_eq!([over(6, 3), over(7, 3), over(-6, 3)].map(Rational::whole), [Some(2), None, Some(-2)]);
}

#[test]
fn ceilings_typed_by_hand() {
    for (numerator, denominator, ceiling) in [
        (0, 7, 0),
        (1, 7, 1),
        (6, 7, 1),
        (7, 7, 1),
        (8, 7, 2),
        (14, 7, 2),
        (15, 7, 3),
        (-1, 7, 0),
        (-7, 7, -1),
        (-8, 7, -1),
        (7, -2, -3),
        (1, 65_535, 1),
        (65_534, 65_535, 1),
        (65_535, 65_534, 2),
        (65_535, 1, 65_535),
    ] {
        assert_eq!(parts(over(numerator, denominator).ceiling()), (ceiling, 1), "{numerator}/{denominator}");
    }
}

/// All fractions of -6 to 6 over 1 to 6 and over -1 to -6, with how many sixtieths each is.
fn small() -> Vec<(Rational, i128)> {
    let all = (-6..=6).flat_map(|above| (-6..=6).map(move |below| (above, below)));
    all.filter(|&(_, below)| below != 0)
        .map(|(above, below)| (over(above, below), 60 * above / below))
        .collect()
}

#[test]
fn each_in_lowest_terms() {
    let mut whole = 0;
    for (value, sixtieths) in small() {
        let (above, below) = parts(value);
        assert!((1..=6).contains(&below) && 60 * above == sixtieths * below);
        assert!((2..=6).all(|divisor| above % divisor != 0 || below % divisor != 0), "{above}/{below}");
        assert_eq!(value.whole(), (sixtieths % 60 == 0).then_some(sixtieths / 60));
        whole += usize::from(value.whole().is_some());
        let ceiling = value.ceiling();
        assert!(ceiling.whole().is_some() && value <= ceiling && ceiling - over(1, 1) < value);
    }
    assert_eq!((small().len(), whole), (156, 68));
}

#[test]
fn sums_products_and_order() {
    for (one, sixtieths) in small() {
        for (other, others) in small() {
            let is = |value: Rational, above: i128, below: i128| {
                value.numerator() * below == above * value.denominator()
            };
            assert!(is(one + other, sixtieths + others, 60));
            assert!(is(one - other, sixtieths - others, 60));
            assert!(is(one * other, sixtieths * others, 3600));
            assert!(others == 0 || is(one / other, sixtieths, others));
            assert_eq!(one.cmp(&other), sixtieths.cmp(&others));
            assert_eq!(one.partial_cmp(&other), Some(sixtieths.cmp(&others)));
            assert_eq!(one == other, sixtieths == others);
        }
    }
}

#[test]
#[should_panic(expected = "3 over 0")]
fn nothing_over_0() {
    over(3, 0);
}

#[test]
#[should_panic(expected = "over 0")]
fn nothing_divided_by_0() {
    let _ = over(1, 2) / over(0, 3);
}
