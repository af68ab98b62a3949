//! Document 01's sentences on functions that the standard library has, held against the standard library: the oracle keeps
//! the library's own there. The stand-ins' sentences at their edges, the sine's zeros as document 02's request Three has them.

use stand_ins::cosine_turns;
use stand_ins::held;
use stand_ins::maximum;
use stand_ins::minimum;
use stand_ins::sine_turns;

const NUMBERS: [f64; 24] = [
    0.0,
    -0.0,
    5e-324,
    -5e-324,
    1e-20,
    -1e-20,
    0.25,
    -0.25,
    0.5,
    -0.5,
    0.9999999999999999,
    -0.9999999999999999,
    1.0,
    -1.0,
    1.5,
    -3.75,
    4503599627370495.5,
    -4503599627370495.5,
    9007199254740993.0,
    1e300,
    -1e300,
    f64::INFINITY,
    f64::NEG_INFINITY,
    f64::NAN,
];

/// The same number, all NaNs counted as one, and the two zeros told apart.
fn same(left: f64, right: f64) -> bool {
    left.is_nan() && right.is_nan() || left.to_bits() == right.to_bits()
}

#[test]
fn fract_is_x_minus_its_whole_part() {
    for x in NUMBERS {
        assert!(same(x.fract(), x - x.trunc()), "{x:?}");
    }
    assert!(same((-0.0f64).fract(), 0.0) && same((-3.0f64).fract(), 0.0));
}

#[test]
fn rem_euclid_is_the_remainder_or_one_more() {
    for x in NUMBERS {
        let r = x % 1.0;
        assert!(same(x.rem_euclid(1.0), if r < 0.0 { r + 1.0 } else { r }), "{x:?}");
    }
    assert!(same((-1e-20f64).rem_euclid(1.0), 1.0) && same((-0.0f64).rem_euclid(1.0), -0.0));
}

#[test]
fn the_other_of_a_nan_and_the_first_of_equals() {
    for x in NUMBERS {
        assert!(same(maximum(x, f64::NAN), x) && same(maximum(f64::NAN, x), x), "{x:?}");
        assert!(same(minimum(x, f64::NAN), x) && same(minimum(f64::NAN, x), x), "{x:?}");
    }
    assert!(same(maximum(-0.0, 0.0), -0.0) && same(minimum(0.0, -0.0), 0.0));
    assert!(same(held(f64::NAN, 0.0, 1.0), 0.0) && same(held(-0.0, 0.0, 1.0), -0.0));
}

#[test]
fn quarter_turns() {
    let sines = [0.0, 0.25, 0.5, 0.75, 1.0].map(sine_turns);
    let cosines = [0.0, 0.25, 0.5].map(cosine_turns);
    assert!(sines.into_iter().zip([0.0, 1.0, 0.0, -1.0, 0.0]).all(|(s, t)| same(s, t)), "{sines:?}");
    assert!(cosines.into_iter().zip([1.0, 0.0, -1.0]).all(|(c, t)| same(c, t)), "{cosines:?}");
    assert!(same(sine_turns(-0.0), -0.0) && same(cosine_turns(-0.0), 1.0));
    assert!([-1e-300, 1.0000000000000002, 7.0, f64::NAN].into_iter().all(|x| sine_turns(x).is_nan()));
    assert!([-1e-300, 0.5000000000000001, f64::NAN].into_iter().all(|x| cosine_turns(x).is_nan()));
}
