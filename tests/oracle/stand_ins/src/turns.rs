//! "Sine of x turns" and "Cosine", each a fixed sequence of once-rounded operations; the sine's zeros are those of document 02.

use std::f64::consts::TAU;

/// "odd n to 15"
const SINE: [f64; 8] = coefficients(1);

/// "even n to 16"
const COSINE: [f64; 9] = coefficients(0);

/// "Coefficients alternate in sign, first 1, and are 1 over n factorial rounded once." A factorial up to 16 is exact in f64,
/// so the division is the only rounding.
const fn coefficients<const COUNT: usize>(first: usize) -> [f64; COUNT] {
    let mut all = [0.0; COUNT];
    let mut k = 0;
    while k < COUNT {
        let sign = if k % 2 == 0 { 1.0 } else { -1.0 };
        all[k] = sign / factorial(first + 2 * k);
        k += 1;
    }
    all
}

const fn factorial(n: usize) -> f64 {
    if n == 0 { 1.0 } else { n as f64 * factorial(n - 1) }
}

/// "both sums are worked from the highest coefficient inward as c + u*(rest)"
fn horner(coefficients: &[f64], u: f64) -> f64 {
    coefficients.iter().copied().rev().reduce(|rest, c| c + u * rest).unwrap_or_default()
}

fn sine_sum(z: f64) -> f64 {
    z * horner(&SINE, z * z)
}

fn cosine_sum(z: f64) -> f64 {
    horner(&COSINE, z * z)
}

/// The sine of `x` turns before its sign is looked at, x from -0.0 to 1; NaN for any other x.
pub fn folded_sine(x: f64) -> f64 {
    if !(0.0..=1.0).contains(&x) {
        return f64::NAN;
    }
    let y = if x < 0.25 {
        x
    } else if x < 0.5 {
        0.5 - x
    } else if x < 0.75 {
        x - 0.5
    } else {
        1.0 - x
    };
    if y <= 0.125 { sine_sum(TAU * y) } else { cosine_sum(TAU * (0.25 - y)) }
}

/// The sine of `x` turns, x from -0.0 to 1; NaN for any other x. "From x = 0.5 the result is negated"; but at 0.5 and at 1.0,
/// where it is zero, document 02's request Three wants "both +0.0, Sin3 included", and "-0.0 at -0.0" left. Adding 0.0 makes
/// +0.0 of a zero and changes no other number.
pub fn sine_turns(x: f64) -> f64 {
    let sine = folded_sine(x);
    if x < 0.5 { sine } else { -sine + 0.0 }
}

/// The cosine of `x` turns, x from -0.0 to 0.5; NaN for any other x.
pub fn cosine_turns(x: f64) -> f64 {
    if !(0.0..=0.5).contains(&x) {
        f64::NAN
    } else if x <= 0.125 {
        cosine_sum(TAU * x)
    } else if x <= 0.25 {
        sine_sum(TAU * (0.25 - x))
    } else {
        -cosine_turns(0.5 - x)
    }
}

/// Both at once, in the place of `sin_cos`.
pub fn sine_and_cosine_turns(x: f64) -> (f64, f64) {
    (sine_turns(x), cosine_turns(x))
}
