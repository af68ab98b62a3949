//! "Maximum and minimum: if one is NaN, the other; if equal, the first."

pub fn maximum(first: f64, second: f64) -> f64 {
    if first.is_nan() || first < second { second } else { first }
}

pub fn minimum(first: f64, second: f64) -> f64 {
    if first.is_nan() || second < first { second } else { first }
}

/// "Held to a..b means the maximum with a, then the minimum with b."
pub fn held(x: f64, a: f64, b: f64) -> f64 {
    minimum(maximum(x, a), b)
}

/// The two as methods, so that `x.max(y)` becomes `x.maximum_with(y)` and nothing around it changes.
pub trait Extremes {
    fn maximum_with(self, other: f64) -> f64;
    fn minimum_with(self, other: f64) -> f64;
}

impl Extremes for f64 {
    fn maximum_with(self, other: f64) -> f64 {
        maximum(self, other)
    }

    fn minimum_with(self, other: f64) -> f64 {
        minimum(self, other)
    }
}
