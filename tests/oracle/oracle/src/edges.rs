//! Where a number stands to the stretch from 0 to 1 that a ring holds: the classes by which it is told what was met.

/// By rising number, and NaN.
pub const EDGES: [&str; 11] = [
    "-infinite",
    "below 0",
    "next below 0",
    "-0.0",
    "0.0",
    "between",
    "1.0",
    "next above 1",
    "above 1",
    "infinite",
    "NaN",
];

/// So far from an end a number is still next to it.
const NEAR: f64 = 1e-9;

pub fn edge(number: f64) -> &'static str {
    let place = match number {
        _ if number.is_nan() => 10,
        f64::NEG_INFINITY => 0,
        f64::INFINITY => 9,
        0.0 if number.is_sign_negative() => 3,
        0.0 => 4,
        1.0 => 6,
        _ if number < -NEAR => 1,
        _ if number < 0.0 => 2,
        _ if number < 1.0 => 5,
        _ if number < 1.0 + NEAR => 7,
        _ => 8,
    };
    EDGES[place]
}
