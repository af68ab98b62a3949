//! Lent things in words.

use crate::pools::Pools;

/// Few numbers as they are; many by their count.
pub fn numbers(numbers: &[f64]) -> String {
    match numbers.len() {
        0..=12 => format!("{numbers:?}"),
        length if numbers.iter().all(|number| number.to_bits() == 0) => format!("[0.0; {length}]"),
        length => format!("[{length} numbers]"),
    }
}

pub fn pools(pools: &Pools) -> String {
    let [internal, external] =
        [("internal", &pools.internal, 0), ("external", &pools.external, 1)].map(|(name, pool, which)| {
            let stale: Vec<_> = (0..16).filter(|&index| pools.marks.0[which][index]).collect();
            let samples = numbers(&pool.samples);
            format!("  {name}: count {}, capacity {}, samples {samples}, stale {stale:?}\n", pool.count, pool.capacity)
        });
    format!("{internal}{external}  zeros {}\n", numbers(&pools.zeros))
}
