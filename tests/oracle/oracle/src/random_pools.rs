//! Random pools, windows and buffers, such as pass the checks; and such as do not.

use crate::lengths::MOST_SAMPLES;
use crate::lengths::MOST_ZEROS;
use crate::pools::Buffer;
use crate::pools::Pool;
use crate::pools::Pools;
use crate::values::Role;
use crate::values::Values;

/// Pools that check 1 passes: small ones for the most part, the largest at times, empty ones too.
pub fn pools(values: &mut Values) -> Pools {
    let capacity = capacity(values);
    let outer = if values.random.once_in(4) { self::capacity(values) } else { capacity };
    let internal = pool(values, capacity);
    let external = match values.random.once_in(2) {
        true => pool(values, outer),
        false => Pool { capacity: outer, ..Pool::default() },
    };
    let mut pools = Pools { internal, external, zeros: vec![0.0; capacity as usize], ..Pools::default() };
    pools.marks.0.as_flattened_mut().iter_mut().for_each(|mark| *mark = values.random.once_in(2));
    pools
}

fn capacity(values: &mut Values) -> u64 {
    match values.random.below(100) {
        0..2 => 0,
        2..6 => 1,
        6..30 => values.random.between(2, 8),
        30..80 => values.random.between(9, 48),
        80..99 => values.random.between(49, 200),
        _ => values.random.pick(&[4_095, 4_096]),
    }
}

fn pool(values: &mut Values, capacity: u64) -> Pool {
    let count = match values.random.below(20) {
        0 => 0,
        1 => 16,
        2..5 => values.random.between(5, 15),
        _ => values.random.between(1, 4),
    };
    Pool { count, capacity, samples: values.numbers(Role::Sample, count * capacity) }
}

/// The longest window that check 2 passes.
fn longest(pools: &Pools) -> u64 {
    match pools.external.count {
        0 => pools.internal.capacity,
        _ => pools.internal.capacity.min(pools.external.capacity),
    }
}

/// A window that check 2 passes, often at an end of what it may be.
pub fn window(values: &mut Values, pools: &Pools) -> u64 {
    let most = longest(pools);
    match values.random.below(20) {
        0..2 => 0,
        2..4 => most.min(1),
        4..7 => most.saturating_sub(1),
        7..14 => most,
        _ => values.random.below(most + 1),
    }
}

pub fn long_window(values: &mut Values, pools: &Pools) -> u64 {
    let most = longest(pools);
    let next = most.saturating_add(1);
    values.random.pick(&[next, next, next.saturating_add(1), 4_097, 1 << 32, u64::MAX])
}

/// A buffer that is there, if there is any.
pub fn buffer(values: &mut Values, pools: &Pools) -> Buffer {
    let (internal, external) = (pools.internal.count, pools.external.count);
    match values.random.below(internal + external) {
        index if index < internal => Buffer { index, external: false },
        index => Buffer { index: index - internal, external: external > 0 },
    }
}

/// A buffer that need not be there.
pub fn stray_buffer(values: &mut Values, pools: &Pools) -> Buffer {
    let index = values.random.pick(&[0, pools.internal.count, pools.external.count, 15, 16, u64::MAX]);
    Buffer { index: index.min(u64::MAX >> 1), external: values.random.once_in(2) }
}

/// Something that check 1 refuses, mostly: a count, a capacity, the length of a slice, or a zero.
pub fn add_fault(values: &mut Values, pools: &mut Pools) {
    let random = &mut values.random;
    let inner = random.once_in(2);
    let pool = if inner { &mut pools.internal } else { &mut pools.external };
    match random.below(6) {
        0 => {
            pool.count = random.pick(&[17, 18, 1 << 32, u64::MAX]);
            fit(pool);
        }
        1 => {
            pool.capacity = random.pick(&[4_097, 5_000, 1 << 32, u64::MAX]);
            fit(pool);
            if inner {
                pools.zeros.resize(pools.internal.capacity.min(MOST_ZEROS) as usize, 0.0);
            }
        }
        2 => drop(pool.samples.pop()),
        3 if pool.samples.len() < MOST_SAMPLES as usize => pool.samples.push(0.0),
        4 if inner || pools.zeros.len() == MOST_ZEROS as usize => drop(pools.zeros.pop()),
        4 => pools.zeros.push(0.0),
        _ => {
            let place = random.below(pools.zeros.len() as u64) as usize;
            let other = values.hostile();
            pools.zeros.iter_mut().skip(place).take(1).for_each(|zero| *zero = other);
        }
    }
}

/// Lends as many samples as count and capacity ask for, where that can be, so that nothing else is wrong.
fn fit(pool: &mut Pool) {
    if let Some(length) = pool.count.checked_mul(pool.capacity)
        && length <= MOST_SAMPLES
    {
        pool.samples.resize(length as usize, 0.0);
    }
}
