//! How long a lent slice may be at the most in the format: the table in crates/replay/FORMAT.md.

/// Samples of a pool, or of all_plus_zero.
pub const MOST_SAMPLES: u64 = 65_536;

/// Zeros, or values of a single write.
pub const MOST_ZEROS: u64 = 8_192;

/// Values of a session.
pub const MOST_VALUES: u64 = 64;

/// All rings of a session together, or one ring by itself.
pub const MOST_CELLS: u64 = 131_072;

pub const MOST_ORDER: u64 = 64;

/// Bytes of a patch file.
pub const MOST_FILE: u64 = 65_536;
