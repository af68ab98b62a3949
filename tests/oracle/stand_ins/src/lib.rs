//! What document 01 puts in place of the platform's functions, written from its words: maximum and minimum, and the sine
//! and cosine of a number of turns.

mod extremes;
mod turns;

pub use extremes::Extremes;
pub use extremes::held;
pub use extremes::maximum;
pub use extremes::minimum;
pub use turns::cosine_turns;
pub use turns::folded_sine;
pub use turns::sine_and_cosine_turns;
pub use turns::sine_turns;
