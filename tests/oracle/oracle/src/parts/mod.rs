//! The sorts of cases for the parts, each in a file: its format, what the Rust answers, and random cases.

mod all_pass;
mod comb;
mod low_pass;
mod numbers;
mod over_ring;
mod prepare;
mod ring;
mod sampled;
mod single;
mod soft_clip;

pub use low_pass::LowPass;
pub use numbers::Numbers;
pub use prepare::Prepare;
pub use single::Single;
pub use soft_clip::Clips;

pub type Ring = over_ring::OverRing<ring::Bare>;
pub type Comb = over_ring::OverRing<comb::Settings>;
pub type AllPass = over_ring::OverRing<all_pass::Settings>;
