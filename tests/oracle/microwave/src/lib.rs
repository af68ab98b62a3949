//! The root of the supplied microwave sources, of which only the folder `magnetron` is here.

pub mod magnetron;
