//! The records that cross, as `crates/host`, `crates/flat`, `crates/stages`, `crates/magnetron` and `crates/answers` declare them,
//! and the functions of the static library. An engine is a record of those functions, so that one program can call
//! engines that are linked under other names.

/// `crates/flat` has the number's bits in the same eight bytes.
#[derive(Clone, Copy, Default)]
#[repr(C)]
pub struct FlatParameter {
    pub mark: usize,
    pub slot: usize,
    pub number: f64,
}

#[derive(Clone, Copy, Default)]
#[repr(C)]
pub struct FlatStage {
    pub kind: usize,
    pub choice: usize,
    pub modulation: usize,
    pub buffer_size: usize,
    pub first_input: usize,
    pub second_input: usize,
    pub output: usize,
    pub second_output: usize,
    pub out_level: FlatParameter,
    pub first: FlatParameter,
    pub second: FlatParameter,
    pub third: FlatParameter,
}

#[derive(Clone, Copy)]
#[repr(C)]
pub struct FlatPatch {
    pub count: usize,
    pub stages: [FlatStage; 32],
}

#[derive(Clone, Copy)]
#[repr(C)]
pub struct Pool {
    pub count: usize,
    pub capacity: usize,
    pub stale: [bool; 16],
}

#[derive(Clone, Copy)]
#[repr(C)]
pub struct Pools {
    pub internal: Pool,
    pub external: Pool,
    pub reset: bool,
}

/// Phases, one-pole memory, biquad memory and the string's low-pass, then its position.
#[derive(Clone, Copy)]
#[repr(C)]
pub struct State {
    pub numbers: [f64; 10],
    pub position: usize,
}

#[derive(Clone, Copy)]
#[repr(C)]
pub struct States {
    pub stages: [State; 32],
}

#[derive(Clone, Copy)]
#[repr(C)]
pub struct Answer {
    pub number: usize,
    pub stage: usize,
    pub activity: u8,
}

#[derive(Clone, Copy)]
#[repr(C)]
pub struct Ran {
    pub answer: Answer,
    pub pools: Pools,
    pub states: States,
    pub reach: [u8; 32],
}

#[derive(Clone, Copy)]
#[repr(C)]
pub struct Wrote {
    pub answer: Answer,
    pub pools: Pools,
}

#[derive(Clone, Copy)]
#[repr(C)]
pub struct Verdict {
    pub number: usize,
    pub stage: usize,
}

#[derive(Clone, Copy)]
#[repr(C)]
pub struct Prepared {
    pub verdict: Verdict,
    pub pools: Pools,
}

#[derive(Clone, Copy)]
#[repr(C)]
pub struct Read {
    pub number: usize,
    pub offset: usize,
    pub patch: FlatPatch,
}

/// The functions, each with what it takes and answers; what is made of them, `$make` says.
#[rustfmt::skip]
macro_rules! functions {
    ($make:ident $($given:tt)*) => {
        $make! { $($given)*
            read_patch(bytes: *const u8, bytes_len: usize) -> Read;
            new_states() -> States;
            run(
                patch: FlatPatch, order: *const u8, order_len: usize, pools: Pools, states: States, n: usize, width: f64,
                internal: *mut f64, internal_len: usize, external: *mut f64, external_len: usize,
                zeros: *const f64, zeros_len: usize, rings: *mut f64, rings_len: usize, values: *const f64, values_len: usize,
            ) -> Ran;
            prepare(
                pools: Pools, internal: *const f64, internal_len: usize, external: *const f64, external_len: usize,
                zeros: *const f64, zeros_len: usize, n: usize,
            ) -> Prepared;
            check_read(
                pools: Pools, internal: *const f64, internal_len: usize, external: *const f64, external_len: usize,
                zeros: *const f64, zeros_len: usize, buffer: usize, n: usize,
            ) -> Verdict;
            read_0_write_1(
                pools: Pools, internal: *mut f64, internal_len: usize, external: *mut f64, external_len: usize,
                zeros: *const f64, zeros_len: usize, output: usize, has_level: bool, level: f64, n: usize,
                values: *const f64, values_len: usize,
            ) -> Wrote;
            read_1_write_1(
                pools: Pools, internal: *mut f64, internal_len: usize, external: *mut f64, external_len: usize,
                zeros: *const f64, zeros_len: usize, input: usize, output: usize, has_level: bool, level: f64, n: usize,
            ) -> Wrote;
            read_2_write_1(
                pools: Pools, internal: *mut f64, internal_len: usize, external: *mut f64, external_len: usize,
                zeros: *const f64, zeros_len: usize, first: usize, second: usize, output: usize,
                has_level: bool, level: f64, n: usize,
            ) -> Wrote;
        }
    };
}

macro_rules! record {
    ($($name:ident($($parameter:ident: $type:ty),* $(,)?) -> $answer:ty;)*) => {
        /// An engine.
        pub struct Functions {
            $(pub $name: unsafe extern "C" fn($($type),*) -> $answer,)*
        }
    };
}

functions!(record);

macro_rules! declare {
    ($prefix:literal $($name:ident($($parameter:ident: $type:ty),* $(,)?) -> $answer:ty;)*) => {{
        use crate::records::*;
        unsafe extern "C" {
            $(#[link_name = concat!($prefix, stringify!($name))]
            fn $name($($parameter: $type),*) -> $answer;)*
        }
        Functions { $($name),* }
    }};
}

/// The engine whose functions are linked under names that begin so.
macro_rules! linked {
    ($prefix:literal) => {
        functions!(declare $prefix)
    };
}
