//! The two sides: the same stages over the same samples, by an engine and by the Rust; and that they give the same bits.

use magnetron::Magnetron;
use magnetron::buffer::BufferWriter;
use magnetron::buffer::WaveformBuffer;

use crate::cases;
use crate::cases::Case;
use crate::cases::EXTERNAL;
use crate::cases::INTERNAL;
use crate::cases::WINDOWS;
use crate::records::*;
use crate::stages::RustStage;
use crate::stages::Stage;
use crate::stages::WIDTH;

/// How a string is made to die away: pushed by so faint a sample, as is left of a quiet strike after some seven minutes of silence,
/// for so many samples, and then left alone for so many. It ends at subnormal numbers, not at zero: rounding gives back there what
/// the feedback takes away.
const FAINT: f64 = 1e-318;
const STRUCK: usize = 1 << 12;
const FADING: usize = 1 << 19;

/// What the external buffers hold: noise up to a magnitude, the same on both sides.
pub fn noise(magnitude: f64, len: usize) -> Vec<f64> {
    let mut seed = 1_u64;
    let mut next = || {
        seed = seed.wrapping_mul(6_364_136_223_846_793_005).wrapping_add(1_442_695_040_888_963_407);
        magnitude * ((seed >> 11) as f64 / (1_u64 << 52) as f64 - 1.0)
    };
    (0..len).map(|_| next()).collect()
}

/// Buffers have room for one window. Which engine it is may change from call to call.
pub struct Engine {
    pub functions: &'static Functions,
    pub patch: FlatPatch,
    pub order: Vec<u8>,
    pub pools: Pools,
    pub states: States,
    pub internal: Vec<f64>,
    pub external: Vec<f64>,
    pub zeros: Vec<f64>,
    pub rings: Vec<f64>,
    pub values: Vec<f64>,
    pub n: usize,
}

impl Engine {
    pub fn new(functions: &'static Functions, case: &Case, n: usize) -> Self {
        let mut stages = [FlatStage::default(); 32];
        for (stage, described) in stages.iter_mut().zip(&case.stages) {
            *stage = described.flat();
        }
        let pool = |count| Pool { count, capacity: n, stale: [false; 16] };
        let mut engine = Self {
            functions,
            patch: FlatPatch { count: case.stages.len(), stages },
            order: (0..case.stages.len() as u8).collect(),
            pools: Pools { internal: pool(INTERNAL), external: pool(EXTERNAL), reset: false },
            states: unsafe { (functions.new_states)() },
            internal: vec![0.0; INTERNAL * n],
            external: noise(case.magnitude, EXTERNAL * n),
            zeros: vec![0.0; n],
            rings: vec![0.0; case.stages.iter().map(|stage| stage.buffer_size + 1).sum()],
            values: case.values.clone(),
            n,
        };
        engine.prepare();
        if case.faded {
            engine.fade();
        }
        engine
    }

    /// Marks the internal buffers stale.
    pub fn prepare(&mut self) {
        let (internal, external, zeros) = (&self.internal, &self.external, &self.zeros);
        #[rustfmt::skip]
        let prepared = unsafe { (self.functions.prepare)(
            self.pools, internal.as_ptr(), internal.len(), external.as_ptr(), external.len(), zeros.as_ptr(), zeros.len(), self.n,
        ) };
        assert_eq!(prepared.verdict.number, 0, "prepare is refused");
        self.pools = prepared.pools;
    }

    /// What one window answers.
    fn ran(&mut self) -> Ran {
        let (internal, external, zeros) = (&mut self.internal, &mut self.external, &self.zeros);
        let (order, rings, values) = (&self.order, &mut self.rings, &self.values);
        #[rustfmt::skip]
        return unsafe { (self.functions.run)(
            self.patch, order.as_ptr(), order.len(), self.pools, self.states, self.n, WIDTH,
            internal.as_mut_ptr(), internal.len(), external.as_mut_ptr(), external.len(), zeros.as_ptr(), zeros.len(),
            rings.as_mut_ptr(), rings.len(), values.as_ptr(), values.len(),
        ) };
    }

    /// One window. The marks that it answers are not kept, so that the next one begins on stale buffers too.
    pub fn run(&mut self) -> Answer {
        let ran = self.ran();
        self.states = ran.states;
        ran.answer
    }

    /// Strikes the strings, then lends them silence.
    fn fade(&mut self) {
        for (samples, sample) in [(STRUCK, FAINT), (FADING, 0.0)] {
            self.external.fill(sample);
            (0..samples / self.n).for_each(|_| _ = self.run());
        }
        let died_away = self.internal.iter().all(|sample| sample.is_subnormal());
        assert!(died_away, "not every string is subnormal and not zero: {:?}", self.internal);
    }
}

pub struct Rust {
    inner: Magnetron,
    outer: Vec<WaveformBuffer>,
    stages: Vec<RustStage>,
    values: Vec<f64>,
    n: usize,
}

impl Rust {
    pub fn new(case: &Case, n: usize) -> Self {
        let samples = noise(case.magnitude, EXTERNAL * n);
        let buffer = |k| WaveformBuffer { dirty: false, storage: samples[k * n..][..n].to_vec() };
        let mut rust = Self {
            inner: Magnetron::new(WIDTH, INTERNAL, n),
            outer: (0..EXTERNAL).map(buffer).collect(),
            stages: case.stages.iter().map(Stage::rust).collect(),
            values: case.values.clone(),
            n,
        };
        if case.faded {
            rust.fade();
        }
        rust
    }

    /// One window: `prepare_nested` marks the internal buffers stale, as here.
    pub fn run(&mut self) -> u8 {
        for buffer in &mut self.inner.buffers {
            buffer.dirty = true;
        }
        let mut writer = BufferWriter::new(&mut self.inner, self.n, &mut self.outer, false);
        writer.process(&self.values[..], &mut self.stages) as u8
    }

    fn fade(&mut self) {
        for (samples, sample) in [(STRUCK, FAINT), (FADING, 0.0)] {
            self.outer.iter_mut().for_each(|buffer| buffer.storage.fill(sample));
            (0..samples / self.n).for_each(|_| _ = self.run());
        }
    }

    fn samples(&self) -> impl Iterator<Item = f64> {
        self.inner.buffers.iter().flat_map(|buffer| buffer.storage.iter().copied())
    }
}

/// What an engine has kept after a window, but for its samples, as bits: marks, reaches, states and rings.
fn kept(engine: &Engine, ran: &Ran) -> Vec<u64> {
    let marks = [ran.pools.internal, ran.pools.external].into_iter().flat_map(|pool| pool.stale.map(u64::from));
    let state = |state: State| state.numbers.map(f64::to_bits).into_iter().chain([state.position as u64]);
    let rings = engine.rings.iter().map(|sample| sample.to_bits());
    marks.chain(ran.reach.map(u64::from)).chain(ran.states.stages.into_iter().flat_map(state)).chain(rings).collect()
}

/// Runs all over some 40,000 samples and compares the bits of all internal buffers after each window; of the engines among
/// themselves also what they have kept at the end.
pub fn compare_at(case: &Case, engines: &[&'static Functions], n: usize) {
    let name = &case.name;
    let mut engines: Vec<Engine> = engines.iter().map(|functions| Engine::new(functions, case, n)).collect();
    let mut rust = Rust::new(case, n);
    let mut ends = Vec::new();
    for window in 0..(40_000 / n.max(1)).max(8) {
        let activity = rust.run();
        ends.clear();
        for engine in &mut engines {
            let ran = engine.ran();
            engine.states = ran.states;
            assert_eq!((ran.answer.number, ran.answer.stage), (0, 32), "{name}, n = {n}: the run is refused");
            assert_eq!(ran.answer.activity, activity, "{name}, n = {n}: the activities differ");
            let same = |(ours, theirs): (&f64, f64)| ours.to_bits() == theirs.to_bits();
            assert!(engine.internal.iter().zip(rust.samples()).all(same), "{name}, n = {n}: window {window} differs");
            ends.push(ran);
        }
    }
    let mut kept = engines.iter().zip(&ends).map(|(engine, ran)| kept(engine, ran));
    let first = kept.next();
    assert!(kept.all(|other| first.as_ref() == Some(&other)), "{name}, n = {n}: the engines keep something else");
}

/// Compares the bits of all sides, and says so.
pub fn compare(engines: &[&'static Functions]) {
    let cases: Vec<Case> = cases::patches().cases.into_iter().chain(cases::kinds().cases).collect();
    for n in [1, 2, 3, 7, 37].into_iter().chain(WINDOWS) {
        // To die away takes too long in windows of a few samples.
        let fit = |case: &&Case| !case.faded || WINDOWS.contains(&n);
        cases.iter().filter(fit).for_each(|case| compare_at(case, engines, n));
    }
    println!("\nSame bits and activities over 40,000 samples at windows of 1, 2, 3, 7, 37, 64, 512 and 4,096.");
}

/// The single operations.
impl Engine {
    pub fn check_read(&self, buffer: usize) -> Verdict {
        let (internal, external, zeros) = (&self.internal, &self.external, &self.zeros);
        #[rustfmt::skip]
        return unsafe { (self.functions.check_read)(
            self.pools, internal.as_ptr(), internal.len(), external.as_ptr(), external.len(), zeros.as_ptr(), zeros.len(), buffer, self.n,
        ) };
    }

    /// Writes lent values, external buffer 0, or its product with external buffer 1, into internal buffer 0.
    pub fn write(&mut self, inputs: usize, values: &[f64], level: f64) {
        let (pools, n) = (self.pools, self.n);
        let (internal, external, zeros) = (&mut self.internal, &mut self.external, &self.zeros);
        let (internal, internal_len) = (internal.as_mut_ptr(), internal.len());
        let (external, external_len) = (external.as_mut_ptr(), external.len());
        let (zeros, zeros_len) = (zeros.as_ptr(), zeros.len());
        let Functions { read_0_write_1, read_1_write_1, read_2_write_1, .. } = self.functions;
        #[rustfmt::skip]
        let wrote = unsafe { match inputs {
            0 => read_0_write_1(pools, internal, internal_len, external, external_len, zeros, zeros_len, 0, true, level, n, values.as_ptr(), values.len()),
            1 => read_1_write_1(pools, internal, internal_len, external, external_len, zeros, zeros_len, 1, 0, true, level, n),
            _ => read_2_write_1(pools, internal, internal_len, external, external_len, zeros, zeros_len, 1, 3, 0, true, level, n),
        } };
        assert_eq!(wrote.answer.number, 0, "the write is refused");
    }
}
