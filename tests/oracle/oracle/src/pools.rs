//! Pools as a host lends them, good or bad: counts, capacities, slices and stale marks.

use magnetron::buffer::BufferIndex;

use crate::answer::Answer;
use crate::lengths::MOST_SAMPLES;
use crate::lengths::MOST_ZEROS;
use crate::words::Pass;
use crate::words::Passed;
use crate::words::Stop;
use crate::words::Tape;

/// How many buffers of a pool the marks have room for.
pub const ROOM: usize = 16;

#[derive(Clone, Copy, Debug, Default, PartialEq)]
pub struct Buffer {
    pub index: u64,
    pub external: bool,
}

impl Pass for Buffer {
    fn pass(&mut self, tape: &mut dyn Tape) -> Passed {
        let mut word = 2 * self.index + u64::from(self.external);
        tape.word(&mut word)?;
        (self.index, self.external) = (word / 2, word % 2 == 1);
        Ok(())
    }
}

impl From<Buffer> for BufferIndex {
    fn from(buffer: Buffer) -> Self {
        match buffer.external {
            true => BufferIndex::External(buffer.index as usize),
            false => BufferIndex::Internal(buffer.index as usize),
        }
    }
}

/// The stale marks of the internal buffers, then of the external ones.
#[derive(Clone, Debug, Default)]
pub struct Marks(pub [[bool; ROOM]; 2]);

impl Marks {
    pub fn stale(&self, buffer: Buffer) -> bool {
        self.0[usize::from(buffer.external)][buffer.index as usize]
    }

    pub fn set(&mut self, buffer: Buffer, stale: bool) {
        self.0[usize::from(buffer.external)][buffer.index as usize] = stale;
    }
}

impl Pass for Marks {
    fn pass(&mut self, tape: &mut dyn Tape) -> Passed {
        self.0.as_flattened_mut().iter_mut().try_for_each(|mark| tape.flag(mark))
    }
}

#[derive(Clone, Debug, Default)]
pub struct Pool {
    pub count: u64,
    pub capacity: u64,
    pub samples: Vec<f64>,
}

#[derive(Clone, Debug, Default)]
pub struct Pools {
    pub internal: Pool,
    pub external: Pool,
    pub zeros: Vec<f64>,
    pub marks: Marks,
}

impl Pools {
    pub fn has(&self, buffer: Buffer) -> bool {
        let pool = if buffer.external { &self.external } else { &self.internal };
        buffer.index < pool.count
    }

    pub fn each_mut(&mut self) -> [&mut Pool; 2] {
        [&mut self.internal, &mut self.external]
    }

    /// Counts and capacities.
    pub fn pass_sizes(&mut self, tape: &mut dyn Tape) -> Passed {
        self.each_mut().into_iter().try_for_each(|pool| {
            tape.word(&mut pool.count)?;
            tape.word(&mut pool.capacity)
        })
    }

    /// The lengths of the three slices, which come before their contents.
    pub fn pass_lengths(&mut self, tape: &mut dyn Tape) -> Result<[u64; 3], Stop> {
        let slices = [&self.internal.samples, &self.external.samples, &self.zeros];
        let mut lengths = slices.map(|slice| slice.len() as u64);
        for (length, most) in lengths.iter_mut().zip([MOST_SAMPLES, MOST_SAMPLES, MOST_ZEROS]) {
            tape.at_most(length, most)?;
        }
        Ok(lengths)
    }

    pub fn pass_contents(&mut self, tape: &mut dyn Tape, lengths: [u64; 3]) -> Passed {
        let slices = [&mut self.internal.samples, &mut self.external.samples, &mut self.zeros];
        slices.into_iter().zip(lengths).try_for_each(|(slice, length)| tape.numbers(slice, length))
    }

    /// All samples of both pools.
    pub fn answer_samples(&self, answer: &mut Answer) {
        answer.samples("internal samples", &self.internal.samples);
        answer.samples("external samples", &self.external.samples);
    }

    pub fn answer_marks(&self, answer: &mut Answer) {
        answer.part("marks");
        answer.flags(self.marks.0.as_flattened());
    }
}

/// Pools by themselves, as the single operations and prepare are lent them.
impl Pass for Pools {
    fn pass(&mut self, tape: &mut dyn Tape) -> Passed {
        self.pass_sizes(tape)?;
        let lengths = self.pass_lengths(tape)?;
        self.pass_contents(tape, lengths)?;
        self.marks.pass(tape)
    }
}
