//! Pools laid into the Rust's own: the internal ones as a Magnetron, the external ones as the Magnetron around it.

use magnetron::Magnetron;
use magnetron::buffer::BufferWriter;

use crate::pools::Pools;

pub struct Laid {
    inner: Magnetron,
    outer: Magnetron,
}

/// How a window begins.
pub enum Begin {
    Prepared,
    AsItStands { reset: bool },
}

impl Laid {
    pub fn new(pools: &Pools, sample_width_secs: f64) -> Self {
        let [inner, outer] = [(&pools.internal, 0), (&pools.external, 1)].map(|(pool, which)| {
            let (count, capacity) = (pool.count as usize, pool.capacity as usize);
            let mut magnetron = Magnetron::new(sample_width_secs, count, capacity);
            for (index, buffer) in magnetron.buffers.iter_mut().enumerate() {
                buffer.storage.copy_from_slice(&pool.samples[index * capacity..][..capacity]);
                buffer.dirty = pools.marks.0[which][index];
            }
            magnetron
        });
        Self { inner, outer }
    }

    /// Gives the writer of a window of `n` samples to `work`. The external buffers are nested where there are any.
    pub fn write<T>(&mut self, n: usize, begin: Begin, work: impl FnOnce(&mut BufferWriter) -> T) -> T {
        let nested = !self.outer.buffers.is_empty();
        match begin {
            Begin::Prepared if nested => {
                let mut around = BufferWriter::new(&mut self.outer, n, &mut [], false);
                work(&mut self.inner.prepare_nested(&mut around))
            }
            Begin::Prepared => work(&mut self.inner.prepare(n)),
            Begin::AsItStands { reset } => {
                work(&mut BufferWriter::new(&mut self.inner, n, &mut self.outer.buffers, reset))
            }
        }
    }

    /// Puts samples and marks back into the pools that were laid.
    pub fn lift(self, pools: &mut Pools) {
        for (which, magnetron) in [self.inner, self.outer].into_iter().enumerate() {
            for (index, buffer) in magnetron.buffers.iter().enumerate() {
                pools.marks.0[which][index] = buffer.dirty;
            }
            let storages = magnetron.buffers.into_iter().flat_map(|buffer| buffer.storage);
            pools.each_mut()[which].samples = storages.collect();
        }
    }
}
