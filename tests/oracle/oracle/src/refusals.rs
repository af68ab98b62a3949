//! A second reading of document 01's table of refusals, and of what document 02 adds to it. The Rust does not refuse, so these
//! answers do not come from it: they are written from the documents alone.

use crate::pools::Buffer;
use crate::pools::Marks;
use crate::pools::Pool;
use crate::pools::Pools;
use crate::session::Session;
use crate::session::Stage;
use crate::session::Window;
use crate::session::parameter::Parameter;

/// The stage of an answer that names none.
pub const NO_STAGE: u64 = 32;

const MOST_BUFFERS: u64 = 16;
pub const MOST_STAGES: u64 = 32;
const MOST_CAPACITY: u64 = 4_096;
const MOST_BUFFER_SIZE: u64 = 32_767;

#[derive(Clone, Copy, Debug)]
pub struct Refusal {
    pub number: u64,
    pub stage: u64,
}

pub type Verdict = Result<(), Refusal>;

/// The number and the stage that answer a verdict: 0 and 32 where nothing is refused.
pub fn outcome(verdict: Verdict) -> [u64; 2] {
    verdict.map_or_else(|refusal| [refusal.number, refusal.stage], |()| [0, NO_STAGE])
}

fn unless(good: bool, number: u64) -> Verdict {
    unless_at(good, number, NO_STAGE)
}

fn unless_at(good: bool, number: u64, stage: u64) -> Verdict {
    if good { Ok(()) } else { Err(Refusal { number, stage }) }
}

/// What 1 asks of the pools and the zeros.
fn pools_fit(pools: &Pools) -> bool {
    let fits = |pool: &Pool| {
        pool.count <= MOST_BUFFERS
            && pool.capacity <= MOST_CAPACITY
            && pool.samples.len() as u64 == pool.count * pool.capacity
    };
    fits(&pools.internal)
        && fits(&pools.external)
        && pools.zeros.len() as u64 == pools.internal.capacity
        && pools.zeros.iter().all(|zero| zero.to_bits() == 0)
}

/// What 2 asks of the window.
fn window_fits(pools: &Pools, n: u64) -> bool {
    n <= pools.internal.capacity && (pools.external.count == 0 || n <= pools.external.capacity)
}

/// Prepare: 1, else 2. It knows no patch.
pub fn prepare(pools: &Pools, n: u64) -> Verdict {
    unless(pools_fit(pools), 1)?;
    unless(window_fits(pools, n), 2)
}

/// A single read: 1, 2, 5.
pub fn read(pools: &Pools, n: u64, buffer: Buffer) -> Verdict {
    prepare(pools, n)?;
    unless(pools.has(buffer), 5)
}

/// A single write: 1, 2, 5, 7. `given` is how many values are lent, where values are.
pub fn write(pools: &Pools, n: u64, given: Option<usize>, inputs: &[Buffer], output: Buffer) -> Verdict {
    prepare(pools, n)?;
    unless(given.is_none_or(|length| length as u64 == n), 2)?;
    unless(inputs.iter().all(|&input| pools.has(input)) && pools.has(output), 5)?;
    unless(reads_apart(n, inputs, output, &pools.marks), 7)
}

/// A single operation on a ring: 4.
pub fn ring(length: usize, position: u64) -> Verdict {
    unless((1..=MOST_BUFFER_SIZE as usize + 1).contains(&length) && position < length as u64, 4)
}

/// A run: 1 to 4, then 5, 8, 6, 7 for each stage along the order.
pub fn run(session: &Session, pools: &Pools, window: &Window) -> Verdict {
    unless(session.stage_count <= MOST_STAGES && pools_fit(pools), 1)?;
    unless(window_fits(pools, window.n), 2)?;
    unless(orderly(&window.order, session.stage_count), 3)?;
    unless(rings_fit(session), 4)?;

    let mut marks = pools.marks.clone();
    for &number in &window.order {
        let stage = &session.stages[number as usize];
        let (mut named, mut outputs) = (stage.inputs.iter().chain(&stage.outputs), stage.outputs.iter());
        unless_at(named.all(|&buffer| pools.has(buffer)), 5, number)?;
        unless_at(outputs_differ(stage), 8, number)?;
        unless_at(parameters_found(stage, window.values.len()), 6, number)?;
        unless_at(outputs.all(|&output| reads_apart(window.n, &stage.inputs, output, &marks)), 7, number)?;
        stage.outputs.iter().for_each(|&output| marks.set(output, false));
    }
    Ok(())
}

fn orderly(order: &[u64], stage_count: u64) -> bool {
    let there = order.iter().all(|&stage| stage < stage_count);
    let twice = (1..order.len()).any(|k| order[..k].contains(&order[k]));
    there && !twice && order.len() as u64 <= MOST_STAGES
}

/// All waveguides of the patch, ordered or not.
fn rings_fit(session: &Session) -> bool {
    let mut room = session.rings.len() as u64;
    session.stages.iter().zip(&session.states).all(|(stage, state)| {
        let Some(size) = stage.kind.buffer_size() else {
            return true;
        };
        if size > MOST_BUFFER_SIZE || state.position > size || room < size + 1 {
            return false;
        }
        room -= size + 1;
        true
    })
}

/// "8, both outputs are the same buffer at any window length."
fn outputs_differ(stage: &Stage) -> bool {
    !matches!(stage.outputs[..], [left, right] if left == right)
}

fn parameters_found(stage: &Stage, values: usize) -> bool {
    let found = stage.parameters.iter().zip(stage.kind.roles()).all(|(parameter, role)| match *parameter {
        Parameter::Absent => role.may_be_absent(),
        Parameter::Slot(slot) => slot < values as u64,
        Parameter::Fixed(_) | Parameter::WindowSeconds => true,
    });
    found && !just_one_level_absent(stage)
}

/// "6 also where just one level of the pair is absent."
fn just_one_level_absent(stage: &Stage) -> bool {
    let levels = stage.parameters.iter().zip(stage.kind.roles()).filter(|(_, role)| role.is_of_a_pair());
    levels.filter(|(level, _)| matches!(level, Parameter::Absent)).count() == 1
}

/// Whether the window is empty, or the output is none of the inputs, or it is stale.
fn reads_apart(n: u64, inputs: &[Buffer], output: Buffer, marks: &Marks) -> bool {
    n == 0 || !inputs.contains(&output) || marks.stale(output)
}
