//! Small cases for the table of refusals: pools of up to two buffers and samples, orders of up to three stages, each kind of
//! stage, Pan over up to three buffers of each pool, and what stands at the bounds. tests/oracle/README.md has a table of what
//! is enumerated.

mod bounds;
pub mod files;
mod orders;
mod pan;
mod parameters;
pub mod parts;
mod pools;
pub mod reach;
mod stages;

use microwave::magnetron::waveguide::Reflectance;

use crate::pools::Buffer;
use crate::pools::Pool;
use crate::pools::Pools;
use crate::refusals::MOST_STAGES;
use crate::session::Session;
use crate::session::Stage;
use crate::session::State;
use crate::session::Window;
use crate::session::cells;
use crate::session::kind;
use crate::session::kind::KINDS;
use crate::session::kind::Kind;
use crate::session::parameter::Parameter;

/// All small sessions. Each has one window that runs stages, or windows of which none does.
pub fn sessions() -> impl Iterator<Item = Session> {
    let groups = pools::groups().chain(stages::groups()).chain(parameters::groups()).chain(orders::groups());
    groups.chain(pan::groups()).chain(bounds::groups()).flat_map(Group::sessions)
}

/// Windows that each meet a session as it is lent.
struct Group {
    lent: Session,
    windows: Vec<Window>,
}

impl Group {
    /// A window that is refused, or has an empty order, changes nothing but what prepare does: all such windows stand in one
    /// session, the prepared ones last, and its states and rings are shown. A window that runs stages has a session of its
    /// own, which begins with new states, as the Rust does.
    fn sessions(self) -> Vec<Session> {
        let Self { lent, windows } = self;
        let runs = |window: &Window| !window.order.is_empty() && lent.judge(window).is_ok();
        let (running, mut still): (Vec<_>, Vec<_>) = windows.into_iter().partition(runs);
        still.sort_by_key(|window| window.prepare);
        let new = |window| Session { windows: vec![window], ..lent.clone().with_new_states() };
        let mut sessions: Vec<_> = running.into_iter().map(new).collect();
        if !still.is_empty() {
            sessions.push(Session { with_states: true, windows: still, ..lent });
        }
        sessions
    }
}

/// Good pools in which no sample is like another.
pub fn good_pools(counts: [u64; 2], capacities: [u64; 2]) -> Pools {
    let [internal, external] = [(0, 0.5), (1, -0.5)].map(|(which, first)| {
        let (count, capacity) = (counts[which], capacities[which]);
        let samples = (0..count * capacity).map(|place| first * (1 + place) as f64).collect();
        Pool { count, capacity, samples }
    });
    Pools { internal, external, zeros: vec![0.0; capacities[0] as usize], marks: Default::default() }
}

/// A session that lends as many ring cells as its stages need, and no values. States and rings hold numbers; a string stands
/// at the last slot of its ring, and the other stages' positions, at which nobody looks, are in no ring. Answers tell what each
/// stage reaches.
pub fn lent(pools: Pools, stages: Vec<Stage>) -> Session {
    let states = (0..MOST_STAGES as usize).map(|number| State {
        numbers: std::array::from_fn(|place| (number * 16 + place) as f64 - 0.125),
        position: stages.get(number).and_then(|stage| stage.kind.buffer_size()).unwrap_or(u64::MAX),
    });
    Session {
        with_reaches: true,
        pools,
        rings: (0..cells(&stages)).map(|cell| cell as f64 + 0.0625).collect(),
        states: states.collect(),
        stage_count: stages.len() as u64,
        stages,
        ..Session::default()
    }
}

/// A stage whose parameters are all fixed.
pub fn stage(kind: &Kind, inputs: &[Buffer], outputs: &[Buffer]) -> Stage {
    let (inputs, outputs) = (&inputs[..kind.inputs()], &outputs[..kind.outputs()]);
    let parameters = kind.roles().iter().map(|_| Parameter::Fixed(0.5)).collect();
    Stage { kind: kind.clone(), inputs: inputs.to_vec(), outputs: outputs.to_vec(), parameters }
}

pub fn window(prepare: bool, n: u64, order: &[u64]) -> Window {
    Window { prepare, n, width: 0.25, order: order.to_vec(), ..Window::default() }
}

/// A string of so many slots and one.
pub fn string(buffer_size: u64) -> Kind {
    Kind::Waveguide(Reflectance::Positive, buffer_size)
}

pub fn internal(index: u64) -> Buffer {
    Buffer { index, external: false }
}

pub fn external(index: u64) -> Buffer {
    Buffer { index, external: true }
}

/// Each kind once, its choices by turns; strings of three slots.
fn each_kind(turn: usize) -> [Kind; KINDS.len()] {
    KINDS.map(|family| {
        let mut members = kind::all();
        members.retain(|kind| kind.family() == family.family());
        match members.swap_remove(turn % members.len()) {
            Kind::Waveguide(reflectance, _) => Kind::Waveguide(reflectance, 2),
            kind => kind,
        }
    })
}

/// Every way to mark the buffers that are there. The marks past them are alike.
fn all_marks(pools: Pools) -> impl Iterator<Item = Pools> {
    let counts = [pools.internal.count, pools.external.count];
    (0..1u64 << (counts[0] + counts[1])).map(move |choice| {
        let mut pools = pools.clone();
        let past = choice.count_ones() % 2 == 1;
        for (which, index) in [0, 1].into_iter().flat_map(|which| (0..16).map(move |index| (which, index))) {
            let place = index + which as u64 * counts[0];
            let there = index < counts[which];
            pools.marks.0[which][index as usize] = if there { choice >> place & 1 == 1 } else { past };
        }
        pools
    })
}
