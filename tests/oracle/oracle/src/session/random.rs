//! Random sessions. Patches are wired at random; what a check would refuse is taken out of the order, so that every window of
//! the session runs.

use std::mem;

use super::Session;
use super::Setting;
use super::Stage;
use super::State;
use super::Window;
use super::cells;
use super::faults;
use super::kind;
use super::kind::KINDS;
use super::kind::Kind;
use super::parameter::Parameter;
use super::strings;
use crate::lengths::MOST_CELLS;
use crate::lengths::MOST_VALUES;
use crate::pools::Buffer;
use crate::pools::Pools;
use crate::random_pools;
use crate::refusals;
use crate::refusals::MOST_STAGES;
use crate::values::Role;
use crate::values::Values;

/// What a slot's value is for, whoever reads it.
const SLOTS: [Role; 13] = [
    Role::OutLevel,
    Role::Limit,
    Role::Cutoff,
    Role::Resonance,
    Role::Quality,
    Role::Frequency,
    Role::Phase,
    Role::StringFrequency,
    Role::Feedback,
    Role::LeftLevel,
    Role::RightLevel,
    Role::LeftGain,
    Role::RightGain,
];

pub fn session(values: &mut Values, refused: bool) -> Session {
    let pools = random_pools::pools(values);
    let slots = match values.random.below(8) {
        0 => 0,
        1 => MOST_VALUES,
        _ => values.random.between(1, 12),
    };
    let slots: Vec<Role> = (0..slots).map(|_| values.random.pick(&SLOTS)).collect();
    let stage_count = match values.random.below(16) {
        0 => 0,
        1..8 => values.random.between(1, 5),
        8..13 => values.random.between(6, 16),
        _ => values.random.between(17, MOST_STAGES),
    };
    // Some patches are of strings for the most part, so that several of them stand in one order.
    let strings = values.random.once_in(8);
    let mut stages: Vec<_> = (0..stage_count).map(|_| stage(values, &pools, &slots, strings)).collect();
    let spare = values.random.pick(&[0, 0, 1, 7]);
    if cells(&stages) + spare > MOST_CELLS {
        stages.retain(|stage| stage.kind.buffer_size().is_none());
    }
    let mut session = Session {
        with_states: false,
        with_reaches: strings || values.random.once_in(2),
        values: slot_values(values, &slots),
        rings: vec![0.0; (cells(&stages) + spare) as usize],
        stage_count: stages.len() as u64,
        stages,
        states: vec![State::default(); MOST_STAGES as usize],
        windows: Vec::new(),
        pools,
    };
    add_windows(values, &mut session, &slots);
    if refused {
        faults::add_faults(values, &mut session);
    }
    session
}

fn slot_values(values: &mut Values, slots: &[Role]) -> Vec<f64> {
    slots.iter().map(|&role| values.number(role)).collect()
}

fn stage(values: &mut Values, pools: &Pools, slots: &[Role], strings: bool) -> Stage {
    let kind = kind(values, strings);
    values.ring = kind.buffer_size().unwrap_or(values.ring);
    // A stage that is named in no order may name what isn't there.
    let astray = values.random.once_in(40);
    let buffer = if astray { random_pools::stray_buffer } else { random_pools::buffer };
    let inputs: Vec<Buffer> = (0..kind.inputs()).map(|_| buffer(values, pools)).collect();
    let mut outputs: Vec<Buffer> = Vec::new();
    for _ in 0..kind.outputs() {
        let mut output = buffer(values, pools);
        while (inputs.contains(&output) || outputs.contains(&output)) && !values.random.once_in(4) {
            output = buffer(values, pools);
        }
        outputs.push(output);
    }
    let mut parameters: Vec<_> = kind.roles().iter().map(|&role| parameter(values, role, slots, astray)).collect();
    match &kind {
        Kind::Pan => pair_levels(values, &mut parameters[..2]),
        Kind::Waveguide(reflectance, size) if values.random.once_in(2) => {
            strings::aim(values, reflectance, *size, &mut parameters);
        }
        _ => (),
    }
    Stage { kind, inputs, outputs, parameters }
}

/// Where one level is absent, the other mostly is: else no order would have the stage.
fn pair_levels(values: &mut Values, levels: &mut [Parameter]) {
    if levels.iter().any(|level| level.given().is_none()) && !values.random.once_in(8) {
        levels.fill(Parameter::Absent);
    }
}

/// Each kind as often as another, and each with its choices as often as another, by turns; or mostly strings.
fn kind(values: &mut Values, strings: bool) -> Kind {
    let mut members = kind::all();
    if strings && !values.random.once_in(3) {
        members.retain(|kind| kind.buffer_size().is_some());
    } else if values.random.once_in(2) {
        let family = values.random.pick(&KINDS);
        members.retain(|kind| mem::discriminant(kind) == mem::discriminant(&family));
    }
    let mut kind = values.random.pick(&members);
    if let Kind::Waveguide(_, size) = &mut kind {
        *size = match values.random.below(200) {
            0..8 => 0,
            8..16 => 1,
            16..120 => values.random.between(2, 12),
            120..199 => values.random.between(13, 100),
            _ => values.random.pick(&[4_000, 32_766, 32_767]),
        };
    }
    kind
}

fn parameter(values: &mut Values, role: Role, slots: &[Role], astray: bool) -> Parameter {
    let absent = role.may_be_absent() || astray;
    let fitting: Vec<u64> = (0..slots.len() as u64).filter(|&slot| slots[slot as usize] == role).collect();
    match values.random.below(32) {
        0..8 if absent => Parameter::Absent,
        8..10 => Parameter::WindowSeconds,
        10..20 if !fitting.is_empty() => Parameter::Slot(values.random.pick(&fitting)),
        20..22 if !slots.is_empty() => Parameter::Slot(values.random.below(slots.len() as u64 + u64::from(astray))),
        _ => Parameter::Fixed(values.number(role)),
    }
}

/// Windows one after another, with the marks that the windows before them leave.
fn add_windows(values: &mut Values, session: &mut Session, slots: &[Role]) {
    let large = session.pools.internal.samples.len() + session.pools.external.samples.len() > 8_000;
    let count = if large { 2 } else { values.random.between(1, 8) };
    let mut now = session.pools.clone();
    for _ in 0..count {
        let mut window = window(values, session, slots);
        for (index, setting) in (0..).zip(&window.settings) {
            if !matches!(setting, Setting::Left) {
                now.marks.set(Buffer { index, external: true }, matches!(setting, Setting::Stale));
            }
        }
        if window.prepare {
            now.marks.0[0][..now.internal.count as usize].fill(true);
        }
        while let Err(refusal) = refusals::run(session, &now, &window) {
            window.order.retain(|&number| number != refusal.stage);
        }
        for &number in &window.order {
            session.stages[number as usize].outputs.iter().for_each(|&output| now.marks.set(output, false));
        }
        session.windows.push(window);
    }
}

fn window(values: &mut Values, session: &Session, slots: &[Role]) -> Window {
    let n = random_pools::window(values, &session.pools);
    let width = match values.random.below(40) {
        0 => values.hostile(),
        1 => values.random.pick(&[0.0, -0.0, -values.width, f64::NAN]),
        2..6 => values.number(Role::Width),
        _ => values.width,
    };
    let mut order: Vec<u64> = (0..session.stage_count).collect();
    if values.random.once_in(2) {
        values.random.shuffle(&mut order);
    }
    if values.random.once_in(4) {
        order.truncate(values.random.below(session.stage_count + 1) as usize);
    }
    let settings = match values.random.below(3) {
        0 => Vec::new(),
        _ => (0..session.pools.external.count).map(|_| setting(values, n)).collect(),
    };
    let prepare = values.random.below(8) < 5;
    Window { prepare, settings, n, width, values: slot_values(values, slots), order }
}

fn setting(values: &mut Values, n: u64) -> Setting {
    match values.random.below(4) {
        0 => Setting::Left,
        1 => Setting::Stale,
        _ => Setting::Stored(values.numbers(Role::Sample, n)),
    }
}
