//! Faults for a good session, so that some of its windows are refused: one to three, so that the order of the checks shows too.

use super::Session;
use super::Stage;
use super::cells;
use super::fits;
use super::kind::Kind;
use super::parameter::Parameter;
use crate::lengths::MOST_CELLS;
use crate::lengths::MOST_ORDER;
use crate::random_pools;
use crate::refusals;
use crate::values::Role;
use crate::values::Values;

pub fn add_faults(values: &mut Values, session: &mut Session) {
    for _ in 0..values.random.between(1, 3) {
        match values.random.below(10) {
            0 => random_pools::add_fault(values, &mut session.pools),
            1 => too_many_stages(values, session),
            2 => windows(values, session),
            3 => orders(values, session),
            4 => rings(values, session),
            5 => buffers(values, session),
            6 => parameters(values, session),
            // Not every patch has a stage for it, so it comes twice as often.
            7..9 => pairs(values, session),
            _ => own_inputs(values, session),
        }
    }
    // The host can't set external buffers that are not there.
    let external = &session.pools.external;
    for window in &mut session.windows {
        let last = window.settings.len().saturating_sub(1);
        if window.settings.len() as u64 != external.count || !fits(external, last, window.n) {
            window.settings.clear();
        }
    }
    show_states(values, session);
}

fn too_many_stages(values: &mut Values, session: &mut Session) {
    session.stage_count = values.random.pick(&[33, 34, 1 << 32, u64::MAX]);
    session.stages.resize(
        32,
        Stage {
            parameters: vec![Parameter::Absent],
            inputs: vec![Default::default()],
            outputs: vec![Default::default()],
            ..Stage::default()
        },
    );
}

fn windows(values: &mut Values, session: &mut Session) {
    for window in &mut session.windows {
        if values.random.once_in(2) {
            window.n = random_pools::long_window(values, &session.pools);
            window.settings.clear();
        }
    }
}

/// Stages that are not there, stages named twice, orders too long.
fn orders(values: &mut Values, session: &mut Session) {
    for window in &mut session.windows {
        let random = &mut values.random;
        let place = random.below(window.order.len() as u64 + 1) as usize;
        match random.below(4) {
            0 => window.order.insert(place, random.pick(&[session.stage_count.min(255), 32, 255])),
            1 if !window.order.is_empty() => window.order.insert(place, random.pick(&window.order)),
            2 => window.order.resize(random.between(33, MOST_ORDER) as usize, 0),
            _ => (),
        }
        window.order.truncate(MOST_ORDER as usize);
    }
}

/// A buffer_size over its bound, too few cells, a position past its ring.
fn rings(values: &mut Values, session: &mut Session) {
    let Some(number) = session.stages.iter().position(|stage| stage.kind.buffer_size().is_some()) else {
        return;
    };
    let fault = values.random.below(3);
    if let Kind::Waveguide(_, size) = &mut session.stages[number].kind {
        if fault == 0 {
            *size = values.random.pick(&[32_768, 32_768, 32_769, 1 << 40, u64::MAX]);
        }
        if fault == 1 {
            session.states[number].position = size.saturating_add(values.random.pick(&[1, 2, u64::MAX >> 1]));
        }
    }
    let needed = cells(&session.stages);
    if needed <= MOST_CELLS {
        session.rings.resize((needed - u64::from(fault == 2)) as usize, 0.0);
    }
}

fn buffers(values: &mut Values, session: &mut Session) {
    for stage in &mut session.stages {
        if values.random.once_in(4) {
            let named = stage.inputs.iter_mut().chain(&mut stage.outputs);
            named.for_each(|buffer| *buffer = random_pools::stray_buffer(values, &session.pools));
        }
    }
}

fn parameters(values: &mut Values, session: &mut Session) {
    let slots = session.values.len() as u64;
    for stage in &mut session.stages {
        let place = values.random.below(4) as usize;
        if let Some(parameter) = stage.parameters.get_mut(place) {
            let slot = slots + values.random.pick(&[0, 1, 1 << 32]);
            *parameter = values.random.pick(&[Parameter::Absent, Parameter::Slot(slot), parameter.clone()]);
        }
    }
}

/// Both outputs the same buffer, or just one level absent.
fn pairs(values: &mut Values, session: &mut Session) {
    for stage in session.stages.iter_mut().filter(|stage| matches!(stage.kind, Kind::Pan)) {
        match values.random.below(4) {
            0..2 => stage.outputs[1] = stage.outputs[0],
            place => {
                stage.parameters[..2].fill(Parameter::Fixed(values.number(Role::LeftLevel)));
                stage.parameters[place as usize - 2] = Parameter::Absent;
            }
        }
    }
}

/// Outputs that are inputs, and windows that begin without prepare.
fn own_inputs(values: &mut Values, session: &mut Session) {
    for stage in &mut session.stages {
        if let Some(&input) = stage.inputs.last()
            && values.random.once_in(3)
        {
            let place = values.random.below(stage.outputs.len() as u64) as usize;
            stage.outputs[place] = input;
        }
    }
    for window in &mut session.windows {
        window.prepare = values.random.once_in(2);
    }
}

/// Where every window is refused, states and rings stay as they were lent, whatever they hold: they are shown at times.
fn show_states(values: &mut Values, session: &mut Session) {
    let never_runs = session.windows.iter().all(|window| {
        let pools = &session.pools;
        matches!(refusals::run(session, pools, window), Err(refusal) if refusal.number <= 4)
    });
    if never_runs && session.rings.len() < 1_000 && values.random.once_in(2) {
        session.with_states = true;
        session.rings = values.numbers(Role::Sample, session.rings.len() as u64);
        for state in &mut session.states {
            state.numbers = [(); 10].map(|()| values.number(Role::Sample));
        }
    }
}
