//! Ways to make a session a little less: fewer windows, stages and samples, plainer contents.

use super::Session;
use super::Setting;
use super::Window;
use super::cells;
use super::parameter::Parameter;
use crate::shrink::fewer;
use crate::values::Role;

pub const WAYS: &[fn(&Session) -> Vec<Session>] = &[
    fewer_windows,
    narrower_pools,
    fewer_stages,
    shorter_orders,
    shorter_windows,
    plainer_windows,
    fixed_parameters,
    plain_parameters,
    absent_pairs,
    fewer_lent,
    zero_samples,
    new_states,
    without_reaches,
];

/// The session after a change.
fn after(session: &Session, change: impl FnOnce(&mut Session)) -> Session {
    let mut session = session.clone();
    change(&mut session);
    session
}

/// The session with each window in turn replaced by each that is less.
fn each_window(session: &Session, less: impl Fn(&Window) -> Vec<Window>) -> Vec<Session> {
    let places = session.windows.iter().enumerate();
    let pairs = places.flat_map(|(place, window)| less(window).into_iter().map(move |less| (place, less)));
    pairs.map(|(place, window)| after(session, |session| session.windows[place] = window)).collect()
}

fn fewer_windows(session: &Session) -> Vec<Session> {
    fewer(&session.windows).into_iter().map(|windows| after(session, |session| session.windows = windows)).collect()
}

/// Capacities down to the longest window.
fn narrower_pools(session: &Session) -> Vec<Session> {
    let longest = session.windows.iter().map(|window| window.n).max().unwrap_or_default();
    let narrow = |which: usize| {
        after(session, |session| {
            let pool = session.pools.each_mut()[which].clone();
            if longest < pool.capacity && pool.samples.len() as u64 == pool.count.saturating_mul(pool.capacity) {
                let buffers = pool.samples.chunks(pool.capacity as usize);
                let samples = buffers.flat_map(|buffer| &buffer[..longest as usize]).copied().collect();
                let narrowed = &mut *session.pools.each_mut()[which];
                (narrowed.samples, narrowed.capacity) = (samples, longest);
            }
            session.pools.zeros.truncate(session.pools.internal.capacity as usize);
        })
    };
    let shorter = |narrowed: &Session| narrowed.length() < session.length();
    [0, 1].map(narrow).into_iter().filter(shorter).collect()
}

/// Takes a stage out of the patch and of every order; the stages behind it move up, and so do their states and rings.
fn fewer_stages(session: &Session) -> Vec<Session> {
    if session.stage_count != session.stages.len() as u64 {
        return Vec::new();
    }
    let without = |number: usize| {
        after(session, |session| {
            session.stages.remove(number);
            session.stage_count -= 1;
            session.states.remove(number);
            session.states.push(Default::default());
            for window in &mut session.windows {
                window.order.retain(|&ordered| ordered != number as u64);
                window.order.iter_mut().for_each(|ordered| *ordered -= u64::from(*ordered > number as u64));
            }
        })
    };
    (0..session.stages.len()).rev().map(without).collect()
}

fn shorter_orders(session: &Session) -> Vec<Session> {
    each_window(session, |window| {
        fewer(&window.order).into_iter().map(|order| Window { order, ..window.clone() }).collect()
    })
}

fn shorter_windows(session: &Session) -> Vec<Session> {
    each_window(session, |window| {
        let lengths = [0, 1, window.n / 2, window.n.saturating_sub(1)].into_iter().filter(|&n| n < window.n);
        let shorter = lengths.map(|n| {
            let mut window = Window { n, ..window.clone() };
            for setting in &mut window.settings {
                if let Setting::Stored(samples) = setting {
                    samples.truncate(n as usize);
                }
            }
            window
        });
        shorter.collect()
    })
}

/// Without settings, with prepare, of width 1.
fn plainer_windows(session: &Session) -> Vec<Session> {
    each_window(session, |window| {
        let mut plainer = Vec::new();
        if !window.settings.is_empty() {
            plainer.push(Window { settings: Vec::new(), ..window.clone() });
        }
        if !window.prepare {
            plainer.push(Window { prepare: true, ..window.clone() });
        }
        if window.width != 1.0 {
            plainer.push(Window { width: 1.0, ..window.clone() });
        }
        plainer
    })
}

/// Each parameter in turn replaced, where it is other than before.
fn each_parameter(session: &Session, plain: impl Fn(&Parameter, Role) -> Option<Parameter>) -> Vec<Session> {
    let mut all = Vec::new();
    for (number, stage) in session.stages.iter().enumerate() {
        for (place, &role) in stage.kind.roles().iter().enumerate() {
            if let Some(parameter) = plain(&stage.parameters[place], role) {
                all.push(after(session, |session| session.stages[number].parameters[place] = parameter));
            }
        }
    }
    all
}

/// Slots by what they hold in the first window.
fn fixed_parameters(session: &Session) -> Vec<Session> {
    let values = session.windows.first().map_or(&session.values, |window| &window.values);
    each_parameter(session, |parameter, _| match *parameter {
        Parameter::Slot(slot) => values.get(slot as usize).map(|&value| Parameter::Fixed(value)),
        _ => None,
    })
}

/// Absent where that may be by itself, else 1.
fn plain_parameters(session: &Session) -> Vec<Session> {
    each_parameter(session, |parameter, role| match parameter {
        Parameter::Absent => None,
        _ if role.may_be_absent() && !role.is_of_a_pair() => Some(Parameter::Absent),
        Parameter::Fixed(1.0) => None,
        _ => Some(Parameter::Fixed(1.0)),
    })
}

/// Both levels of a pair absent.
fn absent_pairs(session: &Session) -> Vec<Session> {
    let stages = session.stages.iter().enumerate();
    let without = stages.filter_map(|(number, stage)| {
        let levels = stage.kind.roles().iter().filter(|role| role.is_of_a_pair()).count();
        let given = stage.parameters[..levels].iter().any(|level| level.given().is_some());
        let absent = |session: &mut Session| session.stages[number].parameters[..levels].fill(Parameter::Absent);
        given.then(|| after(session, absent))
    });
    without.collect()
}

/// No values, no more rings than are needed, the last buffer gone.
fn fewer_lent(session: &Session) -> Vec<Session> {
    let mut all = Vec::new();
    if !session.values.is_empty() {
        all.push(after(session, |session| {
            session.values.clear();
            session.windows.iter_mut().for_each(|window| window.values.clear());
        }));
    }
    let needed = cells(&session.stages);
    if needed < session.rings.len() as u64 {
        all.push(after(session, |session| session.rings.truncate(needed as usize)));
    }
    let fewer = |which: usize| {
        after(session, |session| {
            let pool = &mut *session.pools.each_mut()[which];
            pool.count = pool.count.saturating_sub(1);
            pool.samples.truncate(pool.count.saturating_mul(pool.capacity) as usize);
            if which == 1 {
                let count = session.pools.external.count as usize;
                session.windows.iter_mut().for_each(|window| window.settings.truncate(count));
            }
        })
    };
    all.extend([0, 1].map(fewer).into_iter().filter(|fewer| fewer.length() < session.length()));
    all
}

fn zero_samples(session: &Session) -> Vec<Session> {
    let zero = |which: usize| after(session, |session| session.pools.each_mut()[which].samples.fill(0.0));
    let plain = |pool: &[f64]| pool.iter().all(|sample| sample.to_bits() == 0);
    let pools = [&session.pools.internal, &session.pools.external].map(|pool| plain(&pool.samples));
    [0, 1].into_iter().filter(|&which| !pools[which]).map(zero).collect()
}

/// States not shown; states and rings at zero but for the positions of strings, or those states alone that no stage has.
fn new_states(session: &Session) -> Vec<Session> {
    let new = |all: bool| {
        after(session, |session| {
            for (number, state) in session.states.iter_mut().enumerate() {
                let stage = session.stages.get(number);
                if all || stage.is_none() {
                    state.numbers = Default::default();
                }
                if stage.is_none_or(|stage| stage.kind.buffer_size().is_none()) {
                    state.position = 0;
                }
            }
            if all {
                session.rings.fill(0.0);
            }
        })
    };
    let hidden = session.with_states.then(|| after(session, |session| session.with_states = false));
    let other = |new: &Session| new.remembered() != session.remembered();
    hidden.into_iter().chain([true, false].map(new).into_iter().filter(other)).collect()
}

fn without_reaches(session: &Session) -> Vec<Session> {
    let hidden = session.with_reaches.then(|| after(session, |session| session.with_reaches = false));
    hidden.into_iter().collect()
}

impl Session {
    /// The words of all states and rings.
    fn remembered(&self) -> Vec<u64> {
        let numbers = self.states.iter().flat_map(|state| &state.numbers).chain(&self.rings);
        let positions = self.states.iter().map(|state| state.position);
        numbers.map(|number| number.to_bits()).chain(positions).collect()
    }

    /// How many samples are lent.
    fn length(&self) -> usize {
        self.pools.internal.samples.len() + self.pools.external.samples.len() + self.pools.zeros.len()
    }
}
