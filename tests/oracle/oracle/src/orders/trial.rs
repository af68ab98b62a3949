//! A random session and the same in other orders: a consistent one, and one in which dependent stages changed places.

use super::dependence;
use crate::case::Case;
use crate::case::Sort;
use crate::compare::REFUSED;
use crate::random::Random;
use crate::session::Session;
use crate::values::Role;
use crate::values::Values;

/// Sessions with more ring cells are left out: they would be shown in every window.
const MOST_SHOWN: usize = 2_000;

pub struct Trial {
    pub session: Session,
    pub consistent: Session,
    pub inconsistent: Session,
    /// How many pairs of dependent stages changed places in the inconsistent session, and in which window.
    pub broken: u64,
    window: usize,
}

/// How a trial ended.
pub struct Ended {
    pub consistent_same: bool,
    /// Whether the inconsistent order ended the same; nothing where the window is refused in its own order.
    pub inconsistent_same: Option<bool>,
    /// How many windows were refused.
    pub refused: u64,
}

impl Trial {
    /// From states and rings that hold anything, or from new ones.
    pub fn random(seed: u64, number: u64, new_states: bool) -> Self {
        let mut values = Values::new(&[seed, u64::from(u32::MAX), number]);
        let refused = number % REFUSED == REFUSED - 1;
        let mut session = Session::random(&mut values, refused);
        while session.rings.len() > MOST_SHOWN || session.windows.iter().all(|window| window.order.len() < 2) {
            session = Session::random(&mut values, refused);
        }
        session.with_reaches = true;
        if !new_states {
            start_anywhere(&mut values, &mut session);
        }
        Self::of(session, number)
    }

    /// The session with the other orders that the number picks. Orders that name a stage twice stay as they are.
    pub fn of(session: Session, number: u64) -> Self {
        let random = &mut Random::new(&[number]);
        let mut consistent = session.clone();
        for window in &mut consistent.windows {
            let mut numbers = window.order.clone();
            numbers.sort();
            numbers.dedup();
            if numbers.len() == window.order.len() {
                window.order = dependence::consistent(&session, &window.order, random);
            }
        }
        let mut inconsistent = consistent.clone();
        let sounding: Vec<usize> = (0..session.windows.len()).filter(|&k| session.windows[k].n > 0).collect();
        let window = if sounding.is_empty() { 0 } else { random.pick(&sounding) };
        let most = random.pick(&[1, 1, 1, 2, 2, 3, 4, 8, 16]);
        let order = inconsistent.windows.get_mut(window).map(|window| &mut window.order[..]);
        let broken = order.map_or(0, |order| dependence::break_up(&session, order, most, random));
        Self { session, consistent, inconsistent, broken, window }
    }

    /// The three sessions, one after another.
    pub fn stream(&self) -> Vec<u8> {
        let sessions = [&self.session, &self.consistent, &self.inconsistent];
        sessions.into_iter().filter_map(|session| Case::Session(session.clone()).written()).flatten().collect()
    }

    /// How many pairs of stages stand the other way round in the consistent orders.
    pub fn turned(&self) -> u64 {
        let pairs = self.session.windows.iter().zip(&self.consistent.windows);
        pairs.map(|(one, other)| dependence::pairs_turned(&one.order, &other.order)).sum()
    }

    /// Takes the three answers from the front of `words`.
    pub fn ended(&self, words: &mut &[u64]) -> Option<Ended> {
        let (count, length) = (self.session.windows.len(), self.session.answer_length());
        let (answers, rest) = words.split_at_checked(3 * count * length)?;
        *words = rest;
        let answers: Vec<&[u64]> = answers.chunks_exact(length).collect();
        let [first, second, third] = [0, 1, 2].map(|which| &answers[which * count..][..count]);
        let refused = |answer: &&[u64]| answer[0] != 0;
        let accepted = first.get(self.window).is_some_and(|answer| !refused(answer));
        Some(Ended {
            consistent_same: same(first, second),
            inconsistent_same: accepted.then(|| same(first, third)),
            refused: first.iter().copied().filter(refused).count() as u64,
        })
    }
}

/// Whether each window is answered by the same words; or refused in both, whatever the number and the stage, with the same
/// things lent.
fn same(one: &[&[u64]], other: &[&[u64]]) -> bool {
    one.iter().zip(other).all(|(one, other)| match (one[0], other[0]) {
        (0, 0) => one == other,
        (0, _) | (_, 0) => false,
        _ => one[2..] == other[2..],
    })
}

/// States and rings that hold anything, and are shown.
fn start_anywhere(values: &mut Values, session: &mut Session) {
    session.with_states = true;
    session.rings = values.numbers(Role::Sample, session.rings.len() as u64);
    for (number, state) in session.states.iter_mut().enumerate() {
        state.numbers = [(); 10].map(|()| values.number(Role::Sample));
        state.numbers[0] = values.number(Role::Turn);
        let size = session.stages.get(number).and_then(|stage| stage.kind.buffer_size()).unwrap_or(u64::MAX);
        // A position that isn't below its ring length is a fault, which stays.
        if state.position <= size {
            state.position = values.random.below(size.saturating_add(1));
        }
    }
}
