//! Strings at every edge of what their ring reaches, one by itself and several in one order; and the same edges asked of a ring, a
//! comb and an all-pass. Window follows window in a session, so that what a string told before would show.

use std::collections::BTreeSet;
use std::f64::consts::FRAC_1_PI;

use microwave::magnetron::waveguide::Reflectance;

use super::good_pools;
use super::internal;
use super::lent;
use super::orders::orders;
use super::parts::case;
use super::stage;
use super::window;
use crate::case::Case;
use crate::reach;
use crate::refusals::MOST_STAGES;
use crate::session::Session;
use crate::session::Stage;
use crate::session::Window;
use crate::session::kind::Kind;
use crate::session::kind::REFLECTANCES;
use crate::session::parameter::Parameter;
use crate::words::words;

/// The sample width to which frequencies are fitted.
const WIDTH: f64 = 0.25;

/// At that width the low-pass has a delay of 0, of 1, of infinitely many, and of about -1 samples; with the last two it has none.
const CUTOFFS: [f64; 6] = [8.0, FRAC_1_PI, 0.0, -8.0, f64::INFINITY, f64::NAN];

const TINY: f64 = f64::from_bits(1);

/// What a ring is asked for: 0 and 1 with what stands next to them and far from them.
const NUMBERS: [f64; 13] = [
    f64::NEG_INFINITY,
    -1.0,
    -TINY,
    -0.0,
    0.0,
    TINY,
    0.5,
    1.0f64.next_down(),
    1.0,
    1.0f64.next_up(),
    2.0,
    f64::INFINITY,
    f64::NAN,
];

/// A session that begins with new states, as the Rust does.
fn session(stages: Vec<Stage>, windows: Vec<Window>) -> Session {
    Session { windows, ..lent(good_pools([3, 0], [3, 0]), stages).with_new_states() }
}

/// A string from the first buffer into the second.
fn tuned(reflectance: &Reflectance, size: u64, frequency: f64, cutoff: f64) -> Stage {
    let kind = Kind::Waveguide(reflectance.clone(), size);
    let parameters = [0.5, frequency, cutoff, 0.5].map(Parameter::Fixed).to_vec();
    Stage { parameters, ..stage(&kind, &[internal(0)], &[internal(1)]) }
}

fn pass() -> Stage {
    stage(&Kind::Pass, &[internal(0)], &[internal(2)])
}

/// A string of every choice, behind a Pass.
pub fn strings() -> impl Iterator<Item = Case> {
    let sizes = REFLECTANCES.into_iter().flat_map(|reflectance| [0, 1, 2, 3].map(|size| (reflectance.clone(), size)));
    let tunings = sizes.flat_map(|(reflectance, size)| {
        let tunings =
            frequencies(&reflectance).into_iter().flat_map(|frequency| CUTOFFS.map(|cutoff| (frequency, cutoff)));
        tunings.map(move |(frequency, cutoff)| tuned(&reflectance, size, frequency, cutoff)).collect::<Vec<_>>()
    });
    tunings.map(|string| Case::Session(session(vec![pass(), string], in_turn())))
}

/// Those of 1, 2 and 3 samples with their neighbours, and those at which a quotient turns.
fn frequencies(reflectance: &Reflectance) -> Vec<f64> {
    let whole = [1.0, 2.0, 3.0].map(|samples| reach::length_factor(reflectance) / (WIDTH * samples));
    let near = whole.into_iter().flat_map(|frequency| [frequency, frequency.next_up(), frequency.next_down()]);
    near.chain([0.0, -0.0, f64::INFINITY, f64::NEG_INFINITY, f64::MAX, f64::MIN, -1.0, f64::NAN]).collect()
}

/// Every order of the two, at widths of which one is that of the frequencies.
fn in_turn() -> Vec<Window> {
    let orders: [&[u64]; 5] = [&[1], &[0, 1], &[1, 0], &[0], &[]];
    let widths = [WIDTH, -WIDTH, 0.0, f64::NAN].into_iter();
    let windows =
        widths.flat_map(|width| [0, 1, 3].into_iter().flat_map(move |n| orders.map(|order| (width, n, order))));
    windows.map(|(width, n, order)| Window { width, ..window(false, n, order) }).collect()
}

/// What may be wrong with a session of several strings: nothing, or what 1, 4, 5, 6 or 7 refuses.
const FAULTS: [fn(&mut Session); 6] = [
    |_| (),
    |session| _ = session.pools.zeros.pop(),
    |session| _ = session.rings.pop(),
    |session| session.stages[1].inputs[0] = internal(3),
    |session| session.stages[1].parameters[0] = Parameter::Slot(0),
    |session| session.stages[1].inputs[0] = internal(1),
];

/// Several strings, each of which tells something else than those next to it.
pub fn in_orders() -> impl Iterator<Item = Case> {
    let four = (0..4).flat_map(|turn| FAULTS.map(|fault| four_strings(turn, fault)));
    four.chain([thirty_two_strings()]).map(Case::Session)
}

/// So many strings; any four on end tell four things.
fn answering(count: usize, turn: usize) -> Vec<Stage> {
    let frequencies = [4.0, -4.0, 1.0, f64::NAN].into_iter().cycle().skip(turn).take(count);
    frequencies.map(|frequency| tuned(&Reflectance::Positive, 2, frequency, 8.0)).collect()
}

/// With a Pass among them, in every order of up to three numbers. States and rings are shown where no window can run.
fn four_strings(turn: usize, fault: fn(&mut Session)) -> Session {
    let mut stages = answering(4, turn);
    stages.insert(2, pass());
    let mut session = session(stages, every_order());
    fault(&mut session);
    session.with_states = session.windows.iter().all(|window| session.judge(window).is_err());
    session
}

/// As many as a patch has: each of them by itself, all but each, all upwards and all downwards.
fn thirty_two_strings() -> Session {
    let all: Vec<u64> = (0..MOST_STAGES).collect();
    let without = |number: u64| all.iter().copied().filter(move |&other| other != number).collect();
    let orders = all.iter().flat_map(|&number| [vec![number], without(number)]);
    let orders: Vec<_> = orders.chain([all.clone(), all.iter().rev().copied().collect()]).collect();
    let windows = [0, 1, 3].into_iter().flat_map(|n| orders.iter().map(move |order| window(false, n, order)));
    session(answering(all.len(), 0), windows.collect())
}

/// Windows of 0, 1 and 3 samples and one that is too long, prepared or not, over stages of which the last isn't there.
fn every_order() -> Vec<Window> {
    let lengths = [0, 1, 3, 4].into_iter().flat_map(|n| [(n, true), (n, false)]);
    let windows = lengths.flat_map(|(n, prepare)| orders(6).into_iter().map(move |order| window(prepare, n, &order)));
    windows.collect()
}

/// Each number, asked in both manners, of rings that are good and bad.
pub fn rings() -> impl Iterator<Item = Case> {
    let rings = [0, 1, 2, 3, 32_768, 32_769].into_iter().flat_map(|length: u64| {
        let positions = BTreeSet::from([0, length.saturating_sub(1), length]);
        positions.into_iter().map(move |position| (length, position))
    });
    rings.flat_map(|(length, position)| {
        let ring = |sort: u64, settings: Vec<u64>, operations: Vec<u64>| {
            let cells = (0..length).map(|cell| (cell as f64).to_bits()).collect();
            let count = 2 * NUMBERS.len() as u64;
            case(&[words![sort, length, position], cells, settings, words![count], operations].concat())
        };
        let bare = NUMBERS.into_iter().flat_map(|number| words![4, number, 6, number]).collect();
        let sampled: Vec<_> = NUMBERS.into_iter().flat_map(|number| words![1, number, 0.5, 3, number, 0.5]).collect();
        [ring(3, Vec::new(), bare), ring(6, words![0, 0.5, 1, 0.9], sampled.clone()), ring(7, words![0.5], sampled)]
    })
}
