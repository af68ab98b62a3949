//! Pools of every small size, and faults that each of the checks sees, several at a time: so the order of the checks shows.

use super::Group;
use super::external;
use super::good_pools;
use super::internal;
use super::lent;
use super::stage;
use super::string;
use super::window;
use crate::pools::Pools;
use crate::session::Session;
use crate::session::Stage;
use crate::session::Window;
use crate::session::kind::Kind;
use crate::session::parameter::Parameter;

pub type Fault<T> = fn(&mut T);

/// For check 1. The first is none.
pub const OF_POOLS: [Fault<Pools>; 10] = [
    |_| (),
    |pools| shorten(&mut pools.internal.samples),
    |pools| pools.internal.samples.push(0.0),
    |pools| shorten(&mut pools.external.samples),
    |pools| pools.external.samples.push(0.0),
    |pools| shorten(&mut pools.zeros),
    |pools| pools.zeros.push(0.0),
    |pools| pools.zeros.iter_mut().take(1).for_each(|zero| *zero = -0.0),
    |pools| pools.zeros.iter_mut().skip(1).for_each(|zero| *zero = f64::from_bits(1)),
    |pools| pools.zeros.iter_mut().for_each(|zero| *zero = f64::NAN),
];

/// For check 4, in a string that is stage 1. The first is none, and a spare cell is none either.
const OF_RINGS: [Fault<Session>; 5] = [
    |_| (),
    |session| shorten(&mut session.rings),
    |session| session.states[1].position += 1,
    |session| session.stages[1].kind = string(32_768),
    |session| session.rings.push(0.0),
];

/// For checks 5 to 7, in stage 0: what it reads, and a parameter that may be missing. It writes the first internal buffer.
const FIRST_STAGES: [(bool, Parameter); 4] =
    [(true, Parameter::Absent), (false, Parameter::Absent), (true, Parameter::Slot(0)), (false, Parameter::Slot(0))];

/// Orders that are good, name a stage that isn't there, or name one twice.
const ORDERS: [&[u64]; 5] = [&[], &[0], &[1, 0], &[2], &[1, 1]];

fn shorten(slice: &mut Vec<f64>) {
    slice.pop();
}

pub fn groups() -> impl Iterator<Item = Group> {
    of_every_size().flat_map(|pools| faults().map(move |faults| group(pools.clone(), faults)))
}

/// Good pools of every count and capacity from 0 to 2.
pub fn of_every_size() -> impl Iterator<Item = Pools> {
    (0..81).map(|size| good_pools([size / 27, size / 9 % 3], [size / 3 % 3, size % 3]))
}

/// A fault for check 1, one for check 4, a first stage, and whether all buffers are stale. Where check 1 has a fault, the
/// others are few.
type Faults = (usize, usize, usize, bool);

fn faults() -> impl Iterator<Item = Faults> {
    let all = (0..OF_POOLS.len() * OF_RINGS.len() * FIRST_STAGES.len() * 2)
        .map(|all| (all / 40, all / 8 % OF_RINGS.len(), all / 2 % FIRST_STAGES.len(), all % 2 == 1));
    all.filter(|&(of_pools, of_rings, first, stale)| of_pools == 0 || of_rings < 2 && first % 3 == 0 && !stale)
}

/// Windows from 0 to 3, prepared or not. Where check 1 passes, all orders come; else one that is good, and one that isn't.
fn windows(all: bool) -> Vec<Window> {
    let orders = if all { &ORDERS[..] } else { &ORDERS[2..4] };
    let choices = orders.iter().flat_map(|order| (0..8).map(move |choice| window(choice < 4, choice % 4, order)));
    choices.filter(|window| all || window.n % 3 == 0).collect()
}

fn group(mut pools: Pools, (of_pools, of_rings, first, stale): Faults) -> Group {
    OF_POOLS[of_pools](&mut pools);
    pools.marks.0 = [[stale; 16]; 2];
    let (reads_external, parameter) = FIRST_STAGES[first].clone();
    let input = if reads_external { external(0) } else { internal(0) };
    let first = Stage { parameters: vec![parameter], ..stage(&Kind::Pow3, &[input], &[internal(0)]) };
    let second = stage(&string(2), &[external(1)], &[internal(1)]);
    let mut lent = lent(pools, vec![first, second]);
    OF_RINGS[of_rings](&mut lent);
    Group { lent, windows: windows(of_pools == 0) }
}
