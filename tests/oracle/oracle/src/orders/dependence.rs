//! Which stages depend on each other, from documents 01 and 02 alone, and orders that keep their sequence or break it.

use crate::pools::Buffer;
use crate::random::Random;
use crate::session::Session;
use crate::session::Stage;

/// Whether one of the two writes a buffer that the other reads or writes.
fn dependent(one: &Stage, other: &Stage) -> bool {
    let touches = |stage: &Stage, outputs: &[Buffer]| {
        outputs.iter().any(|output| stage.outputs.contains(output) || stage.inputs.contains(output))
    };
    touches(other, &one.outputs) || touches(one, &other.outputs)
}

/// The same of two numbers in an order. A number without a stage depends on none.
fn depend(session: &Session, one: u64, other: u64) -> bool {
    let stage = |number: u64| session.stages.get(number as usize);
    stage(one).zip(stage(other)).is_some_and(|(one, other)| dependent(one, other))
}

/// A random order of the same numbers in which dependent stages keep their sequence.
pub fn consistent(session: &Session, order: &[u64], random: &mut Random) -> Vec<u64> {
    let (mut left, mut order) = (order.to_vec(), Vec::new());
    while !left.is_empty() {
        let free = |&place: &usize| !left[..place].iter().any(|&before| depend(session, before, left[place]));
        let free: Vec<usize> = (0..left.len()).filter(free).collect();
        order.push(left.remove(random.pick(&free)));
    }
    order
}

/// Lets up to `most` pairs of dependent neighbours change places, each pair at most once; tells how many did.
pub fn break_up(session: &Session, order: &mut [u64], most: u64, random: &mut Random) -> u64 {
    let before = order.to_vec();
    let place = |number: u64| before.iter().position(|&other| other == number);
    for changed in 0..most {
        let breakable = |&k: &usize| {
            let (one, other) = (order[k - 1], order[k]);
            place(one) < place(other) && depend(session, one, other)
        };
        let breakable: Vec<usize> = (1..order.len()).filter(breakable).collect();
        if breakable.is_empty() {
            return changed;
        }
        let place = random.pick(&breakable);
        order.swap(place - 1, place);
    }
    most
}

/// How many pairs of numbers stand the other way round in the other order.
pub fn pairs_turned(order: &[u64], other: &[u64]) -> u64 {
    let places: Vec<_> = order.iter().map(|number| other.iter().position(|found| found == number)).collect();
    let turned = |k: usize| places[k + 1..].iter().filter(|&&later| later < places[k]).count() as u64;
    (0..places.len()).map(turned).sum()
}
