//! Pan, which has two outputs: wired to any buffers, those that are there and those that are not, with every way to mark what
//! it names and to give its levels; and before and behind a stage that reads or writes what it names.

use super::Group;
use super::all_marks;
use super::external;
use super::good_pools;
use super::internal;
use super::lent;
use super::stage;
use super::stages::wirings;
use super::window;
use crate::pools::Buffer;
use crate::pools::Pools;
use crate::session::Stage;
use crate::session::kind::Kind;
use crate::session::parameter::Parameter;

pub fn groups() -> impl Iterator<Item = Group> {
    wired().chain(beside_a_pass())
}

/// Four stages, which differ in what levels they have, each by itself. The third buffer of a pool may be missing.
fn wired() -> impl Iterator<Item = Group> {
    let pools = [[2, 2], [2, 3], [3, 2], [3, 3]].map(|counts| good_pools(counts, [2, 2]));
    let wired = pools.into_iter().flat_map(|pools| wirings(3).map(move |wiring| (pools.clone(), wiring)));
    wired.flat_map(|(pools, wiring)| {
        let stages = [[false, false], [true, false], [false, true], [true, true]].map(|levels| pan(wiring, levels));
        marked(pools, wiring).map(move |pools| Group {
            lent: lent(pools, stages.to_vec()),
            windows: (0..12).map(|choice| window(false, choice / 4, &[choice % 4])).collect(),
        })
    })
}

/// No two of its parameters are alike, so that none is taken for another.
fn pan([input, left, right]: [Buffer; 3], levels: [bool; 2]) -> Stage {
    let mut parameters = [0.7, -0.3, 1.9, 0.6].map(Parameter::Fixed);
    for (level, given) in parameters.iter_mut().zip(levels) {
        if !given {
            *level = Parameter::Absent;
        }
    }
    Stage { parameters: parameters.to_vec(), ..stage(&Kind::Pan, &[input], &[left, right]) }
}

/// Every way to mark three buffers of which some may be the same, with all others stale and with none.
fn marked(pools: Pools, named: [Buffer; 3]) -> impl Iterator<Item = Pools> {
    (0..16).filter_map(move |choice| {
        let mut pools = pools.clone();
        let stale = |place: usize| choice >> place & 1 == 1;
        pools.marks.0 = [[stale(3); 16]; 2];
        (0..3).for_each(|place| pools.marks.set(named[place], stale(place)));
        (0..3).all(|place| pools.marks.stale(named[place]) == stale(place)).then_some(pools)
    })
}

/// Over two internal buffers and an external one, wired and marked in every way: what one of the two stages writes, the other
/// may read or write, at its left or at its right.
fn beside_a_pass() -> impl Iterator<Item = Group> {
    let buffers = [internal(0), internal(1), external(0)];
    all_marks(good_pools([2, 1], [1, 1])).flat_map(move |pools| {
        (0..243).map(move |wiring| {
            let [input, left, right, from, into] = [1, 3, 9, 27, 81].map(|step| buffers[wiring / step % 3]);
            let stages = vec![pan([input, left, right], [true, true]), stage(&Kind::Pass, &[from], &[into])];
            let orders = [[0, 1], [1, 0]].into_iter();
            let windows = orders.flat_map(|order| [0, 1].map(|n| window(false, n, &order)));
            Group { lent: lent(pools.clone(), stages), windows: windows.collect() }
        })
    })
}
