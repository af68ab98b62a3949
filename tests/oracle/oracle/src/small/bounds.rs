//! What stands at each bound of document 01, just below it and just past it, and numbers that are far past it.

use std::array;
use std::collections::BTreeSet;

use super::Group;
use super::good_pools;
use super::internal;
use super::lent;
use super::stage;
use super::string;
use super::window;
use crate::pools::Buffer;
use crate::pools::Pool;
use crate::pools::Pools;
use crate::session::Session;
use crate::session::cells;
use crate::session::kind::Kind;

/// Far past every bound: its square is more than a word holds.
const FAR: u64 = 1 << 32;

pub fn groups() -> impl Iterator<Item = Group> {
    let pools = pools().into_iter().map(in_windows);
    let patches = [31, 32, 33, u64::MAX].into_iter().map(patch);
    pools.chain(wirings()).chain(strings()).chain(patches).chain([31, 32].map(one_number_changed))
}

/// Every choice of two, which may be the same.
fn pairs<T: Copy, const COUNT: usize>(items: [T; COUNT]) -> impl Iterator<Item = [T; 2]> {
    items.into_iter().flat_map(move |first| items.map(|second| [first, second]))
}

/// 15 to 17 buffers; capacities of 4,095 to 4,097 samples, with a buffer and without; the largest pools; and counts and
/// capacities far past their bounds over an empty slice, which is as long as their product where one of them is 0, or where a
/// word doesn't hold it.
pub fn pools() -> Vec<Pools> {
    let counts = pairs([15, 16, 17]).map(|counts| good_pools(counts, [1, 1]));
    let capacities = pairs([4_095, 4_096, 4_097])
        .flat_map(|capacities| pairs([0, 1]).map(move |counts| good_pools(counts, capacities)));
    let far = pairs([0, 1, FAR, u64::MAX]).filter(|sizes| sizes.iter().any(|&size| size > 1));
    let far = far.flat_map(|[count, capacity]| {
        let [mut inner, mut outer] = [(); 2].map(|()| good_pools([1, 1], [1, 1]));
        inner.internal = Pool { count, capacity, samples: Vec::new() };
        inner.zeros.truncate(capacity as usize);
        outer.external = inner.internal.clone();
        [inner, outer]
    });
    counts.chain(capacities).chain([good_pools([16, 16], [4_096, 4_096])]).chain(far).collect()
}

/// Windows of 0 samples, of each capacity, one less and one more, and of the most that a word holds.
pub fn lengths(pools: &Pools) -> BTreeSet<u64> {
    let capacities = [pools.internal.capacity, pools.external.capacity];
    let around = capacities.iter().flat_map(|c| [c.saturating_sub(1), *c, c.saturating_add(1)]);
    around.chain([0, u64::MAX]).collect()
}

fn in_windows(pools: Pools) -> Group {
    let windows = lengths(&pools).into_iter().map(|n| window(true, n, &[])).collect();
    Group { lent: lent(pools, Vec::new()), windows }
}

/// A stage that reads and writes the last buffers that are there, those just past them, and those of the largest number.
fn wirings() -> impl Iterator<Item = Group> {
    let pools = [[15, 15], [16, 16], [16, 0], [0, 16]].map(|counts| good_pools(counts, [1, 1]));
    let buffers: [Buffer; 8] =
        array::from_fn(|place| Buffer { index: [14, 15, 16, u64::MAX >> 1][place / 2], external: place % 2 == 1 });
    pools.into_iter().flat_map(move |pools| {
        pairs(buffers).map(move |[input, output]| Group {
            lent: lent(pools.clone(), vec![stage(&Kind::Pass, &[input], &[output])]),
            windows: [(false, 0), (false, 1), (true, 1)].map(|(prepare, n)| window(prepare, n, &[0])).to_vec(),
        })
    })
}

/// Strings at the first slot, at the last and past it, over a slice that is as long as all rings, one cell shorter or one
/// longer; strings of any size over too short a slice; and 32 strings that take the longest slice of the format.
fn strings() -> impl Iterator<Item = Group> {
    let small = [0, 1, 2].into_iter().flat_map(|size| {
        let positions = [0, size, size + 1, u64::MAX];
        positions.into_iter().flat_map(move |position| [0, 1, 2].map(|cells| (size, position, size + cells)))
    });
    let large = [32_766, 32_767, 32_768].into_iter().flat_map(|size| {
        [size, size + 1].into_iter().flat_map(move |position| [0, 1].map(|cells| (size, position, size + cells)))
    });
    let far = [32_769, FAR, u64::MAX].map(|size| (size, 0, 3));
    let one = small.chain(large).chain(far).map(|(size, position, cells)| one_string(size, position, cells));
    one.chain([0, 1].map(thirty_two_strings))
}

/// A string whose ring lies behind that of another of two slots, and for which so many cells are left.
fn one_string(size: u64, position: u64, cells: u64) -> Group {
    let stages = [string(1), string(0)].map(|kind| stage(&kind, &[internal(0)], &[internal(1)]));
    let mut lent = lent(good_pools([2, 0], [1, 0]), stages.to_vec());
    lent.stages[1].kind = string(size);
    lent.states[1].position = position;
    lent.rings.resize(2 + cells as usize, 0.75);
    let orders: [&[u64]; 3] = [&[], &[0], &[1]];
    Group { lent, windows: orders.map(|order| window(true, 1, order)).to_vec() }
}

fn thirty_two_strings(missing: usize) -> Group {
    let stages = vec![stage(&string(4_095), &[internal(0)], &[internal(1)]); 32];
    let mut lent = lent(good_pools([2, 0], [1, 0]), stages);
    lent.rings.truncate(cells(&lent.stages) as usize - missing);
    Group { lent, windows: vec![window(true, 1, &[]), window(true, 1, &[31])] }
}

/// A patch that claims to have so many stages. Orders of 30 to 33 stages and the longest of the format; one that names a stage
/// twice among 32; stages at and past the last.
fn patch(stage_count: u64) -> Group {
    let all: Vec<u64> = (0..64).collect();
    let twice = [&all[..31], &[0]].concat();
    let orders = [0, 30, 31, 32, 33, 64].map(|length| all[..length].to_vec());
    let single = [30, 31, 32, 33, 255].map(|number| vec![number]);
    let windows = orders.into_iter().chain([twice]).chain(single).map(|order| window(false, 0, &order));
    Group { lent: passes(stage_count), windows: windows.collect() }
}

/// An order that names each of so many stages once, with each number that a byte holds at each of its places: numbers that are
/// there twice, at every two places, and numbers that aren't there, at every place.
fn one_number_changed(stage_count: u64) -> Group {
    let changed = |place: u64, number: u64| {
        let mut order: Vec<u64> = (0..stage_count).collect();
        order[place as usize] = number;
        window(false, 0, &order)
    };
    let windows = (0..stage_count).flat_map(|place| (0..=255).map(move |number| changed(place, number)));
    Group { lent: passes(stage_count), windows: windows.collect() }
}

/// A patch that claims to have so many stages, all of them alike.
fn passes(stage_count: u64) -> Session {
    let stages = vec![stage(&Kind::Pass, &[internal(0)], &[internal(0)]); stage_count.min(32) as usize];
    Session { stage_count, ..lent(good_pools([1, 0], [1, 0]), stages) }
}

#[cfg(test)]
mod tests {
    use super::*;
    use crate::refusals;
    use crate::session::Window;

    /// The numbers that the table gives to the groups' windows.
    fn numbers(groups: impl IntoIterator<Item = Group>) -> String {
        let number = |lent: &Session, window: &Window| refusals::outcome(lent.judge(window))[0].to_string();
        let of_group =
            |Group { lent, windows }: Group| windows.iter().map(|window| number(&lent, window)).collect::<String>();
        groups.into_iter().map(of_group).collect::<Vec<_>>().join(" ")
    }

    #[test]
    fn counts_and_capacities() {
        let counts = numbers(pairs([16, 17]).map(|counts| in_windows(good_pools(counts, [1, 1]))));
        assert_eq!(counts, "0022 1111 1111 1111");
        let capacities = numbers(pairs([4_096, 4_097]).map(|capacities| in_windows(good_pools([0, 0], capacities))));
        assert_eq!(capacities, "00022 111111 111111 11111");
    }

    #[test]
    fn rings() {
        let at = one_string;
        let met = numbers([at(32_767, 32_767, 32_768), at(32_767, 32_767, 32_767), at(32_767, 32_768, 32_768)]);
        assert_eq!(met, "000 444 444");
        assert_eq!(numbers([at(32_768, 0, 32_769), at(0, 0, 1), at(0, 0, 0), at(0, 1, 1)]), "444 000 444 444");
        assert_eq!(numbers([0, 1].map(thirty_two_strings)), "00 44");
    }

    #[test]
    fn stages_and_orders() {
        let met = numbers([31, 32, 33].map(patch));
        assert_eq!(met, "000333303333 000033300333 111111111111");
        let changed = numbers([31, 32].map(one_number_changed));
        assert_eq!(changed.matches('0').count(), 31 + 32);
        assert_eq!(changed.matches('3').count(), (31 + 32) * 255);
    }
}
