//! Single reads and writes, prepare, and operations over a ring, on small things and at the bounds.

use std::collections::BTreeSet;

use super::all_marks;
use super::bounds;
use super::good_pools;
use super::pools::OF_POOLS;
use super::pools::of_every_size;
use crate::case::Case;
use crate::lengths::MOST_ZEROS;
use crate::pools::Pools;
use crate::words::Pass;
use crate::words::Writer;
use crate::words::words;

/// Three internal and three external buffers, as their words.
const BUFFERS: [u64; 6] = [0, 2, 4, 1, 3, 5];

pub fn case(words: &[u64]) -> Case {
    Case::of_words(words).expect("a small case can be read")
}

fn of_pools(pools: &Pools) -> Vec<u64> {
    let mut tape = Writer::default();
    pools.clone().pass(&mut tape).expect("small pools can be written");
    tape.words().collect()
}

/// Pools of every size, good and with each fault.
fn good_and_bad() -> impl Iterator<Item = Pools> {
    of_every_size().flat_map(|pools| {
        OF_POOLS.map(|fault| {
            let mut pools = pools.clone();
            fault(&mut pools);
            pools
        })
    })
}

/// Every operation by itself on good pools that are marked in every way; on pools of every size, good and bad, a few
/// operations that a later check refuses too; and at each bound some operations one after another.
pub fn singles() -> impl Iterator<Item = Case> {
    let single = |pools: &Pools, operation: &[u64]| case(&[&[8], &of_pools(pools)[..], &[1], operation].concat());
    let marked = (0..9).flat_map(|size| all_marks(good_pools([size / 3, size % 3], [2, 2])));
    let all = marked.flat_map(move |pools| {
        (0..3).flat_map(operations).map(move |operation| single(&pools, &operation)).collect::<Vec<_>>()
    });
    let some = good_and_bad().flat_map(move |pools| {
        let wrong = (0..4).flat_map(|n| [words![0, n, 4], words![2, n, 5, 0, 5], words![1, n, 0, 0, 0]]);
        wrong.map(|operation| single(&pools, &operation)).collect::<Vec<_>>()
    });
    all.chain(some).chain(bounds::pools().into_iter().map(at_a_bound))
}

/// Windows around the capacities. In each, reads and copies of the last buffer of either kind and of the next, and writes of
/// as many lent values and of one more.
fn at_a_bound(pools: Pools) -> Case {
    let last = |count: u64| count.clamp(1, 17) - 1;
    let internal = last(pools.internal.count);
    let external = last(pools.external.count);
    let buffers = [2 * internal, 2 * internal + 2, 2 * external + 1, 2 * external + 3, u64::MAX];
    let operations = bounds::lengths(&pools).into_iter().flat_map(|n| {
        let values = |length: u64| [words![1, n, 0, 0, length], vec![0.25f64.to_bits(); length as usize]].concat();
        let reads = buffers.map(|buffer| words![0, n, buffer]);
        let copies = buffers.map(|buffer| words![2, n, buffers[0], 1, 0.5, buffer]);
        let most = n.min(MOST_ZEROS - 1);
        reads.into_iter().chain(copies).chain([values(most), values(most + 1)])
    });
    let operations: Vec<_> = operations.collect();
    let count = operations.len() as u64;
    case(&[words![8], of_pools(&pools), words![count], operations.concat()].concat())
}

/// Every read and write in a window of `n`: of lent values, one too few and one too many besides; of each buffer; of each two.
fn operations(n: u64) -> impl Iterator<Item = Vec<u64>> {
    let reads = BUFFERS.map(|buffer| words![0, n, buffer]);
    let writes = BUFFERS.into_iter().flat_map(move |output| {
        let lengths = n.saturating_sub(1)..=n + 1;
        let values = lengths
            .map(move |length| [words![1, n, output, 0, length], vec![0.25f64.to_bits(); length as usize]].concat());
        let copies = BUFFERS.map(|input| words![2, n, output, 1, 0.5, input]);
        let products =
            BUFFERS.into_iter().flat_map(move |one| BUFFERS.map(|other| words![3, n, output, 0, one, other]));
        values.chain(copies).chain(products)
    });
    reads.into_iter().chain(writes)
}

/// Windows from 0 to 3 on pools of every size, good and bad, and windows around the capacities at each bound; with the reset
/// flag set and clear.
pub fn prepares() -> impl Iterator<Item = Case> {
    let small = good_and_bad().map(|pools| (BTreeSet::from([0, 1, 2, 3]), pools));
    let at_bounds = bounds::pools().into_iter().map(|pools| (bounds::lengths(&pools), pools));
    small.chain(at_bounds).flat_map(|(lengths, mut pools)| {
        pools.marks.0[1] = [true; 16];
        let pools = of_pools(&pools);
        let choices = lengths.into_iter().flat_map(|n| [(n, 0u64), (n, 1)]);
        choices.map(move |(n, reset)| case(&[&[9], &pools[..], &words![reset, 1, 0, n]].concat()))
    })
}

/// Rings of up to three slots, of the most slots, one less and one more, with positions in and past them.
pub fn rings() -> impl Iterator<Item = Case> {
    let rings = [0, 1, 2, 3, 32_767, 32_768, 32_769].into_iter().flat_map(|length: u64| {
        let positions = [0, 1, 2, 3, length.saturating_sub(1), length, length + 1, u64::MAX];
        let positions = BTreeSet::from(positions);
        positions.into_iter().map(move |position| (length, position))
    });
    rings.flat_map(|(length, position)| {
        let ring = |sort: u64, settings: Vec<u64>, operation: &[u64]| {
            let cells = (0..length).map(|cell| (cell as f64).to_bits()).collect();
            case(&[words![sort, length, position], cells, settings, words![1], operation.to_vec()].concat())
        };
        let bare = [words![0], words![1], words![2, 0.5], words![3], words![4, 0.75], words![5]];
        let sampled = [words![0, 0.5], words![1, 0.75, 0.5], words![2]];
        let bare = bare.map(|operation| ring(3, Vec::new(), &operation));
        let combs = sampled.clone().map(|operation| ring(6, words![0, 0.5, 1, 0.9], &operation));
        let all_passes = sampled.map(|operation| ring(7, words![0.5], &operation));
        bare.into_iter().chain(combs).chain(all_passes)
    })
}
