//! A patch of one stage, of each kind, wired to any buffers, those that are there and those that are not, with every way to
//! mark the buffers.

use super::Group;
use super::all_marks;
use super::each_kind;
use super::external;
use super::good_pools;
use super::internal;
use super::lent;
use super::stage;
use super::window;
use crate::pools::Buffer;

pub fn groups() -> impl Iterator<Item = Group> {
    let pools = (0..9).flat_map(|size| all_marks(good_pools([size / 3, size % 3], [2, 2])));
    pools.enumerate().flat_map(|(turn, pools)| {
        let stages = each_kind(turn)
            .into_iter()
            .flat_map(|kind| wirings(kind.outputs() + kind.inputs()).map(move |wiring| (kind.clone(), wiring)));
        stages.map(move |(kind, wiring)| Group {
            lent: lent(pools.clone(), vec![stage(&kind, &wiring[kind.outputs()..], &wiring)]),
            windows: (0..3).map(|n| window(false, n, &[0])).collect(),
        })
    })
}

/// Every choice of so many outputs and inputs, among three internal and three external buffers.
pub fn wirings(count: usize) -> impl Iterator<Item = [Buffer; 3]> {
    const BUFFERS: usize = 6;
    let named = |place: usize| if place < 3 { internal(place as u64) } else { external(place as u64 - 3) };
    let choices = BUFFERS.pow(count as u32);
    (0..choices).map(move |choice| [1, BUFFERS, BUFFERS * BUFFERS].map(|step| named(choice / step % BUFFERS)))
}
