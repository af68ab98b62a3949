//! Orders up to length 3: of stages that write what the others read, and of a patch that has each kind once.

use super::Group;
use super::all_marks;
use super::each_kind;
use super::external;
use super::good_pools;
use super::internal;
use super::lent;
use super::stage;
use super::window;
use crate::session::Session;
use crate::session::parameter::Parameter;

pub fn groups() -> impl Iterator<Item = Group> {
    three_stages().chain(each_kind_once())
}

/// Every order of up to three numbers below `stages`.
pub fn orders(stages: u64) -> Vec<Vec<u64>> {
    let mut orders = vec![Vec::new()];
    for start in [0, 1, 1 + stages as usize] {
        for shorter in orders[start..].to_vec() {
            orders.extend((0..stages).map(|number| [&shorter[..], &[number]].concat()));
        }
    }
    orders
}

/// Windows of 0 and 1 samples with each of the orders.
fn with_orders(lent: Session, stages: u64) -> Group {
    let windows =
        [0, 1].into_iter().flat_map(|n| orders(stages).into_iter().map(move |order| window(false, n, &order)));
    Group { lent, windows: windows.collect() }
}

/// Three stages over two buffers, both internal or one of them external, wired in every way and marked in every way. Pan writes
/// both.
fn three_stages() -> impl Iterator<Item = Group> {
    let pools = [[2, 0], [1, 1]].into_iter().flat_map(|counts| all_marks(good_pools(counts, [1, 1])));
    let wired = pools.flat_map(|pools| (0..64usize).map(move |wiring| (pools.clone(), wiring)));
    wired.map(|(pools, wiring)| {
        let second = if pools.external.count > 0 { external(0) } else { internal(1) };
        let buffers = [internal(0), second];
        let kinds = each_kind(wiring).into_iter().cycle().skip(wiring);
        let stages = kinds.take(3).zip([wiring, wiring / 4, wiring / 16]).map(|(kind, wire)| {
            let input = buffers[wire / 2 % 2];
            stage(&kind, &[input; 2], &[buffers[wire % 2], buffers[(wire + 1) % 2]])
        });
        with_orders(lent(pools, stages.collect()), 3)
    })
}

/// One stage of each kind, over two internal and one external buffer, and orders that may name a stage past the last. By turns
/// nothing is missing, some stages name a buffer that isn't there, or some lack a parameter.
fn each_kind_once() -> impl Iterator<Item = Group> {
    let pools = all_marks(good_pools([2, 1], [1, 1])).step_by(3);
    pools.enumerate().map(|(turn, pools)| {
        let buffers = [internal(0), internal(1), external(0)];
        let stages = each_kind(turn).into_iter().enumerate().map(|(number, kind)| {
            let places = [number, number / 3, number + turn, number + turn + 1];
            let [input, other, output, right] = places.map(|place| buffers[place % 3]);
            let mut stage = stage(&kind, &[input, other], &[output, right]);
            match (turn, number % 3) {
                (1, 1) => stage.outputs[0] = external(1),
                (2, 2) => stage.parameters[0] = Parameter::Slot(0),
                _ => (),
            }
            stage
        });
        let stages: Vec<_> = stages.collect();
        let count = stages.len() as u64;
        with_orders(lent(pools, stages), count + 1)
    })
}
