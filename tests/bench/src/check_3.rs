//! Check 3 by itself, and runs of an empty window, which are little but checks: that two engines answer alike, and how long each
//! takes. A door to check 3 is made by `before-and-after`, since the library does not export it.

use std::cell::RefCell;
use std::hint::black_box;
use std::time::Duration;

use crate::cases::Case;
use crate::cases::QUIET;
use crate::cases::several;
use crate::pair;
use crate::records::Functions;
use crate::run;
use crate::sides::Engine;
use crate::stages::PASS;
use crate::time;

unsafe extern "C" {
    fn before_check_3(order: *const u8, order_len: usize, count: usize) -> bool;
    fn after_check_3(order: *const u8, order_len: usize, count: usize) -> bool;
}

type Check = unsafe extern "C" fn(*const u8, usize, usize) -> bool;

const CHECKS: [Check; 2] = [before_check_3, after_check_3];

/// Check 3 of an order over 32 stages.
fn passes(check: Check, order: &[u8]) -> bool {
    unsafe { check(order.as_ptr(), order.len(), 32) }
}

/// An order, and whether check 3 passes it.
struct Order {
    name: String,
    order: Vec<u8>,
    passes: bool,
}

/// The first `length` stages in sequence.
fn sequence(length: u8) -> Order {
    Order { name: length.to_string(), order: (0..length).collect(), passes: length <= 32 }
}

/// The same with another number at a place.
fn changed(length: u8, what: &str, place: usize, number: u8) -> Order {
    let mut case = sequence(length);
    case.order[place] = number;
    Order { name: format!("{length}, {what}"), passes: false, ..case }
}

fn orders() -> Vec<Order> {
    let at_the_end = |length: u8| {
        let last = usize::from(length) - 1;
        [
            changed(length, "the last two the same", last, length - 2),
            changed(length, "the last as the first", last, 0),
            changed(length, "the last not there", last, 255),
        ]
    };
    let whole = [0, 1, 8, 16, 32].map(sequence).into_iter();
    let at_once = [changed(32, "the first two the same", 1, 0), sequence(33)];
    whole.chain([8, 32].into_iter().flat_map(at_the_end)).chain(at_once).collect()
}

impl Order {
    /// A run of an empty window over 32 stages that pass a buffer on.
    fn engine(&self, functions: &'static Functions) -> Engine {
        let mut engine = Engine::new(functions, &Case::new("", several(PASS, 32), QUIET), 0);
        engine.order = self.order.clone();
        engine
    }

    fn compare(&self, engines: [&'static Functions; 2]) {
        let Self { name, order, .. } = self;
        assert_eq!(CHECKS.map(|check| passes(check, order)), [self.passes; 2], "check 3 of {name}");
        let answers = engines.map(|functions| self.engine(functions).run());
        let [before, after] = answers.map(|answer| (answer.number, answer.stage, answer.activity));
        assert_eq!(before, after, "the run of {name}");
        assert_eq!(after.0, if self.passes { 0 } else { 3 }, "the run of {name}");
    }

    fn measure(&self, engines: [&'static Functions; 2], budget: Duration) {
        let order = &self.order;
        let [mut before, mut after] = CHECKS.map(|check| move || _ = black_box(passes(check, black_box(order))));
        let [before, after] = time::fastest(budget, [&mut before, &mut after]);
        print!("| {} | {before:.1} | {after:.1} | **{:.2}** |", self.name, after / before);
        pair(&RefCell::new(self.engine(engines[0])), run, budget);
        println!();
    }
}

pub fn table(engines: [&'static Functions; 2], budget: Duration) {
    let orders = orders();
    orders.iter().for_each(|order| order.compare(engines));
    println!("\n## Check 3, and a run of an empty window over 32 stages, capacity 0 (ns)\n");
    println!("| numbers in the order | check 3: before | after | ratio | run: before | after | ratio |");
    println!("|---|---|---|---|---|---|---|");
    orders.iter().for_each(|order| order.measure(engines, budget));
}
