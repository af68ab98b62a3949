//! What a run meets: each ordered stage with the window, its parameters, its inputs and its outputs.

use super::Session;
use super::Stage;
use super::Window;
use super::kind;
use super::kind::Kind;
use super::parameter::Parameter;
use crate::edges;
use crate::edges::EDGES;
use crate::pools::Buffer;
use crate::pools::Marks;
use crate::pools::Pools;
use crate::reach;
use crate::reach::Reaches;
use crate::refusals::Refusal;
use crate::refusals::Verdict;
use crate::tally::Tally;

/// The circumstances of a stage, as the columns of a table: window, beginning, parameters, inputs, outputs, width.
pub const CIRCUMSTANCES: [&str; 21] = [
    "n=0", "n=1", "n<c-1", "n=c-1", "n=c", "prep", "kept", "absent", "fixed", "slot", "secs", "edge", "stale", "old",
    "new", "in.ext", "store", "add", "o.ext", "in=out", "odd w",
];

/// Those of the window, and those of a parameter, which are crossed. A window may be of two classes at once, and a
/// parameter is at an edge besides.
pub const WINDOWS: &[&str] = CIRCUMSTANCES.split_at(5).0;
pub const PARAMETERS: &[&str] = CIRCUMSTANCES.split_at(7).1.split_at(5).0;

const REFUSALS: [&str; 9] = ["", "1", "2", "3", "4", "5", "6", "7", "8"];

/// Pan's outputs: how left and right are written, by whether they are stale; where they lie, by whether they are external; and
/// which of them is the input.
const WRITTEN: [[&str; 2]; 2] = [["add, add", "add, store"], ["store, add", "store, store"]];
const POOLS: [[&str; 2]; 2] =
    [["internal, internal", "internal, external"], ["external, internal", "external, external"]];
const HEARD: [&str; 3] = ["neither", "left", "right"];

/// Every way in which these meet where a window with samples is accepted: an output that is the input is then stale.
fn pairs() -> impl Iterator<Item = [&'static str; 4]> {
    let lying = POOLS.as_flattened().iter().flat_map(|pools| HEARD.map(|heard| (pools, heard)));
    let all = lying
        .flat_map(|(pools, heard)| WRITTEN.into_iter().flatten().map(move |written| ["Pan", written, pools, heard]));
    all.filter(|[_, written, _, heard]| match *heard {
        "left" => written.starts_with("store"),
        "right" => written.ends_with("store"),
        _ => true,
    })
}

/// How many ways there are, and how often the rarest was met.
pub fn rarest_pair(tally: &Tally) -> (usize, u64) {
    let met = pairs().map(|pair| tally.crossed.get(&pair).copied().unwrap_or_default());
    (pairs().count(), met.min().unwrap_or_default())
}

/// Strings that tell what they reach, and whether one's place in the order is its number.
const REACH: &str = "reach of strings";
const PLACES: [&str; 2] = ["elsewhere", "in its place"];

/// How many ways there are for such a string, by its reflectance, by where its quotient stands and by its place; and how often
/// the rarest was met.
pub fn rarest_string(tally: &Tally) -> (usize, u64) {
    let names = kind::REFLECTANCES.map(|reflectance| Kind::Waveguide(reflectance, 0).name());
    let edges = names.into_iter().flat_map(|name| EDGES.map(|edge| (name, edge)));
    let ways = edges.flat_map(|(name, edge)| PLACES.map(|place| [REACH, name, edge, place]));
    let met: Vec<_> = ways.map(|way| tally.crossed.get(&way).copied().unwrap_or_default()).collect();
    (met.len(), met.into_iter().min().unwrap_or_default())
}

/// What a window meets that tells what its strings reach.
pub fn meet_reaches(session: &Session, window: &Window, verdict: Verdict, reaches: &Reaches, tally: &mut Tally) {
    for (number, stage) in (0..).zip(&session.stages).filter(|(_, stage)| stage.kind.buffer_size().is_some()) {
        let place = window.order.iter().position(|&ordered| ordered == number);
        let met = match (place, reach::quotient(stage, window)) {
            _ if verdict.is_err() => "refused",
            (None, _) => "not ordered",
            _ if window.n == 0 => "empty window",
            (Some(place), Some(quotient)) => {
                let edge = edges::edge(quotient);
                tally.cross([REACH, stage.kind.name(), edge, PLACES[usize::from(place as u64 == number)]]);
                edge
            }
            (_, None) => unreachable!("an accepted string has its parameters"),
        };
        tally.meet(REACH, met);
        tally.reach(reaches[number as usize]);
    }
}

/// Orders by their length, in eights.
const ORDERS: [&str; 5] = ["00", "01 to 08", "09 to 16", "17 to 24", "25 to 32"];

pub fn meet_refusal(thing: &'static str, refusal: Refusal, tally: &mut Tally) {
    tally.meet(thing, REFUSALS[refusal.number as usize]);
}

pub fn meet_run(session: &Session, pools: &Pools, window: &Window, tally: &mut Tally) {
    let mut turn = Turn { window, capacity: pools.internal.capacity, marks: pools.marks.clone(), written: Vec::new() };
    for &number in &window.order {
        let stage = &session.stages[number as usize];
        turn.meet(stage, tally);
        tally.rendered += window.n * stage.outputs.len() as u64;
    }
    tally.meet("orders", ORDERS[window.order.len().div_ceil(8)]);
}

/// What stands before a stage of the order.
struct Turn<'w> {
    window: &'w Window,
    capacity: u64,
    marks: Marks,
    /// The outputs of the stages before it.
    written: Vec<Buffer>,
}

impl Turn<'_> {
    fn meet(&mut self, stage: &Stage, tally: &mut Tally) {
        let (name, window) = (stage.kind.name(), self.window);
        let sizes = window_classes(window.n, self.capacity);
        for (parameter, role) in stage.parameters.iter().zip(stage.kind.roles()) {
            for class in parameter_classes(parameter, &window.values) {
                tally.meet(name, class);
                sizes.iter().for_each(|size| tally.cross([stage.kind.family(), role.name(), size, class]));
            }
        }
        for &input in &stage.inputs {
            tally.meet(name, self.input_class(input));
        }
        let others = [
            (window.prepare, "prep"),
            (!window.prepare, "kept"),
            (stage.inputs.iter().any(|input| input.external), "in.ext"),
            (!(window.width.is_normal() && window.width > 0.0), "odd w"),
        ];
        let outputs = stage.outputs.iter().flat_map(|&output| self.output_classes(output, &stage.inputs));
        let others = others.into_iter().chain(outputs).filter_map(|(met, class)| met.then_some(class));
        sizes.into_iter().chain(others).for_each(|class| tally.meet(name, class));
        if let [left, right] = stage.outputs[..]
            && window.n > 0
        {
            tally.cross(self.pair(stage.inputs[0], [left, right]));
        }
        for &output in &stage.outputs {
            self.marks.set(output, false);
            self.written.push(output);
        }
    }

    fn output_classes(&self, output: Buffer, inputs: &[Buffer]) -> [(bool, &'static str); 4] {
        let stale = self.marks.stale(output);
        [(stale, "store"), (!stale, "add"), (output.external, "o.ext"), (inputs.contains(&output), "in=out")]
    }

    /// One of `pairs`.
    fn pair(&self, input: Buffer, outputs: [Buffer; 2]) -> [&'static str; 4] {
        let stale = outputs.map(|output| usize::from(self.marks.stale(output)));
        let external = outputs.map(|output| usize::from(output.external));
        let heard = outputs.iter().position(|output| *output == input).map_or(0, |place| 1 + place);
        ["Pan", WRITTEN[stale[0]][stale[1]], POOLS[external[0]][external[1]], HEARD[heard]]
    }

    /// An input is stale, or holds what came before the window, or what this order has written.
    fn input_class(&self, input: Buffer) -> &'static str {
        match self.marks.stale(input) {
            true => "stale",
            false if self.written.contains(&input) => "new",
            false => "old",
        }
    }
}

/// A window may stand at two ends at once.
fn window_classes(n: u64, capacity: u64) -> Vec<&'static str> {
    let ends = [(n == 0, "n=0"), (n == 1, "n=1"), (n + 1 == capacity, "n=c-1"), (n == capacity, "n=c")];
    let mut classes: Vec<_> = ends.into_iter().filter_map(|(met, class)| met.then_some(class)).collect();
    if classes.is_empty() {
        classes.push("n<c-1");
    }
    classes
}

/// How a parameter is given, and whether its number is at an edge: zero, next to it, huge, or none.
fn parameter_classes(parameter: &Parameter, values: &[f64]) -> Vec<&'static str> {
    let edge = |number: f64| !(1e-30..1e30).contains(&number.abs());
    let (class, edge) = match *parameter {
        Parameter::Absent => ("absent", false),
        Parameter::Fixed(number) => ("fixed", edge(number)),
        Parameter::Slot(slot) => ("slot", edge(values[slot as usize])),
        Parameter::WindowSeconds => ("secs", false),
    };
    if edge { vec![class, "edge"] } else { vec![class] }
}
