//! What is measured: stages that are run together, what they read, and the values that their slots stand for.

use crate::stages;
use crate::stages::BUFFER_SIZE;
use crate::stages::KINDS;
use crate::stages::Kind;
use crate::stages::LOW_PASS_2;
use crate::stages::Stage;
use crate::stages::WAVEGUIDE;

pub const WINDOWS: [usize; 3] = [64, 512, 4_096];
pub const INTERNAL: usize = 16;
pub const EXTERNAL: usize = 8;

/// How loud the noise is that stages read. A quiet string stays where its soft clip is linear. A loud one is bent at samples that
/// no processor foresees, on both sides.
pub const QUIET: f64 = 0.05;
const LOUD: f64 = 1.0;

/// The lowest string of a guitar.
const LOWEST: f64 = 82.4;

pub struct Case {
    pub name: String,
    pub stages: Vec<Stage>,
    pub magnitude: f64,
    /// Whether the strings have died away, and silence is read.
    pub faded: bool,
    pub values: Vec<f64>,
}

impl Case {
    pub fn new(name: impl Into<String>, stages: Vec<Stage>, magnitude: f64) -> Self {
        Self { name: name.into(), stages, magnitude, faded: false, values: stages::values(LOWEST) }
    }

    /// No stage at all.
    pub fn empty() -> Self {
        Self::new("empty order", Vec::new(), QUIET)
    }

    /// The outputs of all stages, by which a run's time is divided: what a stage with two takes compares with two of one.
    pub fn outputs(&self) -> usize {
        self.stages.iter().map(|stage| stage.kind.outputs()).sum()
    }
}

/// The k-th stage: from an external buffer into an internal one, or into two. There are 16 of the latter: the seventeenth stage adds
/// to what the first has stored.
fn stage(kind: Kind, k: usize) -> Stage {
    let inputs = [k, k + 1].map(|place| 2 * (place % EXTERNAL) + 1);
    let outputs = [k, k + 8].map(|place| 2 * (place % INTERNAL));
    Stage { kind, k, buffer_size: BUFFER_SIZE, inputs, outputs }
}

/// So many stages of a kind.
pub fn several(kind: Kind, count: usize) -> Vec<Stage> {
    (0..count).map(|k| stage(kind, k)).collect()
}

/// A stage of each kind.
pub fn one_of_each() -> Vec<Stage> {
    KINDS.iter().enumerate().map(|(k, kind)| stage(*kind, k)).collect()
}

/// Eight waveguides, and a LowPass2 after each.
pub fn strings() -> Vec<Stage> {
    let after = |stage: Stage| Stage { inputs: [2 * stage.k, 0], outputs: [2 * (8 + stage.k), 0], ..stage };
    several(WAVEGUIDE, 8).into_iter().chain(several(LOW_PASS_2, 8).into_iter().map(after)).collect()
}

/// Cases that stand in one table, with its title, what they are, and by how much longer than others a figure of it is measured.
pub struct Table {
    pub title: &'static str,
    pub first: &'static str,
    pub cases: Vec<Case>,
    pub longer: u32,
}

/// The patch.
pub fn patches() -> Table {
    let [quiet, loud] =
        [("quiet strings", QUIET), ("loud strings", LOUD)].map(|(name, at)| Case::new(name, strings(), at));
    let faded = Case { faded: true, ..Case::new("strings that died away", strings(), QUIET) };
    Table {
        title: "Eight waveguides and eight LowPass2 (ns per sample and stage)",
        first: "patch",
        cases: vec![quiet, loud, faded],
        longer: 4,
    }
}

/// Eight of each kind.
pub fn kinds() -> Table {
    let mut cases: Vec<Case> = KINDS.iter().map(|kind| Case::new(kind.name, several(*kind, 8), QUIET)).collect();
    cases.insert(1, Case::new("Waveguide, loud", several(WAVEGUIDE, 8), LOUD));
    let title = "Each kind by itself, eight stages in a run (ns per sample and output)";
    Table { title, first: "kind", cases, longer: 1 }
}
