//! One description of a stage, from which both sides make theirs. Every parameter is a slot of the lent values, so that no number
//! is known to a compiler.

use magnetron::automation::Automatable;
use magnetron::automation::Automated;
use magnetron::automation::AutomationFactory;
use magnetron::automation::CreationInfo;
use magnetron::automation::QueryInfo;
use magnetron::buffer::BufferIndex;
use microwave::magnetron::GeneratorType;
use microwave::magnetron::MergeProcessorType;
use microwave::magnetron::ProcessorType;
use microwave::magnetron::filter::FilterSpec;
use microwave::magnetron::filter::FilterType;
use microwave::magnetron::oscillator::ModOscillatorSpec;
use microwave::magnetron::oscillator::Modulation;
use microwave::magnetron::oscillator::OscillatorSpec;
use microwave::magnetron::oscillator::OscillatorType;
use microwave::magnetron::waveguide::Reflectance;
use microwave::magnetron::waveguide::WaveguideSpec;

use crate::records::FlatParameter;
use crate::records::FlatStage;

pub type RustStage = magnetron::stage::Stage<Slot>;

#[derive(Clone)]
pub struct Slot(usize);

impl CreationInfo for Slot {
    type Context = ();
}

impl QueryInfo for Slot {
    type Context<'a> = &'a [f64];
}

impl Automatable<Slot> for Slot {
    type Output = Self;

    fn create(&self, _factory: &mut AutomationFactory<Slot>) -> Self {
        self.clone()
    }
}

impl Automated<Slot> for Slot {
    type Output<'a> = f64;

    fn query(&mut self, _render_window_secs: f64, values: &[f64]) -> f64 {
        values[self.0]
    }
}

/// Sample width in seconds.
pub const WIDTH: f64 = 1.0 / 44_100.0;

/// Slots of a ring are one more.
pub const BUFFER_SIZE: usize = 1_023;

/// So many of a kind have a frequency of their own.
const FREQUENCIES: usize = 8;

const LEVEL: usize = 0;
const CUTOFF: usize = 1;
const FEEDBACK: usize = 2;
const RESONANCE: usize = 3;
const QUALITY: usize = 4;
const PHASE: usize = 5;
const LIMIT: usize = 6;
const RIGHT_LEVEL: usize = 7;
const LEFT_GAIN: usize = 8;
const RIGHT_GAIN: usize = 9;
/// The first of the frequencies.
const FREQUENCY: usize = 10;

/// The lent values, by slot, with frequencies from the lowest up in major thirds.
pub fn values(lowest: f64) -> Vec<f64> {
    let mut values = vec![0.7, 5_000.0, 0.98, 1_500.0, 2.0, 0.25, 0.5, 0.9, 0.8, 0.6];
    values.extend((0..FREQUENCIES as i32).map(|k| lowest * 1.26_f64.powi(k)));
    values
}

/// A kind by its number in `crates/flat`, with its choices.
#[derive(Clone, Copy)]
pub struct Kind {
    pub name: &'static str,
    pub number: usize,
    pub choice: usize,
    pub modulation: usize,
    /// The slots of its parameters behind the first level; `FREQUENCY` stands for the stage's own.
    slots: &'static [usize],
}

impl Kind {
    pub fn outputs(&self) -> usize {
        if self.number == TWO_OUTPUTS { 2 } else { 1 }
    }
}

const fn kind(name: &'static str, number: usize, choice: usize, modulation: usize, slots: &'static [usize]) -> Kind {
    Kind { name, number, choice, modulation, slots }
}

pub const WAVEGUIDE: Kind = kind("Waveguide", 12, 0, 0, &[FREQUENCY, CUTOFF, FEEDBACK]);
pub const LOW_PASS_2: Kind = kind("LowPass2", 4, 0, 0, &[RESONANCE, QUALITY]);
pub const PASS: Kind = kind("Pass", 0, 0, 0, &[]);
pub const PAN: Kind = kind("Pan", TWO_OUTPUTS, 0, 0, &[RIGHT_LEVEL, LEFT_GAIN, RIGHT_GAIN]);

const TWO_OUTPUTS: usize = 14;

pub const KINDS: [Kind; 29] = [
    WAVEGUIDE,
    kind("Waveguide Negative", 12, 1, 0, &[FREQUENCY, CUTOFF, FEEDBACK]),
    LOW_PASS_2,
    kind("HighPass2", 6, 0, 0, &[RESONANCE, QUALITY]),
    kind("BandPass", 7, 0, 0, &[RESONANCE, QUALITY]),
    kind("Notch", 8, 0, 0, &[RESONANCE, QUALITY]),
    kind("AllPass", 9, 0, 0, &[RESONANCE, QUALITY]),
    kind("LowPass", 3, 0, 0, &[CUTOFF]),
    kind("HighPass", 5, 0, 0, &[CUTOFF]),
    kind("Sin", 10, 0, 0, &[FREQUENCY, PHASE]),
    kind("Sin3", 10, 1, 0, &[FREQUENCY, PHASE]),
    kind("Triangle", 10, 2, 0, &[FREQUENCY, PHASE]),
    kind("Square", 10, 3, 0, &[FREQUENCY, PHASE]),
    kind("Sawtooth", 10, 4, 0, &[FREQUENCY, PHASE]),
    kind("Sin ByPhase", 11, 0, 0, &[FREQUENCY, PHASE]),
    kind("Sin3 ByPhase", 11, 1, 0, &[FREQUENCY, PHASE]),
    kind("Triangle ByPhase", 11, 2, 0, &[FREQUENCY, PHASE]),
    kind("Square ByPhase", 11, 3, 0, &[FREQUENCY, PHASE]),
    kind("Sawtooth ByPhase", 11, 4, 0, &[FREQUENCY, PHASE]),
    kind("Sin ByFrequency", 11, 0, 1, &[FREQUENCY, PHASE]),
    kind("Sin3 ByFrequency", 11, 1, 1, &[FREQUENCY, PHASE]),
    kind("Triangle ByFrequency", 11, 2, 1, &[FREQUENCY, PHASE]),
    kind("Square ByFrequency", 11, 3, 1, &[FREQUENCY, PHASE]),
    kind("Sawtooth ByFrequency", 11, 4, 1, &[FREQUENCY, PHASE]),
    PASS,
    kind("Pow3", 1, 0, 0, &[]),
    kind("Clip", 2, 0, 0, &[LIMIT]),
    kind("RingModulator", 13, 0, 0, &[]),
    PAN,
];

/// A stage that is the k-th of its kind. A buffer is twice its index, plus one if external.
pub struct Stage {
    pub kind: Kind,
    pub k: usize,
    pub buffer_size: usize,
    pub inputs: [usize; 2],
    pub outputs: [usize; 2],
}

impl Stage {
    fn slot(&self, parameter: usize) -> Slot {
        let slot = self.kind.slots[parameter];
        Slot(if slot == FREQUENCY { FREQUENCY + self.k % FREQUENCIES } else { slot })
    }

    pub fn flat(&self) -> FlatStage {
        let parameter = |number: usize| match self.kind.slots.get(number) {
            Some(_) => FlatParameter { mark: 2, slot: self.slot(number).0, number: 0.0 },
            None => FlatParameter::default(),
        };
        FlatStage {
            kind: self.kind.number,
            choice: self.kind.choice,
            modulation: self.kind.modulation,
            buffer_size: self.buffer_size,
            first_input: self.inputs[0],
            second_input: self.inputs[1],
            output: self.outputs[0],
            second_output: self.outputs[1],
            out_level: FlatParameter { mark: 2, slot: LEVEL, number: 0.0 },
            first: parameter(0),
            second: parameter(1),
            third: parameter(2),
        }
    }

    pub fn rust(&self) -> RustStage {
        let factory = &mut AutomationFactory::new(());
        let [first, second] = self.inputs.map(buffer);
        let (output, level) = (buffer(self.outputs[0]), Some(&Slot(LEVEL)));
        match self.kind.number {
            10 => GeneratorType::Oscillator(self.oscillator()).create(factory, output, level),
            13 => MergeProcessorType::RingModulator.create(factory, (first, second), output, level),
            TWO_OUTPUTS => self.pan(factory),
            _ => self.processor().create(factory, first, output, level),
        }
    }

    /// The Rust has no such stage, but it has the rule by which one writes.
    fn pan(&self, factory: &mut AutomationFactory<Slot>) -> RustStage {
        let (input, [left, right]) = (buffer(self.inputs[0]), self.outputs.map(buffer));
        let parameters = (Some((Slot(LEVEL), self.slot(0))), self.slot(1), self.slot(2));
        factory.automate(parameters).into_stage(move |buffers, (levels, left_gain, right_gain)| {
            buffers.read_1_write_2(input, (left, right), levels, |s| (s * left_gain, s * right_gain))
        })
    }

    fn oscillator(&self) -> OscillatorSpec<Slot> {
        use OscillatorType::*;
        let oscillator_type = [Sin, Sin3, Triangle, Square, Sawtooth][self.kind.choice].clone();
        OscillatorSpec { oscillator_type, frequency: self.slot(0), phase: Some(self.slot(1)) }
    }

    fn processor(&self) -> ProcessorType<Slot> {
        match self.kind.number {
            0 => ProcessorType::Pass,
            1 => ProcessorType::Pow3,
            2 => ProcessorType::Clip { limit: self.slot(0) },
            11 => ProcessorType::Oscillator(ModOscillatorSpec {
                spec: self.oscillator(),
                modulation: [Modulation::ByPhase, Modulation::ByFrequency][self.kind.modulation],
            }),
            12 => ProcessorType::Waveguide(WaveguideSpec {
                buffer_size: self.buffer_size,
                frequency: self.slot(0),
                cutoff: self.slot(1),
                feedback: self.slot(2),
                reflectance: [Reflectance::Positive, Reflectance::Negative][self.kind.choice].clone(),
            }),
            _ => ProcessorType::Filter(FilterSpec { filter_type: self.filter() }),
        }
    }

    fn filter(&self) -> FilterType<Slot> {
        let (first, second) = (self.slot(0), || self.slot(1));
        match self.kind.number {
            3 => FilterType::LowPass { cutoff: first },
            4 => FilterType::LowPass2 { resonance: first, quality: second() },
            5 => FilterType::HighPass { cutoff: first },
            6 => FilterType::HighPass2 { resonance: first, quality: second() },
            7 => FilterType::BandPass { center: first, quality: second() },
            8 => FilterType::Notch { center: first, quality: second() },
            _ => FilterType::AllPass { corner: first, quality: second() },
        }
    }
}

fn buffer(number: usize) -> BufferIndex {
    if number % 2 == 0 { BufferIndex::Internal(number / 2) } else { BufferIndex::External(number / 2) }
}
