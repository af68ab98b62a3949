//! The fifteen kinds of stages and their choices.

use microwave::magnetron::oscillator::Modulation;
use microwave::magnetron::oscillator::OscillatorType;
use microwave::magnetron::waveguide::Reflectance;

use crate::values::Role;
use crate::words::Pass;
use crate::words::Passed;
use crate::words::Tape;

#[derive(Clone, Debug, Default)]
pub enum Kind {
    #[default]
    Pass,
    Pow3,
    Clip,
    LowPass,
    LowPass2,
    HighPass,
    HighPass2,
    BandPass,
    Notch,
    AllPass,
    Oscillator(OscillatorType),
    ModulatedOscillator(OscillatorType, Modulation),
    Waveguide(Reflectance, u64),
    RingModulator,
    Pan,
}

pub const KINDS: [Kind; 15] = [
    Kind::Pass,
    Kind::Pow3,
    Kind::Clip,
    Kind::LowPass,
    Kind::LowPass2,
    Kind::HighPass,
    Kind::HighPass2,
    Kind::BandPass,
    Kind::Notch,
    Kind::AllPass,
    Kind::Oscillator(OscillatorType::Sin),
    Kind::ModulatedOscillator(OscillatorType::Sin, Modulation::ByPhase),
    Kind::Waveguide(Reflectance::Positive, 0),
    Kind::RingModulator,
    Kind::Pan,
];

pub const WAVEFORMS: [OscillatorType; 5] = [
    OscillatorType::Sin,
    OscillatorType::Sin3,
    OscillatorType::Triangle,
    OscillatorType::Square,
    OscillatorType::Sawtooth,
];

pub const MODULATIONS: [Modulation; 2] = [Modulation::ByPhase, Modulation::ByFrequency];

pub const REFLECTANCES: [Reflectance; 2] = [Reflectance::Positive, Reflectance::Negative];

/// Each kind with each of its choices.
pub fn all() -> Vec<Kind> {
    let each = |kind: &Kind| match kind {
        Kind::Oscillator(_) => WAVEFORMS.map(Kind::Oscillator).to_vec(),
        Kind::ModulatedOscillator(..) => MODULATIONS
            .iter()
            .flat_map(|&modulation| WAVEFORMS.map(|waveform| Kind::ModulatedOscillator(waveform, modulation)))
            .collect(),
        Kind::Waveguide(..) => REFLECTANCES.map(|reflectance| Kind::Waveguide(reflectance, 0)).to_vec(),
        kind => vec![kind.clone()],
    };
    KINDS.iter().flat_map(each).collect()
}

impl Pass for Kind {
    fn pass(&mut self, tape: &mut dyn Tape) -> Passed {
        tape.variant(self, &KINDS)?;
        match self {
            Kind::Oscillator(waveform) => tape.variant(waveform, &WAVEFORMS),
            Kind::ModulatedOscillator(waveform, modulation) => {
                tape.variant(waveform, &WAVEFORMS)?;
                tape.variant(modulation, &MODULATIONS)
            }
            Kind::Waveguide(reflectance, buffer_size) => {
                tape.variant(reflectance, &REFLECTANCES)?;
                tape.word(buffer_size)
            }
            _ => Ok(()),
        }
    }
}

impl Kind {
    /// How many there are to choose from, for each of its choices.
    pub fn choices(&self) -> &'static [usize] {
        match self {
            Kind::Oscillator(_) => const { &[WAVEFORMS.len()] },
            Kind::ModulatedOscillator(..) => const { &[WAVEFORMS.len(), MODULATIONS.len()] },
            Kind::Waveguide(..) => const { &[REFLECTANCES.len()] },
            _ => &[],
        }
    }

    /// How many buffers it reads.
    pub fn inputs(&self) -> usize {
        match self {
            Kind::Oscillator(_) => 0,
            Kind::RingModulator => 2,
            _ => 1,
        }
    }

    /// How many buffers it writes: Pan left and right.
    pub fn outputs(&self) -> usize {
        match self {
            Kind::Pan => 2,
            _ => 1,
        }
    }

    /// What its parameters are, in their order.
    pub fn roles(&self) -> &'static [Role] {
        use Role::*;
        match self {
            Kind::Pass | Kind::Pow3 | Kind::RingModulator => &[OutLevel],
            Kind::Clip => &[OutLevel, Limit],
            Kind::LowPass | Kind::HighPass => &[OutLevel, Cutoff],
            Kind::LowPass2 | Kind::HighPass2 | Kind::BandPass | Kind::Notch | Kind::AllPass => {
                &[OutLevel, Resonance, Quality]
            }
            Kind::Oscillator(_) | Kind::ModulatedOscillator(..) => &[OutLevel, Frequency, Phase],
            Kind::Waveguide(..) => &[OutLevel, StringFrequency, Cutoff, Feedback],
            Kind::Pan => &[LeftLevel, RightLevel, LeftGain, RightGain],
        }
    }

    pub fn buffer_size(&self) -> Option<u64> {
        match *self {
            Kind::Waveguide(_, buffer_size) => Some(buffer_size),
            _ => None,
        }
    }

    /// The kind without its choices.
    pub fn family(&self) -> &'static str {
        match self {
            Kind::Oscillator(_) => "oscillator",
            Kind::ModulatedOscillator(..) => "modulated oscillator",
            Kind::Waveguide(..) => "Waveguide",
            _ => self.name(),
        }
    }

    /// The kind with its choices.
    pub fn name(&self) -> &'static str {
        match self {
            Kind::Pass => "Pass",
            Kind::Pow3 => "Pow3",
            Kind::Clip => "Clip",
            Kind::LowPass => "LowPass",
            Kind::LowPass2 => "LowPass2",
            Kind::HighPass => "HighPass",
            Kind::HighPass2 => "HighPass2",
            Kind::BandPass => "BandPass",
            Kind::Notch => "Notch",
            Kind::AllPass => "AllPass",
            Kind::Oscillator(waveform) => PLAIN[waveform.clone() as usize],
            Kind::ModulatedOscillator(waveform, Modulation::ByPhase) => BY_PHASE[waveform.clone() as usize],
            Kind::ModulatedOscillator(waveform, Modulation::ByFrequency) => BY_FREQUENCY[waveform.clone() as usize],
            Kind::Waveguide(Reflectance::Positive, _) => "Waveguide Positive",
            Kind::Waveguide(Reflectance::Negative, _) => "Waveguide Negative",
            Kind::RingModulator => "RingModulator",
            Kind::Pan => "Pan",
        }
    }
}

const PLAIN: [&str; 5] = ["Sin", "Sin3", "Triangle", "Square", "Sawtooth"];
const BY_PHASE: [&str; 5] = ["Sin ByPhase", "Sin3 ByPhase", "Triangle ByPhase", "Square ByPhase", "Sawtooth ByPhase"];
const BY_FREQUENCY: [&str; 5] =
    ["Sin ByFrequency", "Sin3 ByFrequency", "Triangle ByFrequency", "Square ByFrequency", "Sawtooth ByFrequency"];
