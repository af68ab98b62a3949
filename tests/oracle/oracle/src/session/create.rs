//! A stage made by the Rust's own create functions, which take outputs of both kinds. It has none for Pan, which is made in
//! their manner.

use magnetron::automation::Automated;
use magnetron::automation::AutomationFactory;
use microwave::magnetron::GeneratorType;
use microwave::magnetron::MergeProcessorType;
use microwave::magnetron::ProcessorType;
use microwave::magnetron::filter::FilterSpec;
use microwave::magnetron::filter::FilterType;
use microwave::magnetron::oscillator::ModOscillatorSpec;
use microwave::magnetron::oscillator::OscillatorSpec;
use microwave::magnetron::oscillator::OscillatorType;
use microwave::magnetron::waveguide::WaveguideSpec;

use super::Stage;
use super::kind::Kind;
use super::parameter::Parameter;

type RustStage = magnetron::stage::Stage<Parameter>;

impl Stage {
    /// The Rust's stage in its new state; nothing where a required parameter is absent.
    pub fn create(&self) -> Option<RustStage> {
        let factory = &mut AutomationFactory::new(());
        if let Kind::Pan = self.kind {
            return self.pan(factory);
        }
        let (output, level) = (self.outputs[0].into(), self.parameters[0].given());
        if let Kind::Oscillator(waveform) = &self.kind {
            let generator = GeneratorType::Oscillator(self.oscillator(waveform)?);
            return Some(generator.create(factory, output, level));
        }
        if let Kind::RingModulator = self.kind {
            let inputs = (self.inputs[0].into(), self.inputs[1].into());
            return Some(MergeProcessorType::RingModulator.create(factory, inputs, output, level));
        }
        Some(self.processor()?.create(factory, self.inputs[0].into(), output, level))
    }

    /// The Rust's `read_1_write_2`. Its levels are a pair or nothing: it has no pair of which just one is absent.
    fn pan(&self, factory: &mut AutomationFactory<Parameter>) -> Option<RustStage> {
        let (input, outputs) = (self.inputs[0].into(), (self.outputs[0].into(), self.outputs[1].into()));
        let out_levels = self.required(0).zip(self.required(1));
        let gains = (self.required(2)?, self.required(3)?);
        let automated = factory.automate((out_levels, gains));
        Some(automated.into_stage(move |buffers, (out_levels, (left, right))| {
            buffers.read_1_write_2(input, outputs, out_levels, |s| (s * left, s * right))
        }))
    }

    fn required(&self, number: usize) -> Option<Parameter> {
        self.parameters[number].given().cloned()
    }

    fn oscillator(&self, waveform: &OscillatorType) -> Option<OscillatorSpec<Parameter>> {
        Some(OscillatorSpec {
            oscillator_type: waveform.clone(),
            frequency: self.required(1)?,
            phase: self.required(2),
        })
    }

    fn processor(&self) -> Option<ProcessorType<Parameter>> {
        Some(match &self.kind {
            Kind::Pass => ProcessorType::Pass,
            Kind::Pow3 => ProcessorType::Pow3,
            Kind::Clip => ProcessorType::Clip { limit: self.required(1)? },
            Kind::ModulatedOscillator(waveform, modulation) => ProcessorType::Oscillator(ModOscillatorSpec {
                spec: self.oscillator(waveform)?,
                modulation: *modulation,
            }),
            Kind::Waveguide(reflectance, buffer_size) => ProcessorType::Waveguide(WaveguideSpec {
                buffer_size: *buffer_size as usize,
                frequency: self.required(1)?,
                cutoff: self.required(2)?,
                feedback: self.required(3)?,
                reflectance: reflectance.clone(),
            }),
            _ => ProcessorType::Filter(FilterSpec { filter_type: self.filter()? }),
        })
    }

    fn filter(&self) -> Option<FilterType<Parameter>> {
        let first = self.required(1)?;
        Some(match self.kind {
            Kind::LowPass => FilterType::LowPass { cutoff: first },
            Kind::HighPass => FilterType::HighPass { cutoff: first },
            Kind::LowPass2 => FilterType::LowPass2 { resonance: first, quality: self.required(2)? },
            Kind::HighPass2 => FilterType::HighPass2 { resonance: first, quality: self.required(2)? },
            Kind::BandPass => FilterType::BandPass { center: first, quality: self.required(2)? },
            Kind::Notch => FilterType::Notch { center: first, quality: self.required(2)? },
            Kind::AllPass => FilterType::AllPass { corner: first, quality: self.required(2)? },
            _ => return None,
        })
    }
}
