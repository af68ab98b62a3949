//! What the Rust answers to a session, window by window.

use magnetron::stage::StageActivity;

use super::Session;
use super::Setting;
use super::Window;
use super::coverage;
use super::parameter::Parameter;
use crate::answer::Answer;
use crate::answer::Answered;
use crate::answer::Unanswerable;
use crate::laid::Begin;
use crate::laid::Laid;
use crate::panics;
use crate::pools::Buffer;
use crate::pools::Pools;
use crate::reach;
use crate::refusals;
use crate::refusals::Refusal;
use crate::refusals::Verdict;

type RustStage = magnetron::stage::Stage<Parameter>;

/// What stands between windows: the pools, and the Rust's stages, which keep their states and rings to themselves. A stage is
/// made when it is first ordered.
struct Host<'s> {
    session: &'s Session,
    pools: Pools,
    stages: Vec<Option<RustStage>>,
}

impl Session {
    fn host(&self) -> Host<'_> {
        Host { session: self, pools: self.pools.clone(), stages: self.stages.iter().map(|_| None).collect() }
    }

    /// What document 01's table says to a window that is asked for on the session as it is lent.
    pub fn judge(&self, window: &Window) -> Verdict {
        let mut host = self.host();
        host.set(window);
        host.judge(window).map_err(|(_, refusal)| refusal)
    }

    /// Has the Rust run windows on the session as it is lent, one after another in the same buffers of its own, each from new
    /// states, whatever the table says. Tells for each where it panics, if it does, and what then stands in the pools. Slices,
    /// orders and parameters must be such as the Rust can have; the first window's settings and width are those of all.
    pub fn run_unchecked(&self, windows: &[Window]) -> (Vec<Option<String>>, Pools) {
        let mut host = self.host();
        host.set(&windows[0]);
        let mut laid = Laid::new(&host.pools, windows[0].width);
        let places = windows.iter().map(|window| {
            let mut ordered = host.take(&window.order);
            panics::place(|| _ = window.process(&mut laid, &mut ordered))
        });
        let places = places.collect();
        laid.lift(&mut host.pools);
        (places, host.pools)
    }

    pub(super) fn answer_windows(&self, answer: &mut Answer) -> Answered {
        let mut host = self.host();
        for window in &self.windows {
            host.set(window);
            let (verdict, activity) = host.window(window, answer)?;
            answer.verdict(verdict);
            answer.activity(activity);
            host.pools.answer_samples(answer);
            host.pools.answer_marks(answer);
            if self.with_states {
                self.answer_states(answer);
            }
            if self.with_reaches {
                let reaches = reach::of_run(&self.stages, window, verdict);
                coverage::meet_reaches(self, window, verdict, &reaches, &mut answer.tally);
                answer.reaches(&reaches);
            }
        }
        Ok(())
    }

    /// States and rings as they were lent: they are only shown where no window runs a stage.
    fn answer_states(&self, answer: &mut Answer) {
        for state in &self.states {
            answer.samples("states", &state.numbers);
            answer.word(state.position);
        }
        answer.samples("rings", &self.rings);
    }

    /// Whether the Rust can run the session's stages: their states and rings begin at zero there, and stay in closures.
    fn can_be_run(&self) -> Answered {
        let zero = |number: &f64| number.to_bits() == 0;
        let new = self.states.iter().all(|state| state.position == 0 && state.numbers.iter().all(zero));
        match (self.with_states, new && self.rings.iter().all(zero)) {
            (true, _) => Err(Unanswerable("the Rust keeps states and rings to itself")),
            (_, false) => Err(Unanswerable("the Rust's states and rings begin at zero")),
            _ => Ok(()),
        }
    }
}

impl Host<'_> {
    /// What the host does with the external buffers before the window.
    fn set(&mut self, window: &Window) {
        for (index, setting) in window.settings.iter().enumerate() {
            let buffer = Buffer { index: index as u64, external: true };
            match setting {
                Setting::Left => (),
                Setting::Stale => self.pools.marks.set(buffer, true),
                Setting::Stored(samples) => {
                    let start = index * self.pools.external.capacity as usize;
                    self.pools.external.samples[start..][..samples.len()].copy_from_slice(samples);
                    self.pools.marks.set(buffer, false);
                }
            }
        }
    }

    /// Prepare where it is asked for, and the check of the run on what prepare leaves. Where one of them refuses, which.
    fn judge(&mut self, window: &Window) -> Result<(), (&'static str, Refusal)> {
        if window.prepare {
            refusals::prepare(&self.pools, window.n).map_err(|refusal| ("prepare before a run refused", refusal))?;
            let mut laid = Laid::new(&self.pools, window.width);
            laid.write(window.n as usize, Begin::Prepared, |_| ());
            laid.lift(&mut self.pools);
        }
        refusals::run(self.session, &self.pools, window).map_err(|refusal| ("run refused", refusal))
    }

    /// The run where nothing refuses it. It follows on a prepare of its own, which changes nothing more.
    fn window(&mut self, window: &Window, answer: &mut Answer) -> Result<(Verdict, StageActivity), Unanswerable> {
        if let Err((which, refusal)) = self.judge(window) {
            coverage::meet_refusal(which, refusal, &mut answer.tally);
            return Ok((Err(refusal), StageActivity::Exhausted));
        }
        coverage::meet_run(self.session, &self.pools, window, &mut answer.tally);
        if !window.order.is_empty() {
            self.session.can_be_run()?;
        }
        Ok((Ok(()), self.run(window)))
    }

    fn run(&mut self, window: &Window) -> StageActivity {
        let mut ordered = self.take(&window.order);
        let mut laid = Laid::new(&self.pools, window.width);
        let activity = window.process(&mut laid, &mut ordered);
        laid.lift(&mut self.pools);
        for (&number, stage) in window.order.iter().zip(ordered) {
            self.stages[number as usize] = Some(stage);
        }
        activity
    }

    /// The stages of an order, which are made where they have not been ordered before.
    fn take(&mut self, order: &[u64]) -> Vec<RustStage> {
        let taken = order.iter().map(|&number| {
            let new = || self.session.stages[number as usize].create().expect("an accepted stage has its parameters");
            self.stages[number as usize].take().unwrap_or_else(new)
        });
        taken.collect()
    }
}

impl Window {
    fn process(&self, laid: &mut Laid, ordered: &mut [RustStage]) -> StageActivity {
        let begin = if self.prepare { Begin::Prepared } else { Begin::AsItStands { reset: false } };
        laid.write(self.n as usize, begin, |writer| writer.process(&self.values[..], ordered))
    }
}
