//! What the trials were, and how they ended.

use std::fmt;

use super::trial::Ended;
use super::trial::Trial;

#[derive(Default)]
pub struct Report {
    patches: u64,
    windows: u64,
    refused: u64,
    /// Consistent pairs in which stages changed places, and how many pairs of stages did.
    reordered: u64,
    turned: u64,
    /// Inconsistent pairs by how many dependent stages changed places: how many there were, how many ended differently.
    broken: [(u64, u64); CLASSES.len()],
}

/// Up to how many pairs of dependent stages changed places.
const CLASSES: [u64; 5] = [1, 2, 4, 8, 16];

impl Report {
    pub fn add(&mut self, trial: &Trial, ended: &Ended) {
        self.patches += 1;
        self.windows += trial.session.windows.len() as u64;
        self.refused += ended.refused;
        let turned = trial.turned();
        self.reordered += u64::from(turned > 0);
        self.turned += turned;
        if trial.broken > 0
            && let Some(same) = ended.inconsistent_same
        {
            let class = CLASSES.iter().take_while(|&&most| most < trial.broken).count();
            let (pairs, differently) = &mut self.broken[class];
            *pairs += 1;
            *differently += u64::from(!same);
        }
    }
}

impl fmt::Display for Report {
    fn fmt(&self, f: &mut fmt::Formatter) -> fmt::Result {
        let Self { patches, windows, refused, reordered, turned, broken } = self;
        writeln!(f, "patches: {patches}, of {windows} windows, {refused} of them refused")?;
        writeln!(f, "consistent pairs: {patches}, all equal in everything; in {reordered} stages changed places,")?;
        writeln!(f, "  {turned} pairs of stages in all")?;
        let (pairs, differently) = broken.iter().fold((0, 0), |sum, class| (sum.0 + class.0, sum.1 + class.1));
        writeln!(f, "inconsistent pairs: {pairs}, ended differently: {differently} ({})", share(differently, pairs))?;
        let mut least = 1;
        for (most, (pairs, differently)) in CLASSES.iter().zip(broken) {
            let count = if least == *most { most.to_string() } else { format!("{least} to {most}") };
            let share = share(*differently, *pairs);
            writeln!(f, "  {count:>7} dependent pairs changed places: {pairs:6}, differently {share}")?;
            least = most + 1;
        }
        Ok(())
    }
}

fn share(part: u64, whole: u64) -> String {
    format!("{:.1} %", 100.0 * part as f64 / whole.max(1) as f64)
}
