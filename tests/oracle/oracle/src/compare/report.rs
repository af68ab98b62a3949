//! What was compared, and what it covered.

use std::collections::BTreeMap;
use std::fmt;

use crate::answer::Answer;
use crate::session::CIRCUMSTANCES;
use crate::session::PARAMETERS;
use crate::session::WINDOWS;
use crate::session::kind;
use crate::session::kind::KINDS;
use crate::session::rarest_pair;
use crate::session::rarest_string;
use crate::tally::Tally;

#[derive(Default)]
pub struct Report {
    /// Cases and words of answers, by sort.
    sorts: BTreeMap<u64, (u64, u64)>,
    pub tally: Tally,
}

impl Report {
    /// Adds the answer to some cases: the sort of each, and the word at which its part of the answer ends.
    pub fn add(&mut self, parts: &[(u64, usize)], answer: Answer) {
        let mut start = 0;
        for &(sort, end) in parts {
            let (cases, words) = self.sorts.entry(sort).or_default();
            *cases += 1;
            *words += (end - start) as u64;
            start = end;
        }
        self.tally.add(answer.tally);
    }
}

impl fmt::Display for Report {
    fn fmt(&self, f: &mut fmt::Formatter) -> fmt::Result {
        for (sort, (cases, words)) in &self.sorts {
            writeln!(f, "sort {sort}: {cases} cases, {words} words of answers")?;
        }
        let samples: u64 = self.tally.samples().map(|(_, count)| count).sum();
        let classes: Vec<_> = self.tally.samples().map(|(class, count)| format!("{class} {count}")).collect();
        writeln!(f, "samples compared: {samples} ({})", classes.join(", "))?;
        writeln!(f, "samples that stages of sort 1 put out: {}", self.tally.rendered)?;
        if self.sorts.contains_key(&1) {
            self.stages(f)?;
            self.parameters(f)?;
        }
        self.others(f)
    }
}

impl Report {
    /// Kinds of stages down, circumstances across: how often each kind was run in each.
    fn stages(&self, f: &mut fmt::Formatter) -> fmt::Result {
        write!(f, "\n{:31}", "stages run")?;
        CIRCUMSTANCES.iter().try_for_each(|circumstance| write!(f, "{circumstance:>7}"))?;
        for name in kind::all().iter().map(|kind| kind.name()) {
            write!(f, "\n{name:31}")?;
            for circumstance in CIRCUMSTANCES {
                let count = self.tally.met.get(&(name, circumstance)).copied().unwrap_or_default();
                write!(f, "{:>7}", short(count))?;
            }
        }
        writeln!(f)
    }

    /// Parameters of each kind down; windows, and the classes of parameters in each, across. A hole is a dash.
    fn parameters(&self, f: &mut fmt::Formatter) -> fmt::Result {
        write!(f, "\n{:32}", "parameters met")?;
        WINDOWS.iter().try_for_each(|window| write!(f, "{window:<35}"))?;
        write!(f, "\n{:32}", "")?;
        WINDOWS.iter().flat_map(|_| PARAMETERS).try_for_each(|class| write!(f, "{class:>7}"))?;
        let mut holes = 0;
        for (family, role) in KINDS.iter().flat_map(|kind| kind.roles().iter().map(|role| (kind.family(), *role))) {
            write!(f, "\n{family:21}{:11}", role.name())?;
            let cells = WINDOWS.iter().flat_map(|window| PARAMETERS.iter().map(move |class| (window, class)));
            for (window, class) in cells {
                let count = self.tally.crossed.get(&[family, role.name(), window, class]).copied().unwrap_or_default();
                let possible = *class != "absent" || role.may_be_absent();
                write!(f, "{:>7}", if possible { short(count) } else { String::new() })?;
                holes += u64::from(possible && count == 0);
            }
        }
        let (pairs, rarest) = rarest_pair(&self.tally);
        writeln!(f, "\nholes in this table: {holes}\n\nPan's outputs: {pairs} ways, {rarest} of the rarest")?;
        let (strings, rarest) = rarest_string(&self.tally);
        writeln!(f, "strings that tell their reach: {strings} ways, {rarest} of the rarest")
    }

    /// The parts, and refusals.
    fn others(&self, f: &mut fmt::Formatter) -> fmt::Result {
        let stages = kind::all();
        let mut lines: BTreeMap<&str, Vec<String>> = BTreeMap::new();
        for (&(thing, circumstance), count) in &self.tally.met {
            if !stages.iter().any(|kind| kind.name() == thing) {
                lines.entry(thing).or_default().push(format!("{circumstance} {}", short(*count)));
            }
        }
        lines.iter().try_for_each(|(thing, counts)| writeln!(f, "{thing}: {}", counts.join(", ")))
    }
}

/// A count in at most six places.
fn short(count: u64) -> String {
    match count {
        0 => "-".to_owned(),
        1..100_000 => count.to_string(),
        100_000..10_000_000 => format!("{}k", count / 1_000),
        _ => format!("{}M", count / 1_000_000),
    }
}
