//! Families of small cases, asked one after the other, and a table of how many answers there are of each number.

use std::collections::BTreeSet;
use std::error::Error;

use crate::case::Case;
use crate::compare::Compare;
use crate::compare::Report;
use crate::tally::Numbers;
use crate::tally::Tally;

/// Small cases of one or several sorts, which have a column of the table.
pub struct Family {
    pub name: &'static str,
    pub sorts: &'static [u64],
    pub cases: fn() -> Box<dyn Iterator<Item = Case>>,
}

pub type Column = (&'static str, Numbers);

/// The columns and all that was met, or nothing where the program answers a case otherwise than expected, which is then shown.
pub fn ask(
    compare: &Compare,
    families: impl Iterator<Item = Family>,
    counted: fn(&Tally) -> &Numbers,
) -> Result<Option<(Vec<Column>, Tally)>, Box<dyn Error>> {
    let (mut columns, mut tally) = (Vec::new(), Tally::default());
    for Family { name, cases, .. } in families {
        let mut report = Report::default();
        if let Some(different) = compare.first_different(cases(), &mut report)? {
            println!("{different}");
            return Ok(None);
        }
        columns.push((name, counted(&report.tally).clone()));
        tally.add(report.tally);
    }
    Ok(Some((columns, tally)))
}

/// Numbers down, columns across.
pub fn print_table(what: &str, columns: &[Column]) {
    print!("{what:7}");
    columns.iter().for_each(|(name, _)| print!("{name:>15}"));
    let met: BTreeSet<u64> = columns.iter().flat_map(|(_, numbers)| numbers.keys().copied()).collect();
    for number in met {
        print!("\n{number:7}");
        columns.iter().for_each(|(_, numbers)| print!("{:>15}", numbers.get(&number).unwrap_or(&0)));
    }
    println!();
}
