//! The refusals of patch files over the small ones: the program's answers against the second reading.

use std::error::Error;
use std::time::Instant;

use crate::compare::Compare;
use crate::families;
use crate::families::Family;
use crate::small::files;

/// Whether every file is read or refused as document 02 says.
pub fn run(compare: &Compare) -> Result<bool, Box<dyn Error>> {
    let begin = Instant::now();
    let Some((columns, _)) = families::ask(compare, FAMILIES.into_iter(), |tally| &tally.outcomes)? else {
        return Ok(false);
    };
    families::print_table("refusal", &columns);
    println!(
        "every number, every offset and every patch as document 02 says, {:.0} s\n",
        begin.elapsed().as_secs_f64()
    );
    Ok(true)
}

const SORTS: &[u64] = &[10];

const FAMILIES: [Family; 4] = [
    Family { name: "cut, changed", sorts: SORTS, cases: || Box::new(files::cut_or_changed()) },
    Family { name: "numbers", sorts: SORTS, cases: || Box::new(files::hostile_numbers()) },
    Family { name: "bounds", sorts: SORTS, cases: || Box::new(files::bounds()) },
    Family { name: "up to 3 bytes", sorts: SORTS, cases: || Box::new(files::shortest(3)) },
];
