//! Document 02's request Five over small cases: what the program tells of strings and rings at every edge, against the second
//! reading.

use std::error::Error;
use std::time::Instant;

use crate::compare::Compare;
use crate::families;
use crate::families::Family;
use crate::session::rarest_string;
use crate::small::reach;

/// Whether every string and every ring is told as document 02 says.
pub fn run(compare: &Compare) -> Result<bool, Box<dyn Error>> {
    let begin = Instant::now();
    let Some((columns, tally)) = families::ask(compare, FAMILIES.into_iter(), |tally| &tally.reaches)? else {
        return Ok(false);
    };
    let (strings, rarest) = rarest_string(&tally);
    println!("strings that tell their reach: {strings} ways, {rarest} of the rarest\n");
    if rarest == 0 {
        return Err("a way that no small case meets".into());
    }
    families::print_table("reach", &columns);
    println!("every string and every ring told as document 02 says, {:.0} s\n", begin.elapsed().as_secs_f64());
    Ok(true)
}

const FAMILIES: [Family; 3] = [
    Family { name: "one string", sorts: &[1], cases: || Box::new(reach::strings()) },
    Family { name: "in orders", sorts: &[1], cases: || Box::new(reach::in_orders()) },
    Family { name: "over a ring", sorts: &[3, 6, 7], cases: || Box::new(reach::rings()) },
];
