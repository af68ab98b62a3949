//! The table of refusals over the small cases: the program's answers against the second reading, and against the Rust, which
//! goes through where something is accepted, and panics where 5, 7 or 8 refuses it; but through an empty window that 8 refuses
//! it goes, and loses a buffer's samples.

use std::error::Error;
use std::slice;

use crate::case::Case;
use crate::compare::Compare;
use crate::families;
use crate::families::Family;
use crate::panics;
use crate::pools::Pools;
use crate::refusals;
use crate::session::Session;
use crate::session::Window;
use crate::session::parameter::Parameter;
use crate::session::rarest_pair;
use crate::small;
use crate::tally::Numbers;

/// Whether all is as document 01's table says. For one sort of cases the program alone is asked.
pub fn run(compare: &Compare, sort: Option<u64>) -> Result<bool, Box<dyn Error>> {
    let asked_for = |family: &Family| sort.is_none_or(|sort| family.sorts.contains(&sort));
    let families = FAMILIES.into_iter().filter(asked_for);
    let Some((mut columns, tally)) = families::ask(compare, families, |tally| &tally.outcomes)? else {
        return Ok(false);
    };
    if sort.is_none() {
        let (pairs, rarest) = rarest_pair(&tally);
        println!("Pan's outputs: {pairs} ways, {rarest} of the rarest\n");
        if rarest == 0 {
            return Err("a way that no small case meets".into());
        }
        let Some([asked, panicked]) = ask_the_rust() else {
            return Ok(false);
        };
        columns.extend([("asked of Rust", asked), ("it panics", panicked)]);
    }
    families::print_table("refusal", &columns);
    println!("every number, every stage and all that was lent as the table says\n");
    Ok(true)
}

const FAMILIES: [Family; 4] = [
    Family { name: "runs", sorts: &[1], cases: || Box::new(small::sessions().map(Case::Session)) },
    Family { name: "reads, writes", sorts: &[8], cases: || Box::new(small::parts::singles()) },
    Family { name: "prepare", sorts: &[9], cases: || Box::new(small::parts::prepares()) },
    Family { name: "over a ring", sorts: &[3, 6, 7], cases: || Box::new(small::parts::rings()) },
];

/// Has the Rust do all runs, reads and writes that tell something, and counts at how many it panics. Nothing where it does
/// otherwise than expected.
fn ask_the_rust() -> Option<[Numbers; 2]> {
    let mut counts = [Numbers::new(), Numbers::new()];
    for session in small::sessions() {
        for window in &session.windows {
            if let Some((number, done)) = attempt(&session, window) {
                let show = || Case::Session(Session { windows: vec![window.clone()], ..session.clone() }).show();
                expect(number, window.n == 0, done, &mut counts, show)?;
            }
        }
    }
    for case in small::parts::singles() {
        if let Case::Single(single) = &case {
            for (number, place) in single.attempts() {
                expect(number, false, (place, false), &mut counts, || case.show())?;
            }
        }
    }
    Some(counts)
}

/// Where the Rust panics, if it does, and whether samples are gone.
type Done = (Option<String>, bool);

/// The Rust is to panic, in its own buffers, just where the number isn't 0; but where 8 refuses an empty window, it is to go
/// through, and samples are to be gone.
fn expect(
    number: u64,
    empty: bool,
    (place, gone): Done,
    counts: &mut [Numbers; 2],
    show: impl FnOnce() -> String,
) -> Option<()> {
    *counts[0].entry(number).or_default() += 1;
    *counts[1].entry(number).or_default() += u64::from(place.is_some());
    let loses = number == 8 && empty;
    let expected = match &place {
        None => (number == 0 || loses) && gone == loses,
        Some(place) => number != 0 && !loses && place.starts_with("magnetron/"),
    };
    if !expected {
        println!("{number} by the table, but the Rust {}, samples gone: {gone}\n{}", panics::doing(&place), show());
    }
    expected.then_some(())
}

/// What the table says to a window, and what the Rust does. It is not asked where 1 to 4 refuse the window, since it has no
/// such pools, orders or rings, nor where 6 does, since it has no such parameters.
fn attempt(session: &Session, window: &Window) -> Option<(u64, Done)> {
    let [number, _] = refusals::outcome(session.judge(window));
    let attempt = || {
        let asked = with_parameters(session, window.values.len() as u64);
        let (mut places, pools) = asked.run_unchecked(slice::from_ref(window));
        let length = |pools: &Pools| pools.internal.samples.len() + pools.external.samples.len();
        (places.remove(0), length(&pools) < length(&session.pools))
    };
    matches!(number, 0 | 5 | 7 | 8).then(|| (number, attempt()))
}

/// The session with all parameters there, so that the Rust is asked for nothing else than what is refused.
fn with_parameters(session: &Session, values: u64) -> Session {
    let mut session = session.clone();
    for stage in &mut session.stages {
        for (parameter, role) in stage.parameters.iter_mut().zip(stage.kind.roles()) {
            match parameter {
                Parameter::Slot(slot) if *slot >= values => *parameter = Parameter::Fixed(0.5),
                Parameter::Absent if !role.may_be_absent() => *parameter = Parameter::Fixed(0.5),
                _ => (),
            }
        }
    }
    session
}
