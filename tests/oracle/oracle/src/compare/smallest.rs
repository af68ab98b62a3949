//! The smallest case that still has a property, as far as steps from case to case lead.

use std::time::Duration;
use std::time::Instant;

use crate::case::Case;

/// How long it may take.
const PATIENCE: Duration = Duration::from_secs(60);

/// Tries one way of making the case smaller after another, as long as one of them leads on.
pub fn smallest(mut case: Case, holds: impl Fn(&Case) -> bool) -> Case {
    let start = Instant::now();
    let (mut way, mut in_vain) = (0, 0);
    loop {
        let Some(mut nearby) = case.smaller(way) else {
            if way == in_vain {
                return case;
            }
            (way, in_vain) = (0, 0);
            continue;
        };
        let mut place = 0;
        let mut led_on = false;
        while place < nearby.len() {
            if start.elapsed() > PATIENCE {
                return case;
            }
            if holds(&nearby[place]) {
                case = nearby.swap_remove(place);
                nearby = case.smaller(way).unwrap_or_default();
                led_on = true;
            } else {
                place += 1;
            }
        }
        way += 1;
        in_vain += usize::from(!led_on);
    }
}
