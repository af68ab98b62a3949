//! Each kind of stage with every choice of parameters: absent, fixed, the first and the last lent value, the slot past it, the
//! largest slot, the window's seconds; with 0 to 2 values lent, and with as many as the format has.

use super::Group;
use super::each_kind;
use super::good_pools;
use super::internal;
use super::lent;
use super::stage;
use super::window;
use crate::lengths::MOST_VALUES;
use crate::session::Stage;
use crate::session::Window;
use crate::session::kind::Kind;
use crate::session::parameter::Parameter;

pub fn groups() -> impl Iterator<Item = Group> {
    [0, 1, 2, MOST_VALUES as usize]
        .into_iter()
        .flat_map(|values| each_kind(values).into_iter().flat_map(move |kind| of_kind(kind, values)))
}

fn of_kind(kind: Kind, values: usize) -> impl Iterator<Item = Group> {
    let choices = [
        Parameter::Absent,
        Parameter::Fixed(0.5),
        Parameter::WindowSeconds,
        Parameter::Slot(values.saturating_sub(1) as u64),
        Parameter::Slot(values as u64),
        Parameter::Slot(u64::MAX),
    ];
    let count = kind.roles().len();
    (0..choices.len().pow(count as u32)).map(move |mut choice| {
        let parameters = (0..count).map(|_| {
            let parameter = choices[choice % choices.len()].clone();
            choice /= choices.len();
            parameter
        });
        let stage =
            Stage { parameters: parameters.collect(), ..stage(&kind, &[internal(0); 2], &[internal(1), internal(2)]) };
        let mut lent = lent(good_pools([3, 0], [2, 0]), vec![stage]);
        lent.values = vec![0.25; values];
        let windows = [0, 2].map(|n| Window { values: vec![0.75; values], ..window(true, n, &[0]) });
        Group { lent, windows: windows.to_vec() }
    })
}
