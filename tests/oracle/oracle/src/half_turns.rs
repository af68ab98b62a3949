//! Document 02's request Three at scale: the program's sine of many turns, held against the sine before the request. The two
//! are the same but at 0.5 and at 1.0, where -0.0 has become +0.0.

use std::collections::BTreeMap;
use std::error::Error;
use std::iter;
use std::time::Instant;

use stand_ins::folded_sine;

use crate::answer;
use crate::program::Program;
use crate::program::Said;
use crate::random::Random;
use crate::words::words;

/// How many turns a large group has.
const MANY: u64 = 3_000_000;

/// How many turns are asked on either side of every eighth of a turn.
const NEIGHBOURS: usize = 50_000;

/// How many turns the program is asked at once.
const BATCH: usize = 1 << 20;

const TINY: f64 = f64::from_bits(1);

/// From 0.5 down to the turn next to it; no two turns about 0.5 and 1 are nearer to each other.
const STEP: f64 = f64::EPSILON / 4.0;

const PLUS_ZERO: u64 = 0;
const MINUS_ZERO: u64 = 1 << 63;

/// The turns that the request names, and the sine there before and since.
const NAMED: [(f64, [u64; 2]); 3] =
    [(0.5, [MINUS_ZERO, PLUS_ZERO]), (1.0, [MINUS_ZERO, PLUS_ZERO]), (-0.0, [MINUS_ZERO, MINUS_ZERO])];

/// The sine before the request: "from x = 0.5 the result is negated".
fn before(x: f64) -> f64 {
    let sine = folded_sine(x);
    if x < 0.5 { sine } else { -sine }
}

/// How many turns were asked, and how often each that the request names.
#[derive(Default)]
struct Met {
    turns: usize,
    named: BTreeMap<u64, u64>,
}

/// Whether the program's sine is the one before the request but for the two zeros.
pub fn run(program: &Program) -> Result<bool, Box<dyn Error>> {
    let begin = Instant::now();
    let (mut met, mut turns) = (Met::default(), turns());
    let mut batch: Vec<f64> = turns.by_ref().take(BATCH).collect();
    while !batch.is_empty() {
        let stream: Vec<u8> = case(&batch).into_iter().flat_map(u64::to_le_bytes).collect();
        // What was before is worked out, and the next turns are made, while the program is at these.
        let work = || (batch.iter().copied().map(before).collect(), turns.by_ref().take(BATCH).collect());
        let (said, (sines, next)): (_, (Vec<f64>, _)) = program.ask(&stream, work)?;
        if let Some(wrong) = met.first_wrong(&batch, &sines, &said) {
            println!("sine of turns: NOT AS REQUESTED {wrong}");
            return Ok(false);
        }
        batch = next;
    }
    if met.named.len() != NAMED.len() {
        return Err("a turn that the request names was not asked".into());
    }
    println!("{}\nall as requested, {:.0} s\n", met.told(), begin.elapsed().as_secs_f64());
    Ok(true)
}

/// A case of sort 2 that asks the sines of these turns.
fn case(turns: &[f64]) -> Vec<u64> {
    words![2, 11, turns.len() as u64].into_iter().chain(turns.iter().map(|turn| turn.to_bits())).collect()
}

impl Met {
    /// Counts the turns, up to one at which the sine before or the program's is another than it should be: that one in words.
    fn first_wrong(&mut self, turns: &[f64], sines: &[f64], said: &Said) -> Option<String> {
        let mut words = said.words();
        for (turn, sine) in turns.iter().map(|turn| turn.to_bits()).zip(sines) {
            let (before, now) = (answer::bits(*sine), words.next());
            let named = NAMED.iter().find(|(named, _)| named.to_bits() == turn);
            let expected = named.map_or([before; 2], |(_, expected)| *expected);
            if [Some(before), now] != expected.map(Some) {
                let now = now.map_or("nothing".to_owned(), |now| format!("{now:016x}"));
                let place = format!("at {turn:016x} ({:?})", f64::from_bits(turn));
                return Some(format!("{place}: before the request {before:016x}, the program {now}"));
            }
            self.turns += 1;
            named.inspect(|_| *self.named.entry(turn).or_default() += 1);
        }
        (said.output.len() != 8 * turns.len()).then(|| "behind the last turn, where the program goes on".to_owned())
    }

    /// How many turns there were, and the sine at those that the request names.
    fn told(&self) -> String {
        let times = |turn: f64| self.named.get(&turn.to_bits()).copied().unwrap_or_default();
        let changed = NAMED.iter().filter(|(_, [before, now])| before != now);
        let others: u64 = changed.map(|&(turn, _)| times(turn)).sum();
        let named = NAMED.map(|(turn, [before, now])| {
            format!("\n  at {turn:?}, asked: {}; {before:016x} before, {now:016x} now", times(turn))
        });
        format!("sine of {} turns: {others} answers are others than before request Three{}", self.turns, named.concat())
    }
}

/// Turns of every magnitude, many of them about 0, 0.5 and 1, and numbers that are no turns.
fn turns() -> impl Iterator<Item = f64> {
    let random = |seed: u64, turn: fn(&mut Random) -> f64| {
        let mut random = Random::new(&[3, seed]);
        iter::repeat_with(move || turn(&mut random))
    };
    let many = MANY as usize;
    let grid = (0..=MANY).map(|k| k as f64 / MANY as f64);
    let even = random(0, |random| random.uniform(0.0, 1.0)).take(many);
    let small = random(1, |random| random.logarithmic(TINY, 1.0)).take(many);
    let about = random(2, |random| random.logarithmic(STEP, 0.5)).take(many / 3);
    let about = about.flat_map(|small| [1.0 - small, 0.5 - small, 0.5 + small]);
    let any = random(3, |random| f64::from_bits(random.next())).take(many / 3);
    [-0.0, f64::NAN].into_iter().chain(neighbours()).chain(grid).chain(even).chain(small).chain(about).chain(any)
}

/// Every eighth of a turn and the turns next to it, outside the range too.
fn neighbours() -> impl Iterator<Item = f64> {
    let ways: [fn(f64) -> f64; 2] = [f64::next_up, f64::next_down];
    let eighths = (0..=8).flat_map(move |eighth| ways.map(|way| (f64::from(eighth) / 8.0, way)));
    eighths.flat_map(|(eighth, way)| iter::successors(Some(eighth), move |&turn| Some(way(turn))).take(NEIGHBOURS))
}
