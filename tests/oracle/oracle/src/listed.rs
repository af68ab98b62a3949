//! Document 01's listed cases and `rendersaw`, word for word in the format, with what the document lists for each.

use crate::answer::Answer;
use crate::case::Case;
use crate::words::Word;
use crate::words::words;

/// A listed case: its number in document 01, its words, and the words of its answer from some place on.
struct Listed {
    number: &'static str,
    words: Vec<u64>,
    place: usize,
    answer: Vec<u64>,
}

/// The listed cases, or only those of one number, once the Rust has been seen to answer each as the document lists.
pub fn cases(only: &str) -> Result<Vec<Case>, String> {
    let asked_for = |listed: &&Listed| only.is_empty() || listed.number.split(',').next() == Some(only);
    let all = listed();
    let cases = all.iter().filter(asked_for);
    cases.map(|listed| listed.case().ok_or(format!("listed case {} is not as listed", listed.number))).collect()
}

impl Listed {
    fn case(&self) -> Option<Case> {
        let case = Case::of_words(&self.words)?;
        let mut answer = Answer::default();
        case.answer(&mut answer).ok()?;
        let words = answer.words().get(self.place..)?.get(..self.answer.len())?;
        (words == self.answer).then_some(case)
    }
}

fn listed() -> Vec<Listed> {
    [single_writes(), rings(), runs()].into_iter().flatten().collect()
}

fn case(number: &'static str, words: Vec<u64>, place: usize, answer: Vec<u64>) -> Listed {
    Listed { number, words, place, answer }
}

/// Marks of which the first is as given, and the others are clear.
fn marks(first: i32) -> Vec<u64> {
    [words![first], vec![0; 31]].concat()
}

/// One buffer of one sample, to which one value is written.
fn single_writes() -> Vec<Listed> {
    let write = |stale: i32, sample: f64, value: f64| {
        let pools = words![8, 1, 1, 0, 0, 1, 0, 1, sample, 0.0];
        [pools, marks(stale), words![1, 1, 1, 0, 0, 1, value]].concat()
    };
    vec![case("1", write(1, 5.0, -0.0), 3, words![-0.0]), case("2", write(0, 0.0, -0.0), 3, words![0.0])]
}

fn rings() -> Vec<Listed> {
    let read = |fraction: f64| words![3, 3, 0, 10.0, 20.0, 30.0, 1, 4, fraction];
    let all_pass = words![7, 2, 0, 0.0, 0.0, 0.5, 4, 0, 1.0, 0, 0.0, 0, 0.0, 0, 0.0];
    let comb = words![6, 3, 0, 0.0, 0.0, 0.0, 0, 0.5, 0, 1.0, 5, 0, 1.0, 0, 0.0, 0, 0.0, 0, 0.0, 0, 0.0];
    vec![
        case("5", read(0.0), 2, words![10.0]),
        case("6", read(0.25), 2, words![20.0]),
        case("7", read(0.5), 2, words![30.0]),
        case("8", read(0.75), 2, words![25.0]),
        case("9", read(1.0), 2, words![20.0]),
        case("10", all_pass, 0, words![0, 32, -0.5, 0, 32, 0.75, 0, 32, 0.375, 0, 32, 0.1875]),
        case("11", comb, 0, words![0, 32, 0.0, 0, 32, 0.0, 0, 32, 0.5, 0, 32, 0.0, 0, 32, 0.25]),
    ]
}

fn runs() -> Vec<Listed> {
    let pass = |stale: i32, n: i32| {
        let (lent, stages) = (words![1, 1, 0, 0, 1, 0, 1, 0, 0], words![1, 0, 0, 0, 0]);
        session(lent, stages, words![7.0, 0.0], stale, words![0, n, 1.0, 1, 0])
    };
    let three = |order: [i32; 3]| {
        let (lent, stages) = (words![1, 1, 3, 1, 1, 3, 1, 0, 0], words![3, 0, 1, 0, 0, 0, 3, 0, 0, 0, 5, 0, 0]);
        let window = [words![0, 1, 1.0, 3], order.map(Word::word).to_vec()].concat();
        session(lent, stages, words![0.0, 1e16, -1e16, 1.0, 0.0], 1, window)
    };
    let empty = session(words![0, 0, 0, 0, 0, 0, 0, 0, 0], words![0], Vec::new(), 0, words![0, 0, 1.0, 0]);
    let whole = |n: i32| {
        let (lent, stages) = (words![1, 4_096, 0, 0, 4_096, 0, 4_096, 0, 0], words![1, 10, 4, 0, 0, 1, 1.0, 0]);
        session(lent, stages, vec![0; 2 * 4_096], 1, words![0, n, 0.125, 1, 0])
    };
    let string = |buffer_size: i32| {
        let stages = words![1, 12, 0, buffer_size, 0, 0, 0, 1, 1.0, 1, 1.0, 1, 1.0];
        session(words![1, 1, 0, 0, 1, 0, 1, 0, 32_769], stages, vec![0; 32_771], 0, words![1, 1, 1.0, 1, 0])
    };
    let (lent, stages) = (words![1, 8, 0, 0, 8, 0, 8, 0, 0], words![1, 10, 4, 0, 0, 1, 1.0, 0]);
    let saw = session(lent, stages, vec![0; 16], 0, words![1, 8, 0.125, 1, 0]);
    vec![
        case("3", pass(1, 1), 0, words![0, 32, 1, 0.0]),
        case("4, n = 1", pass(0, 1), 0, words![7, 0, 0, 7.0]),
        case("4, n = 0", pass(0, 0), 0, words![0, 32, 1, 7.0]),
        case("12, the small one last", three([0, 1, 2]), 0, words![0, 32, 1, 1.0]),
        case("12, the small one between", three([0, 2, 1]), 0, words![0, 32, 1, 0.0]),
        case("13", empty, 0, words![0, 32, 0]),
        case("14, window 4,096", whole(4_096), 0, words![0, 32, 1, 0.0, 0.25]),
        case("14, window 4,097", whole(4_097), 0, words![2, 32, 0, 0.0, 0.0]),
        case("15, buffer_size 32,767", string(32_767), 0, words![0, 32, 1]),
        case("15, buffer_size 32,768", string(32_768), 0, words![4, 32, 0]),
        case("rendersaw", saw, 3, words![0.0, 0.25, 0.5, 0.75, -1.0, -0.75, -0.5, -0.25]),
    ]
}

/// A session of one window, from new states. `lent` is sizes and lengths; the first internal buffer's mark is given.
fn session(lent: Vec<u64>, stages: Vec<u64>, contents: Vec<u64>, stale: i32, window: Vec<u64>) -> Vec<u64> {
    [words![1, 0], lent, stages, contents, marks(stale), vec![0; 32 * 11], words![1], window].concat()
}
