//! The supplied Rust as the judge of the engine: what it answers, random cases for it, and another program held against it.

mod answer;
mod case;
mod compare;
mod differences;
mod edges;
mod families;
mod files;
mod half_turns;
mod laid;
mod lengths;
mod listed;
mod measure;
mod options;
mod orders;
mod panics;
mod parts;
mod patch_file;
mod pools;
mod program;
mod random;
mod random_pools;
mod reach;
mod reached;
mod refusals;
mod refused;
mod session;
mod show;
mod shrink;
mod small;
mod tally;
mod values;
mod words;

use std::env;
use std::error::Error;
use std::io;
use std::io::BufReader;
use std::io::BufWriter;
use std::io::Write;
use std::path::PathBuf;
use std::process::ExitCode;
use std::time::Instant;

use answer::Answer;
use case::Case;
use compare::Compare;
use compare::Report;
use options::Options;
use program::Program;
use words::Reader;

const USAGE: &str = "oracle answer < CASES > ANSWERS
oracle generate --sort S --seed N --cases K [--refused] [--most BYTES] > CASES
oracle listed [--only NUMBER] > CASES
oracle show < CASES
oracle measure-sine
oracle compare ASKED [--cases N] [--seed N] [--sort S]
oracle differences ASKED [--inputs]
oracle files ASKED
oracle half-turns ASKED
oracle reach ASKED
oracle refused ASKED [--sort S]
oracle orders ASKED [--cases N] [--seed N] [--new-states]
where ASKED is [--replay PROGRAM] [--start PROGRAM] [--failing FILE]";

/// The options that say which program is asked, how it is started, and where a case is kept that it answers otherwise.
const ASKED: [&str; 3] = ["replay", "start", "failing"];

/// How many cases are asked of each sort if nothing else is said.
const CASES: u64 = 20_000;

fn main() -> ExitCode {
    match run() {
        Ok(true) => ExitCode::SUCCESS,
        Ok(false) => ExitCode::FAILURE,
        Err(error) => {
            eprintln!("oracle: {error}");
            ExitCode::from(2)
        }
    }
}

fn run() -> Result<bool, Box<dyn Error>> {
    let mut words = env::args().skip(1);
    let command = words.next().unwrap_or_default();
    match command.as_str() {
        "answer" => answer().map(|()| true),
        "generate" => generate(Options::new(words, &["sort", "seed", "cases", "most"], &["refused"])?).map(|()| true),
        "listed" => listed(Options::new(words, &["only"], &[])?).map(|()| true),
        "show" => show_all().map(|()| true),
        "measure-sine" => Ok(measure::measure_sine()),
        "compare" => compare(Options::new(words, &[&ASKED[..], &["cases", "seed", "sort"]].concat(), &[])?),
        "differences" => differences(Options::new(words, &ASKED, &["inputs"])?),
        "files" => files::run(&asked(&Options::new(words, &ASKED, &[])?)?),
        "half-turns" => half_turns::run(&asked(&Options::new(words, &ASKED, &[])?)?.program),
        "reach" => reached::run(&asked(&Options::new(words, &ASKED, &[])?)?),
        "orders" => orders(Options::new(words, &[&ASKED[..], &["cases", "seed"]].concat(), &["new-states"])?),
        "refused" => refused(Options::new(words, &[&ASKED[..], &["sort"]].concat(), &[])?),
        _ => Err(USAGE.into()),
    }
}

/// Answers standard input. Where the stream stops inside a case, a last word of ones says so.
fn answer() -> Result<(), Box<dyn Error>> {
    let mut stream = Reader(BufReader::new(io::stdin().lock()));
    let mut output = BufWriter::new(io::stdout().lock());
    let mut number = 0;
    loop {
        let mut answer = Answer::default();
        match Case::read(&mut stream) {
            Ok(Some(case)) => {
                case.answer(&mut answer).map_err(|why| format!("case {number}: {}", why.0))?;
            }
            Ok(None) => return Ok(output.flush()?),
            Err(_) => {
                output.write_all(&u64::MAX.to_le_bytes())?;
                return Ok(output.flush()?);
            }
        }
        for word in answer.words() {
            output.write_all(&word.to_le_bytes())?;
        }
        number += 1;
    }
}

/// Random cases, none longer than the bytes asked for.
fn generate(options: Options) -> Result<(), Box<dyn Error>> {
    let (sort, seed) = (sort(&options)?, options.value("seed", 1)?);
    let (count, most) = (options.value("cases", 1u64)?, options.value("most", usize::MAX)?);
    let refused = options.given("refused");
    let mut output = BufWriter::new(io::stdout().lock());
    let tried = (0..count.saturating_mul(1_000)).map(|number| Case::random(sort, seed, number, refused).bytes());
    for bytes in tried.filter(|bytes| bytes.len() <= most).take(count as usize) {
        output.write_all(&bytes)?;
    }
    Ok(output.flush()?)
}

fn sort(options: &Options) -> Result<u64, String> {
    let sort = options.value("sort", 1)?;
    if case::SORTS.contains(&sort) { Ok(sort) } else { Err(format!("there is no sort {sort}")) }
}

/// Document 01's listed cases, or those of one number.
fn listed(options: Options) -> Result<(), Box<dyn Error>> {
    let only = options.value("only", String::new())?;
    let cases = listed::cases(&only)?;
    let bytes: Vec<u8> = cases.iter().flat_map(Case::bytes).collect();
    Ok(io::stdout().write_all(&bytes)?)
}

fn show_all() -> Result<(), Box<dyn Error>> {
    let mut stream = Reader(BufReader::new(io::stdin().lock()));
    while let Some(case) = Case::read(&mut stream).map_err(|_| "the stream stops inside a case")? {
        println!("sort {}\n{}", case.sort(), case.show());
    }
    Ok(())
}

/// The program that is held against the Rust.
fn asked(options: &Options) -> Result<Compare, Box<dyn Error>> {
    let start = options.value("start", PathBuf::new())?;
    let program = Program {
        path: options.value("replay", PathBuf::from("crates/replay/out/replay"))?,
        start: (!start.as_os_str().is_empty()).then_some(start),
    };
    Ok(Compare { program, failing: options.value("failing", PathBuf::from("target/oracle/failing"))? })
}

fn compare(options: Options) -> Result<bool, Box<dyn Error>> {
    let begin = Instant::now();
    let sorts = match options.given("sort") {
        true => vec![sort(&options)?],
        false => case::SORTS.to_vec(),
    };
    let (seed, count) = (options.value("seed", 1)?, options.value("cases", CASES)?);
    let mut report = Report::default();
    let cases = compare::cases(sorts, seed, count)?;
    let different = asked(&options)?.first_different(cases, &mut report)?;
    let seconds = begin.elapsed().as_secs_f64();
    let same = format!("all the same: seed {seed}, {count} random cases of each sort, {seconds:.0} s");
    println!("{report}\n{}", different.as_ref().unwrap_or(&same));
    Ok(different.is_none())
}

fn refused(options: Options) -> Result<bool, Box<dyn Error>> {
    let only = if options.given("sort") { Some(sort(&options)?) } else { None };
    refused::run(&asked(&options)?, only)
}

fn differences(options: Options) -> Result<bool, Box<dyn Error>> {
    differences::run(&asked(&options)?.program, options.given("inputs"))
}

fn orders(options: Options) -> Result<bool, Box<dyn Error>> {
    let patches = options.value("cases", CASES)? / orders::SESSIONS;
    orders::run(&asked(&options)?.program, patches, options.value("seed", 1)?, options.given("new-states"))
}
