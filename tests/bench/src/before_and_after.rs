//! The engine before a change and after it, and the Rust, in one process: first that all give the same bits, then how long each
//! takes. Prints tables in Markdown.

#[macro_use]
#[allow(dead_code)]
mod records;
#[allow(dead_code)]
mod cases;
mod check_3;
#[allow(dead_code)]
mod refused;
mod sides;
mod stages;
mod time;
mod writes;

use std::cell::RefCell;
use std::hint::black_box;
use std::time::Duration;

use cases::Case;
use cases::Table;
use cases::WINDOWS;
use records::Functions;
use sides::Engine;
use sides::Rust;

static BEFORE: Functions = linked!("before_grynnadot_");
static AFTER: Functions = linked!("after_grynnadot_");
const ENGINES: [&Functions; 2] = [&BEFORE, &AFTER];

/// What both engines do, by turns in the same memory: where samples and records lie does not tell them apart.
fn both(engine: &RefCell<Engine>, work: impl Fn(&mut Engine) + Copy) -> [impl FnMut(); 2] {
    ENGINES.map(|functions| {
        move || {
            let engine = &mut *engine.borrow_mut();
            engine.functions = functions;
            work(engine);
        }
    })
}

fn run(engine: &mut Engine) {
    black_box(engine.run());
}

/// A line of a table: at each window the three times, and that after the change over the other two.
fn measure(case: &Case, budget: Duration) {
    print!("| {} |", case.name);
    for n in WINDOWS {
        let (engine, mut rust) = (RefCell::new(Engine::new(&BEFORE, case, n)), Rust::new(case, n));
        let [mut before, mut after] = both(&engine, run);
        let times = time::fastest(budget, [&mut before, &mut after, &mut || _ = black_box(rust.run())]);
        let [before, after, rust] = times.map(|nanoseconds| nanoseconds / (n * case.outputs()) as f64);
        print!(" {before:.2} | {after:.2} | {rust:.2} | **{:.2}** | {:.2} |", after / before, after / rust);
    }
    println!();
}

fn stages(table: Table, budget: Duration) {
    println!("\n## {}\n", table.title);
    print!("| {} |", table.first);
    WINDOWS.iter().for_each(|n| print!(" {n}: before | after | Rust | after / before | after / Rust |"));
    println!("\n|{}", "---|".repeat(1 + 5 * WINDOWS.len()));
    table.cases.iter().for_each(|case| measure(case, budget * table.longer));
}

/// Two times, before and after, with their ratio.
fn pair(engine: &RefCell<Engine>, work: impl Fn(&mut Engine) + Copy, budget: Duration) {
    let [mut before, mut after] = both(engine, work);
    let [before, after] = time::fastest(budget, [&mut before, &mut after]);
    print!(" {before:.0} | {after:.0} | **{:.2}** |", after / before);
}

fn empty(budget: Duration) {
    println!("\n## A run with an empty order, prepare, and the check of a read (ns)\n");
    println!(
        "| capacity | run: before | after | ratio | prepare: before | after | ratio | check: before | after | ratio |"
    );
    println!("|---|---|---|---|---|---|---|---|---|---|");
    for capacity in [0, 64, 512, 4_096] {
        let engine = RefCell::new(Engine::new(&BEFORE, &Case::empty(), capacity));
        print!("| {capacity} |");
        pair(&engine, run, budget);
        pair(&engine, Engine::prepare, budget);
        pair(&engine, |engine| _ = black_box(engine.check_read(0)), budget);
        println!();
    }
}

fn refused(budget: Duration) {
    println!(
        "\n## A run that is refused, for a fault at the first of 32 stages, at the last, or of the whole, capacity 1 (ns)\n"
    );
    println!(
        "| number | for | first: before | after | ratio | last: before | after | ratio |\n|---|---|---|---|---|---|---|---|"
    );
    for fault in &refused::FAULTS {
        // Seen of both that they refuse so, before one is measured in the place of the other.
        let [engines, _] = ENGINES.map(|functions| fault.engines(functions, 1));
        print!("| {} | {} |", fault.number, fault.name);
        engines.map(RefCell::new).iter().for_each(|engine| pair(engine, run, budget));
        println!();
    }
}

fn writes(budget: Duration) {
    println!("\n## Single writes of {} samples (ns per sample)\n", writes::SAMPLES);
    println!("| write | before | after | ratio | plain Rust loop |");
    println!("|---|---|---|---|---|");
    for write in writes::all() {
        let (engine, mut plain) = (RefCell::new(write.engine(&BEFORE)), write.plain());
        let [mut before, mut after] = both(&engine, |engine| write.by(engine));
        let times = time::fastest(budget, [&mut before, &mut after, &mut plain]);
        let [before, after, plain] = times.map(|nanoseconds| nanoseconds / writes::SAMPLES as f64);
        println!("| {} | {before:.3} | {after:.3} | **{:.2}** | {plain:.3} |", write.name, after / before);
    }
}

fn table(name: &str, budget: Duration) {
    match name {
        "patch" => stages(cases::patches(), budget),
        "kinds" => stages(cases::kinds(), budget),
        "empty" => empty(budget),
        "refused" => refused(budget),
        "writes" => writes(budget),
        "check-3" => check_3::table(ENGINES, budget),
        _ => panic!("no table {name}"),
    }
}

fn main() {
    let words: Vec<String> = std::env::args().skip(1).collect();
    let [milliseconds, tables @ ..] = &words[..] else { panic!("before_and_after MILLISECONDS TABLE...") };
    let budget = Duration::from_millis(milliseconds.parse().expect("milliseconds per figure"));
    sides::compare(&ENGINES);
    tables.iter().for_each(|name| table(name, budget));
}
