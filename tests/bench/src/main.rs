//! The engine of the static library beside the supplied Rust, in one process: first that both give the same bits, then how long
//! each takes. Prints tables in Markdown; of the growth, lines of numbers.

#[macro_use]
mod records;
mod budget;
mod cases;
mod empty;
mod files;
mod growth;
mod refused;
mod sides;
mod stages;
mod time;
mod writes;

use std::hint::black_box;
use std::time::Duration;

use cases::Case;
use cases::Table;
use cases::WINDOWS;
use records::Functions;
use sides::Engine;
use sides::Rust;

static ENGINE: Functions = linked!("grynnadot_");

/// The nanoseconds of a run: the engine's and the Rust's.
fn measured(case: &Case, n: usize, budget: Duration) -> [f64; 2] {
    let (mut engine, mut rust) = (Engine::new(&ENGINE, case, n), Rust::new(case, n));
    time::fastest(budget, [&mut || _ = black_box(engine.run()), &mut || _ = black_box(rust.run())])
}

/// What stages take at each window.
fn stages(table: Table, budget: Duration) {
    println!("\n## {}\n", table.title);
    let first = table.first;
    println!("| {first} | 64: engine | Rust | ratio | 512: engine | Rust | ratio | 4096: engine | Rust | ratio |");
    println!("|---|---|---|---|---|---|---|---|---|---|");
    for case in &table.cases {
        print!("| {} |", case.name);
        for n in WINDOWS {
            let times = measured(case, n, budget * table.longer);
            let [ours, theirs] = times.map(|nanoseconds| nanoseconds / (n * case.outputs()) as f64);
            print!(" {ours:.2} | {theirs:.2} | **{:.2}** |", ours / theirs);
        }
        println!();
    }
}

/// Single writes into one buffer, beside loops over the same slices. The check, which scans the zeros, is part of a write.
fn writes(budget: Duration) {
    println!("\n## Single writes of {} samples (ns per sample)\n", writes::SAMPLES);
    println!("| write | engine | less its check | plain Rust loop |");
    println!("|---|---|---|---|");
    let checked = Engine::new(&ENGINE, &Case::empty(), writes::SAMPLES);
    for write in writes::all() {
        let (mut engine, mut plain) = (write.engine(&ENGINE), write.plain());
        let works: [&mut dyn FnMut(); 3] =
            [&mut || write.by(&mut engine), &mut || _ = black_box(checked.check_read(0)), &mut plain];
        let times = time::fastest(budget, works);
        let [whole, check, plain] = times.map(|nanoseconds| nanoseconds / writes::SAMPLES as f64);
        println!("| {} | {whole:.3} | {:.3} | {plain:.3} |", write.name, whole - check);
    }
}

/// Runs that are refused, with the fault at the first of 32 stages and at the last, where it is one of a stage; and what that says
/// of the parts of a run.
fn refused(budget: Duration) {
    println!("\n## A run that is refused, for a fault at the first of 32 stages, at the last, or of the whole (ns)\n");
    println!("| number | for | capacity 1: first | last | capacity 4096: first | last |\n|---|---|---|---|---|---|");
    let mut short = Vec::new();
    for fault in &refused::FAULTS {
        print!("| {} | {} |", fault.number, fault.name);
        let times = [1, 4_096].map(|capacity| {
            let [mut first, mut last] = fault.engines(&ENGINE, capacity);
            time::fastest(budget, [&mut || _ = black_box(first.run()), &mut || _ = black_box(last.run())])
        });
        for [first, last] in times {
            if fault.by_stage { print!(" {first:.0} | {last:.0} |") } else { print!(" {first:.0} | – |") }
        }
        println!();
        short.push((fault.name, times[0]));
    }
    parts(&short);
}

/// The parts of a run of 32 stages that pass a buffer on, capacity 1 and no sample: by how much later one fault is told than another.
fn parts(told: &[(&str, [f64; 2])]) {
    println!("\n## Where a run of 32 stages goes before the first sample (ns)\n");
    println!("| part | ns | for each stage |\n|---|---|---|");
    let mut before = 0.0;
    for (name, fault, place, stages) in refused::PARTS {
        let (_, times) = told.iter().find(|(told, _)| *told == fault).expect("a fault");
        let part = times[place] - before;
        if stages > 1.0 {
            println!("| {name} | {part:.0} | {:.1} |", part / stages)
        } else {
            println!("| {name} | {part:.0} | – |")
        }
        before = times[place];
    }
}

fn table(name: &str, budget: Duration) {
    match name {
        "patch" => stages(cases::patches(), budget),
        "kinds" => stages(cases::kinds(), budget),
        "empty" => empty::table(budget),
        "refused" => refused(budget),
        "writes" => writes(budget),
        "files" => files::table(budget),
        "budget" => budget::tables(budget),
        "growth" => growth::lines(budget),
        _ => panic!("no table {name}"),
    }
}

fn main() {
    let words: Vec<String> = std::env::args().skip(1).collect();
    let [milliseconds, tables @ ..] = &words[..] else { panic!("bench MILLISECONDS TABLE...") };
    let budget = Duration::from_millis(milliseconds.parse().expect("milliseconds per figure"));
    if tables.iter().any(|table| table != "growth") {
        sides::compare(&[&ENGINE]);
    }
    tables.iter().for_each(|name| table(name, budget));
}
