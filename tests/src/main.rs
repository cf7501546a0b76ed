//! Independent tests of the unit configurator's interface for C.
//!
//! A second implementation of the paper, by other means (`model.rs`), is asked the same questions as the library; the first difference
//! ends the run. All cases have fixed seeds, and none depends on those before it: they are tried by as many workers as the machine has
//! processors.
//!
//!     run                 everything
//!     run units 20000     everything, with so many random units
//!     run only STAGE      one stage; STAGE is table, edge, unit, list or play, and what was met is not asked for
//!     run STAGE CASE      one case alone
//!     run trace           everything, and the name of each case before it is tried

mod checks;
mod facts;
mod ffi;
mod lent;
mod lists;
mod model;
mod model_check;
mod random;
mod sheet;
mod stages;
mod tally;
mod units;

use checks::{Bench, Checked};
use random::seed_of;
use std::io::Write;
use std::process::exit;
use std::time::Instant;
use tally::{Met, Tally};

const UNITS: u64 = 200_000;
const LISTS: u64 = 20_000;
const PLAYS: u64 = 60_000;

#[derive(Clone, Copy)]
enum Stage {
    Table,
    Edge,
    Unit,
    List,
    Play,
}

const STAGES: [(&str, Stage, u64); 5] = [
    ("table", Stage::Table, stages::TABLES),
    ("edge", Stage::Edge, stages::EDGES),
    ("unit", Stage::Unit, UNITS),
    ("list", Stage::List, LISTS),
    ("play", Stage::Play, PLAYS),
];

fn seed(stage: Stage, case: u64) -> u64 {
    seed_of(100 + stage as u64, case)
}

fn try_case(stage: Stage, case: u64, bench: &mut Bench) -> Checked {
    let seed = seed(stage, case);
    bench.lender.begin(!seed);
    match stage {
        Stage::Table => stages::table(case, bench),
        Stage::Edge => stages::edge(case, bench),
        Stage::Unit => stages::unit(case, seed, bench),
        Stage::List => stages::list(seed, bench),
        Stage::Play => lists::play(case, seed, bench),
    }
}

fn try_or_exit(name: &str, stage: Stage, case: u64, bench: &mut Bench) {
    if let Err(why) = try_case(stage, case, bench) {
        println!("DIFFERENCE in {name} {case}, seed {:#018x}", seed(stage, case));
        println!("{why}");
        println!("alone: tests/run {name} {case}");
        exit(1);
    }
}

/// The cases of a stage, dealt out to the benches in turn.
fn try_stage(name: &str, stage: Stage, cases: u64, trace: bool, benches: &mut [Bench]) {
    let workers = benches.len();
    std::thread::scope(|scope| {
        for (first, bench) in benches.iter_mut().enumerate() {
            scope.spawn(move || {
                for case in (first as u64..cases).step_by(workers) {
                    if trace {
                        println!("{name} {case}");
                        std::io::stdout().flush().ok();
                    }
                    try_or_exit(name, stage, case, bench);
                }
            });
        }
    });
}

fn usage() -> ! {
    println!("run [trace | units COUNT | only STAGE | table CASE | edge CASE | unit CASE | list CASE | play CASE]");
    exit(2)
}

fn main() {
    let arguments: Vec<String> = std::env::args().skip(1).collect();
    let words: Vec<&str> = arguments.iter().map(|word| word.as_str()).collect();
    let mut units = UNITS;
    let mut trace = false;
    let mut only = None;
    let mut alone = None;
    match words[..] {
        [] => {}
        ["trace"] => trace = true,
        ["units", count] => units = count.parse().unwrap_or_else(|_| usage()),
        ["only", name] => only = Some(STAGES.iter().find(|stage| stage.0 == name).unwrap_or_else(|| usage()).0),
        [name, case] => match (STAGES.iter().find(|stage| stage.0 == name), case.parse()) {
            (Some(stage), Ok(case)) => alone = Some((stage.0, stage.1, case)),
            _ => usage(),
        },
        _ => usage(),
    }

    let begin = Instant::now();
    match model_check::run() {
        Ok(units) => println!("model: agrees with the paper's tables and, on {units} random units, with itself"),
        Err(why) => {
            println!("model: {why}");
            exit(1);
        }
    }
    if let Some((name, stage, case)) = alone {
        try_or_exit(name, stage, case, &mut Bench::new());
        println!("{name} {case}: no difference");
        return;
    }
    // with one worker the last case that a trace names is the one that did not end
    let workers = if trace { 1 } else { std::thread::available_parallelism().map_or(1, |number| number.get()) };
    let mut benches: Vec<Bench> = (0..workers).map(|_| Bench::new()).collect();
    for (name, stage, whole) in STAGES {
        if only.is_some_and(|only| only != name) {
            continue;
        }
        let cases = if name == "unit" { units } else { whole };
        let since = Instant::now();
        try_stage(name, stage, cases, trace, &mut benches);
        println!("{name}: {cases} cases, no difference, {:.1} s", since.elapsed().as_secs_f64());
    }
    let mut tally = Tally::default();
    let mut met = Met::default();
    for bench in benches {
        tally.add(&bench.lender.tally);
        met.add(&bench.met);
    }
    println!();
    tally.print();
    println!();
    met.print();
    println!();
    let mut gaps = tally.gaps();
    gaps.extend(met.gaps());
    let calls = tally.calls();
    let inside = tally.time().as_secs_f64();
    println!("{calls} calls in {:.1} s by {workers} workers, who were inside the library for {inside:.1} s", begin.elapsed().as_secs_f64());
    if !gaps.is_empty() && only.is_none() {
        println!("NEVER MET: {}", gaps.join("; "));
        exit(1);
    }
    println!("no difference");
}
