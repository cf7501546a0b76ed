//! A test of the program `designer` from outside.
//!
//! Scripts of 100,000 lines and more, good lines and bad ones, are made from fixed seeds; each line's answer is worked out by the tests'
//! own implementation of the paper (`model.rs`, `loops.rs`, `records.rs`, `charts.rs`, `delays.rs`, `queue.rs`, `callers.rs`, `small.rs`,
//! `console_model.rs`) before the program is run; then the program answers the scripts, and the first difference ends the run. Before them
//! come runs of a few lines, each with special files or a special output (`console_outside.rs`).
//!
//!     console PROGRAM            everything
//!     console PROGRAM special    everything, and how often each special case was met
//!     console write FOLDER       the long script as the file `lines`, and its files, in a new folder, to try a line by hand

#![allow(dead_code)]

mod callers;
mod callers_check;
mod callers_met;
mod charts;
mod charts_check;
mod console_check;
mod console_examples;
mod console_folder;
mod console_model;
mod console_outside;
mod console_program;
mod console_script;
mod console_watch;
mod delays;
mod delays_check;
mod delays_met;
mod facts;
mod loops;
mod loops_check;
mod model;
mod model_check;
mod queue;
mod queue_check;
mod queue_met;
mod random;
mod record_files;
mod records;
mod records_check;
mod routes;
mod sheet;
mod small;
mod small_check;
mod small_met;
mod tally;
mod units;

use console_check::{check, Counts};
use console_folder::has_devices;
use console_script::{scripts, LINES};
use std::path::Path;
use std::process::{exit, Command};
use std::time::{Duration, Instant};

/// A program that has not ended by then never does. The time is that of the clock, and in the gate the program runs beside the proofs, which go before it.
const LIMIT: Duration = Duration::from_secs(900);
/// The same for a few lines.
const SHORT_LIMIT: Duration = Duration::from_secs(120);

fn run(program: &Path, special: bool) -> Result<(), String> {
    let begin = Instant::now();
    console_examples::check_model().map_err(|why| format!("model: {why}"))?;
    let scripts = scripts(LINES);
    let made = begin.elapsed();
    let mut counts = Counts::default();
    let had_devices = has_devices();
    // a program that replaces what is no regular file is found here, before the scripts name devices
    console_outside::check(program, SHORT_LIMIT, &mut counts)?;
    let mut inside = Duration::ZERO;
    for script in &scripts {
        let since = Instant::now();
        let run =
            console_program::run(&mut Command::new(program), script, LIMIT).map_err(|error| format!("a script can't be run: {error}"))?;
        inside += since.elapsed();
        if had_devices && !has_devices() {
            return Err(format!("DIFFERENCE after {}\na device of the system was replaced", script.name));
        }
        check(script, &run, &mut counts).map_err(|difference| difference.why)?;
    }
    if special {
        print!("{}", counts.special());
    }
    println!("console: {}", counts.told());
    let gaps = counts.gaps();
    if !gaps.is_empty() {
        return Err(format!("NEVER MET: {}", gaps.join("; ")));
    }
    println!(
        "console: no difference in {} scripts, {:.1} s, of them {:.1} s to work out the answers and {:.1} s in the program",
        scripts.len(),
        begin.elapsed().as_secs_f64(),
        made.as_secs_f64(),
        inside.as_secs_f64()
    );
    Ok(())
}

fn write(folder: &Path) -> std::io::Result<()> {
    let long = &scripts(LINES)[0];
    std::fs::create_dir(folder)?;
    long.before.make(folder)?;
    std::fs::write(folder.join("lines"), long.input())
}

fn main() {
    let arguments: Vec<String> = std::env::args().skip(1).collect();
    let words: Vec<&str> = arguments.iter().map(|word| word.as_str()).collect();
    let done = match words[..] {
        ["write", folder] => write(Path::new(folder)).map_err(|error| error.to_string()),
        [program] | [program, "special"] => match console_program::path_of(program) {
            Some(path) => run(&path, words.len() == 2),
            None => {
                println!("console: {program} is missing");
                exit(2);
            }
        },
        _ => {
            println!("console PROGRAM [special] | console write FOLDER");
            exit(2);
        }
    };
    if let Err(why) = done {
        println!("{why}");
        exit(1);
    }
}
