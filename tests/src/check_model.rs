//! The model's check by itself, without the library.

#![allow(dead_code)]

mod callers;
mod callers_check;
mod charts;
mod charts_check;
mod delays;
mod delays_check;
mod facts;
mod loops;
mod loops_check;
mod model;
mod model_check;
mod queue;
mod queue_check;
mod random;
mod record_files;
mod records;
mod records_check;
mod routes;
mod sheet;
mod small;
mod small_check;
mod tally;
mod units;

fn main() {
    let checked = model_check::run().and_then(|units| loops_check::run().map(|_| units));
    let checked = checked.and_then(|units| records_check::run().map(|_| units));
    let checked = checked.and_then(|units| charts_check::run().map(|_| units));
    let checked = checked.and_then(|units| delays_check::run().map(|_| units));
    let checked = checked.and_then(|units| queue_check::run().map(|_| units));
    let checked = checked.and_then(|units| small_check::run().map(|_| units));
    match checked.and_then(|units| callers_check::run().map(|_| units)) {
        Ok(units) => println!("model: agrees with the paper's tables and, on {units} random units, with itself"),
        Err(why) => {
            println!("model: {why}");
            std::process::exit(1);
        }
    }
}
