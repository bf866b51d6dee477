//! The jobs of `vx_jobs` in plain Rust, as a good columnar library writes them.
//!
//! `jobs JOB SEED` runs a job and prints its digest, and `jobs` alone runs each on a few rows, as
//! the program of `crates/vx_jobs` does: the same inputs of the same seed, the same operations on
//! the same batches, and the same digests. `jobs JOB SEED COLUMN BATCH ROUNDS` says how much a job
//! works on.

mod array;
mod bits;
mod buffer;
mod concat;
mod digest;
mod inputs;
mod jobs;
mod leaves;
mod lists;
mod records;
mod select;
mod slice;
mod texts;
mod utf8;
mod validity;

use array::{Fault, Result};
use digest::Digest;
use inputs::{Random, Scale};
use std::process::ExitCode;

const JOBS: [&str; 6] = ["reader", "query", "lists", "writer", "nulls", "batches"];

/// How many batches a job works on.
fn rounds_of(job: &str) -> usize {
    match job {
        "reader" => 250,
        "query" => 60,
        "lists" => 120,
        "writer" => 90,
        "nulls" => 1_600,
        _ => 1_000,
    }
}

fn run(job: &str, seed: u32, scale: Scale) -> Result<Digest> {
    let random = &mut Random::new(seed);
    match job {
        "reader" => jobs::reader(random, scale),
        "query" => jobs::query(random, scale),
        "lists" => jobs::lists(random, scale),
        "writer" => jobs::writer(random, scale),
        "nulls" => jobs::nulls(random, scale),
        "batches" => jobs::batches(random, scale),
        _ => Err(Fault::Usage),
    }
}

fn print(job: &str, seed: u32, scale: Scale) -> Result<()> {
    println!("{job} {}", run(job, seed, scale)?.value());
    Ok(())
}

fn start() -> Result<()> {
    let words: Vec<String> = std::env::args().skip(1).collect();
    let Some((job, numbers)) = words.split_first() else {
        return JOBS.iter().try_for_each(|job| print(job, 1, Scale::small()));
    };
    let numbers = numbers.iter().map(|word| word.parse().map_err(|_| Fault::Usage));
    match numbers.collect::<Result<Vec<u32>>>()?[..] {
        [seed] => print(job, seed, Scale::whole(rounds_of(job))),
        [seed, column, batch, rounds] => {
            let [column, batch, rounds] = [column, batch, rounds].map(|number| number as usize);
            print(job, seed, Scale { column, batch, rounds })
        }
        _ => Err(Fault::Usage),
    }
}

fn main() -> ExitCode {
    match start() {
        Ok(()) => ExitCode::SUCCESS,
        Err(fault) => {
            eprintln!("{fault:?}");
            ExitCode::FAILURE
        }
    }
}
