//! Tries every plan of a problem up to a length, and prints the first right one:
//! `cargo run --release --example search -- PROBLEM LONGEST [GRANT]`.

use std::env;
use std::error::Error;
use std::fs;

/// The desk program's.
const GRANT: u64 = 1_000_000;

fn main() -> Result<(), Box<dyn Error>> {
    let arguments: Vec<String> = env::args().skip(1).collect();
    let (problem, longest, grant) = match &arguments[..] {
        [problem, longest] => (problem, longest.parse()?, GRANT),
        [problem, longest, grant] => (problem, longest.parse()?, grant.parse()?),
        _ => return Err("wanted: PROBLEM LONGEST [GRANT]".into()),
    };
    match larkhammock::search_plans(&fs::read(problem)?, longest, grant) {
        Ok(search) => println!("{search}"),
        Err(refusal) => println!("{refusal}"),
    }
    Ok(())
}
