//! Merges two halls into one problem, and writes it and the table of its actions'
//! numbers: `cargo run --release --example merge -- FIRST SECOND PROBLEM TABLE`.

use std::env;
use std::error::Error;
use std::fs;

use larkhammock::{merge, LONGEST_PROBLEM, MOST_ACTIONS};

fn main() -> Result<(), Box<dyn Error>> {
    let arguments: Vec<String> = env::args().skip(1).collect();
    let [first, second, problem, table] = &arguments[..] else {
        return Err("wanted: FIRST SECOND PROBLEM TABLE".into());
    };
    let (first, second) = (fs::read(first)?, fs::read(second)?);
    let (mut out, mut numbers) = ([0; LONGEST_PROBLEM], [0; MOST_ACTIONS]);
    match merge(&first, &second, &mut out, &mut numbers) {
        Ok(merged) => {
            fs::write(problem, merged.problem)?;
            fs::write(table, merged.numbers)?;
            let (bytes, actions) = (merged.problem.len(), merged.numbers.len());
            println!("merged into {bytes} bytes with {actions} actions");
        }
        Err(refusal) => println!("{refusal}"),
    }
    Ok(())
}
