//! A second reading of document 01, and a test that holds the library's calls
//! and the program `dft` against it, on inputs that are made from a seed.
//!
//!     rustc -O --edition 2021 -o reading tests/reading/main.rs

mod calls;
mod check;
mod compare;
mod fixed;
mod inputs;
mod program;
mod random;
mod reading;
mod requests;
mod residues;
mod roots;
mod scans;
mod tables;

use std::process::exit;
use std::time::{SystemTime, UNIX_EPOCH};

fn main() {
    let arguments: Vec<String> = std::env::args().skip(1).collect();
    let report = match &arguments[..] {
        [word] if word == "check" => Ok(format!("{} checks, all good", check::all())),
        [word, command @ ..] if word == "calls" => seeded(|seed| compare::calls(command, seed)),
        [word, directory, command @ ..] if word == "requests" => {
            seeded(|seed| compare::requests(directory, command, seed))
        }
        _ => {
            eprintln!("reading check                      run the self-checks");
            eprintln!("reading calls COMMAND..            compare calls, made by the program of tests/meter/calls.c");
            eprintln!("reading requests DIR COMMAND..     compare requests of dft, each written to a file in DIR");
            exit(2);
        }
    };
    match report {
        Ok(report) => println!("{report}"),
        Err(report) => {
            println!("{report}");
            exit(1);
        }
    }
}

/// Runs a comparison with the seed of the environment, or else of the clock.
fn seeded(compare: impl Fn(u64) -> Result<String, String>) -> Result<String, String> {
    let seed = match std::env::var("SEED") {
        Ok(word) => word
            .parse()
            .map_err(|_| format!("SEED={word} is no number"))?,
        Err(_) => {
            let clock = SystemTime::now().duration_since(UNIX_EPOCH);
            clock.map_or(0, |time| time.as_nanos() as u64 % 1_000_000_000)
        }
    };
    println!("inputs of SEED={seed}");
    compare(seed)
        .map_err(|report| format!("{report}\nSEED={seed} sh tests/calls.sh repeats this"))
}
