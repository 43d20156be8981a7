//! The program `tables`: the port's writer of page tables, compared with a model of its own, and used.

mod call;
mod compare;
mod model;
mod port;
mod show;

use std::env;
use std::process::ExitCode;

const HELP: &str = "\
Page tables written by the port (tools/staticlib tables).

  tables compare [SEED [COUNT]]   random lists beside a model, and the published walk over what was written
  tables show FIRST < LIST        the tables of a list, from the frame at FIRST (hexadecimal) on
  tables --help                   this text

A list has a line for each mapping: virtual page and physical page in hexadecimal, and letters of R, W, X, U.
";

fn main() -> ExitCode {
    let arguments: Vec<String> = env::args().skip(1).collect();
    let words: Vec<&str> = arguments.iter().map(String::as_str).collect();
    let done = match words[..] {
        ["compare"] => compare::run(1, 100_000),
        ["compare", seed] => number(seed).and_then(|seed| compare::run(seed, 100_000)),
        ["compare", seed, count] => {
            number(seed).and_then(|seed| compare::run(seed, number(count)?))
        }
        ["show", first] => show::run(first),
        ["--help" | "-h" | "help"] => Ok(HELP.to_string()),
        _ => Err(HELP.to_string()),
    };
    match done {
        Ok(text) => {
            println!("{}", text.trim_end());
            ExitCode::SUCCESS
        }
        Err(message) => {
            eprintln!("tables: {}", message.trim_end());
            ExitCode::FAILURE
        }
    }
}

fn number(word: &str) -> Result<u64, String> {
    word.parse().map_err(|error| format!("{word}: {error}"))
}
