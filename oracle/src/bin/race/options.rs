//! The command line.

use crate::rows::ROWS;
use crate::{FLOOR, RUNNER};

pub const HELP: &str = "\
The port's run over events beside the unchanged Rust's, in one process.

  race [--count N] [--repeat K] [--rows A,B..]    what an event takes in each row
  race --growth [--count N] [--repeat K]          how that grows with events and with scripts
  race --help                                     this text

The count (10000000) is that of the rows of loads; rows whose events take longer have a share of it. With
--growth it is the last of three (100000000, which takes 1.2 GB), each ten times the one before. Each time
is the least of K (5), the sides in turn. Totals and memories are compared; a difference ends the race with
status 1. A target that is not met is shown and is no failure.

Rows:
  loads stores fetches    aligned words of twelve resident pages, user mode
  misses                  loads that miss the TLB each time
  crossings               loads, stores and fetches over the ends of the same twelve pages
  regions supervisor      loads checked by regions, and by nothing
  controller traps        sources that rise, are cleared and fall; traps and returns
  mix                     the generator's scripts, one after the other
  sweeps                  few external writes of nearly 4 GiB, each with a load behind it
  load-call store-call fetch-call    the first three by one by-value call an event
  load-lent store-lent fetch-lent    the first three by one call an event over a state that the caller holds
  floor                   address arithmetic and the data load alone
  runner                  a largest script, process start included, beside the oracle's listing
";

pub struct Options {
    pub count: u32,
    pub repeat: u32,
    /// All, if there is no list.
    rows: Option<Vec<String>>,
}

impl Options {
    pub fn has(&self, row: &str) -> bool {
        match &self.rows {
            Some(rows) => rows.iter().any(|name| name == row),
            None => true,
        }
    }
}

pub enum Wanted {
    Help,
    Table(Options),
    Growth(Options),
}

pub fn read(mut words: impl Iterator<Item = String>) -> Result<Wanted, String> {
    let (mut growth, mut count, mut repeat, mut rows) = (false, None, 5, None);
    while let Some(word) = words.next() {
        match word.as_str() {
            "--help" | "-h" | "help" => return Ok(Wanted::Help),
            "--growth" => growth = true,
            "--count" => count = Some(number(&word, words.next())?),
            "--repeat" => repeat = number(&word, words.next())?,
            "--rows" => rows = Some(names(words.next())?),
            _ => return Err(format!("unknown option: {word}\n\n{HELP}")),
        }
    }
    if growth && rows.is_some() {
        return Err("--growth has rows of its own: leave --rows out".to_string());
    }
    let usual = if growth { MOST } else { MOST / 10 };
    let options = Options {
        count: count.unwrap_or(usual),
        repeat,
        rows,
    };
    Ok(match growth {
        true => Wanted::Growth(options),
        false => Wanted::Table(options),
    })
}

/// The largest count.
const MOST: u32 = 100_000_000;

fn number(option: &str, word: Option<String>) -> Result<u32, String> {
    let word = word.ok_or(format!("{option} wants a number"))?;
    match word.parse() {
        Ok(number) if (1..=MOST).contains(&number) => Ok(number),
        _ => Err(format!(
            "{option}: {word} is no decimal number from 1 to {MOST}"
        )),
    }
}

fn names(word: Option<String>) -> Result<Vec<String>, String> {
    let word = word.ok_or("--rows wants names with commas between them")?;
    let names: Vec<String> = word.split(',').map(str::to_string).collect();
    let known =
        |name: &str| ROWS.iter().any(|row| row.name == name) || [FLOOR, RUNNER].contains(&name);
    match names.iter().find(|name| !known(name)) {
        Some(name) => Err(format!("--rows: there is no row {name}")),
        None => Ok(names),
    }
}
