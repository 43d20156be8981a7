//! Whole scripts on both sides: fresh ones by seed and count, or those in a folder.

use std::fs;
use std::io::{stderr, IsTerminal, Write};
use std::path::Path;

use oracle::both::compare;
use oracle::generate::scripts::{broken, long};
use oracle::generate::tally::Tally;
use oracle::shrink::smallest;
use oracle::watch::{Unwatched, Watch};

/// Which scripts a seed stands for.
#[derive(Clone, Copy)]
pub enum Sort {
    /// Long ones, all good.
    Long,
    /// With one to three things wrong.
    Damaged,
}

impl Sort {
    fn script(self, seed: u64) -> Vec<u8> {
        match self {
            Sort::Long => long(seed),
            Sort::Damaged => broken(seed),
        }
    }

    fn name(self) -> &'static str {
        match self {
            Sort::Long => "scripts",
            Sort::Damaged => "damaged scripts",
        }
    }

    /// What of the tally was too rare for the run to say much.
    fn rare(self, tally: &Tally) -> Vec<String> {
        match self {
            Sort::Long => tally.rare().iter().map(|name| name.to_string()).collect(),
            Sort::Damaged => {
                let refusal = |number| format!("scripts refused with {number}");
                tally.rare_refusals().into_iter().map(refusal).collect()
            }
        }
    }
}

/// Compares `count` scripts from `seed` on. The outcomes are counted and shown; where one is rare the
/// run has failed too.
pub fn run(sort: Sort, seed: u64, count: u64) -> Result<String, String> {
    let mut tally = Tally::default();
    for index in 0..count {
        progress(index, count);
        let seed = seed.wrapping_add(index);
        check(&sort.script(seed), &format!("{seed}"), &mut tally)?;
    }
    progress(count, count);
    let name = sort.name();
    let text = tally.text();
    let rare = sort.rare(&tally);
    if !rare.is_empty() {
        return Err(format!("{text}too rare: {}", rare.join("; ")));
    }
    let events = tally.events();
    Ok(format!(
        "{text}{name}: {count} and {events} events agreed, listings, states and memory (seed {seed})"
    ))
}

/// Compares the scripts in a folder, a file each.
pub fn folder(place: &Path) -> Result<String, String> {
    let unread = |error| format!("{}: {error}", place.display());
    let mut count = 0;
    for entry in fs::read_dir(place).map_err(unread)? {
        let file = entry.map_err(unread)?.path();
        let name = file.file_name().unwrap_or_default().to_string_lossy();
        let script = fs::read(&file).map_err(|error| format!("{name}: {error}"))?;
        check(&script, &name, &mut Unwatched)?;
        count += 1;
    }
    match count {
        0 => Err(format!("{}: no scripts", place.display())),
        _ => Ok(format!("folder: {count} scripts agreed")),
    }
}

/// Compares one script. If it differs, the smallest one that can be found is written to a file.
fn check(script: &[u8], name: &str, watch: &mut impl Watch) -> Result<(), String> {
    let Err(first) = compare(script, watch) else {
        return Ok(());
    };
    let differs = |script: &[u8]| compare(script, &mut Unwatched).is_err();
    let small = smallest(script, &differs);
    let difference = compare(&small, &mut Unwatched).err().unwrap_or(first);
    let file = format!("different-{name}.script");
    let kept = match fs::write(&file, &small) {
        Ok(()) => format!(
            "{file} has the smallest script found, of {} bytes",
            small.len()
        ),
        Err(error) => format!("{file}: {error}"),
    };
    Err(format!("script {name}: {difference}\n{kept}"))
}

/// On a terminal alone; the line is gone at the end.
fn progress(done: u64, count: u64) {
    let text = match done {
        _ if done == count => "\r\x1B[K".to_string(),
        _ if done.is_multiple_of(64) => format!("\r{done} of {count} "),
        _ => return,
    };
    if stderr().is_terminal() {
        let _ = write!(stderr(), "{text}");
    }
}
