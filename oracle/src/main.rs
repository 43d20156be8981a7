//! The program `oracle`: makes and compares stored answers, and prints reference listings.

use std::env;
use std::fs;
use std::io::{self, Read, Write};
use std::path::{Path, PathBuf};
use std::process::ExitCode;

use oracle::generate::{self, tally::Tally};
use oracle::inspect::inspect;
use oracle::listing::listing;
use oracle::store::{self, Set, SETS};
use oracle::watch;

const HELP: &str = "\
The published SRC32 modules over a stand-in bus, as the reference for the port.

  oracle store [--to DIR]     make every stored answer again and write it
  oracle verify [--in DIR]    make them again and compare; status 1 on a difference
  oracle listing < SCRIPT     the listing of document 01
  oracle inspect < SCRIPT     the listing with the whole state after each event
  oracle script SEED          a generated script, good or damaged, on standard output
  oracle seeds DIR            scripts for a fuzzer to start from, a file each
  oracle tally [SEED N]       what came of the stored scripts, or of N scripts from SEED on
  oracle --help               this text

The answers stand in the repository's crates/NAME/stdin and crates/NAME/stdout. A set whose
folder is missing is skipped; with --to DIR all sets are written below DIR instead.
The environment variable SRC32 names the checkout of src32 to compile.
";

fn main() -> ExitCode {
    let arguments: Vec<String> = env::args().skip(1).collect();
    let words: Vec<&str> = arguments.iter().map(String::as_str).collect();
    let done = match words.as_slice() {
        ["store"] => store_in_repository(),
        ["store", "--to", folder] => store_to(Path::new(folder)),
        ["verify"] => verify(&store::home()),
        ["verify", "--in", folder] => verify(Path::new(folder)),
        ["listing"] => run(listing),
        ["inspect"] => run(inspect),
        ["script", seed] => number(seed).and_then(write_script),
        ["seeds", folder] => write_seeds(Path::new(folder)),
        ["tally"] => {
            tally(generate::scripts::stored(store::MACHINE_SEED).into_iter());
            Ok(())
        }
        ["tally", seed, count] => tally_from(seed, count),
        ["--help"] | ["-h"] | ["help"] => {
            print!("{HELP}");
            Ok(())
        }
        [] => Err(format!("a subcommand is missing\n\n{HELP}")),
        other => Err(format!("unknown arguments: {}\n\n{HELP}", other.join(" "))),
    };
    match done {
        Ok(()) => ExitCode::SUCCESS,
        Err(message) => {
            eprintln!("oracle: {}", message.trim_end());
            ExitCode::FAILURE
        }
    }
}

/// Runs the script on standard input. A refused script is no failure of the program.
fn run(print: fn(&[u8]) -> String) -> Result<(), String> {
    let mut script = Vec::new();
    io::stdin()
        .read_to_end(&mut script)
        .map_err(|error| format!("standard input cannot be read: {error}"))?;
    write_out(print(&script).as_bytes())
}

fn write_script(seed: u64) -> Result<(), String> {
    write_out(&generate::scripts::any(seed))
}

/// The stored scripts, which are small, and some that are not.
fn write_seeds(folder: &Path) -> Result<(), String> {
    let stored = generate::scripts::stored(store::MACHINE_SEED);
    let fresh = (0..SEEDS).map(generate::scripts::any);
    for (index, script) in stored.into_iter().chain(fresh).enumerate() {
        let file = folder.join(format!("seed-{index}"));
        fs::write(&file, script).map_err(|error| format!("{}: {error}", file.display()))?;
    }
    Ok(())
}

/// Generated scripts among a fuzzer's seeds.
const SEEDS: u64 = 150;

fn write_out(bytes: &[u8]) -> Result<(), String> {
    io::stdout()
        .write_all(bytes)
        .map_err(|error| format!("standard output cannot be written: {error}"))
}

fn number(text: &str) -> Result<u64, String> {
    text.parse()
        .map_err(|_| format!("{text} is not a decimal number"))
}

fn tally_from(seed: &str, count: &str) -> Result<(), String> {
    let (seed, count) = (number(seed)?, number(count)?);
    tally((0..count).map(|index| generate::scripts::any(seed.wrapping_add(index))));
    Ok(())
}

fn tally(scripts: impl Iterator<Item = Vec<u8>>) {
    let mut tally = Tally::default();
    scripts.for_each(|script| watch::run(&script, &mut tally));
    print!("{}", tally.text());
}

/// A folder without a crate in it would be an error of the gate, so none is made here.
fn store_in_repository() -> Result<(), String> {
    let home = store::home();
    for set in &SETS {
        if home.join(set.name).is_dir() {
            write(set, &home)?;
        } else {
            println!("{}: skipped, there is no crates/{}", set.name, set.name);
        }
    }
    Ok(())
}

fn store_to(folder: &Path) -> Result<(), String> {
    for set in &SETS {
        let place: PathBuf = folder.join(set.name);
        fs::create_dir_all(&place).map_err(|error| format!("{}: {error}", place.display()))?;
        write(set, folder)?;
    }
    Ok(())
}

fn write(set: &Set, folder: &Path) -> Result<(), String> {
    let answers = set
        .write(folder)
        .map_err(|error| format!("{}: cannot be written: {error}", set.name))?;
    println!(
        "{}: {} bytes in, {} lines out",
        set.name,
        answers.stdin.len(),
        answers.stdout.lines().count()
    );
    Ok(())
}

/// Every set is compared, also after a difference, so that a changed rule shows all it touches.
fn verify(folder: &Path) -> Result<(), String> {
    let mut different = 0;
    for set in &SETS {
        if !folder.join(set.name).is_dir() {
            println!("{}: skipped, its folder is missing", set.name);
            continue;
        }
        match set.verify(folder) {
            Ok(lines) => println!("{}: same, {lines} lines", set.name),
            Err(difference) => {
                different += 1;
                println!("{}: different: {difference}", set.name);
            }
        }
    }
    match different {
        0 => Ok(()),
        1 => Err("1 set differs".to_string()),
        n => Err(format!("{n} sets differ")),
    }
}
