//! Whole programs, from their start to their last byte: the port's `runner` and the oracle's `listing`.

use std::env;
use std::io::Write;
use std::path::{Path, PathBuf};
use std::process::{Command, Stdio};
use std::time::{Duration, Instant};

use oracle::generate::scripts;
use oracle::random::Random;
use oracle::script::{LARGEST_IMAGE, MOST_EVENTS, PAGE};

use crate::mix::shortened;
use crate::table::{in_all, progress, show, Target};
use crate::timing::Pair;
use crate::RUNNER;

/// A start is short and its time unsteady, so there are this many in a repetition.
const STARTS: u32 = 20;
const SEED: u64 = 1;

/// A row for each number of events. A program that is not built makes no failure: the row says so.
pub fn rows(counts: &[u32], repeat: u32, target: &Target) -> Result<(), String> {
    let programs = match Programs::find() {
        Ok(programs) => programs,
        Err(missing) => {
            show(&format!("{RUNNER:11} skipped: {missing}\n"));
            return Ok(());
        }
    };
    for &events in counts {
        progress(RUNNER);
        let pair = programs
            .race(events, repeat)
            .map_err(|what| format!("{RUNNER}: {what}"))?;
        show(&in_all(RUNNER, &pair, target));
    }
    Ok(())
}

/// The two programs, where they are built.
struct Programs {
    runner: PathBuf,
    oracle: PathBuf,
}

impl Programs {
    /// Or what is missing, and what makes it.
    fn find() -> Result<Self, String> {
        let here = Path::new(env!("CARGO_MANIFEST_DIR"));
        let runner = here.join("../crates/runner/out/runner");
        if !runner.is_file() {
            return Err(
                "crates/runner/out/runner is not built: rt run in crates/runner".to_string(),
            );
        }
        let oracle = env::current_exe()
            .map_err(|error| format!("where this program stands is not known: {error}"))?
            .with_file_name("oracle");
        if !oracle.is_file() {
            return Err("the program oracle is not built: cargo build --release".to_string());
        }
        Ok(Self { runner, oracle })
    }

    /// Both programs in turn on one script; what they print is compared.
    fn race(&self, events: u32, repeat: u32) -> Result<Pair, String> {
        let script = largest(events);
        let mut pair = Pair::new(events);
        for _ in 0..repeat * STARTS {
            let (rust, rust_time) = run(Command::new(&self.oracle).arg("listing"), &script)?;
            let (port, port_time) = run(&mut Command::new(&self.runner), &script)?;
            if rust != port {
                return Err(format!("the listings of {events} events differ"));
            }
            pair.take(rust_time, port_time);
        }
        Ok(pair)
    }
}

/// A generated script over the largest image, with its first events alone.
fn largest(events: u32) -> Vec<u8> {
    let pages = LARGEST_IMAGE / PAGE;
    let mut script = scripts::script(Random::new(SEED), pages, MOST_EVENTS as usize);
    script.events.truncate(events as usize);
    script.events = script.events.into_iter().map(shortened).collect();
    script.write()
}

/// A script is shorter than what a pipe holds, so it is written whole before anything is read.
fn run(command: &mut Command, script: &[u8]) -> Result<(Vec<u8>, Duration), String> {
    let command = command.stdin(Stdio::piped()).stdout(Stdio::piped());
    let name = command.get_program().to_string_lossy().into_owned();
    let failed = |error| format!("{name}: {error}");
    let start = Instant::now();
    let mut child = command.spawn().map_err(failed)?;
    if let Some(mut input) = child.stdin.take() {
        input.write_all(script).map_err(failed)?;
    }
    let output = child.wait_with_output().map_err(failed)?;
    let time = start.elapsed();
    match output.status.success() {
        true => Ok((output.stdout, time)),
        false => Err(format!("{name}: {}", output.status)),
    }
}
