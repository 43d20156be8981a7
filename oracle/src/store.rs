//! The stored answers: which there are, where they stand, how they are made, written and compared.
//!
//! Each set is the standard input and the expected standard output of a program of the port,
//! `crates/NAME/stdin` and `crates/NAME/stdout`, made from a fixed seed.

use std::fs;
use std::io;
use std::path::{Path, PathBuf};

use crate::cache;
use crate::event;
use crate::generate;
use crate::inspect;
use crate::irqc;
use crate::mmu;
use crate::privilege;
use crate::random::Random;

/// A set's name and how it is made.
pub struct Set {
    pub name: &'static str,
    make: fn() -> Answers,
}

/// What a program reads, and what it has to print.
pub struct Answers {
    pub stdin: Vec<u8>,
    pub stdout: String,
}

/// All stored sets.
pub const SETS: [Set; 5] = [
    Set {
        name: "irqc_replay",
        make: irqc_replay,
    },
    Set {
        name: "cache_replay",
        make: cache_replay,
    },
    Set {
        name: "mmu_replay",
        make: mmu_replay,
    },
    Set {
        name: "privilege_replay",
        make: privilege_replay,
    },
    Set {
        name: "machine_replay",
        make: machine_replay,
    },
];

const IRQC_SEED: u64 = 0x1209_C001;
const IRQC_EVENTS: usize = 4096;

fn irqc_replay() -> Answers {
    let mut random = Random::new(IRQC_SEED);
    let events: Vec<_> = (0..IRQC_EVENTS)
        .map(|_| generate::irqc::event(&mut random))
        .collect();
    Answers {
        stdin: event::encode_all(&events),
        stdout: event::replay(&mut irqc::Published::default(), &events),
    }
}

const CACHE_SEED: u64 = 0xCAC4_E002;
const CACHE_EVENTS: usize = 3000;

fn cache_replay() -> Answers {
    let mut generator = generate::cache::Generator::new(CACHE_SEED);
    let events: Vec<_> = (0..CACHE_EVENTS).map(|_| generator.event()).collect();
    Answers {
        stdin: event::encode_all(&events),
        stdout: event::replay(&mut cache::Published::default(), &events),
    }
}

const MMU_SEED: u64 = 0x0033_0003;
const MMU_EVENTS: usize = 2000;

fn mmu_replay() -> Answers {
    let script = generate::mmu::script(MMU_SEED, MMU_EVENTS);
    Answers {
        stdin: script.write(),
        stdout: event::replay(&mut mmu::Published::new(&script), &script.events),
    }
}

const PRIVILEGE_SEED: u64 = 0x5157_0004;
const PRIVILEGE_EVENTS: usize = 2048;

fn privilege_replay() -> Answers {
    let script = generate::privilege::script(PRIVILEGE_SEED, PRIVILEGE_EVENTS);
    Answers {
        stdin: script.write(),
        stdout: event::replay(&mut privilege::Published::new(&script), &script.events),
    }
}

/// The seed of the scripts in `machine_replay`: the tally says that they reach every outcome.
pub const MACHINE_SEED: u64 = 0x3AC4_0558;

fn machine_replay() -> Answers {
    let scripts = generate::scripts::stored(MACHINE_SEED);
    let whole = scripts.iter().flat_map(|script| with_length(script));
    let listings = scripts.iter().map(|script| inspect::changes(script));
    Answers {
        stdin: whole.chain(CUT_OFF).collect(),
        stdout: listings.chain([SAID_OF_IT.to_string()]).collect(),
    }
}

/// At the end a script of 24 bytes, of which the input has two; and what is said of it.
const CUT_OFF: [u8; 6] = [0, 0, 0, 24, 0, 0];
const SAID_OF_IT: &str = "cut off\n";

/// Scripts stand in a row, each behind its length in four bytes.
fn with_length(script: &[u8]) -> Vec<u8> {
    [&(script.len() as u32).to_be_bytes(), script].concat()
}

/// Where the sets stand: the repository's crates.
pub fn home() -> PathBuf {
    Path::new(env!("CARGO_MANIFEST_DIR")).join("../crates")
}

impl Set {
    /// Makes the set again and writes it below `folder`.
    pub fn write(&self, folder: &Path) -> io::Result<Answers> {
        let answers = (self.make)();
        let place = folder.join(self.name);
        fs::write(place.join("stdin"), &answers.stdin)?;
        fs::write(place.join("stdout"), &answers.stdout)?;
        Ok(answers)
    }

    /// Makes the set again and compares it with the files below `folder`: the number of lines,
    /// or what differs first.
    pub fn verify(&self, folder: &Path) -> Result<usize, String> {
        let answers = (self.make)();
        let place = folder.join(self.name);
        compare_input(&place.join("stdin"), &answers.stdin)?;
        compare_lines(&place.join("stdout"), &answers.stdout)?;
        Ok(answers.stdout.lines().count())
    }
}

fn read(file: &Path) -> Result<Vec<u8>, String> {
    fs::read(file).map_err(|error| format!("{}: {error}", shown(file)))
}

/// The file's place from the crates folder on: all that a reader needs of it.
fn shown(file: &Path) -> String {
    let parts: Vec<_> = file
        .iter()
        .rev()
        .take(2)
        .map(|part| part.to_string_lossy())
        .collect();
    parts.into_iter().rev().collect::<Vec<_>>().join("/")
}

fn compare_input(file: &Path, made: &[u8]) -> Result<(), String> {
    let stored = read(file)?;
    if stored == made {
        return Ok(());
    }
    let same = stored.iter().zip(made).take_while(|(a, b)| a == b).count();
    Err(format!("{}: differs from byte {same} on", shown(file)))
}

fn compare_lines(file: &Path, made: &str) -> Result<(), String> {
    let stored = read(file)?;
    if stored == made.as_bytes() {
        return Ok(());
    }
    let stored = String::from_utf8_lossy(&stored);
    let mut stored_lines = stored.split_inclusive('\n');
    let mut made_lines = made.split_inclusive('\n');
    let mut number = 1;
    loop {
        let (old, new) = (stored_lines.next(), made_lines.next());
        if old != new {
            return Err(format!(
                "{}: line {number}\n  stored: {}\n  made:   {}",
                shown(file),
                line_text(old),
                line_text(new)
            ));
        }
        number += 1;
    }
}

fn line_text(line: Option<&str>) -> &str {
    line.map_or("(no such line)", |line| line.trim_end_matches('\n'))
}

#[cfg(test)]
mod tests {
    use super::{machine_replay, mmu_replay, privilege_replay};
    use crate::script::Script;

    /// The programs that read these have buffers of fixed sizes.
    #[test]
    fn inputs_keep_to_their_sizes() {
        assert!(machine_replay().stdin.len() < 524_288);
        for answers in [mmu_replay(), privilege_replay()] {
            let script = Script::read(&answers.stdin).expect("the input has a script's form");
            assert_eq!(script.events.len(), answers.stdout.lines().count());
        }
    }
}
