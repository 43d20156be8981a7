//! The program `beside`: drives the published modules and the port, linked as a static library,
//! with the same random operations, and compares after each.

mod cache;
mod compare;
mod irqc;
mod mmu;
mod scripts;
mod states;

use std::env;
use std::path::Path;
use std::process::ExitCode;

use scripts::Sort;

const HELP: &str = "\
The published SRC32 modules beside the port, in one process.

  beside scripts [--seed S] [--count N]    long scripts: listings, and states after each event
  beside damaged [--seed S] [--count N]    scripts with something wrong
  beside folder DIR                        the scripts in a folder, a file each
  beside irqc [--seed S] [--count N]       the interrupt controller
  beside cache [--seed S] [--count N]      the L1 tag cache
  beside mmu [--seed S] [--count N]        TLB, walk and page check
  beside states [--seed S] [--count N]     single operations on states that no script makes
  beside --help                            this text

Seed (1) and count (scripts 1000, operations 1000000) are decimal. Prints how many scripts or
operations agreed, or the first difference, and for a script writes the smallest one that it can find
to different-SEED.script; the status is then 1. The outcomes of scripts are counted; where one is rare
the status is 1 too.
";

/// How a run is chosen: the seed and the number of scripts or operations.
struct Options {
    seed: u64,
    count: u64,
}

fn main() -> ExitCode {
    let arguments: Vec<String> = env::args().skip(1).collect();
    let done = match arguments.split_first() {
        Some((name, rest)) => run(name, rest),
        None => Err(format!("a component is missing\n\n{HELP}")),
    };
    match done {
        Ok(text) => {
            println!("{}", text.trim_end());
            ExitCode::SUCCESS
        }
        Err(message) => {
            eprintln!("beside: {}", message.trim_end());
            ExitCode::FAILURE
        }
    }
}

fn run(name: &str, rest: &[String]) -> Result<String, String> {
    let operations = || options(rest, 1_000_000);
    let wanted = || options(rest, 1_000);
    match (name, rest) {
        ("scripts", _) => wanted().and_then(|o| scripts::run(Sort::Long, o.seed, o.count)),
        ("damaged", _) => wanted().and_then(|o| scripts::run(Sort::Damaged, o.seed, o.count)),
        ("folder", [place]) => scripts::folder(Path::new(place)),
        ("irqc", _) => operations().and_then(|o| irqc::run(o.seed, o.count)),
        ("cache", _) => operations().and_then(|o| cache::run(o.seed, o.count)),
        ("mmu", _) => operations().and_then(|o| mmu::run(o.seed, o.count)),
        ("states", _) => operations().and_then(|o| states::run(o.seed, o.count)),
        ("--help" | "-h" | "help", _) => Ok(HELP.to_string()),
        _ => Err(format!("unknown component: {name}\n\n{HELP}")),
    }
}

/// The options, and how many where they do not say.
fn options(arguments: &[String], count: u64) -> Result<Options, String> {
    let mut options = Options { seed: 1, count };
    for pair in arguments.chunks(2) {
        let [name, value] = pair else {
            return Err(format!("{} wants a number", pair[0]));
        };
        let number = value
            .parse()
            .map_err(|_| format!("{name}: {value} is not a decimal number"))?;
        match name.as_str() {
            "--seed" => options.seed = number,
            "--count" => options.count = number,
            _ => return Err(format!("unknown option: {name}")),
        }
    }
    Ok(options)
}
