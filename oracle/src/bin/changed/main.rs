//! The program `changed`: changes one rule at a time in a copy of the published Rust or of the oracle's
//! own reading of document 01, and sees whether the stored answers notice. A change that they do not
//! notice says that an answer is missing.

mod rules;

use std::env;
use std::fs;
use std::path::{Path, PathBuf};
use std::process::{Command, ExitCode};

use oracle::store::{self, SETS};
use rules::{Rule, Silent, RULES, SILENT};

const HELP: &str = "\
Changes rules in copies of the published Rust and of the oracle below target/changed, and compares with
the stored answers in crates/.

  changed              every rule, and those that nothing can show
  changed NAME..       these rules
  changed --list       their names
  changed --help       this text

Prints in which stored sets each change was seen; the status is 1 if one was not, or if one was seen
that nothing should show.
";

fn main() -> ExitCode {
    let names: Vec<String> = env::args().skip(1).collect();
    let done = match names.first().map(String::as_str) {
        Some("--help" | "-h") => Ok(HELP.to_string()),
        Some("--list") => Ok(RULES
            .iter()
            .map(|rule| format!("{}\n", rule.name))
            .collect()),
        Some(_) => chosen(&names).and_then(|rules| try_all(&rules, &[])),
        None => try_all(&RULES.iter().collect::<Vec<_>>(), &SILENT),
    };
    match done {
        Ok(text) => {
            print!("{text}");
            ExitCode::SUCCESS
        }
        Err(message) => {
            eprintln!("changed: {}", message.trim_end());
            ExitCode::FAILURE
        }
    }
}

fn chosen(names: &[String]) -> Result<Vec<&'static Rule>, String> {
    let all = || RULES.iter().chain(SILENT.iter().map(|silent| &silent.rule));
    let find = |name: &String| all().find(|rule| rule.name == name);
    names
        .iter()
        .map(|name| find(name).ok_or(format!("no rule is called {name}; --list has the names")))
        .collect()
}

fn try_all(rules: &[&Rule], silent: &[Silent]) -> Result<String, String> {
    let work = Path::new(env!("CARGO_MANIFEST_DIR")).join("target/changed");
    let unchanged = copy_all(&work).and_then(|()| differing(&work))?;
    if !unchanged.is_empty() {
        return Err(format!(
            "without a change these differ: {}",
            unchanged.join(" ")
        ));
    }
    let mut wrong = 0;
    for rule in rules {
        let sets = try_rule(rule, &work)?;
        wrong += usize::from(sets.is_empty());
        println!("{}: {}", rule.name, shown(&sets));
    }
    for Silent { rule, reason } in silent {
        let sets = try_rule(rule, &work)?;
        wrong += usize::from(!sets.is_empty());
        println!("{}: {}, as {reason}", rule.name, shown(&sets));
    }
    let (tried, quiet) = (rules.len(), silent.len());
    match wrong {
        0 => Ok(format!(
            "{tried} changes seen, {quiet} that nothing can show\n"
        )),
        _ => Err(format!(
            "{wrong} of {} changes went otherwise",
            tried + quiet
        )),
    }
}

fn shown(sets: &[String]) -> String {
    match sets {
        [] => "not seen".to_string(),
        _ => sets.join(" "),
    }
}

/// The sets whose answers show the change. The copies are as before afterwards.
fn try_rule(rule: &Rule, work: &Path) -> Result<Vec<String>, String> {
    let wrong = |error: String| format!("{}: {}: {error}", rule.name, rule.file);
    let file = work.join(rule.file);
    let text = fs::read_to_string(&file).map_err(|error| wrong(error.to_string()))?;
    if text.matches(rule.old).count() != 1 {
        return Err(wrong("its text does not stand there once".to_string()));
    }
    let write = |text: &str| fs::write(&file, text).map_err(|error| wrong(error.to_string()));
    write(&text.replace(rule.old, rule.new))?;
    let sets = differing(work).map_err(wrong);
    write(&text)?;
    sets
}

/// The published files below `work/src32`, and this project below `work/oracle`.
fn copy_all(work: &Path) -> Result<(), String> {
    let published = Path::new(env!("PUBLISHED"));
    for file in env!("PUBLISHED_FILES").split(':') {
        copy(&published.join(file), &work.join("src32").join(file))?;
    }
    let home = Path::new(env!("CARGO_MANIFEST_DIR"));
    for inside in ["Cargo.toml", "Cargo.lock", "build.rs", "src", "tracing"] {
        copy(&home.join(inside), &work.join("oracle").join(inside))?;
    }
    Ok(())
}

/// Copies a file, or a folder and what is in it.
fn copy(from: &Path, to: &Path) -> Result<(), String> {
    let wrong = |error| format!("{}: {error}", from.display());
    if !from.is_dir() {
        let folder = to.parent().unwrap_or(to);
        return fs::create_dir_all(folder)
            .and_then(|()| fs::copy(from, to))
            .map(|_| ())
            .map_err(wrong);
    }
    for entry in fs::read_dir(from).map_err(wrong)? {
        let inside: PathBuf = entry.map_err(wrong)?.file_name().into();
        copy(&from.join(&inside), &to.join(&inside))?;
    }
    Ok(())
}

/// The sets whose stored answers are not those of the copies. Compiling takes longest, so little is
/// optimised.
fn differing(work: &Path) -> Result<Vec<String>, String> {
    let output = Command::new("cargo")
        .args([
            "run",
            "--release",
            "--quiet",
            "--jobs",
            "1",
            "--bin",
            "oracle",
        ])
        .args(["--", "verify", "--in"])
        .arg(store::home())
        .current_dir(work.join("oracle"))
        .env("SRC32", work.join("src32"))
        .env("CARGO_TARGET_DIR", work.join("build"))
        .env("CARGO_PROFILE_RELEASE_OPT_LEVEL", "1")
        .env("CARGO_PROFILE_RELEASE_INCREMENTAL", "true")
        .output()
        .map_err(|error| format!("cargo cannot be started: {error}"))?;
    let text = String::from_utf8_lossy(&output.stdout);
    let compared = text.lines().filter(|line| !line.starts_with(' ')).count();
    if compared != SETS.len() {
        return Err(String::from_utf8_lossy(&output.stderr).into_owned());
    }
    // A set whose input differs was made by another generator, and says nothing about an answer.
    let different = |line: &str| {
        let (set, place) = line.split_once(": different: ")?;
        place.contains("/stdout").then(|| set.to_string())
    };
    Ok(text.lines().filter_map(different).collect())
}
