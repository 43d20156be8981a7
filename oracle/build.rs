//! Writes the file of `mod` items through which `lib.rs` compiles the published modules, so that no
//! copy of them is in this repository. Each is compiled from its text in a checkout, unchanged, with
//! a module of ours behind it that shows its private state (`src/windows/`). With the feature `port`
//! it also tells the linker where the port's static libraries are.

use std::env;
use std::fs;
use std::path::{Path, PathBuf};
use std::process::Command;

/// The published files in a checkout.
const FILES: [&str; 4] = [
    "src/cpu_cache.rs",
    "src/cpu_privilege.rs",
    "src/devices/cpu.rs",
    "src/devices/irqc/irqc.rs",
];

fn main() {
    println!("cargo:rerun-if-env-changed=SRC32");
    println!("cargo:rerun-if-changed=build.rs");
    let home = PathBuf::from(variable("CARGO_MANIFEST_DIR"));
    let checkout = checkout(&home);
    let out = PathBuf::from(variable("OUT_DIR")).join("published.rs");
    println!("cargo:rustc-env=PUBLISHED={}", checkout.display());
    println!("cargo:rustc-env=PUBLISHED_FILES={}", FILES.join(":"));
    if let Err(error) = fs::write(&out, module_file(&checkout)) {
        panic!("cannot write {}: {error}", out.display());
    }
    if env::var_os("CARGO_FEATURE_PORT").is_some() {
        link_port(&home);
    }
    if env::var_os("CARGO_FEATURE_FUZZ").is_some() {
        link_fuzzer();
    }
}

/// The checkout that SRC32 names (cargo reads a relative path from this folder); by default the
/// published files beside the repository.
fn checkout(home: &Path) -> PathBuf {
    let named = env::var_os("SRC32").map(PathBuf::from);
    let place = named.unwrap_or_else(|| home.join("../../shared/docs/src"));
    match place.canonicalize() {
        Ok(path) => path,
        Err(error) => panic!(
            "SRC32 must name a checkout of src32: {}: {error}",
            place.display()
        ),
    }
}

fn variable(name: &str) -> String {
    env::var(name).unwrap_or_else(|error| panic!("cargo did not set {name}: {error}"))
}

/// The published modules at the paths by which they name each other.
fn module_file(checkout: &Path) -> String {
    let [cache, privilege, cpu, irqc] = FILES.map(|inside| item(checkout, inside));
    format!(
        "{cache}{privilege}pub mod devices {{\n{cpu}pub mod irqc {{\n{irqc}}}\n\
         pub mod pec {{ pub use crate::shims::pec; }}\n}}\n"
    )
}

/// One `mod` item. What the published text would warn about is silenced here, not in it.
fn item(checkout: &Path, inside: &str) -> String {
    let path = checkout.join(inside);
    if !path.is_file() {
        panic!(
            "SRC32 must name a checkout of src32: {} has no {inside}",
            checkout.display()
        );
    }
    println!("cargo:rerun-if-changed={}", path.display());
    let name = path.file_stem().unwrap_or_default().to_string_lossy();
    let compiled = with_window(&path, &name);
    format!("#[allow(warnings, clippy::all)]\n#[path = {compiled:?}]\npub mod {name};\n")
}

/// The published text, and behind it the module that sees its private fields, where there is one.
fn with_window(path: &Path, name: &str) -> PathBuf {
    let window =
        PathBuf::from(variable("CARGO_MANIFEST_DIR")).join(format!("src/windows/{name}.rs"));
    if !window.is_file() {
        return path.to_path_buf();
    }
    println!("cargo:rerun-if-changed={}", window.display());
    let compiled = PathBuf::from(variable("OUT_DIR")).join(format!("{name}.rs"));
    let text = fs::read_to_string(path)
        .map(|text| format!("{text}\n#[path = {window:?}]\nmod window;\n"))
        .and_then(|text| fs::write(&compiled, text));
    if let Err(error) = text {
        panic!("{} with its window: {error}", path.display());
    }
    compiled
}

/// Programs that call the port, each with a static library that it wants.
const LINKED: [(&str, &str); 4] = [
    ("beside", "bridge"),
    ("fuzz", "bridge"),
    ("race", "bridge"),
    ("race", "race"),
];

/// The port's static libraries are made by `tools/staticlib NAME` below the repository's target folder,
/// or stand in the folder that PORT names.
fn link_port(home: &Path) {
    println!("cargo:rerun-if-env-changed=PORT");
    let named = env::var_os("PORT").map(PathBuf::from);
    let folder = named.unwrap_or_else(|| home.join("../target/staticlib"));
    println!("cargo:rustc-link-search=native={}", folder.display());
    for (program, name) in LINKED {
        let library = folder.join(format!("lib{name}.a"));
        println!("cargo:rerun-if-changed={}", library.display());
        if !library.exists() {
            println!(
                "cargo:warning={program} wants target/staticlib/lib{name}.a: tools/staticlib {name} makes it"
            );
        }
        let linked = if name == "race" && library.exists() {
            placed(&library)
        } else {
            library
        };
        println!("cargo:rustc-link-arg-bin={program}={}", linked.display());
    }
}

/// A copy of the race's library whose code starts at a multiple of 64 bytes. Some processors do not cache
/// branches that touch a multiple of 32: there the same code takes up to a quarter longer, by where the
/// linker happens to put it.
fn placed(library: &Path) -> PathBuf {
    let copy = PathBuf::from(variable("OUT_DIR")).join("librace.a");
    let made = Command::new("objcopy")
        .args(["--set-section-alignment", ".text.race_run=64"])
        .args([library, &copy])
        .status();
    if made.is_ok_and(|status| status.success()) {
        return copy;
    }
    println!("cargo:warning=without objcopy the race's times depend on where its code is put");
    library.to_path_buf()
}

/// libFuzzer has `main`, and is written in C++.
fn link_fuzzer() {
    println!("cargo:rerun-if-env-changed=LIBFUZZER");
    for word in [variable("LIBFUZZER"), "-lstdc++".to_string()] {
        println!("cargo:rustc-link-arg-bin=fuzz={word}");
    }
}
