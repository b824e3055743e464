//! Links the proved library: from the folder that `JT_LIBRARY_DIR` names, else from the checkout
//! around this crate, else from where `pkg-config` finds `jt`.

use std::path::{Path, PathBuf};
use std::{env, process, process::Command};

const HELP: &str = "\
For a trial without a proof, in a checkout of jt: bindings/unproved.py FOLDER\n\
Then set JT_LIBRARY_DIR to FOLDER.\n\
With the proofs: cd crates/jt_ffi && rt lib, and set JT_LIBRARY_DIR to crates/jt_ffi/out.";

/// The only target for which there is a library.
const TARGET: [(&str, &str); 3] = [
    ("CARGO_CFG_TARGET_ARCH", "x86_64"),
    ("CARGO_CFG_TARGET_OS", "linux"),
    ("CARGO_CFG_TARGET_ENV", "gnu"),
];

fn main() {
    for name in ["JT_LIBRARY_DIR", "PKG_CONFIG", "PKG_CONFIG_PATH", "DOCS_RS", "CC", "AR"] {
        println!("cargo:rerun-if-env-changed={name}");
    }
    println!("cargo:rerun-if-changed=build.rs");
    // (Documentation links nothing.)
    if env::var_os("DOCS_RS").is_some() {
        return;
    }
    if let Err(message) = find_and_link() {
        // (A panic would print a backtrace around the message.)
        eprintln!("jt: {message}");
        process::exit(1);
    }
}

/// Finds the library and links it.
fn find_and_link() -> Result<(), String> {
    let found = TARGET.map(|(name, _)| env::var(name).unwrap_or_default());
    if TARGET.iter().zip(&found).any(|((_, wanted), found)| wanted != found) {
        let target = env::var("TARGET").unwrap_or_default();
        return Err(format!("the library is for x86_64-unknown-linux-gnu alone, not for {target}"));
    }
    if let Some(folder) = env::var_os("JT_LIBRARY_DIR") {
        let folder = PathBuf::from(folder);
        let missing = format!("JT_LIBRARY_DIR: {} has no libjt_ffi.a.\n{HELP}", folder.display());
        return link(&folder)?.then_some(()).ok_or(missing);
    }
    let here = PathBuf::from(variable("CARGO_MANIFEST_DIR")?);
    if link(&here.join("../../crates/jt_ffi/out"))? || link_installed() {
        return Ok(());
    }
    Err(format!("libjt_ffi.a is not found, and pkg-config finds no jt.\n{HELP}"))
}

fn variable(name: &str) -> Result<String, String> {
    env::var(name).map_err(|_| format!("cargo has not set {name}"))
}

/// Links the library in the folder, and the memory of the C library for it. Returns whether the
/// folder has the library.
fn link(folder: &Path) -> Result<bool, String> {
    let library = folder.join("libjt_ffi.a");
    if !library.is_file() {
        return Ok(false);
    }
    println!("cargo:rerun-if-changed={}", library.display());
    println!("cargo:rustc-link-search=native={}", folder.display());
    println!("cargo:rustc-link-lib=static=jt_ffi");
    compile_heap()?;
    Ok(true)
}

/// Compiles heap.c, which gives the library its memory, and links it. The package has it in `c/`,
/// and a checkout beside this crate.
fn compile_heap() -> Result<(), String> {
    let out = variable("OUT_DIR")?;
    let folder = ["c", "../c"].into_iter().find(|it| Path::new(it).join("heap.c").is_file());
    let folder = folder.ok_or("c/heap.c is missing")?;
    for file in ["heap.c", "jt.h"] {
        println!("cargo:rerun-if-changed={folder}/{file}");
    }
    let (source, object) = (format!("{folder}/heap.c"), format!("{out}/heap.o"));
    run("CC", "cc", &["-O2", "-fPIC", "-c", &source, "-o", &object])?;
    run("AR", "ar", &["crs", &format!("{out}/libjt_heap.a"), &object])?;
    println!("cargo:rustc-link-search=native={out}");
    println!("cargo:rustc-link-lib=static=jt_heap");
    Ok(())
}

/// Runs a program that a variable may name, with further words.
fn run(name: &str, usual: &str, words: &[&str]) -> Result<(), String> {
    let program = env::var(name).unwrap_or_else(|_| usual.to_string());
    let mut parts = program.split_whitespace();
    let first = parts.next().unwrap_or(usual);
    match Command::new(first).args(parts).args(words).status() {
        Ok(status) if status.success() => Ok(()),
        Ok(status) => Err(format!("{program} {}: {status}", words.join(" "))),
        Err(error) => Err(format!("{program}: {error}: set {name} to the path of another one")),
    }
}

/// Links the installed library, which has its own memory. Returns whether pkg-config finds it.
fn link_installed() -> bool {
    let program = env::var_os("PKG_CONFIG").unwrap_or_else(|| "pkg-config".into());
    let output = match Command::new(program).args(["--libs", "jt"]).output() {
        Ok(output) if output.status.success() => output,
        _ => return false,
    };
    for word in String::from_utf8_lossy(&output.stdout).split_whitespace() {
        if let Some(folder) = word.strip_prefix("-L") {
            println!("cargo:rustc-link-search=native={folder}");
        } else if let Some(name) = word.strip_prefix("-l") {
            println!("cargo:rustc-link-lib={name}");
        }
    }
    true
}
