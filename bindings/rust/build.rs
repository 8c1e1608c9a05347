//! Finds the static library that the proved crate `dt_parser` is made into, and has it linked.
//!
//! tools/static-library of the repository, two levels up, prints its path: that of `DT_PARSER_LIB`; of the library that
//! is kept in lib/, if it is this checkout's; or of one that the kit makes after it has proved what changed. A copy is
//! linked, so that the build stays good when the library is removed.

use std::env;
use std::path::{Path, PathBuf};
use std::process::{Command, exit};

const VARIABLE: &str = "DT_PARSER_LIB";
const ARCHIVE: &str = "libdt_parser.a";

fn main() {
    println!("cargo::rerun-if-env-changed={VARIABLE}");
    println!("cargo::rerun-if-changed=build.rs");
    match check_target().and_then(|()| library()).and_then(|library| copied(&library)) {
        Ok(folder) => {
            println!("cargo::rustc-link-search=native={}", folder.display());
            println!("cargo::rustc-link-lib=static=dt_parser");
        }
        Err(why) => {
            for line in why.lines() {
                println!("cargo::error={line}");
            }
            exit(1)
        }
    }
}

/// The kit compiles for this one target.
fn check_target() -> Result<(), String> {
    let arch = env::var("CARGO_CFG_TARGET_ARCH").unwrap_or_default();
    let os = env::var("CARGO_CFG_TARGET_OS").unwrap_or_default();
    if (arch.as_str(), os.as_str()) == ("x86_64", "linux") {
        Ok(())
    } else {
        Err(format!("{ARCHIVE} is made for x86-64 Linux only, and this build is for {arch} {os}"))
    }
}

/// The library that the script names. A copy of this package outside its repository has no script: there the variable
/// must name the library.
fn library() -> Result<PathBuf, String> {
    let root = root();
    let script = root.join("tools/static-library");
    match env::var_os(VARIABLE) {
        Some(file) if !script.is_file() => Ok(PathBuf::from(file)),
        None if !script.is_file() => Err(format!(
            "no tools/static-library in {}: this package stands outside its repository.\n{}",
            root.display(),
            help()
        )),
        given => {
            for file in if given.is_none() { made_from(&root) } else { Vec::new() } {
                println!("cargo::rerun-if-changed={}", file.display());
            }
            println!("cargo::rerun-if-changed={}", script.display());
            printed_by(&script)
        }
    }
}

/// The sources, without crates/NAME/out, where the kit keeps what it makes.
fn made_from(root: &Path) -> Vec<PathBuf> {
    let inside = |folder: &Path| -> Vec<PathBuf> {
        std::fs::read_dir(folder).into_iter().flatten().flatten().map(|entry| entry.path()).collect()
    };
    let crates = inside(&root.join("crates"));
    let parts = crates.iter().flat_map(|folder| inside(folder)).filter(|part| !part.ends_with("out"));
    parts.chain([root.join("crates.txt")]).collect()
}

fn printed_by(script: &Path) -> Result<PathBuf, String> {
    let name = script.display();
    let said =
        Command::new(script).output().map_err(|why| format!("{name} could not be started: {why}\n{}", help()))?;
    if said.status.success() {
        return Ok(PathBuf::from(String::from_utf8_lossy(&said.stdout).trim_end()));
    }
    let text = last_lines(&String::from_utf8_lossy(&said.stderr));
    Err(format!("{name} found no library ({}):\n{text}\n{}", said.status, help()))
}

/// Copies the library to cargo's folder, under the name that the linker looks for. Gives the folder.
fn copied(library: &Path) -> Result<PathBuf, String> {
    println!("cargo::rerun-if-changed={}", library.display());
    let folder = PathBuf::from(env::var_os("OUT_DIR").unwrap_or_default());
    match std::fs::copy(library, folder.join(ARCHIVE)) {
        Ok(_) => Ok(folder),
        Err(why) => Err(format!("{} could not be copied: {why}", library.display())),
    }
}

fn root() -> PathBuf {
    let here = env::var_os("CARGO_MANIFEST_DIR").map_or_else(PathBuf::new, PathBuf::from);
    let root = here.join("../..");
    root.canonicalize().unwrap_or(root)
}

fn last_lines(text: &str) -> String {
    let lines: Vec<&str> = text.lines().collect();
    lines[lines.len().saturating_sub(12)..].join("\n")
}

fn help() -> String {
    format!("To link a library that is there already, set {VARIABLE} to the path of {ARCHIVE}.")
}
