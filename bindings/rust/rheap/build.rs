//! Finds the static library of the heap, and has it linked. It looks in the folder that
//! `RHEAP_LIB_DIR` names, then for a library that came with the crate, then asks `pkg-config rheap`.
//!
//! Where none is found, the pages of the crate can be made all the same. Anything else ends with a
//! message that says what to do: this script writes it, and `src/lib.rs` shows it.

use std::env;
use std::fs;
use std::path::{Path, PathBuf};
use std::process::Command;

/// The archives of which the library is made: the installed one, or else both parts.
const SETS: [&[&str]; 2] = [&["rheap"], &["rheap_c", "rheap_c_traces"]];

/// The declarations of the library's calls.
const RAW: &str = include_str!("src/raw.rs");

/// What to do where there is no library.
const HELP: &str = "
  The crate needs the static library librheap.a. It comes with each package of rheap, which
  also has a copy of this crate that finds it. Or make it, in a clone of rheap:
      ./rheap install --library PREFIX
  Then do one of these:
    - let pkg-config find it: put the folder PREFIX/lib/pkgconfig into PKG_CONFIG_PATH;
    - set RHEAP_LIB_DIR to the absolute path of PREFIX/lib;
    - copy it to native/librheap.a in the folder of this crate.
  To make pages of a crate that uses this one, no library is needed: set DOCS_RS=1.";

fn main() {
    for name in ["build.rs", "src/raw.rs"] {
        println!("cargo:rerun-if-changed={name}");
    }
    for name in [
        "RHEAP_LIB_DIR",
        "PKG_CONFIG",
        "PKG_CONFIG_PATH",
        "PKG_CONFIG_LIBDIR",
        "DOCS_RS",
    ] {
        println!("cargo:rerun-if-env-changed={name}");
    }
    println!("cargo:rustc-check-cfg=cfg(rheap_memory_inside)");
    println!("cargo:rustc-check-cfg=cfg(rheap_not_found)");
    // Pages are made where no library is, and nothing is linked there.
    if env::var_os("DOCS_RS").is_some() {
        return;
    }
    if let Err(why) = link() {
        let out = env::var_os("OUT_DIR").expect("cargo names a folder");
        let file = Path::new(&out).join("not_found.txt");
        fs::write(file, format!("{why}\n{HELP}")).expect("the folder can be written to");
        println!("cargo:rustc-cfg=rheap_not_found");
        // Cargo calls this again each time, since no such file is there.
        println!("cargo:rerun-if-changed=not_found");
    }
}

/// Has the library linked, or says why it can't be.
fn link() -> Result<(), String> {
    let arch = env::var("CARGO_CFG_TARGET_ARCH").unwrap_or_default();
    let os = env::var("CARGO_CFG_TARGET_OS").unwrap_or_default();
    if arch != "x86_64" || os != "linux" {
        return Err(format!(
            "the library is built for Linux on x86-64, not for {os} on {arch}"
        ));
    }
    let folder = folder()?;
    let Some(set) = set_in(&folder) else {
        return Err(format!(
            "neither librheap.a nor both librheap_c.a and librheap_c_traces.a are in {}",
            folder.display()
        ));
    };
    let mut symbols = Vec::new();
    for name in set {
        let path = archive(&folder, name);
        let bytes = fs::read(&path).map_err(|e| format!("{}: {e}", path.display()))?;
        symbols.extend(symbols_of(&bytes));
        println!("cargo:rerun-if-changed={}", path.display());
    }
    let has = |symbol: &str| symbols.iter().any(|it| it == symbol);
    if let Some(call) = calls().find(|call| !has(call)) {
        return Err(format!(
            "the library in {} has no {call}: it isn't of the version of this crate, which is {}",
            folder.display(),
            env!("CARGO_PKG_VERSION")
        ));
    }
    // An archive may have the three functions by which it takes memory. The crate brings its own
    // only where it hasn't, since two of a name don't link.
    if has("rattle_alloc") {
        println!("cargo:rustc-cfg=rheap_memory_inside");
    }
    for name in set {
        println!("cargo:rustc-link-lib=static={name}");
    }
    println!("cargo:rustc-link-search=native={}", folder.display());
    Ok(())
}

/// The calls that the crate declares.
fn calls() -> impl Iterator<Item = &'static str> {
    let lines = RAW.lines().map(str::trim_start);
    lines
        .filter_map(|line| line.strip_prefix("pub fn ")?.split('(').next())
        .filter(|name| name.starts_with("rheap_"))
}

/// The archives in a folder that make a library, if they are there.
fn set_in(folder: &Path) -> Option<&'static [&'static str]> {
    let is_there = |name: &&str| archive(folder, name).is_file();
    SETS.into_iter().find(|set| set.iter().all(is_there))
}

fn archive(folder: &Path, name: &str) -> PathBuf {
    folder.join(format!("lib{name}.a"))
}

/// The folder of the library.
fn folder() -> Result<PathBuf, String> {
    if let Some(folder) = env::var_os("RHEAP_LIB_DIR") {
        let folder = PathBuf::from(folder);
        // A build script runs in the folder of its crate, not in that of the command.
        if !folder.is_absolute() {
            return Err(format!(
                "RHEAP_LIB_DIR is {}, which is no absolute path",
                folder.display()
            ));
        }
        return Ok(folder);
    }
    match with_the_crate() {
        Some(folder) => Ok(folder),
        None => folder_by_pkg_config(),
    }
}

/// The folder of a library that came with the crate: `native`, or that of the installation that the
/// crate is in.
fn with_the_crate() -> Option<PathBuf> {
    let here = PathBuf::from(env::var_os("CARGO_MANIFEST_DIR")?);
    let native = here.join("native");
    if set_in(&native).is_some() {
        return Some(native);
    }
    let prefix = here.join("../../..");
    let is_installed = prefix.join("include/rheap.h").is_file();
    let lib = prefix.join("lib");
    (is_installed && set_in(&lib).is_some()).then_some(lib)
}

fn folder_by_pkg_config() -> Result<PathBuf, String> {
    let command = env::var_os("PKG_CONFIG").unwrap_or_else(|| "pkg-config".into());
    let command = command.to_string_lossy().into_owned();
    let said = Command::new(&command)
        .args(["--print-errors", "--variable=libdir", "rheap"])
        .output()
        .map_err(|e| format!("no library was found: {command} didn't run: {e}"))?;
    let folder = String::from_utf8_lossy(&said.stdout).trim().to_string();
    if !said.status.success() || folder.is_empty() {
        return Err(format!(
            "no library was found: {command} doesn't know rheap: {}",
            String::from_utf8_lossy(&said.stderr)
                .lines()
                .next()
                .unwrap_or_default()
        ));
    }
    Ok(PathBuf::from(unescaped(&folder)))
}

/// The folder that pkg-config prints for a shell: pkgconf puts a backslash before a blank and the
/// like, and each stands for the character behind it.
fn unescaped(printed: &str) -> String {
    let mut folder = String::new();
    let mut rest = printed.chars();
    while let Some(each) = rest.next() {
        folder.push(match each {
            '\\' => rest.next().unwrap_or(each),
            _ => each,
        });
    }
    folder
}

/// The symbols that the index of the archive lists; none where it has no index. That of an `ar`
/// archive is its first member, named `/`: a count and as many offsets of 4 bytes, big end first,
/// then the names of what the members define, each ended by a 0.
fn symbols_of(archive: &[u8]) -> Vec<String> {
    const MAGIC: usize = 8;
    const HEADER: usize = 60;
    let names = || {
        let index = archive.get(MAGIC..)?;
        let size = std::str::from_utf8(index.get(48..58)?).ok()?.trim();
        let index = index
            .strip_prefix(b"/ ")
            .and_then(|_| index.get(HEADER..HEADER + size.parse::<usize>().ok()?))?;
        let count = u32::from_be_bytes(index.get(..4)?.try_into().ok()?) as usize;
        index.get(4 + 4 * count..)
    };
    let names = names().unwrap_or_default().split(|byte| *byte == 0);
    names
        .map(|name| String::from_utf8_lossy(name).into_owned())
        .collect()
}
