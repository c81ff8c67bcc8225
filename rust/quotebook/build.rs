//! Links the proved library.
//!
//! `install/archive quotebook` writes it, and is run whenever the library is missing or older than one of
//! its sources, so that no program is linked with an older one. `QUOTEBOOK_LIB_DIR` names the folder of
//! an installed library instead (`make install`); that one is linked as it is.

use std::env;
use std::fs;
use std::path::{Path, PathBuf};
use std::process::Command;
use std::time::SystemTime;

fn main() {
    println!("cargo::rerun-if-changed=build.rs");
    println!("cargo::rerun-if-env-changed=QUOTEBOOK_LIB_DIR");
    let folder = env::var_os("QUOTEBOOK_LIB_DIR").map_or_else(built, PathBuf::from);
    println!("cargo::rustc-link-search=native={}", folder.display());
    println!("cargo::rustc-link-lib=static=quotebook");
}

/// The folder of the library that the repository's sources make, written anew where it has to be.
fn built() -> PathBuf {
    let manifest = env::var_os("CARGO_MANIFEST_DIR").expect("cargo names the manifest's folder");
    let root = PathBuf::from(manifest).join("../..");
    let folder = root.join("target/staticlib");
    let archive = folder.join("libquotebook.a");
    let sources = sources(&root);
    let changed = sources
        .iter()
        .filter_map(|source| newest(source))
        .max()
        .expect("the repository has the library's sources");
    if modified(&archive).is_none_or(|written| written < changed) {
        if let Err(why) = write_archive(&root) {
            println!("cargo::error=target/staticlib/libquotebook.a is missing or older than its sources: {why}");
        }
    }
    for watched in sources.iter().chain([&archive]) {
        println!("cargo::rerun-if-changed={}", watched.display());
    }
    folder
}

/// The list of crates, and the folders of crate quotebook and of those that it stands on: what is
/// written there, without the folder `out`, where the kit keeps what it makes.
fn sources(root: &Path) -> Vec<PathBuf> {
    let list = root.join("crates.txt");
    let text = fs::read_to_string(&list).unwrap_or_default();
    let folders = below(&text, "quotebook").into_iter().flat_map(|name| {
        ["src", "specs", "proofs"].map(|part| root.join("crates").join(name).join(part))
    });
    let written = folders.filter(|folder| folder.is_dir());
    written.chain([list.clone()]).collect()
}

/// The crate and all that it stands on: a line of the list has only those that the crate's own files
/// name.
fn below<'a>(list: &'a str, top: &'a str) -> Vec<&'a str> {
    let line_of = |name: &str| {
        list.lines().find_map(|line| {
            let (head, used) = line.split_once(':')?;
            (head.split_whitespace().next()? == name).then_some(used)
        })
    };
    let mut found = vec![top];
    let mut next = 0;
    while let Some(&name) = found.get(next) {
        for used in line_of(name).unwrap_or_default().split_whitespace() {
            if !found.contains(&used) {
                found.push(used);
            }
        }
        next += 1;
    }
    found
}

fn modified(path: &Path) -> Option<SystemTime> {
    fs::metadata(path).and_then(|about| about.modified()).ok()
}

/// When a file, or the newest in a folder, was last changed: Rattle, definitions and proofs, and the
/// list of crates.
fn newest(path: &Path) -> Option<SystemTime> {
    if path.is_dir() {
        let entries = fs::read_dir(path).ok()?;
        return entries
            .flatten()
            .filter_map(|entry| newest(&entry.path()))
            .max();
    }
    let is_source = path
        .extension()
        .is_some_and(|kind| kind == "rt" || kind == "antt" || kind == "txt");
    is_source.then(|| modified(path)).flatten()
}

/// Proves the library and writes it.
fn write_archive(root: &Path) -> Result<(), String> {
    let mut command = Command::new(root.join("install/archive"));
    match command.arg("quotebook").status() {
        Ok(status) if status.success() => Ok(()),
        Ok(_) => Err("`install/archive quotebook` failed; run it to see why".to_string()),
        Err(error) => Err(format!("`install/archive` did not start ({error})")),
    }
}
