//! Says where the archive stands that src/face.rs links: in the folder that MOSSZEPHYR_LIB_DIR
//! names, else where pkg-config knows it, else in the repository's target folder. Where there is
//! none, or none for the target, it says so and what to run.

use std::env;
use std::fs;
use std::path::{Path, PathBuf};
use std::process::Command;
use std::time::SystemTime;

const ARCHIVE: &str = "libmosszephyr.a";

fn main() {
    println!("cargo::rerun-if-changed=build.rs");
    for name in ["MOSSZEPHYR_LIB_DIR", "PKG_CONFIG_PATH", "PKG_CONFIG_LIBDIR"] {
        println!("cargo::rerun-if-env-changed={name}");
    }
    match target_served().and_then(|()| archive_folder()) {
        Ok(folder) => println!("cargo::rustc-link-search=native={}", folder.display()),
        Err(words) => println!("cargo::error={words}"),
    }
}

fn target_served() -> Result<(), String> {
    let told = |name| env::var(name).unwrap_or_default();
    let (arch, os) = (told("CARGO_CFG_TARGET_ARCH"), told("CARGO_CFG_TARGET_OS"));
    if (&arch[..], &os[..]) == ("x86_64", "linux") {
        return Ok(());
    }
    Err(format!(
        "{ARCHIVE} is for x86-64 Linux alone and the target is {arch} {os}: \
         build with --target x86_64-unknown-linux-gnu"
    ))
}

/// The first of three folders that holds the archive. Where one is named it is that or none:
/// another archive is not what was asked for.
fn archive_folder() -> Result<PathBuf, String> {
    if let Some(named) = env::var_os("MOSSZEPHYR_LIB_DIR").map(PathBuf::from) {
        return match holds_archive(&named) {
            true => Ok(named),
            false => Err(format!(
                "MOSSZEPHYR_LIB_DIR is {}, where there is no {ARCHIVE}",
                named.display()
            )),
        };
    }
    let installed = installed_folder();
    if let Some(folder) = installed.as_ref().filter(|folder| holds_archive(folder)) {
        return Ok(folder.clone());
    }
    let here = env::var_os("CARGO_MANIFEST_DIR").expect("cargo tells the package's folder");
    let root = Path::new(&here).join("../..");
    let root = root.canonicalize().unwrap_or(root);
    let built = root.join("target/staticlib");
    if holds_archive(&built) {
        warn_if_old(&built.join(ARCHIVE), &root.join("crates"));
        return Ok(built);
    }
    Err(not_found(installed.as_deref(), &built))
}

/// Has the script run anew when the archive comes, goes or changes.
fn holds_archive(folder: &Path) -> bool {
    let archive = folder.join(ARCHIVE);
    println!("cargo::rerun-if-changed={}", archive.display());
    archive.is_file()
}

/// The folder that pkg-config tells, where that program is there and knows the library.
fn installed_folder() -> Option<PathBuf> {
    let told = Command::new("pkg-config")
        .args(["--variable=libdir", "mosszephyr"])
        .output()
        .ok()?;
    let folder = String::from_utf8(told.stdout).ok()?;
    let folder = folder.trim_end();
    (told.status.success() && !folder.is_empty()).then(|| folder.into())
}

fn not_found(installed: Option<&Path>, built: &Path) -> String {
    let installed = match installed {
        Some(folder) => format!("pkg-config says {}, where it is not", folder.display()),
        None => "pkg-config does not know mosszephyr".into(),
    };
    format!(
        "{ARCHIVE} is not found: MOSSZEPHYR_LIB_DIR is not set, {installed}, and it is not in {}. \
         At the repository's root run `bindings/archive`, or `./install PREFIX` and set \
         MOSSZEPHYR_LIB_DIR=PREFIX/lib",
        built.display()
    )
}

fn warn_if_old(archive: &Path, crates: &Path) {
    let sources = sources_below(crates);
    for folder in &sources {
        println!("cargo::rerun-if-changed={}", folder.display());
    }
    let built = changed(archive);
    if let Some(newer) = sources.iter().find_map(|it| newer_source(it, built)) {
        println!(
            "cargo::warning={} is older than {}: run `bindings/archive` at the repository's root",
            archive.display(),
            newer.display()
        );
    }
}

/// The folders with the sources of Rattle's crates; beside them stand wrong versions and what the
/// prover keeps.
fn sources_below(crates: &Path) -> Vec<PathBuf> {
    let entries = fs::read_dir(crates).into_iter().flatten().flatten();
    entries
        .flat_map(|entry| ["src", "specs", "proofs"].map(|part| entry.path().join(part)))
        .filter(|folder| folder.is_dir())
        .collect()
}

/// A file below a folder that was changed after a time.
fn newer_source(folder: &Path, time: SystemTime) -> Option<PathBuf> {
    let entries = fs::read_dir(folder).ok()?;
    entries
        .flatten()
        .map(|entry| entry.path())
        .find_map(|path| match path.is_dir() {
            true => newer_source(&path, time),
            false => (changed(&path) > time).then_some(path),
        })
}

/// When a file was changed; long ago where that cannot be told.
fn changed(file: &Path) -> SystemTime {
    fs::metadata(file)
        .and_then(|data| data.modified())
        .unwrap_or(SystemTime::UNIX_EPOCH)
}
