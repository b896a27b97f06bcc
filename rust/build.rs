//! Says where the static library lies: in the folder that STILEFRAY_LIB_DIR names, or else in target/staticlib of the repository,
//! where `scripts/archive` writes it. Where it is missing the build stops here, and not at the linker.
use std::env;
use std::ffi::OsString;
use std::fs::File;
use std::io::Read;
use std::path::{Component, Path, PathBuf};
use std::process::ExitCode;

const ARCHIVE: &str = "libstilefray.a";

fn main() -> ExitCode {
    println!("cargo:rerun-if-changed=build.rs");
    println!("cargo:rerun-if-env-changed=STILEFRAY_LIB_DIR");
    println!("cargo:rerun-if-env-changed=STILEFRAY_NO_ARCHIVE");
    if env::var_os("STILEFRAY_NO_ARCHIVE").is_some() {
        return ExitCode::SUCCESS; // `cargo doc` and `cargo check` need none
    }
    match archive_dir() {
        Ok(dir) => {
            println!("cargo:rerun-if-changed={dir}/{ARCHIVE}");
            println!("cargo:rustc-link-search=native={dir}");
            println!("cargo:rustc-link-lib=static=stilefray");
            ExitCode::SUCCESS
        }
        Err(message) => {
            eprintln!("{message}");
            ExitCode::FAILURE
        }
    }
}

/// The folder that holds the archive, by its whole path; or why there is none.
fn archive_dir() -> Result<String, String> {
    let repository = whole(&manifest_dir().join(".."));
    // Set to nothing, it is as if it were not set.
    let named = env::var_os("STILEFRAY_LIB_DIR").filter(|dir| !dir.is_empty());
    let dir = match &named {
        Some(dir) => whole(&from_where_cargo_was_called(dir)?),
        None => default_dir(&repository),
    };
    if named.is_some() && dir.is_file() {
        return Err(format!("STILEFRAY_LIB_DIR names a file, {}: name the folder that holds {ARCHIVE}", dir.display()));
    }
    if !is_archive(&dir.join(ARCHIVE)) {
        return Err(missing(&dir, named.is_some(), &repository));
    }
    let shown = dir.display().to_string();
    dir.into_os_string().into_string().map_err(|_| format!("cargo takes no path that is not UTF-8: {shown}"))
}

/// A file with an archive's head: one that was cut off at once is none, and the linker would say so less clearly.
fn is_archive(path: &Path) -> bool {
    let mut head = [0; 8];
    File::open(path).and_then(|mut file| file.read_exact(&mut head)).is_ok() && &head == b"!<arch>\n"
}

/// What is missing and what to do. A package that was taken out of the repository cannot tell where that is.
fn missing(dir: &Path, named: bool, repository: &Path) -> String {
    let because = if named { ", in the folder that STILEFRAY_LIB_DIR names" } else { "" };
    let is_one = repository.join("crates.txt").is_file();
    let there = if is_one { repository.display().to_string() } else { "a clone of Stilefray".to_string() };
    format!(
        "there is no archive {}{because}\n\
         make one: `bash scripts/archive`, called in {there}, writes target/staticlib/{ARCHIVE} there\n\
         STILEFRAY_LIB_DIR names the folder that it is taken from; not set, that is {}",
        dir.join(ARCHIVE).display(),
        default_dir(repository).display()
    )
}

fn default_dir(repository: &Path) -> PathBuf {
    repository.join("target").join("staticlib")
}

/// A path that is not whole is meant from the folder in which cargo was called. Cargo runs this program in the package's own folder.
fn from_where_cargo_was_called(dir: &OsString) -> Result<PathBuf, String> {
    let dir = Path::new(dir);
    if dir.is_absolute() {
        return Ok(dir.to_path_buf());
    }
    println!("cargo:rerun-if-env-changed=PWD");
    match called_in() {
        Some(called_in) => Ok(called_in.join(dir)),
        None => Err(format!(
            "STILEFRAY_LIB_DIR is {}, and the folder in which cargo was called is not known (PWD): give it a whole path",
            dir.display()
        )),
    }
}

/// Cargo's own folder, where the system tells it; else what the shell says, which may be another where cargo was not called from one.
fn called_in() -> Option<PathBuf> {
    cargo_s_own().or_else(|| env::var_os("PWD").map(PathBuf::from)).filter(|dir| dir.is_absolute())
}

#[cfg(target_os = "linux")]
fn cargo_s_own() -> Option<PathBuf> {
    std::fs::read_link(format!("/proc/{}/cwd", std::os::unix::process::parent_id())).ok()
}

#[cfg(not(target_os = "linux"))]
fn cargo_s_own() -> Option<PathBuf> {
    None
}

fn manifest_dir() -> PathBuf {
    env::var_os("CARGO_MANIFEST_DIR").map_or_else(|| PathBuf::from("."), PathBuf::from)
}

/// The path without links, `.` and `..`: as far as it exists as it is on the disk, and the rest as it is written.
fn whole(path: &Path) -> PathBuf {
    let known = path.ancestors().find_map(|part| Some((part.canonicalize().ok()?, path.strip_prefix(part).ok()?)));
    let (known, rest) = known.unwrap_or_else(|| (PathBuf::new(), path));
    rest.components().fold(known, |whole, part| match part {
        Component::CurDir => whole,
        Component::ParentDir => whole.parent().map_or(PathBuf::new(), Path::to_path_buf),
        part => whole.join(part),
    })
}
