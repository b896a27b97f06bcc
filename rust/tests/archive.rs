//! Where the archive is looked for, and what is said where it is missing.
mod common;
use common::package::Package;
use std::fs;
use std::path::Path;

/// Cargo called with this STILEFRAY_LIB_DIR in a folder, whatever the shell's PWD says: what it says if it fails.
fn said(package: &Package, lib_dir: &str, folder: &Path) -> Result<(), String> {
    let mut cargo = package.cargo("check", "apart");
    cargo.env("STILEFRAY_LIB_DIR", lib_dir).env("PWD", "/nowhere").current_dir(folder);
    let output = cargo.output().expect("cargo runs");
    match output.status.success() {
        true => Ok(()),
        false => Err(String::from_utf8_lossy(&output.stderr).into_owned()),
    }
}

#[test]
fn the_archive_is_found_or_said_to_be_missing_by_its_whole_path() {
    let package = Package::new("archive", &["apart"]);
    let dir = package.dir().canonicalize().unwrap();
    let folder = dir.join("a folder");
    let archive = folder.join("libstilefray.a");
    fs::create_dir_all(&folder).unwrap();
    fs::write(&archive, "!<arch>\n").unwrap(); // empty, since nothing is linked

    assert_eq!(said(&package, folder.to_str().unwrap(), Path::new("/")), Ok(()));
    assert_eq!(said(&package, "a folder", &dir), Ok(()));
    assert_eq!(said(&package, "./a folder/../a folder/", &dir), Ok(()));

    let missing = |words: &str| format!("there is no archive {}/{words}", dir.display());
    let elsewhere = said(&package, "elsewhere", &dir).unwrap_err();
    assert!(elsewhere.contains(&missing("elsewhere/libstilefray.a, in the folder that STILEFRAY_LIB_DIR names\n")), "{elsewhere}");
    assert!(elsewhere.contains("make one: `bash scripts/archive`, called in "), "{elsewhere}");
    let from_folder = said(&package, "../none/x", &folder).unwrap_err();
    assert!(from_folder.contains(&missing("none/x/libstilefray.a")), "{from_folder}");
    fs::write(folder.join("libstilefray.a"), "").unwrap(); // cut off at once
    let cut = said(&package, "a folder", &dir).unwrap_err();
    assert!(cut.contains(&missing("a folder/libstilefray.a")), "{cut}");
    let file = said(&package, archive.to_str().unwrap(), Path::new("/")).unwrap_err();
    assert!(file.contains(&format!("STILEFRAY_LIB_DIR names a file, {}: name the folder", archive.display())), "{file}");
}
