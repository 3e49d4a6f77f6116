//! Finds the port's archives and links them.
//!
//! They stand in the folder that `TURMYSHGE_ARCHIVE_DIR` names, or else in `target/staticlib` of the repository, where
//! `tools/staticlib host` writes them. A relative folder is meant from where cargo is called, by the caller's `PWD`, as
//! cargo itself runs this in the package's folder; where no archive is there, it is meant from the package's folder.

use std::env;
use std::path::{Path, PathBuf};

fn package() -> PathBuf {
    PathBuf::from(env::var_os("CARGO_MANIFEST_DIR").expect("cargo sets it"))
}

/// The folder as an absolute one: a path that is absolute already stays as it is where it is joined to another.
fn archive_folder() -> PathBuf {
    let Some(named) = env::var_os("TURMYSHGE_ARCHIVE_DIR") else {
        return package().join("../target/staticlib");
    };
    if Path::new(&named).is_relative() {
        println!("cargo:rerun-if-env-changed=PWD");
    }
    let called_from = env::var_os("PWD").map_or_else(package, PathBuf::from);
    let folder = called_from.join(&named);
    if folder.join("libhost.a").is_file() {
        return folder;
    }
    let in_package = package().join(&named);
    if in_package.join("libhost.a").is_file() {
        in_package
    } else {
        folder
    }
}

fn link(folder: &Path, name: &str) {
    let archive = folder.join(format!("lib{name}.a"));
    println!("cargo:rerun-if-changed={}", archive.display());
    assert!(
        archive.is_file(),
        "{} is not there: run `tools/staticlib {name}` in the repository, or name its folder in \
         TURMYSHGE_ARCHIVE_DIR",
        archive.display()
    );
    println!("cargo:rustc-link-lib=static={name}");
}

fn main() {
    println!("cargo:rerun-if-env-changed=TURMYSHGE_ARCHIVE_DIR");
    let folder = archive_folder();
    println!("cargo:rustc-link-search=native={}", folder.display());
    link(&folder, "host");
    if env::var_os("CARGO_FEATURE_STEPS").is_some() {
        link(&folder, "probe");
    }
}
