// Links the archive that `tools/build journal_exports_c` writes, or the one that the variable JOURNAL_EXPORTS_ARCHIVE names.
use std::env;
use std::path::{Path, PathBuf};
use std::process::exit;

const VARIABLE: &str = "JOURNAL_EXPORTS_ARCHIVE";

fn main() {
    let archive = archive();
    println!("cargo:rerun-if-changed={}", archive.display());
    if !archive.is_file() {
        eprintln!("There is no archive {}.", archive.display());
        eprintln!("Write it with `tools/build journal_exports_c`, or name another in {VARIABLE}.");
        exit(1);
    }
    let (folder, name) = (archive.parent().unwrap(), archive.file_name().unwrap());
    println!("cargo:rustc-link-search=native={}", folder.display());
    println!("cargo:rustc-link-lib=static:+verbatim={}", Path::new(name).display());
}

/// The file that the variable names, or else the one that `tools/build` writes.
fn archive() -> PathBuf {
    println!("cargo:rerun-if-env-changed={VARIABLE}");
    let named = PathBuf::from(env::var_os(VARIABLE).unwrap_or_default());
    if named.as_os_str().is_empty() {
        let package = PathBuf::from(env::var_os("CARGO_MANIFEST_DIR").unwrap());
        return package.parent().unwrap().join("target/staticlib/libjournal_exports.a");
    }
    if named.is_absolute() {
        return named;
    }
    started_in().join(named)
}

/// The folder in which cargo was started. A build script runs in its package's folder, but PWD is still that of the shell.
fn started_in() -> PathBuf {
    println!("cargo:rerun-if-env-changed=PWD");
    env::var_os("PWD").map_or_else(PathBuf::new, PathBuf::from)
}
