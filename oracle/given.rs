//! The paths that variables give to the build scripts. A relative one is taken from the folder in which cargo was started.
use std::env;
use std::path::{Path, PathBuf};

/// The path that a variable names, made absolute, or none if it is not set. There must be something at the path.
pub fn path(variable: &str) -> Option<PathBuf> {
    println!("cargo:rerun-if-env-changed={variable}");
    let given = env::var(variable).ok().filter(|given| !given.is_empty())?;
    let path = match Path::new(&given).is_relative() {
        true => started_in().join(&given),
        false => PathBuf::from(&given),
    };
    Some(path.canonicalize().unwrap_or_else(|e| panic!("{variable} {given}: {e}")))
}

/// A build script runs in its package's folder, but PWD is still that of the shell.
fn started_in() -> PathBuf {
    println!("cargo:rerun-if-env-changed=PWD");
    env::var_os("PWD").map_or_else(PathBuf::new, PathBuf::from)
}
