//! Names the two published files, where they stand, as modules of this crate. No copy of them is made.
use std::path::Path;
use std::{env, fs};

#[path = "../given.rs"]
mod given;

fn main() {
    let folder = given::path("QUARANTINE_SRC").expect("QUARANTINE_SRC names the folder of the published files");
    let mut modules = String::new();
    for name in ["gap_quarantine", "gap_quarantine_journal"] {
        let file = folder.join(format!("{name}.rs"));
        assert!(file.is_file(), "QUARANTINE_SRC has no {name}.rs");
        println!("cargo:rerun-if-changed={}", file.display());
        modules.push_str(&format!("#[path = {:?}]\npub mod {name};\n", file.display().to_string()));
    }
    let out = env::var("OUT_DIR").expect("cargo sets OUT_DIR");
    fs::write(Path::new(&out).join("modules.rs"), modules).expect("OUT_DIR is writable");
}
