//! Links our static libraries, where variables name their files: FOLD_ARCHIVE has the C functions of the journal, STORE_ARCHIVE
//! the loops over store calls that the speed table times.
#[path = "../given.rs"]
mod given;

fn main() {
    link("FOLD_ARCHIVE", "fold_linked");
    link("STORE_ARCHIVE", "store_linked");
}

fn link(variable: &str, cfg: &str) {
    println!("cargo:rustc-check-cfg=cfg({cfg})");
    let Some(file) = given::path(variable) else {
        return;
    };
    let name = file.file_stem().and_then(|n| n.to_str()).and_then(|n| n.strip_prefix("lib"));
    let name = name.unwrap_or_else(|| panic!("{variable} names a file libNAME.a"));
    println!("cargo:rerun-if-changed={}", file.display());
    println!("cargo:rustc-link-search=native={}", file.parent().expect("a file has a folder").display());
    println!("cargo:rustc-link-lib=static={name}");
    println!("cargo:rustc-cfg={cfg}");
}
