//! Names the libraries to link: `PUFFIN_LIBRARY` is the path of `libpuffin_c.a`, and `PUFFIN_KIT_LIBRARY` that of the kit's
//! `liblibc_c.a`. An installed `libpuffin.a` has what is needed of both.

use std::{env, path::PathBuf, process};

/// Links the library that a variable names, and returns the library's name.
fn link(variable: &str) -> String {
    println!("cargo:rerun-if-env-changed={variable}");
    let path = env::var_os(variable).map(PathBuf::from).unwrap_or_else(|| {
        eprintln!("set {variable} to the path of a library, as docs/C.md says");
        process::exit(1);
    });
    let name = path.file_stem().and_then(|name| name.to_str()).and_then(|name| name.strip_prefix("lib"));
    let (name, folder) = name.zip(path.parent()).unwrap_or_else(|| {
        eprintln!("{variable}: {} isn't a library like libNAME.a", path.display());
        process::exit(1);
    });
    println!("cargo:rerun-if-changed={}", path.display());
    println!("cargo:rustc-link-search=native={}", folder.display());
    println!("cargo:rustc-link-lib=static={name}");
    name.to_string()
}

fn main() {
    if link("PUFFIN_LIBRARY") != "puffin" {
        link("PUFFIN_KIT_LIBRARY");
    }
}
