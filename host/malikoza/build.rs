//! Tells cargo where libmalikoza.a is: in target/staticlib of this repository, or in the folder that
//! `MALIKOZA_LIB_DIR` names by its full path.

use std::path::PathBuf;
use std::{env, process};

fn folder() -> PathBuf {
    match env::var_os("MALIKOZA_LIB_DIR") {
        Some(named) => named.into(),
        None => [env!("CARGO_MANIFEST_DIR"), "..", "..", "target", "staticlib"].iter().collect(),
    }
}

fn main() {
    let folder = folder();
    let archive = folder.join("libmalikoza.a");
    println!("cargo:rerun-if-env-changed=MALIKOZA_LIB_DIR");
    println!("cargo:rerun-if-changed={}", archive.display());
    println!("cargo:rustc-link-search=native={}", folder.display());
    if !archive.is_file() {
        eprintln!("There is no {}.", archive.display());
        if env::var_os("MALIKOZA_LIB_DIR").is_some() {
            eprintln!("MALIKOZA_LIB_DIR must be the full path of the folder that has libmalikoza.a, or not be set.");
        } else {
            eprintln!(
                "Make it with any command of `host/run`, as `host/run install FOLDER`, at the top of the repository;"
            );
            eprintln!("or set MALIKOZA_LIB_DIR to the full path of the folder that it is in.");
        }
        process::exit(1);
    }
}
