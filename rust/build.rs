//! Links the proved library for the target's processor. ARENA_LIB_DIR names another folder that has it, seen from the
//! repository's root.

use std::path::PathBuf;
use std::{env, process};

fn main() {
    println!("cargo:rerun-if-env-changed=ARENA_LIB_DIR");
    let home = PathBuf::from(env::var_os("CARGO_MANIFEST_DIR").expect("set by cargo"));
    let repository = home.parent().expect("the repository");
    let (usual, command) = match env::var("CARGO_CFG_TARGET_ARCH").as_deref() {
        Ok("x86_64") => ("target/staticlib", "tools/library"),
        _ => ("target/native", "tools/native, on x86-64"),
    };
    let folder = repository.join(env::var_os("ARENA_LIB_DIR").unwrap_or(usual.into()));
    let library = folder.join("libexports.a");
    println!("cargo:rerun-if-changed={}", library.display());
    if !library.is_file() {
        eprintln!("{} is not there; run: {command}", library.display());
        process::exit(1);
    }
    println!("cargo:rustc-link-search=native={}", folder.display());
    println!("cargo:rustc-link-lib=static=exports");
}
