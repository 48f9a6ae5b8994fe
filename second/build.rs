//! Finds the first program's static archive `libdoor.a`.
//!
//! It is looked for in the folder named by NILOFERQ_LIB, or else in
//! `../target/staticlib` beside this package. Without it the library and its
//! unit tests still build; the programs that need it stop with a message. An
//! empty name says that it is not wanted, for the unit tests alone.
//!
//! The object file named by NILOFERQ_PLAIN, plain_returns.c compiled, goes into
//! the benchmark; without it the lines against C are left out.

use std::env;
use std::path::PathBuf;

fn main() {
    println!("cargo:rerun-if-env-changed=NILOFERQ_LIB");
    println!("cargo:rerun-if-changed=build.rs");
    println!("cargo:rerun-if-env-changed=NILOFERQ_PLAIN");
    println!("cargo:rustc-check-cfg=cfg(door_missing, plain)");

    let package =
        PathBuf::from(env::var_os("CARGO_MANIFEST_DIR").expect("cargo names the package"));
    // `join` keeps an absolute NILOFERQ_LIB as it is.
    let folder = match env::var_os("NILOFERQ_LIB") {
        Some(named) if named.is_empty() => {
            println!("cargo:rustc-cfg=door_missing");
            return;
        }
        Some(named) => package.join(named),
        None => package.join("../target/staticlib"),
    };
    let archive = folder.join("libdoor.a");
    println!("cargo:rerun-if-changed={}", archive.display());

    if let Some(object) = env::var_os("NILOFERQ_PLAIN").map(PathBuf::from) {
        println!("cargo:rerun-if-changed={}", object.display());
        println!("cargo:rustc-link-arg-bin=bench={}", object.display());
        println!("cargo:rustc-cfg=plain");
    }

    if archive.is_file() {
        println!("cargo:rustc-link-search=native={}", folder.display());
        println!("cargo:rustc-link-lib=static:-bundle=door");
    } else {
        println!("cargo:rustc-cfg=door_missing");
        println!(
            "cargo:warning=no libdoor.a at {}: build it first, or name its folder in NILOFERQ_LIB",
            archive.display()
        );
    }
}
