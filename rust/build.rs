//! Finds the archive `libslp.a` and links it; without it only the model's own tests can be run. Links the test entry
//! `libfollows.a` beside it into the tests alone, if it is there.

use std::env;
use std::path::PathBuf;

fn main() {
    println!("cargo::rustc-check-cfg=cfg(fulcrumnest_lib, fulcrumnest_follows)");
    println!("cargo::rerun-if-env-changed=FULCRUMNEST_LIB");
    println!("cargo::rerun-if-changed=build.rs");

    // The variable names the archive or its directory; asked for by name, it must be there.
    let named = env::var_os("FULCRUMNEST_LIB").filter(|name| !name.is_empty());
    let place = match &named {
        Some(name) => PathBuf::from(name),
        None => PathBuf::from(env::var_os("CARGO_MANIFEST_DIR").expect("set by cargo"))
            .join("../target/staticlib"),
    };
    let archive = if place.is_dir() || place.extension().is_none() {
        place.join("libslp.a")
    } else {
        place
    };
    println!("cargo::rerun-if-changed={}", archive.display());

    if archive.is_file() {
        let directory = archive.parent().expect("a file stands in a directory");
        println!("cargo::rustc-link-search=native={}", directory.display());
        println!("cargo::rustc-link-lib=static=slp");
        println!("cargo::rustc-cfg=fulcrumnest_lib");

        // Watched only where it is: for a file that is missing, cargo would build anew each time.
        let entry = directory.join("libfollows.a");
        if entry.is_file() {
            println!("cargo::rerun-if-changed={}", entry.display());
            println!("cargo::rustc-link-arg-tests={}", entry.display());
            println!("cargo::rustc-cfg=fulcrumnest_follows");
        }
    } else if named.is_some() {
        panic!("FULCRUMNEST_LIB: no archive at {}", archive.display());
    } else {
        println!(
            "cargo::warning=no libslp.a found: only --test model and --test mutants can be run"
        );
    }
}
