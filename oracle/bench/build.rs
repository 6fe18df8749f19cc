//! Compiles the floor with clang, or with CC.
use std::env;
use std::path::PathBuf;
use std::process::Command;

fn main() {
    println!("cargo:rerun-if-changed=floor.c");
    let out = PathBuf::from(env::var("OUT_DIR").unwrap());
    let cc = env::var("CC").unwrap_or_else(|_| "clang".into());
    let object = out.join("floor.o");
    let made = Command::new(&cc).args(["-O2", "-ffp-contract=off", "-c", "floor.c", "-o"]).arg(&object).status().expect("a C compiler");
    assert!(made.success(), "{cc} failed");
    println!("cargo:rustc-link-arg={}", object.display());
}
