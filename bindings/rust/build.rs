//! Links the archive that `tools/archive` writes. Where there is none, checks and documentation are made all the same, and nothing links.
use std::env;
use std::path::PathBuf;
use std::process::exit;

const ARCHIVE: &str = "libagc2.a";

fn main() {
    refuse_other_targets();
    let folder = folder();
    let archive = folder.join(ARCHIVE);
    println!("cargo:rerun-if-changed={}", archive.display());
    if !archive.is_file() {
        println!("cargo:warning=There is no {ARCHIVE} in {}, and without it nothing links.", folder.display());
        println!("cargo:warning=Run `tools/archive` at the root of the repository, which proves the library and writes the archive,");
        println!("cargo:warning=or set AGC2_LIB_DIR to the folder that holds it.");
    }
    println!("cargo:rustc-link-search=native={}", folder.display());
    println!("cargo:rustc-link-lib=static=agc2");
}

/// By the target's parts, not its name: x86_64-unknown-linux-gnux32 has pointers of 32 bits.
fn refuse_other_targets() {
    let asked = ["ARCH", "OS", "POINTER_WIDTH"].map(|part| env::var(format!("CARGO_CFG_TARGET_{part}")).unwrap_or_default());
    if asked != ["x86_64", "linux", "64"] {
        let target = env::var("TARGET").unwrap_or_default();
        eprintln!("{ARCHIVE} holds code for x86-64 Linux (x86_64-unknown-linux-gnu) and cannot be linked for {target}.");
        exit(1);
    }
}

/// Where the archive is looked for, made absolute, since the compiler may be run in another folder than this script.
fn folder() -> PathBuf {
    println!("cargo:rerun-if-env-changed=AGC2_LIB_DIR");
    let package = PathBuf::from(env::var_os("CARGO_MANIFEST_DIR").unwrap_or_default());
    match env::var_os("AGC2_LIB_DIR").filter(|named| !named.is_empty()).map(PathBuf::from) {
        None => package.join("../../target/staticlib"),
        Some(named) if named.is_absolute() => named,
        Some(named) => callers_folder().unwrap_or(package).join(named),
    }
}

/// Where cargo was started. It starts this script in the package's folder, but leaves the shell's word on it.
fn callers_folder() -> Option<PathBuf> {
    println!("cargo:rerun-if-env-changed=PWD");
    env::var_os("PWD").map(PathBuf::from).filter(|folder| folder.is_absolute() && folder.is_dir())
}
