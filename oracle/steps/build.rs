//! Links the archive that oracle/steps.py makes.
fn main() {
    println!("cargo:rerun-if-env-changed=VOLUME_STEPS_DIR");
    let folder = std::env::var("VOLUME_STEPS_DIR").expect("oracle/steps.py names the archive's folder");
    println!("cargo:rerun-if-changed={folder}/libvolume_steps.a");
    println!("cargo:rustc-link-search=native={folder}");
    println!("cargo:rustc-link-lib=static=volume_steps");
}
