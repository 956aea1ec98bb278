//! Links the archive that the scripts name, so that no path stands in a source file.

fn main() {
    println!("cargo:rerun-if-changed=build.rs");
    println!("cargo:rerun-if-env-changed=TRENAILER_LIB");
    if std::env::var_os("CARGO_FEATURE_NATIVE").is_some() {
        let archive = std::env::var("TRENAILER_LIB")
            .expect("TRENAILER_LIB must name the archive of the C interface");
        println!("cargo:rerun-if-changed={archive}");
        for program in ["compare", "speed"] {
            println!("cargo:rustc-link-arg-bin={program}={archive}");
        }
    }
    if std::env::var_os("CARGO_FEATURE_Z80").is_some() {
        println!("cargo:rustc-link-arg-bin=rom=-lz80ex");
    }
}
