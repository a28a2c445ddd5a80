//! Tells the tests where the archive is that they are linked with, so that a C
//! program can be linked with the same one.

fn main() {
    println!("cargo:rerun-if-changed=build.rs");
    if let Ok(archive) = std::env::var("DEP_DESK_ARCHIVE") {
        println!("cargo:rustc-env=ENGINE_ARCHIVE={}", archive);
    }
}
