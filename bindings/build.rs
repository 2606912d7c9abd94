//! Links the archive that `tools/build exports` writes at the root of the repository.

use std::path::Path;

fn main() {
    let built_for = |part| std::env::var(part).unwrap_or_default();
    let (system, processor) = (built_for("CARGO_CFG_TARGET_OS"), built_for("CARGO_CFG_TARGET_ARCH"));
    if (system.as_str(), processor.as_str()) != ("linux", "x86_64") {
        panic!("the archive has code for Linux on x86-64, and this build is for {system} on {processor}");
    }
    let folder = Path::new(env!("CARGO_MANIFEST_DIR")).join("../target/staticlib");
    let archive = folder.join("libexports.a");
    if !archive.exists() {
        panic!("{} is not there: run `tools/build exports` first", archive.display());
    }
    println!("cargo:rerun-if-changed={}", archive.display());
    println!("cargo:rustc-link-search=native={}", folder.display());
    println!("cargo:rustc-link-lib=static=exports");
}
