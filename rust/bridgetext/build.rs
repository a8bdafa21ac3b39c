//! Links the archive of the proved services.

use std::env;
use std::path::PathBuf;

fn main() {
    println!("cargo::rerun-if-env-changed=BRIDGETEXT_LIB_DIR");
    let folder = match env::var_os("BRIDGETEXT_LIB_DIR") {
        Some(path) => PathBuf::from(path),
        None => {
            PathBuf::from(env::var_os("CARGO_MANIFEST_DIR").unwrap()).join("../../target/staticlib")
        }
    };
    let archive = folder.join("libbridgetext.a");
    println!("cargo::rerun-if-changed={}", archive.display());
    if !archive.is_file() {
        println!(
            "cargo::error=no library {} (run tools/library)",
            archive.display()
        );
        return;
    }
    println!("cargo::rustc-link-search=native={}", folder.display());
    println!("cargo::rustc-link-lib=static=bridgetext");
    println!("cargo::metadata=archive={}", archive.display());
}
