//! Tells the tests where the archive is, and lets what they load call them.

use std::env;

fn main() {
    println!("cargo::rerun-if-changed=build.rs");
    println!("cargo::rustc-link-arg-tests=-rdynamic");
    let archive = env::var("DEP_BRIDGETEXT_ARCHIVE").unwrap();
    println!("cargo::rustc-env=BRIDGETEXT_ARCHIVE={archive}");
}
