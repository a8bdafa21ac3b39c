//! Lays the crate's files, byte for byte, beside the stand-ins for the files
//! that are not at hand, so that they compile unchanged.

use std::path::{Path, PathBuf};
use std::{env, fs};

/// The crate's files, below its `src/`.
const SOURCE: [&str; 18] = [
    "bridge/block.rs",
    "bridge/nested.rs",
    "bridge/out.rs",
    "bridge/write.rs",
    "syntax/atom.rs",
    "syntax/discriminant.rs",
    "syntax/doc.rs",
    "syntax/mangle.rs",
    "syntax/map.rs",
    "syntax/mod.rs",
    "syntax/namespace.rs",
    "syntax/primitive.rs",
    "syntax/query.rs",
    "syntax/report.rs",
    "syntax/resolve.rs",
    "syntax/symbol.rs",
    "syntax/toposort.rs",
    "syntax/types.rs",
];

fn main() {
    println!("cargo::rustc-check-cfg=cfg(cxx_build_source)");
    println!("cargo::rerun-if-env-changed=CXX_BUILD_SRC");
    println!("cargo::rerun-if-env-changed=CI");
    println!("cargo::rerun-if-changed=stand-ins");

    let package = PathBuf::from(env::var_os("CARGO_MANIFEST_DIR").unwrap());
    let named = env::var_os("CXX_BUILD_SRC");
    let source = match &named {
        Some(path) => PathBuf::from(path),
        None => package.join("../../../shared/docs/src"),
    };
    for file in SOURCE {
        println!("cargo::rerun-if-changed={}", source.join(file).display());
    }
    if let Some(file) = SOURCE.iter().find(|file| !source.join(file).is_file()) {
        let ci = env::var_os("CI").is_some_and(|value| value == "true");
        if ci || named.is_some() || source.is_dir() {
            println!(
                "cargo::error=no cxx-build source: no file {} (set CXX_BUILD_SRC)",
                source.join(file).display()
            );
        }
        return;
    }

    let out = PathBuf::from(env::var_os("OUT_DIR").unwrap());
    let root = out.join("cxx-build");
    let _ = fs::remove_dir_all(&root);
    for folder in ["bridge", "syntax"] {
        fs::create_dir_all(root.join(folder)).unwrap();
        for entry in fs::read_dir(package.join("stand-ins").join(folder)).unwrap() {
            let entry = entry.unwrap();
            copy(&entry.path(), &root.join(folder).join(entry.file_name()));
        }
    }
    for file in SOURCE {
        copy(&source.join(file), &root.join(file));
    }

    let modules: String = ["bridge", "syntax"]
        .map(|module| {
            let path = root.join(module).join("mod.rs");
            format!("#[allow(warnings, clippy::all)]\n#[path = {path:?}]\nmod {module};\n")
        })
        .concat();
    fs::write(out.join("cxx-build.rs"), modules).unwrap();
    println!("cargo::rustc-cfg=cxx_build_source");
}

fn copy(from: &Path, to: &Path) {
    let bytes = fs::read(from).unwrap();
    fs::write(to, bytes).unwrap();
}
