//! `NOTICE` names files that are there.

use std::fs;
use std::path::Path;

#[test]
fn its_files_are_there() {
    let root = Path::new(env!("CARGO_MANIFEST_DIR")).join("../..");
    let notice = fs::read_to_string(root.join("NOTICE")).unwrap();
    let (ports, _) = notice.split_once("=====").unwrap();
    let words = ports.split_whitespace();
    let words = words.map(|word| word.trim_end_matches([',', '.', ';']));
    let paths = words.filter(|word| word.starts_with("crates/") || word.starts_with("rust/"));
    let paths: Vec<&str> = paths.collect();
    assert!(paths.len() > 30, "{paths:?}");
    for path in paths {
        assert!(root.join(path).exists(), "{path}");
    }
}
