//! `make-vectors`: the stored list of sheets with the crate's answers.

use std::io::{self, Write};
use std::process::ExitCode;

const USAGE: &str = "usage: make-vectors [--seed S] > FILE

Writes the stored list (see vectors/README.md); the same seed gives the same
bytes. Without a seed it is that of the stored file.

Exit code: 0 done, 1 a disagreement, 2 wrong use or no cxx-build source.";

fn main() -> ExitCode {
    let args: Vec<String> = std::env::args().skip(1).collect();
    let seed = match args.as_slice() {
        [] => Ok(oracle::vectors::SEED),
        [flag, seed] if flag == "--seed" => seed.parse().map_err(drop),
        _ => Err(()),
    };
    let Ok(seed) = seed else {
        eprintln!("{USAGE}");
        return ExitCode::from(2);
    };
    if !oracle::HAVE_SOURCE {
        eprintln!("make-vectors: no cxx-build source (set CXX_BUILD_SRC and build again)");
        return ExitCode::from(2);
    }
    match oracle::vectors::make(seed) {
        Ok(file) => match io::stdout().lock().write_all(&file) {
            Ok(()) => ExitCode::SUCCESS,
            Err(_) => ExitCode::FAILURE,
        },
        Err(error) => {
            eprintln!("make-vectors: {error}");
            ExitCode::FAILURE
        }
    }
}
