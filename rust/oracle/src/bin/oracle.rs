//! `oracle`: the crate's answers for the sheet on standard input.

use std::io::{self, Read, Write};
use std::process::ExitCode;

const USAGE: &str = "usage: oracle [--order | --check] < SHEET

Writes the crate's text of the sheet.
--order  its struct order instead: item numbers, one on each line
--check  `accepted`, or `refused` and the number, by document 01's rules alone

Exit code: 0 accepted, 1 refused, 2 wrong use or no cxx-build source.";

fn main() -> ExitCode {
    let args: Vec<String> = std::env::args().skip(1).collect();
    let args: Vec<&str> = args.iter().map(String::as_str).collect();
    if !matches!(args[..], [] | ["--order"] | ["--check"]) {
        eprintln!("{USAGE}");
        return ExitCode::from(2);
    }
    let mut bytes = Vec::new();
    if let Err(error) = io::stdin().lock().read_to_end(&mut bytes) {
        eprintln!("oracle: {error}");
        return ExitCode::from(2);
    }
    let sheet = match sheet::read(&bytes) {
        Ok(sheet) => sheet,
        Err(refusal) => {
            print(format!("refused {}\n", refusal.number()).as_bytes());
            return ExitCode::FAILURE;
        }
    };
    if args == ["--check"] {
        return print(b"accepted\n");
    }
    if !oracle::HAVE_SOURCE {
        eprintln!("oracle: no cxx-build source (set CXX_BUILD_SRC and build again)");
        return ExitCode::from(2);
    }
    if args == ["--order"] {
        let order = oracle::struct_order(&sheet);
        let lines: String = order.iter().map(|number| format!("{number}\n")).collect();
        print(lines.as_bytes())
    } else {
        print(&oracle::text(&sheet))
    }
}

fn print(bytes: &[u8]) -> ExitCode {
    match io::stdout().lock().write_all(bytes) {
        Ok(()) => ExitCode::SUCCESS,
        Err(_) => ExitCode::FAILURE,
    }
}
