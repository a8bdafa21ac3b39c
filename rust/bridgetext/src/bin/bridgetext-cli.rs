//! `bridgetext-cli`: the services on one sheet, with an exit code.

use bridgetext::Refusal;
use std::env;
use std::ffi::{OsStr, OsString};
use std::fs::File;
use std::io::{self, Read, Write};
use std::process::ExitCode;

const USAGE: &str = "usage: bridgetext-cli [write | check | order] [FILE]
       bridgetext-cli --help | --version

Reads a sheet from FILE, else, or if it is `-`, from standard input.

write  writes its text, of any length; without a word too
check  writes `accepted`
order  writes its structs, each behind those that it holds: an item number to a
       line, counted from 0

A refusal is told on standard error, with its number and the trade's word, and
nothing is written.

Exit code: 0 written, 1 refused, 2 wrong use or an input or output error.
";

/// One byte more than a sheet has at most: what comes behind it changes no answer.
const ENOUGH: u64 = 32_769;

#[derive(Clone, Copy)]
enum Service {
    Write,
    Check,
    Order,
}

enum Failure {
    Refused(Refusal),
    Usage,
    /// On what, and why.
    Io(String, io::Error),
}

fn main() -> ExitCode {
    // Where standard error cannot be written to, the exit code still tells.
    let mut stderr = io::stderr();
    match run(env::args_os().skip(1).collect()) {
        Ok(()) => ExitCode::SUCCESS,
        Err(Failure::Refused(refusal)) => {
            let _ = writeln!(stderr, "{refusal}");
            ExitCode::from(1)
        }
        Err(Failure::Usage) => {
            let _ = write!(stderr, "{USAGE}");
            ExitCode::from(2)
        }
        Err(Failure::Io(what, error)) => {
            let _ = writeln!(stderr, "bridgetext-cli: {what}: {error}");
            ExitCode::from(2)
        }
    }
}

fn run(args: Vec<OsString>) -> Result<(), Failure> {
    let output = match args.as_slice() {
        [flag] if flag == "--help" => USAGE.into(),
        [flag] if flag == "--version" => format!("bridgetext-cli {}\n", bridgetext::VERSION).into(),
        _ => {
            let (service, file) = request(&args).ok_or(Failure::Usage)?;
            let sheet = read(file)?;
            answer(service, &sheet).map_err(Failure::Refused)?
        }
    };
    let mut stdout = io::stdout().lock();
    let written = stdout.write_all(&output).and_then(|()| stdout.flush());
    written.map_err(|error| Failure::Io("standard output".into(), error))
}

/// The service and the file; `None` for what is no use of this program.
fn request(args: &[OsString]) -> Option<(Service, Option<&OsStr>)> {
    let word = args.first().and_then(|word| match word.to_str()? {
        "write" => Some(Service::Write),
        "check" => Some(Service::Check),
        "order" => Some(Service::Order),
        _ => None,
    });
    let file = match &args[usize::from(word.is_some())..] {
        [] => None,
        [file] if file == "-" => None,
        [file] if !file.as_encoded_bytes().starts_with(b"-") => Some(file.as_os_str()),
        _ => return None,
    };
    Some((word.unwrap_or(Service::Write), file))
}

fn read(file: Option<&OsStr>) -> Result<Vec<u8>, Failure> {
    let mut sheet = Vec::new();
    let (what, result) = match file {
        None => (
            "standard input".into(),
            io::stdin().lock().take(ENOUGH).read_to_end(&mut sheet),
        ),
        Some(path) => (
            path.display().to_string(),
            File::open(path).and_then(|file| file.take(ENOUGH).read_to_end(&mut sheet)),
        ),
    };
    match result {
        Ok(_) => Ok(sheet),
        Err(error) => Err(Failure::Io(what, error)),
    }
}

fn answer(service: Service, sheet: &[u8]) -> Result<Vec<u8>, Refusal> {
    match service {
        Service::Write => bridgetext::text(sheet),
        Service::Check => bridgetext::check(sheet).map(|()| b"accepted\n".to_vec()),
        Service::Order => {
            let mut list = [0; 255];
            let count = bridgetext::struct_order(sheet, &mut list)?;
            let lines = list[..count].iter().map(|item| format!("{item}\n"));
            Ok(lines.collect::<String>().into_bytes())
        }
    }
}
