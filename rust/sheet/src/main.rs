//! `sheet`: sheets from descriptions, and back.

use std::io::{self, Read, Write};
use std::process::ExitCode;

const USAGE: &str = "usage: sheet encode < DESCRIPTION > SHEET
       sheet dump < SHEET
       sheet check < SHEET
       sheet hex < SHEET
       sheet unhex < HEX

encode  a sheet from a description, one item per line (see the module desc)
dump    the description of a sheet that decodes
check   `accepted`, or `refused` and the number
hex     the sheet's bytes as hex digits, 32 bytes on a line
unhex   the bytes of hex digits; blanks and line ends are skipped

Exit code: 0 done, 1 refused or a fault in the description, 2 wrong use.";

fn main() -> ExitCode {
    let args: Vec<String> = std::env::args().skip(1).collect();
    let run: fn(&[u8]) -> Result<Vec<u8>, String> = match args.as_slice() {
        [command] if command == "encode" => encode,
        [command] if command == "dump" => dump,
        [command] if command == "check" => check,
        [command] if command == "hex" => |input| Ok(sheet::desc::hex(input).into_bytes()),
        [command] if command == "unhex" => unhex,
        _ => {
            eprintln!("{USAGE}");
            return ExitCode::from(2);
        }
    };
    let mut input = Vec::new();
    if let Err(error) = io::stdin().lock().read_to_end(&mut input) {
        eprintln!("sheet: {error}");
        return ExitCode::from(2);
    }
    match run(&input) {
        Ok(output) => match io::stdout().lock().write_all(&output) {
            Ok(()) => ExitCode::SUCCESS,
            Err(_) => ExitCode::FAILURE,
        },
        Err(message) => {
            eprintln!("{message}");
            ExitCode::FAILURE
        }
    }
}

fn encode(input: &[u8]) -> Result<Vec<u8>, String> {
    let text = str::from_utf8(input).map_err(|error| error.to_string())?;
    Ok(sheet::encode(&sheet::desc::parse(text)?))
}

fn dump(input: &[u8]) -> Result<Vec<u8>, String> {
    let refused = |refusal: sheet::Refusal| format!("refused {}", refusal.number());
    let sheet = sheet::decode(input).map_err(refused)?;
    Ok(sheet::desc::print(&sheet).into_bytes())
}

fn check(input: &[u8]) -> Result<Vec<u8>, String> {
    match sheet::check(input) {
        0 => Ok(b"accepted\n".to_vec()),
        number => Err(format!("refused {number}")),
    }
}

fn unhex(input: &[u8]) -> Result<Vec<u8>, String> {
    let text = str::from_utf8(input).map_err(|error| error.to_string())?;
    sheet::desc::unhex(text).ok_or("these are no hex digits in pairs".into())
}
