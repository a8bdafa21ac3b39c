//! `run-oracle`: generated sheets through the check and the crate.

use sheet::{Blame, Rng, generate};
use std::fmt::{self, Display};
use std::io::{self, Write};
use std::panic;
use std::process::ExitCode;
use std::time::Instant;

const USAGE: &str = "usage: run-oracle [--count N] [--seed S]

Generates N sheets (100000 unless given) from the seed (1 unless given), after
some 400 fixed ones at the limits. Each goes through the check, the plain reader
and back into bytes; each accepted one through the crate, both ways. Prints how
many had which answer; of those refused 3, how many for reserved identifiers
alone, how many of edition 2 for keywords that C++20 added alone, and how many
would be accepted but for either or both, so that only these keep them from the
crate.

Exit code: 0 all agree, 1 a disagreement or a panic (the sheet is printed as
hex), 2 wrong use or no cxx-build source.";

fn main() -> ExitCode {
    let Some((count, seed)) = arguments() else {
        eprintln!("{USAGE}");
        return ExitCode::from(2);
    };
    if !oracle::HAVE_SOURCE {
        eprintln!("run-oracle: no cxx-build source (set CXX_BUILD_SRC and build again)");
        return ExitCode::from(2);
    }
    let start = Instant::now();
    let mut totals = Totals::default();
    let fixed = generate::boundaries()
        .into_iter()
        .chain(generate::signatures());
    let fixed = fixed.map(|(_, sheet)| sheet);
    let generated = (0..count).map(|number| {
        let mut rng = Rng::new(Rng::new(seed).next_u64().wrapping_add(number));
        generate::any(&mut rng)
    });
    for sheet in fixed.chain(generated) {
        if let Err(error) = totals.run(&sheet) {
            let hex: String = sheet.iter().map(|byte| format!("{byte:02x}")).collect();
            eprintln!("run-oracle: {error}\n{hex}");
            return ExitCode::FAILURE;
        }
    }
    let seconds = start.elapsed().as_secs_f64();
    match writeln!(io::stdout(), "{totals}seconds       {seconds:.1}") {
        Ok(()) => ExitCode::SUCCESS,
        Err(_) => ExitCode::FAILURE,
    }
}

fn arguments() -> Option<(u64, u64)> {
    let (mut count, mut seed) = (100_000, 1);
    let mut args = std::env::args().skip(1);
    while let Some(flag) = args.next() {
        let value = args.next()?.parse().ok()?;
        match flag.as_str() {
            "--count" => count = value,
            "--seed" => seed = value,
            _ => return None,
        }
    }
    Some((count, seed))
}

#[derive(Default)]
struct Totals {
    answers: [u64; 13],
    reserved: u64,
    keyword: u64,
    not_compared: u64,
    sheet_bytes: usize,
    text_bytes: usize,
    longest_text: usize,
    structs: usize,
}

impl Totals {
    fn run(&mut self, sheet: &[u8]) -> Result<(), String> {
        let outcome = panic::catch_unwind(|| oracle::compare::compare(sheet))
            .map_err(|_| "a panic".to_string())??;
        self.answers[usize::from(outcome.answer)] += 1;
        self.reserved += u64::from(outcome.reserved != Blame::No);
        self.keyword += u64::from(outcome.keyword != Blame::No);
        self.not_compared += u64::from(outcome.orders == Blame::Only);
        self.sheet_bytes += sheet.len();
        self.text_bytes += outcome.text.len();
        self.longest_text = self.longest_text.max(outcome.text.len());
        self.structs += outcome.order.len();
        Ok(())
    }
}

impl Display for Totals {
    fn fmt(&self, out: &mut fmt::Formatter) -> fmt::Result {
        writeln!(out, "sheets        {}", self.answers.iter().sum::<u64>())?;
        writeln!(out, "accepted      {}", self.answers[0])?;
        for (number, count) in self.answers.iter().enumerate().skip(1) {
            writeln!(out, "refused {number:2}    {count}")?;
        }
        writeln!(out, "reserved (3)  {}", self.reserved)?;
        writeln!(out, "keyword (3)   {}", self.keyword)?;
        writeln!(out, "not compared  {}", self.not_compared)?;
        writeln!(out, "sheet bytes   {}", self.sheet_bytes)?;
        writeln!(out, "text bytes    {}", self.text_bytes)?;
        writeln!(out, "longest text  {}", self.longest_text)?;
        writeln!(out, "structs       {}", self.structs)
    }
}
