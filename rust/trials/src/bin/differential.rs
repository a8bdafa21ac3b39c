//! `differential`: generated and damaged sheets through the proved services.

use sheet::{Blame, Refusal, Rng, encode, generate};
use std::fmt::{self, Display};
use std::io::{self, Write};
use std::panic;
use std::process::ExitCode;
use std::time::Instant;
use trials::compare::{self, Service};
use trials::features::Features;
use trials::sheets;

const USAGE: &str = "usage: differential [--count N] [--seed S] [--service check|order|write|all]
                    [--margin M]

Generates N sheets (100000 unless given) from the seed (1 unless given), after
some 400 fixed ones at the limits, and puts each through all services, or the
one that is named. A check is compared with the Rust check. The struct order and
the text are asked for with buffers of every length around the answer's, and
each answer and every byte in and around the buffer are compared with the
crate's `sort` and its writer. The order's sheets have many structs. For the text
each accepted sheet goes through all services once more under the other edition:
where that accepts it, text and order must be the same.

Half of the sheets are of edition 2, and a few of none that there is. Prints how
many had which edition and which answer; of those refused 3, how many for
reserved identifiers alone, how many of edition 2 for keywords that C++20 added
alone, and how many would be accepted but for either or both, and so are not
compared with the crate, only with a refusal; how many sheets both editions
accept, and how many only edition 1 does; and, for the text, what occurred in the
accepted ones.

With --margin 0 a buffer has nothing around it (64 bytes unless given), so that
valgrind sees every byte too far.

Exit code: 0 all agree, 1 a difference or a panic (the sheet is printed as
hex), 2 wrong use or no cxx-build source, which a check does not need.";

fn main() -> ExitCode {
    let Some(options) = Options::read() else {
        eprintln!("{USAGE}");
        return ExitCode::from(2);
    };
    if (options.order || options.write) && !oracle::HAVE_SOURCE {
        eprintln!("differential: no cxx-build source (set CXX_BUILD_SRC and build again)");
        return ExitCode::from(2);
    }
    let start = Instant::now();
    let mut totals = Totals::default();
    let fixed = generate::boundaries()
        .into_iter()
        .chain(generate::signatures());
    let fixed = fixed.map(|(_, sheet)| sheet);
    let first = Rng::new(options.seed).next_u64();
    let generated = (0..options.count).map(|number| {
        let mut rng = Rng::new(first.wrapping_add(number));
        options.sheet(&mut rng)
    });
    for sheet in fixed.chain(generated) {
        // No byte more than the sheet has, for valgrind.
        let sheet = sheet.into_boxed_slice();
        let run = panic::AssertUnwindSafe(|| totals.run(&options, &sheet));
        let result = panic::catch_unwind(run).unwrap_or_else(|_| Err("a panic".into()));
        if let Err(error) = result {
            let hex: String = sheet.iter().map(|byte| format!("{byte:02x}")).collect();
            eprintln!("differential: {error}\n{hex}");
            return ExitCode::FAILURE;
        }
    }
    let seconds = start.elapsed().as_secs_f64();
    match writeln!(io::stdout(), "{totals}seconds       {seconds:.1}") {
        Ok(()) => ExitCode::SUCCESS,
        Err(_) => ExitCode::FAILURE,
    }
}

struct Options {
    count: u64,
    seed: u64,
    check: bool,
    order: bool,
    write: bool,
    margin: usize,
}

impl Options {
    fn read() -> Option<Self> {
        let mut options = Options {
            count: 100_000,
            seed: 1,
            check: true,
            order: true,
            write: true,
            margin: compare::MARGIN,
        };
        let mut args = std::env::args().skip(1);
        while let Some(flag) = args.next() {
            let value = args.next()?;
            match (flag.as_str(), value.as_str()) {
                ("--count", _) => options.count = value.parse().ok()?,
                ("--seed", _) => options.seed = value.parse().ok()?,
                ("--margin", _) => options.margin = value.parse().ok()?,
                ("--service", "all") => {}
                ("--service", name @ ("check" | "order" | "write")) => {
                    options.check = name == "check";
                    options.order = name == "order";
                    options.write = name == "write";
                }
                _ => return None,
            }
        }
        Some(options)
    }

    fn sheet(&self, rng: &mut Rng) -> Vec<u8> {
        if !self.order || rng.one_in(4) {
            return if self.write {
                sheets::texts(rng)
            } else {
                generate::any(rng)
            };
        }
        let mut sheet = sheets::structs(rng);
        match rng.below(20) {
            0 => generate::reserve(rng, &mut sheet),
            1 => generate::put_keyword(rng, &mut sheet),
            _ => {}
        }
        let mut sheet = encode(&sheet);
        if rng.one_in(6) {
            generate::damage(rng, &mut sheet);
        }
        sheet
    }
}

#[derive(Default)]
struct Totals {
    answers: [u64; 13],
    /// By the first four bits.
    editions: [u64; 16],
    /// Refused for reserved identifiers alone, for keywords that C++20 added
    /// alone, and accepted but for either or both.
    reserved: u64,
    keyword: u64,
    not_compared: u64,
    /// Accepted and put through the other edition, which accepts or refuses.
    both_editions: u64,
    one_edition: u64,
    sheet_bytes: usize,
    orders: Answers,
    texts: Answers,
    features: Features,
}

/// What a service with a buffer was asked for.
#[derive(Default)]
struct Answers {
    calls: usize,
    overruns: u64,
    bytes: usize,
    longest: usize,
}

impl Totals {
    fn run(&mut self, options: &Options, sheet: &[u8]) -> Result<(), String> {
        let mut answer = sheet::check(sheet);
        if options.check {
            answer = compare::check(sheet)?;
        }
        if options.order {
            let order = compare::wanted_order(sheet);
            let list = order.as_ref().map_or(0, Vec::len);
            let mut lengths = compare::lengths(&order, 400);
            lengths.extend([list.saturating_sub(2), list + 2, list / 2]);
            let service = Service::StructOrder;
            let overruns = compare::with_buffers(service, sheet, &order, &lengths, options.margin)?;
            self.orders.add(list, lengths.len(), overruns);
        }
        if options.write {
            let text = compare::wanted_text(sheet);
            let length = text.as_ref().map_or(0, Vec::len);
            let lengths = compare::lengths(&text, 2 * length + 1_000);
            let service = Service::Write;
            let overruns = compare::with_buffers(service, sheet, &text, &lengths, options.margin)?;
            self.texts.add(length, lengths.len(), overruns);
            if let Ok(text) = text {
                self.features.count(&sheet::decode(sheet).unwrap());
                match compare::other_edition(sheet, &text, options.margin)? {
                    true => self.both_editions += 1,
                    false => self.one_edition += 1,
                }
            }
        }
        self.answers[usize::from(answer)] += 1;
        if let Some(first) = sheet.first() {
            self.editions[usize::from(first >> 4)] += 1;
        }
        if answer == Refusal::BadName.number() {
            self.reserved += u64::from(Blame::reserved(sheet) != Blame::No);
            self.keyword += u64::from(Blame::keyword(sheet) != Blame::No);
            self.not_compared += u64::from(Blame::orders(sheet) == Blame::Only);
        }
        self.sheet_bytes += sheet.len();
        Ok(())
    }
}

impl Answers {
    fn add(&mut self, bytes: usize, lengths: usize, overruns: u64) {
        self.calls += 2 * lengths;
        self.overruns += overruns;
        self.bytes += bytes;
        self.longest = self.longest.max(bytes);
    }
}

impl Display for Totals {
    fn fmt(&self, out: &mut fmt::Formatter) -> fmt::Result {
        writeln!(out, "sheets        {}", self.answers.iter().sum::<u64>())?;
        for (number, count) in self.editions.iter().enumerate() {
            writeln!(out, "edition {number:2}    {count}")?;
        }
        writeln!(out, "accepted      {}", self.answers[0])?;
        for (number, count) in self.answers.iter().enumerate().skip(1) {
            writeln!(out, "refused {number:2}    {count}")?;
        }
        writeln!(out, "reserved (3)  {}", self.reserved)?;
        writeln!(out, "keyword (3)   {}", self.keyword)?;
        writeln!(out, "not compared  {}", self.not_compared)?;
        writeln!(out, "sheet bytes   {}", self.sheet_bytes)?;
        let services = [
            (&self.orders, "structs       ", "longest list  "),
            (&self.texts, "text bytes    ", "longest text  "),
        ];
        for (answers, bytes, longest) in services {
            if answers.calls > 0 {
                writeln!(out, "buffers       {}", answers.calls)?;
                writeln!(out, "overruns (13) {}", answers.overruns)?;
                writeln!(out, "{bytes}{}", answers.bytes)?;
                writeln!(out, "{longest}{}", answers.longest)?;
            }
        }
        if self.texts.calls > 0 {
            writeln!(out, "both editions {}", self.both_editions)?;
            writeln!(out, "one edition   {}", self.one_edition)?;
        }
        write!(out, "{}", self.features)
    }
}
