//! `bench`: the time of the services.

use sheet::{Rng, encode, generate, limit, with_edition};
use std::cell::RefCell;
use std::fmt::{self, Display};
use std::hint::black_box;
use std::process::ExitCode;
use std::time::{Duration, Instant};
use trials::sheets;

const USAGE: &str = "usage: bench [--runs N] [--write]

Times `bridgetext::check` against `sheet::check` on the same sheets,
`bridgetext::struct_order` against the crate's `sort`, and `bridgetext::write`
against `plain::write` and `plain::write_without_rules`; with `--write` only
these three. There are N runs of each (501 unless given, at most 51 for the
longest text), one of the first, one of the second and so on; a run repeats a
call of less than 200 µs. Prints medians and their ratio as Markdown, for `write`
the 10th and the 90th percentile too. Buffers are not cleared between the runs.

Exit code: 0 done, 1 a service answers wrong, 2 wrong use or not built
for release.";

/// A run repeats the call until it takes so long.
const RUN: Duration = Duration::from_micros(200);

/// The buffer for the stored sheet.
const BUFFER: usize = 262_144;

fn main() -> ExitCode {
    let Some((runs, write)) = arguments() else {
        eprintln!("{USAGE}");
        return ExitCode::from(2);
    };
    if cfg!(debug_assertions) {
        eprintln!("bench: not built for release");
        return ExitCode::from(2);
    }
    let tables: &[fn(usize) -> Result<(), String>] = match write {
        true => &[texts],
        false => &[checks, orders, texts],
    };
    for (index, table) in tables.iter().enumerate() {
        if index > 0 {
            println!();
        }
        if let Err(error) = table(runs) {
            eprintln!("bench: {error}");
            return ExitCode::FAILURE;
        }
    }
    ExitCode::SUCCESS
}

/// The number of runs, and whether `write` alone is timed.
fn arguments() -> Option<(usize, bool)> {
    let mut runs = 501;
    let mut write = false;
    let mut args = std::env::args().skip(1);
    while let Some(arg) = args.next() {
        match arg.as_str() {
            "--runs" => runs = args.next()?.parse().ok().filter(|runs| *runs > 0)?,
            "--write" => write = true,
            _ => return None,
        }
    }
    Some((runs, write))
}

/// A thousand sheets of at most 300 bytes, of edition 1, which accepts what
/// edition 2 does.
fn small() -> Vec<Vec<u8>> {
    let mut rng = Rng::new(1);
    let sheets = std::iter::repeat_with(|| encode(&generate::good(&mut rng)));
    let sheets = sheets.map(|sheet| with_edition(&sheet, 1));
    sheets
        .filter(|sheet| sheet.len() <= 300)
        .take(1_000)
        .collect()
}

fn checks(runs: usize) -> Result<(), String> {
    let one = |sheet| vec![encode(&sheet)];
    let cases = [
        (
            "32,768 bytes, mostly comments",
            vec![sheets::boundary("32,768 bytes")],
        ),
        (
            "as many types as fit 32,768 bytes",
            vec![sheets::boundary("amplified")],
        ),
        ("1,000 names", one(sheets::many_names(1_000))),
        ("1,023 names", one(sheets::many_names(limit::NAMES))),
        ("1,023 names like keywords", one(sheets::word_names())),
        (
            "the same, edition 2",
            vec![with_edition(&encode(&sheets::word_names()), 2)],
        ),
        ("255 functions, 8 arguments", one(sheets::functions(8))),
        ("255 functions, 31 arguments", one(sheets::functions(31))),
        ("255 structs, 63 fields", one(sheets::dense())),
        ("255 structs in a chain", one(sheets::chain())),
        ("1,000 small sheets", small()),
    ];
    println!("| sheet | bytes | `bridgetext::check` | `sheet::check` | ratio |");
    println!("|---|---|---|---|---|");
    for (label, sheets) in cases {
        for sheet in &sheets {
            if bridgetext::check(sheet).is_err() || sheet::check(sheet) != 0 {
                return Err(format!("{label}: a good sheet is refused"));
            }
        }
        let proved = || {
            for sheet in &sheets {
                let _ = black_box(bridgetext::check(black_box(sheet)));
            }
        };
        let rust = || {
            for sheet in &sheets {
                black_box(sheet::check(black_box(sheet)));
            }
        };
        let bytes: usize = sheets.iter().map(Vec::len).sum();
        let [proved, rust] = medians(runs, [&proved, &rust]);
        let ratio = proved / rust;
        println!(
            "| {label} | {bytes} | {} | {} | {ratio:.2} |",
            time(proved),
            time(rust)
        );
    }
    Ok(())
}

fn orders(runs: usize) -> Result<(), String> {
    if !oracle::HAVE_SOURCE {
        eprintln!("bench: no cxx-build source (set CXX_BUILD_SRC), so no `sort` to time");
        return Ok(());
    }
    let cases = [
        ("apart", sheets::apart()),
        ("a chain", sheets::chain()),
        ("a chain backwards", sheets::chain_backwards()),
        ("diamonds", sheets::diamonds()),
        ("63 fields", sheets::dense()),
    ];
    println!("`struct_order` and \"from bytes\" begin with the sheet's bytes and check them; the");
    println!("second then builds the crate's syntax tree. `sort` alone has the tree at hand.");
    println!();
    println!(
        "| 255 structs | bytes | `bridgetext::struct_order` | from bytes | ratio | `sort` alone | ratio |"
    );
    println!("|---|---|---|---|---|---|---|");
    for (label, sheet) in cases {
        let bytes = encode(&sheet);
        let wanted = oracle::struct_order(&sheet);
        let mut list = [0; 255];
        if bridgetext::struct_order(&bytes, &mut list) != Ok(255) || wanted != list {
            return Err(format!("{label}: another struct order than the crate's"));
        }
        let proved = || {
            let mut list = [0; 255];
            let _ = black_box(bridgetext::struct_order(black_box(&bytes), &mut list));
            black_box(list);
        };
        let from_bytes = || {
            let sheet = sheet::read(black_box(&bytes)).unwrap();
            oracle::with_sort(&sheet, |_| ());
        };
        let [proved, from_bytes, sort] = oracle::with_sort(&sheet, |sort| {
            let sort = || {
                black_box(sort());
            };
            medians(runs, [&proved, &from_bytes, &sort])
        });
        println!(
            "| {label} | {} | {} | {} | {:.2} | {} | {:.2} |",
            bytes.len(),
            time(proved),
            time(from_bytes),
            proved / from_bytes,
            time(sort),
            proved / sort,
        );
    }
    Ok(())
}

const TEXTS: &str = "\
All begin with the sheet's bytes and check them, the last but for rules 9 to 12. The
plain writers are one pass; the service leaves the buffer as it was where the text has
no room. All write into one buffer: the stored sheet has one of 262,144 bytes, the
others have one as long as the longest of their texts. Medians, in brackets the 10th and 90th percentile.";

fn texts(runs: usize) -> Result<(), String> {
    let one = |sheet| vec![encode(&sheet)];
    // A run on the longest text takes long enough to need fewer of them.
    let few = runs.min(51);
    let cases = [
        (
            "255 functions, 8 arguments (stored)",
            vec![sheets::STORED_FUNCTIONS.to_vec()],
            runs,
            BUFFER,
        ),
        ("1,000 small sheets", small(), runs, 0),
        ("the longest text", one(sheets::longest_text()), few, 0),
        (
            "names of 63 characters, 7 namespaces",
            one(sheets::long_names()),
            runs,
            0,
        ),
        (
            "arguments of depth 8",
            one(sheets::deep_arguments()),
            runs,
            0,
        ),
        (
            "throwing, returns by a slot",
            one(sheets::throwing()),
            runs,
            0,
        ),
        ("31 arguments", one(sheets::functions(31)), runs, 0),
    ];
    println!("{TEXTS}");
    println!();
    println!(
        "| sheet | bytes | text | runs | `bridgetext::write` | `plain::write` | ratio | without rules 9 to 12 | ratio |"
    );
    println!("|---|---|---|---|---|---|---|---|---|");
    for (label, sheets, runs, mut room) in cases {
        let mut bytes = 0;
        let mut length = 0;
        for sheet in &sheets {
            let text = same_text(sheet).map_err(|error| format!("{label}: {error}"))?;
            bytes += sheet.len();
            length += text;
            room = room.max(text);
        }
        let buffer = RefCell::new(vec![0; room]);
        let proved = || {
            for sheet in &sheets {
                let buffer = &mut buffer.borrow_mut();
                let _ = black_box(bridgetext::write(black_box(sheet), buffer));
            }
        };
        let rust = || {
            for sheet in &sheets {
                let buffer = &mut buffer.borrow_mut();
                let _ = black_box(plain::write(black_box(sheet), buffer));
            }
        };
        let without_rules = || {
            for sheet in &sheets {
                let buffer = &mut buffer.borrow_mut();
                let _ = black_box(plain::write_without_rules(black_box(sheet), buffer));
            }
        };
        let [proved, rust, without_rules] = times(runs, [&proved, &rust, &without_rules]);
        println!(
            "| {label} | {bytes} | {length} | {runs} | {proved} | {rust} | {:.2} | {without_rules} | {:.2} |",
            proved.median / rust.median,
            proved.median / without_rules.median,
        );
    }
    Ok(())
}

/// All three write one text; its length.
fn same_text(sheet: &[u8]) -> Result<usize, String> {
    let text = plain::text(sheet).map_err(|refusal| format!("refused, {refusal}"))?;
    let mut written = vec![0; text.len()];
    if bridgetext::write(sheet, &mut written) != Ok(text.len()) || written != text {
        return Err("another text than the plain writer's".to_string());
    }
    written.fill(0);
    if plain::write_without_rules(sheet, &mut written) != Ok(text.len()) || written != text {
        return Err("another text without rules 9 to 12".to_string());
    }
    Ok(text.len())
}

/// The median time of each call, in nanoseconds, from runs that take turns.
fn medians<const N: usize>(runs: usize, calls: [&dyn Fn(); N]) -> [f64; N] {
    times(runs, calls).map(|times| times.median)
}

/// The time of a call in nanoseconds: median, 10th and 90th percentile.
struct Times {
    median: f64,
    low: f64,
    high: f64,
}

impl Display for Times {
    fn fmt(&self, f: &mut fmt::Formatter) -> fmt::Result {
        let [median, low, high] = [self.median, self.low, self.high].map(|time| time / 1_000.0);
        write!(f, "{median:.2} µs ({low:.2} to {high:.2})")
    }
}

/// The times of each call, from runs that take turns.
fn times<const N: usize>(runs: usize, calls: [&dyn Fn(); N]) -> [Times; N] {
    let repeats = calls.map(|call| {
        let mut repeats = 1;
        while timed(call, repeats) < RUN {
            repeats *= 2;
        }
        repeats
    });
    let mut times: [Vec<Duration>; N] = [const { Vec::new() }; N];
    for _ in 0..runs {
        for (index, call) in calls.iter().enumerate() {
            times[index].push(timed(*call, repeats[index]));
        }
    }
    let mut repeats = repeats.into_iter();
    times.map(|mut times: Vec<Duration>| {
        times.sort();
        let repeats = f64::from(repeats.next().unwrap());
        let percentile = |percent: usize| {
            let place = (times.len() - 1) * percent / 100;
            times[place].as_nanos() as f64 / repeats
        };
        Times {
            median: percentile(50),
            low: percentile(10),
            high: percentile(90),
        }
    })
}

fn timed(call: &dyn Fn(), repeats: u32) -> Duration {
    let start = Instant::now();
    for _ in 0..repeats {
        call();
    }
    start.elapsed()
}

fn time(nanoseconds: f64) -> String {
    format!("{:.2} µs", nanoseconds / 1_000.0)
}
