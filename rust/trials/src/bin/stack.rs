//! `stack`: the peak stack of the services.

use std::hint::black_box;
use std::process::ExitCode;
use trials::stack::deepest;

const USAGE: &str = "usage: stack

Runs the services, and for comparison the Rust check and the plain Rust writer,
each on a painted stack: on large sheets, on those at the limits, on 2,000
generated ones and on 2,000 of many structs. Prints the most bytes of stack that
each took, wrapper included, and the sheet.

Exit code: 0 done, 1 a call took 1 MiB or more, 2 wrong use.";

fn main() -> ExitCode {
    if std::env::args().len() > 1 {
        eprintln!("{USAGE}");
        return ExitCode::from(2);
    }
    let mut buffer = [0; 255];
    let mut text = vec![0; 80 << 20];
    let mut plain_text = text.clone();
    let deepest = [
        deepest(2_000, |sheet| {
            let _ = black_box(bridgetext::check(sheet));
        }),
        deepest(2_000, |sheet| {
            let _ = black_box(bridgetext::struct_order(sheet, &mut buffer));
        }),
        deepest(2_000, |sheet| {
            let _ = black_box(bridgetext::write(sheet, &mut text));
        }),
        deepest(2_000, |sheet| {
            black_box(sheet::check(sheet));
        }),
        deepest(2_000, |sheet| {
            let _ = black_box(plain::write(sheet, &mut plain_text));
        }),
    ];
    println!("| call | peak stack, bytes | sheet |");
    println!("|---|---|---|");
    let calls = [
        "`bridgetext::check`",
        "`bridgetext::struct_order`",
        "`bridgetext::write`",
        "`sheet::check`",
        "`plain::write`",
    ];
    for (call, deepest) in calls.iter().zip(deepest) {
        let Ok((depth, label)) = deepest else {
            eprintln!("stack: {call} took 1 MiB or more");
            return ExitCode::FAILURE;
        };
        println!("| {call} | {depth} | {label} |");
    }
    ExitCode::SUCCESS
}
