//! Generated and damaged sheets: the services agree with the Rust check, the
//! crate's `sort` and its writer. The program `differential` runs more of them.

use sheet::{Blame, Rng, desc, encode, generate, limit};
use trials::compare::Text;
use trials::{compare, sheets};

/// A check and, unless that is skipped, the struct order.
fn both(sheet: &[u8], skipped: bool) -> Result<u8, String> {
    let answer = compare::check(sheet)?;
    if !skipped {
        let order = compare::wanted_order(sheet);
        compare::struct_order(sheet, &order, &compare::lengths(&order, 400))?;
    }
    Ok(answer)
}

fn text(sheet: &[u8]) -> Result<Text, String> {
    let text = compare::wanted_text(sheet);
    compare::write(sheet, &text, &compare::lengths(&text, 65_536))?;
    Ok(text)
}

#[test]
fn limits_and_signatures() {
    let skipped = oracle::skipped();
    let fixed = generate::boundaries().into_iter();
    for (label, sheet) in fixed.chain(generate::signatures()) {
        if let Err(error) = both(&sheet, skipped) {
            panic!("{label}: {error}");
        }
    }
}

#[test]
fn large_sheets() {
    let skipped = oracle::skipped();
    let large = [
        sheets::many_names(limit::NAMES),
        sheets::functions(8),
        sheets::functions(31),
        sheets::apart(),
        sheets::chain(),
        sheets::chain_backwards(),
        sheets::diamonds(),
        sheets::dense(),
    ];
    for (number, sheet) in large.iter().enumerate() {
        assert_eq!(both(&encode(sheet), skipped), Ok(0), "sheet {number}");
    }
}

#[test]
fn every_buffer_length() {
    if oracle::skipped() {
        return;
    }
    let lengths: Vec<usize> = (0..=258).collect();
    for sheet in [sheets::apart(), sheets::chain(), sheets::diamonds()] {
        let sheet = encode(&sheet);
        let order = compare::wanted_order(&sheet);
        assert_eq!(order.as_ref().map(Vec::len), Ok(255));
        let overruns = compare::struct_order(&sheet, &order, &lengths).unwrap();
        assert_eq!(overruns, 2 * 255);
    }
}

#[test]
fn generated_sheets() {
    let skipped = oracle::skipped();
    let mut rng = Rng::new(1);
    let mut answers = [0; 13];
    let [mut reserved, mut keyword] = [0; 2];
    for _ in 0..16_000 {
        let sheet = generate::any(&mut rng);
        match both(&sheet, skipped) {
            Ok(answer) => answers[usize::from(answer)] += 1,
            Err(error) => panic!("{error}\n{}", desc::hex(&sheet)),
        }
        reserved += u32::from(Blame::reserved(&sheet) == Blame::Only);
        keyword += u32::from(Blame::keyword(&sheet) == Blame::Only);
    }
    assert!(answers.iter().all(|count| *count > 100), "{answers:?}");
    assert!(reserved > 320 && keyword > 320, "{reserved} {keyword}");
}

#[test]
fn many_structs() {
    let skipped = oracle::skipped();
    let mut rng = Rng::new(2);
    let [mut reserved, mut keyword] = [0; 2];
    for number in 0..4_000 {
        let mut sheet = sheets::structs(&mut rng);
        match number % 20 {
            7 => generate::reserve(&mut rng, &mut sheet),
            11 | 13 => generate::put_keyword(&mut rng, &mut sheet),
            _ => {}
        }
        let mut sheet = encode(&sheet);
        if number % 8 == 0 {
            generate::damage(&mut rng, &mut sheet);
        }
        reserved += u32::from(Blame::reserved(&sheet) == Blame::Only);
        keyword += u32::from(Blame::keyword(&sheet) == Blame::Only);
        if let Err(error) = both(&sheet, skipped) {
            panic!("{error}\n{}", desc::hex(&sheet));
        }
    }
    assert!(reserved > 100 && keyword > 100, "{reserved} {keyword}");
}

#[test]
fn texts_at_the_limits() {
    if oracle::skipped() {
        return;
    }
    let fixed = generate::boundaries().into_iter();
    for (label, sheet) in fixed.chain(generate::signatures()) {
        if let Err(error) = text(&sheet) {
            panic!("{label}: {error}");
        }
    }
}

#[test]
fn large_texts() {
    if oracle::skipped() {
        return;
    }
    let mut rng = Rng::new(5);
    let many = (0..20).map(|_| sheets::many_functions(&mut rng));
    let large = [
        sheets::many_names(limit::NAMES),
        sheets::functions(8),
        sheets::functions(31),
        sheets::dense(),
    ];
    for (number, sheet) in large.into_iter().chain(many).enumerate() {
        if let Err(error) = text(&encode(&sheet)) {
            panic!("sheet {number}: {error}");
        }
    }
}

/// Some 73 million bytes.
#[test]
fn the_longest_text() {
    if oracle::skipped() {
        return;
    }
    let sheet = encode(&sheets::longest_text());
    let text = compare::wanted_text(&sheet);
    let length = text.as_ref().map_or(0, Vec::len);
    assert!(length > 73_000_000, "{length}");
    let lengths = [length - 1, length];
    assert_eq!(compare::write(&sheet, &text, &lengths), Ok(2));
}

#[test]
fn generated_texts() {
    if oracle::skipped() {
        return;
    }
    let mut rng = Rng::new(6);
    let [mut accepted, mut reserved, mut keyword] = [0; 3];
    for _ in 0..4_000 {
        let sheet = sheets::texts(&mut rng);
        match text(&sheet) {
            Ok(text) => accepted += u32::from(text.is_ok()),
            Err(error) => panic!("{error}\n{}", desc::hex(&sheet)),
        }
        reserved += u32::from(Blame::reserved(&sheet) == Blame::Only);
        keyword += u32::from(Blame::keyword(&sheet) == Blame::Only);
    }
    assert!(accepted > 2_000, "{accepted}");
    assert!(reserved > 80 && keyword > 60, "{reserved} {keyword}");
}
