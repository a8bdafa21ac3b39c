//! Editions (order 13) through the archive: which there are, and that a sheet
//! which both accept has one text and one struct order.

use bridgetext::Refusal;
use sheet::{EDITIONS, Rng, encode, generate, limit};
use trials::compare::{self, MARGIN};
use trials::sheets;

/// Document 01's table of sheets, with order 13.
#[test]
fn checked_by_hand() {
    for (sheet, wanted) in [
        (&[0x10, 0, 0][..], Ok(Vec::new())),
        (&[0x20, 0, 0], Ok(Vec::new())),
        (&[0x10, 0], Err(Refusal::CutSheet)),
        (&[0x20, 0], Err(Refusal::CutSheet)),
        (&[0x10, 0, 0, 0], Err(Refusal::Tail)),
        (&[0x20, 0, 0, 0], Err(Refusal::Tail)),
        (&[0x00, 0, 0], Err(Refusal::Edition)),
        (&[0x30, 0, 0], Err(Refusal::Edition)),
        (&[], Err(Refusal::CutSheet)),
        (&[0x20], Err(Refusal::CutSheet)),
        (&[0x30], Err(Refusal::Edition)),
        (&[0x2c, 0, 0], Ok(Vec::new())),
    ] {
        assert_eq!(bridgetext::text(sheet), wanted, "{sheet:02x?}");
        assert_eq!(bridgetext::check(sheet).err(), wanted.err(), "{sheet:02x?}");
        compare::check(sheet).unwrap();
    }
}

#[test]
fn every_edition() {
    for edition in 0..16 {
        let is_known = EDITIONS.contains(&edition);
        let first = edition << 4;
        for (sheet, known) in [
            (vec![first, 0, 0], 0),
            (vec![first | 0x0c, 0, 0], 0),
            (vec![first], 1),
            (vec![first, 0], 1),
            (vec![first, 0, 0, 0], 8),
            // Of the name `a` an opaque type, and item kind 5.
            (vec![first, 1, 7, 8, 11, 0], 0),
            (vec![first, 1, 7, 8, 13], 5),
        ] {
            let wanted = if is_known { known } else { 2 };
            assert_eq!(compare::check(&sheet), Ok(wanted), "{sheet:02x?}");
        }
        // Excess length comes first.
        let mut sheet = vec![0; 32_769];
        sheet[0] = first;
        assert_eq!(compare::check(&sheet), Ok(1));
        sheet.pop();
        assert_eq!(compare::check(&sheet), Ok(if is_known { 8 } else { 2 }));
    }
}

/// How many of the sheets are accepted in edition 1 and 2, and how many of these
/// are in the other.
fn other_editions(sheets: impl Iterator<Item = Vec<u8>>) -> [[u32; 2]; 2] {
    let mut counts = [[0; 2]; 2];
    for sheet in sheets {
        let text = plain::text(&sheet);
        let Ok(chars) = &text else {
            continue;
        };
        let edition = usize::from(sheet[0] >> 4) - 1;
        let result = compare::write(&sheet, &text, &compare::lengths(&text, 65_536))
            .and_then(|_| compare::other_edition(&sheet, chars, MARGIN));
        match result {
            Ok(accepted) => {
                counts[0][edition] += 1;
                counts[1][edition] += u32::from(accepted);
            }
            Err(error) => panic!("{error}\n{}", sheet::desc::hex(&sheet)),
        }
    }
    counts
}

#[test]
fn limits_and_large_sheets_under_the_other_edition() {
    let fixed = generate::boundaries().into_iter();
    let fixed = fixed.chain(generate::signatures()).map(|(_, sheet)| sheet);
    let large = [
        sheets::many_names(limit::NAMES),
        sheets::functions(8),
        sheets::functions(31),
        sheets::dense(),
        sheets::chain(),
    ];
    let [accepted, in_both] = other_editions(fixed.chain(large.iter().map(encode)));
    // The eight words, used and not.
    assert_eq!(accepted[0] - in_both[0], 16);
    assert!(in_both[0] > 100, "{in_both:?}");
    assert_eq!(accepted[1], in_both[1]);
    assert!(in_both[1] > 8, "{in_both:?}");
}

#[test]
fn generated_sheets_under_the_other_edition() {
    let mut rng = Rng::new(13);
    let generated = (0..4_000).map(|number| match number % 8 {
        0 => encode(&sheets::structs(&mut rng)),
        _ => sheets::texts(&mut rng),
    });
    let [accepted, in_both] = other_editions(generated);
    assert_eq!(accepted[1], in_both[1]);
    assert!(in_both.iter().all(|count| *count > 500), "{in_both:?}");
    assert!(accepted[0] - in_both[0] > 100, "{accepted:?} {in_both:?}");
}
