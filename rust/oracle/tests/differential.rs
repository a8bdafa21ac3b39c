//! Generated sheets: the check, the plain reader and the crate agree.

use oracle::compare::compare;
use sheet::{Blame, Rng, desc, generate, with_edition};

#[test]
fn limits_and_signatures() {
    if oracle::skipped() {
        return;
    }
    let fixed = generate::boundaries().into_iter();
    for (label, sheet) in fixed.chain(generate::signatures()) {
        if let Err(error) = compare(&sheet) {
            panic!("{label}: {error}");
        }
    }
}

#[test]
fn twenty_thousand_sheets() {
    if oracle::skipped() {
        return;
    }
    let mut rng = Rng::new(20_000);
    let mut answers = [0; 13];
    let [mut reserved, mut keyword] = [0; 2];
    for _ in 0..20_000 {
        let sheet = generate::any(&mut rng);
        match compare(&sheet) {
            Ok(outcome) => {
                answers[usize::from(outcome.answer)] += 1;
                reserved += u32::from(outcome.reserved == Blame::Only);
                keyword += u32::from(outcome.keyword == Blame::Only);
            }
            Err(error) => panic!("{error}\n{}", desc::hex(&sheet)),
        }
    }
    assert!(reserved > 400 && keyword > 400, "{reserved} {keyword}");
    assert!(
        answers[0] > 9_000 && answers.iter().all(|count| *count > 200),
        "{answers:?}"
    );
}

/// The crate does not know of editions: a sheet that both accept has one text
/// and one struct order.
#[test]
fn the_other_edition() {
    if oracle::skipped() {
        return;
    }
    let mut rng = Rng::new(21);
    let mut accepted = [0; 2];
    for _ in 0..4_000 {
        let sheet = generate::any(&mut rng);
        let outcome = compare(&sheet).unwrap();
        if outcome.answer != 0 {
            continue;
        }
        let edition = sheet[0] >> 4;
        let other = compare(&with_edition(&sheet, 3 - edition)).unwrap();
        if other.answer == 0 {
            accepted[usize::from(edition) - 1] += 1;
            let hex = desc::hex(&sheet);
            assert!(other.text == outcome.text, "{hex}");
            assert_eq!(other.order, outcome.order, "{hex}");
        } else {
            assert_eq!((edition, other.answer), (1, 3));
            assert_eq!(other.keyword, Blame::Only);
        }
    }
    assert!(accepted.iter().all(|count| *count > 500), "{accepted:?}");
}
