//! All sheets of a few bytes.

use trials::compare;

/// Whether it is accepted.
fn one(sheet: &[u8]) -> bool {
    let answer = compare::check(sheet);
    // So short a sheet has no struct and no text.
    let nothing = match &answer {
        Ok(0) => Ok(Vec::new()),
        Ok(refusal) => Err(*refusal),
        Err(error) => panic!("{error}\n{sheet:02x?}"),
    };
    for service in [compare::struct_order, compare::write] {
        if let Err(error) = service(sheet, &nothing, &[0, 1]) {
            panic!("{error}\n{sheet:02x?}");
        }
    }
    nothing.is_ok()
}

#[test]
fn up_to_two_bytes() {
    assert!(!one(&[]));
    for first in 0..=255 {
        assert!(!one(&[first]));
        for second in 0..=255 {
            assert!(!one(&[first, second]));
        }
    }
}

/// The empty ones of both editions, with each setting of both bits.
#[test]
fn accepted_sheets_of_three_bytes() {
    for first in 0..=255 {
        let is_accepted = [0x10, 0x20].contains(&(first & 0xf0)) && first & 0x03 == 0;
        assert_eq!(one(&[first, 0, 0]), is_accepted, "{first:02x}");
    }
}

#[test]
#[ignore = "16,777,216 sheets"]
fn three_bytes() {
    let mut accepted = 0;
    for number in 0..1 << 24 {
        let [_, sheet @ ..] = u32::to_be_bytes(number);
        accepted += u32::from(one(&sheet));
    }
    assert_eq!(accepted, 8);
}
