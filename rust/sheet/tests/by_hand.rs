//! Sheets written out bit by bit, with the answers of document 01.

use sheet::{check, decode, index_width, read};

/// Bytes from binary digits; blanks are skipped, zero bits fill the last byte.
fn bits(digits: &str) -> Vec<u8> {
    let digits: Vec<u8> = digits
        .bytes()
        .filter(|c| *c == b'0' || *c == b'1')
        .collect();
    let byte = |chunk: &[u8]| {
        let value = chunk
            .iter()
            .fold(0, |value, digit| value << 1 | (digit & 1));
        value << (8 - chunk.len())
    };
    digits.chunks(8).map(byte).collect()
}

#[track_caller]
fn expect(answer: u8, digits: &str) {
    let sheet = bits(digits);
    assert_eq!(check(&sheet), answer);
    assert_eq!(
        read(&sheet).err().map_or(0, |refusal| refusal.number()),
        answer
    );
}

/// Edition 1, both bits clear, no name.
const NO_NAMES: &str = "0001 0 0 0000000000";
/// Edition 1, both bits clear, the name `a`.
const NAME_A: &str = "0001 0 0 0000000001 000001 1100001";
/// The same with the three names `a`, `b` and `c`.
const NAMES_ABC: &str = "0001 0 0 0000000011 000001 1100001 000001 1100010 000001 1100011";

#[test]
fn table_of_document_01() {
    assert_eq!(check(&[0x10, 0, 0]), 0);
    assert_eq!(check(&[0x10, 0]), 1);
    assert_eq!(check(&[0x10, 0, 0, 0]), 8);
    assert_eq!(check(&[0x20, 0, 0]), 0);
    assert_eq!(check(&[0x30, 0, 0]), 2);
    assert_eq!(check(&[0x00, 0, 0]), 2);
    let widths = [0, 1, 2, 3, 4, 5, 255, 256, 512, 513, 1_022, 1_023].map(index_width);
    assert_eq!(widths, [0, 0, 1, 2, 2, 3, 8, 8, 9, 10, 10, 10]);
}

#[test]
fn edition_and_cut() {
    assert_eq!(check(&[]), 1);
    for edition in 0..16 {
        let is_known = edition == 1 || edition == 2;
        let empty = [edition << 4, 0, 0];
        // The edition is whole, so its fault comes before the cut.
        assert_eq!(check(&empty[..1]), if is_known { 1 } else { 2 });
        assert_eq!(check(&empty[..2]), if is_known { 1 } else { 2 });
        assert_eq!(check(&empty), if is_known { 0 } else { 2 });
    }
    expect(0, "0001 1 1 0000000000 00000000");
    expect(0, "0010 1 1 0000000000 00000000");
    // Edition 2 has the layout of edition 1: a byte more, a bit behind the last
    // item, a bad kind.
    expect(8, "0010 0 0 0000000000 00000000 00000000");
    expect(8, "0010 0 0 0000000001 000001 1100001 00000000 001");
    expect(5, "0010 0 0 0000000001 000001 1100001 00000001 101");
}

/// Order 13 of document 02.
#[test]
fn keywords_of_each_edition() {
    let name = |edition: u8, word: &str| {
        let digits: String = word.bytes().map(|c| format!("{c:07b} ")).collect();
        format!(
            "{edition:04b} 0 0 0000000001 {:06b} {digits} 00000000",
            word.len()
        )
    };
    for word in [
        "char8_t",
        "concept",
        "consteval",
        "constinit",
        "co_await",
        "co_return",
        "co_yield",
        "requires",
    ] {
        expect(0, &name(1, word));
        expect(3, &name(2, word));
        // One character less, in front and at the end; one more; another.
        for near in [
            word[1..].to_string(),
            word[..word.len() - 1].to_string(),
            format!("{word}_"),
            format!("_{word}"),
            word.to_ascii_uppercase(),
            word.replacen('c', "d", 1).replacen('r', "s", 1),
        ] {
            expect(0, &name(1, &near));
            expect(0, &name(2, &near));
        }
        // The identifiers of order 3.
        for reserved in [
            format!("{word}__"),
            format!("__{word}"),
            format!("_A{word}"),
        ] {
            expect(3, &name(1, &reserved));
            expect(3, &name(2, &reserved));
        }
        // Cut within the last character: one field, so 1.
        let sheet = bits(&name(2, word));
        let end = 16 + 6 + 7 * word.len();
        assert_eq!(check(&sheet[..(end - 1) / 8]), 1, "{word}");
    }
    for (word, answer) in [
        ("import", 0),
        ("module", 0),
        ("final", 0),
        ("override", 0),
        ("std", 0),
        ("int", 3),
        ("register", 3),
        ("xor", 3),
        ("_Tool", 3),
        ("a__b", 3),
        ("_", 0),
    ] {
        expect(answer, &name(1, word));
        expect(answer, &name(2, word));
    }
    // `concept` behind a bad edition, and as the second name, which nothing uses.
    expect(2, &name(3, "concept"));
    let second = "000001 1100001 000111 1100011 1101111 1101110 1100011 1100101 1110000 1110100";
    for (edition, answer) in [("0001", 0), ("0010", 3)] {
        let item = "00000001 011 000 0 0";
        expect(answer, &format!("{edition} 0 0 0000000010 {second} {item}"));
    }
}

#[test]
fn names() {
    expect(0, &format!("{NAME_A} 00000000"));
    // No character.
    expect(3, "0001 0 0 0000000001 000000 00000000");
    expect(3, "0001 0 0 0000000001 000000");
    // `1` and `do`.
    expect(3, "0001 0 0 0000000001 000001 0110001 00000000");
    expect(3, "0001 0 0 0000000001 000010 1100100 1101111 00000000");
    // A bad first character in a name that is cut: one field, so 1.
    expect(1, "0001 0 0 0000000001 000011 0110001 0110001");
    // A bad name before a cut name.
    expect(3, "0001 0 0 0000000010 000001 0110001 111111");
}

/// Order 3 of document 02.
#[test]
fn reserved_names() {
    // `_`: 95; `1`: 49; `A`, `B`, `T`, `Z`: 65, 66, 84, 90; `a`, `b`, `t`: 97, 98, 116.
    let name = |digits: &str| {
        let len = digits.split_whitespace().count();
        format!("0001 0 0 0000000001 {len:06b} {digits} 00000000")
    };
    // `_`, `_t`, `_1`, `a_B`, `_1T`, `a_`.
    for digits in [
        "1011111",
        "1011111 1110100",
        "1011111 0110001",
        "1100001 1011111 1000010",
        "1011111 0110001 1010100",
        "1100001 1011111",
    ] {
        expect(0, &name(digits));
    }
    // `__`, `___`, `a__b`, `a__`, `_A`, `_Z`, `_Tt`.
    for digits in [
        "1011111 1011111",
        "1011111 1011111 1011111",
        "1100001 1011111 1011111 1100010",
        "1100001 1011111 1011111",
        "1011111 1000001",
        "1011111 1011010",
        "1011111 1010100 1110100",
    ] {
        expect(3, &name(digits));
    }
    // `__` and `_A` in a name that is cut: one field, so 1.
    expect(1, "0001 0 0 0000000001 000011 1011111 1011111");
    expect(1, "0001 0 0 0000000001 000011 1011111 1000001");
    // As the second name, which nothing uses, behind `a`; and before a bad kind.
    expect(
        3,
        "0001 0 0 0000000010 000001 1100001 000010 1011111 1011111 00000001 011 000 0 0",
    );
    expect(3, "0001 0 0 0000000001 000010 1011111 1011111 00000001 111");
}

#[test]
fn indexes() {
    // An opaque Rust type called `a`: the index into one name has no bits.
    expect(0, &format!("{NAME_A} 00000001 011 000 0"));
    // The same without a name to call it by.
    expect(4, &format!("{NO_NAMES} 00000001 011 000 0"));
    // No bits are missing for the index itself.
    let sheet = bits(&format!("{NO_NAMES} 00000001 011 000"));
    assert_eq!(check(&sheet), 4);
    // Three names: two bits, and 3 is loose.
    expect(0, &format!("{NAMES_ABC} 00000001 011 000 10 0"));
    expect(4, &format!("{NAMES_ABC} 00000001 011 000 11 0"));
    // As a namespace it comes before the name.
    expect(4, &format!("{NAMES_ABC} 00000001 011 001 11 00 0"));
    // A free function `a` that returns a named type: item 0 is the function.
    expect(
        9,
        &format!("{NAME_A} 00000001 100 000 00 0 1 0001 00000 00000"),
    );
    // Three items, and item 3 is loose.
    let types = "011 000 00 0  011 000 01 0";
    let function = "100 000 10 10 00 0 1 0001";
    expect(
        0,
        &format!("{NAMES_ABC} 00000011 {types} {function} 01 00000 00000"),
    );
    expect(
        9,
        &format!("{NAMES_ABC} 00000011 {types} {function} 10 00000 00000"),
    );
    expect(
        4,
        &format!("{NAMES_ABC} 00000011 {types} {function} 11 00000 00000"),
    );
}

#[test]
fn kinds() {
    for kind in ["101", "110", "111"] {
        // Nothing needs to follow.
        expect(5, &format!("{NAME_A} 00000001 {kind}"));
    }
    for atom in 0..16 {
        let answer = if (2..=11).contains(&atom) { 0 } else { 5 };
        expect(answer, &format!("{NAME_A} 00000001 001 000 0 {atom:04b} 0"));
    }
    // Cut right behind the atom: a bad atom comes before the missing bit.
    for (atom, answer) in [("0000", 5), ("0010", 1)] {
        let sheet = bits(&format!("{NAME_A} 00000001 001 000 0 {atom}"));
        assert_eq!((sheet.len(), check(&sheet)), (6, answer));
    }
}

/// A struct `a` with one field.
fn field(ty: &str) -> String {
    format!("{NAME_A} 00000001 000 000 0 000001 {ty}")
}

#[test]
fn types() {
    for atom in 0..16 {
        expect(0, &field(&format!("0000 {atom:04b}")));
    }
    // A struct that holds itself, plainly and behind a box.
    expect(12, &field("0001"));
    expect(0, &field("0010 0001"));
    for unary in ["0010", "0011", "0100", "0101", "0110", "1010"] {
        expect(0, &field(&format!("{unary} 1001")));
    }
    for with_mutable_bit in ["0111", "1000", "1101"] {
        expect(0, &field(&format!("{with_mutable_bit} 1 1001")));
    }
    expect(0, &field("1011 0 0000"));
    expect(0, &field("1011 1 1001 0010 1001 1001"));
    expect(0, &field(&format!("1110 1001 {:032b}", u32::MAX)));
    expect(1, &field("1110 1001 0000"));
    expect(5, &field("1100"));
    expect(5, &field("1111"));
}

#[test]
fn depth() {
    let boxes = |count: usize| "0010 ".repeat(count);
    expect(0, &field(&format!("{} 1001", boxes(7))));
    expect(6, &field(&format!("{} 1001", boxes(8))));
    expect(6, &field(&boxes(9)));
    // At the kind of a type at depth 9, 5 is the lower number.
    expect(5, &field(&format!("{} 1100", boxes(8))));
    expect(5, &field(&format!("{} 1111", boxes(8))));
    expect(6, &field(&format!("{} 0000", boxes(8))));
    // A Fn's return and slots are one level inside it.
    expect(0, &field(&format!("{} 1011 1 1001 0001 1001", boxes(6))));
    expect(6, &field(&format!("{} 1011 1 1001 0001 1001", boxes(7))));
    expect(0, &field(&format!("{} 1011 0 0000", boxes(7))));
    expect(6, &field(&format!("{} 1011 0 0001 1001", boxes(7))));
}

/// A free function `a` with one comment line.
fn comment(line: &str) -> String {
    format!("{NAME_A} 00000001 100 000 00 0 0 00000 00001 {line}")
}

#[test]
fn comments() {
    expect(0, &comment("0000000"));
    // A blank, a tilde.
    expect(0, &comment("0000010 0100000 1111110"));
    // A backslash in front of another character, and at the end.
    expect(0, &comment("0000010 1011100 0100000"));
    expect(7, &comment("0000010 0100000 1011100"));
    expect(7, &comment("0000001 0011111"));
    expect(7, &comment("0000001 1111111"));
    // A bad line that is cut.
    expect(1, &comment("0001000 0000000"));
}

#[test]
fn tail() {
    // 24 + 13 bits and a byte for the items: three bits are left.
    let whole = format!("{NAME_A} 00000000");
    expect(0, &format!("{whole} 000"));
    expect(8, &format!("{whole} 001"));
    expect(8, &format!("{whole} 100"));
    expect(8, &format!("{whole} 000 00000000"));
    expect(8, &format!("{NO_NAMES} 00000000 00000000"));
}

#[test]
fn excess_length_comes_first() {
    assert_eq!(check(&[0; 32_768]), 2);
    assert_eq!(check(&[0; 32_769]), 1);
    assert_eq!(check(&[0x20; 32_769]), 1);
    assert!(decode(&vec![0x10; 100_000]).is_err());
}

/// Functions called `a` with the given Rust names (of a, b, c).
fn functions(items: &[&str]) -> String {
    format!("{NAMES_ABC} {:08b} {}", items.len(), items.concat())
}

#[test]
fn taken() {
    let free = |rust_name: &str| format!("100 000 00 {rust_name} 00 0 0 00000 00000");
    expect(0, &functions(&[&free("00"), &free("01")]));
    expect(10, &functions(&[&free("01"), &free("01")]));
    // The namespace is part of the symbol.
    let inside = "100 001 10 00 01 00 0 0 00000 00000";
    expect(0, &functions(&[inside, &free("01")]));
    expect(10, &functions(&[inside, inside]));
    // So is the self type's C++ name, which a free function has not.
    let on = ["0", "1"].map(|item| format!("100 000 00 00 11 0{item} 0 0 00000 00000"));
    let types = ["011 000 01 0", "010 000 10 0"];
    expect(0, &functions(&[types[0], types[1], &on[0], &on[1]]));
    expect(0, &functions(&[types[0], types[1], &on[0], &free("00")]));
    expect(10, &functions(&[types[0], types[1], &on[1], &on[1]]));
    // Types `b` and `c::b` have one C++ name; the form does not count.
    let method = "100 000 00 00 01 01 0 0 00000 00000";
    let inner = "011 001 10 01 0";
    expect(10, &functions(&[types[0], inner, &on[0], method]));
    // Two types `a`; a type and a function `a`.
    expect(10, &functions(&["011 000 00 0", "001 000 00 0 0010 1"]));
    expect(0, &functions(&["011 000 00 0", &free("00")]));
    // Two equal argument names.
    let two = |names: [&str; 2]| {
        let [one, two] = names;
        format!("100 000 00 00 00 0 0 00010 {one} 1001 {two} 1001 00000")
    };
    expect(0, &functions(&[&two(["00", "01"])]));
    expect(10, &functions(&[&two(["01", "01"])]));
    // The name table may repeat a name, and names are compared by characters.
    let names = "0001 0 0 0000000010 000001 1100001 000001 1100001";
    expect(
        10,
        &format!("{names} 00000001 100 000 0 0 00 0 0 00010 0 1001 1 1001 00000"),
    );
    expect(10, &format!("{names} 00000010 011 000 0 0 011 000 1 0"));
    // `std` as the first and as the second namespace, of a type and a function.
    let names = "0001 0 0 0000000010 000001 1100001 000011 1110011 1110100 1100100";
    expect(10, &format!("{names} 00000001 011 001 1 0 0"));
    expect(
        10,
        &format!("{names} 00000001 100 001 1 0 0 00 0 0 00000 00000"),
    );
    expect(0, &format!("{names} 00000001 011 010 0 1 0 0"));
    expect(0, &format!("{names} 00000001 011 000 1 0"));
}

#[test]
fn unfit_arguments() {
    // Names `self` and `error`, an opaque type `self` with a pointer bit.
    let names = "0001 0 0 0000000010 \
        000100 1110011 1100101 1101100 1100110 \
        000101 1100101 1110010 1110010 1101111 1110010";
    let sheet = |pointer: u8, form: &str, throws: u8, arg: &str| {
        let function = format!("100 000 0 0 {form} {throws} 0 00001 {arg} 00000");
        format!("{names} 00000010 011 000 0 {pointer} {function}")
    };
    // `self: &str` in a free function, in methods, in an associated function.
    for (form, answer) in [("00", 0), ("01 0", 11), ("10 0", 11), ("11 0", 0)] {
        expect(answer, &sheet(0, form, 0, "0 1001"));
    }
    // `error` of each sort, throwing or not.
    for (ty, answer) in [
        ("0000 1111", 0),
        ("0000 1110", 11),
        ("0000 0010", 0),
        ("0010 1001", 0),
        ("0011 1001", 11),
        ("0100 1001", 0),
        ("0101 1001", 11),
        ("0110 1001", 11),
        ("0111 0 1001", 0),
        ("1000 0 1001", 0),
        ("1001", 0),
        ("1011 0 0000", 0),
        ("1101 0 1001", 0),
        ("1110 1001 00000000000000000000000000000000", 11),
    ] {
        expect(answer, &sheet(0, "00", 1, &format!("1 {ty}")));
        expect(0, &sheet(0, "00", 0, &format!("1 {ty}")));
    }
    expect(0, &sheet(0, "00", 1, "1 0001 0"));
    expect(11, &sheet(1, "00", 1, "1 0001 0"));
    expect(0, &sheet(1, "00", 0, "1 0001 0"));
    // A CxxVector as argument, and in a slot of a Fn.
    expect(11, &sheet(0, "00", 0, "1 1010 1001"));
    expect(0, &sheet(0, "00", 0, "1 1011 0 0001 1010 1001"));
    expect(0, &sheet(0, "00", 0, "1 0111 0 1010 1001"));
}

#[test]
fn rings() {
    let holds = |name: &str, held: &str| format!("000 000 {name} 0 000001 0001 {held}");
    // a holds b, b holds c, c holds nothing, a or b.
    let chain = |last: &str| {
        let items = [holds("00", "01"), holds("01", "10"), last.to_string()];
        format!("{NAMES_ABC} 00000011 {}", items.concat())
    };
    expect(0, &chain("000 000 10 0 000000"));
    expect(12, &chain(&holds("10", "00")));
    expect(12, &chain(&holds("10", "01")));
    expect(12, &chain(&holds("10", "10")));
    // A lower number wins: two types `b`.
    expect(10, &chain(&holds("01", "00")));
}
