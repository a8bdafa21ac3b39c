//! The name rule through the archive: names that C++ reserves (order 3), and the
//! keywords of each edition (order 13). A walk may look at eight characters in
//! one go, so what matters stands at every place, and names at every bit.

use bridgetext::Refusal;
use sheet::name::{self, ADDED_KEYWORDS, ALTERNATIVE_TOKENS, KEYWORDS};
use sheet::{
    Arg, CXX_STRING, EDITIONS, Form, Function, Item, Kind, NameIndex, Sheet, Type, encode, limit,
};
use std::collections::BTreeSet;
use trials::compare;

/// The words that are no names in this edition.
fn words(edition: u8) -> impl Iterator<Item = &'static [u8]> {
    name::words(edition).map(str::as_bytes)
}

/// The name rule once more, sentence by sentence: 0 or 3.
fn wanted(edition: u8, name: &[u8]) -> u8 {
    let mut chars = name.iter();
    let is_shape = chars.all(|c| *c == b'_' || c.is_ascii_alphanumeric())
        && name.first().is_some_and(|c| !c.is_ascii_digit());
    let is_reserved = name.windows(2).any(|pair| pair == b"__")
        || matches!(name, [b'_', second, ..] if second.is_ascii_uppercase());
    let is_word = words(edition).any(|word| word == name);
    if is_shape && !is_reserved && !is_word {
        0
    } else {
        3
    }
}

/// A sheet of this edition with an opaque type of this name, in a namespace of
/// this name.
fn used(edition: u8, name: &[u8]) -> Vec<u8> {
    let mut sheet = Sheet::empty();
    sheet.edition = edition;
    sheet.names.push(name.to_vec());
    sheet.items.push(Item {
        namespace: vec![0],
        name: 0,
        kind: Kind::RustType { pointer: false },
    });
    encode(&sheet)
}

/// The name alone.
fn unused(edition: u8, name: &[u8]) -> Vec<u8> {
    table(edition, &[name])
}

/// Names that nothing uses.
fn table(edition: u8, names: &[&[u8]]) -> Vec<u8> {
    let mut sheet = Sheet::empty();
    sheet.edition = edition;
    sheet.names = names.iter().map(|name| name.to_vec()).collect();
    encode(&sheet)
}

/// A name of this many characters. Behind one of 1 to 8 another name begins at
/// each bit of a byte.
fn before(len: usize) -> &'static [u8] {
    &b"spindles"[..len]
}

/// The answer of a check, with which the Rust check and the other services
/// agree; a refusal leaves their buffers as they were.
#[track_caller]
fn answer(sheet: &[u8]) -> u8 {
    let answer = compare::check(sheet).unwrap();
    let text = plain::text(sheet);
    assert_eq!(text.as_ref().err().copied().unwrap_or(0), answer);
    compare::write(sheet, &text, &compare::lengths(&text, 2_000)).unwrap();
    let order = text.map(|_| Vec::new());
    compare::struct_order(sheet, &order, &compare::lengths(&order, 300)).unwrap();
    answer
}

/// The answers in editions 1 and 2.
#[track_caller]
fn expect_each(wanted: [u8; 2], name: &[u8]) {
    for (edition, wanted) in EDITIONS.zip(wanted) {
        for sheet in [used(edition, name), unused(edition, name)] {
            let name = name.escape_ascii();
            assert_eq!(answer(&sheet), wanted, "{name} in edition {edition}");
        }
    }
}

/// One answer in both editions.
#[track_caller]
fn expect(wanted: u8, name: &[u8]) {
    expect_each([wanted; 2], name);
}

/// All three services answer as the name rule does, in both editions, where the
/// name is the last and where one of 63 characters follows. It is not used, and
/// stands behind one of `len` characters.
#[track_caller]
fn judge(len: usize, name: &[u8]) {
    for edition in EDITIONS {
        let wanted = wanted(edition, name);
        let nothing = match wanted {
            0 => Ok(Vec::new()),
            refusal => Err(refusal),
        };
        let names = [before(len), name, &[b'u'; limit::NAME_CHARS]];
        for count in [2, 3] {
            let sheet = table(edition, &names[..count]);
            let place = || format!("{} in edition {edition}", name.escape_ascii());
            assert_eq!(compare::check(&sheet), Ok(wanted), "{}", place());
            for service in [compare::struct_order, compare::write] {
                let overruns = service(&sheet, &nothing, &[1]);
                assert_eq!(overruns, Ok(0), "{}", place());
            }
        }
    }
}

/// Behind names of each length in turn.
#[track_caller]
fn judge_all<N: AsRef<[u8]>>(names: impl IntoIterator<Item = N>) {
    for (len, name) in (1..=8).cycle().zip(names) {
        judge(len, name.as_ref());
    }
}

/// The word with each character in turn changed to any other, dropped, and any
/// one added before it or at the end; the word twice, and in capitals.
fn near(word: &[u8]) -> BTreeSet<Vec<u8>> {
    let mut near = BTreeSet::from([[word, word].concat(), word.to_ascii_uppercase()]);
    for at in 0..=word.len() {
        let (front, back) = word.split_at(at);
        near.extend((0..128).map(|c| [front, &[c], back].concat()));
        if let [_, back @ ..] = back {
            near.extend((0..128).map(|c| [front, &[c], back].concat()));
            near.insert([front, back].concat());
        }
    }
    near.remove(word);
    near
}

/// Every word at every bit, and what differs from it in one character.
#[test]
fn words_and_near_words() {
    for word in words(2) {
        (1..=8).for_each(|len| judge(len, word));
        let near = near(word);
        assert!(near.len() > 250 * word.len());
        judge_all(near);
    }
}

/// The front of one word with the back of another, cut at the same place; each
/// front and each back alone; and each two words in a row.
#[test]
fn fronts_and_backs() {
    let mut names = BTreeSet::new();
    for one in words(2) {
        for at in 0..=one.len() {
            names.extend([one[..at].to_vec(), one[at..].to_vec()]);
        }
        for two in words(2) {
            names.insert([one, two].concat());
            for at in 1..one.len().min(two.len()) {
                names.insert([&one[..at], &two[at..]].concat());
            }
        }
    }
    assert!(words(2).all(|word| names.contains(word)));
    assert!(names.len() > 20_000, "{}", names.len());
    judge_all(names);
}

/// Names of every length that begin or end with a word, and those of 63
/// characters with a word at every place.
#[test]
fn words_in_longer_names() {
    for word in words(2) {
        let mut names = Vec::new();
        for len in 1..=limit::NAME_CHARS - word.len() {
            let fill = vec![b'q'; len];
            let [mut front, mut back] = [fill.clone(), fill.clone()];
            front[len - 1] = b'_';
            back[0] = b'_';
            names.extend([&fill, &front].map(|front| [front, word].concat()));
            names.extend([&fill, &back].map(|back| [word, back].concat()));
        }
        for at in 1..limit::NAME_CHARS - word.len() {
            let mut name = vec![b'q'; limit::NAME_CHARS];
            name[at..][..word.len()].copy_from_slice(word);
            names.push(name);
        }
        judge_all(names);
    }
}

/// The words of order 13, and the shapes of order 3.
#[test]
fn keywords_of_cxx20() {
    for word in [
        "char8_t",
        "concept",
        "consteval",
        "constinit",
        "co_await",
        "co_return",
        "co_yield",
        "requires",
    ] {
        expect_each([0, 3], word.as_bytes());
        let (first, rest) = word.split_at(1);
        let capital = format!("{}{rest}", first.to_ascii_uppercase());
        expect(0, capital.as_bytes());
        expect(0, format!("_{word}").as_bytes());
        expect(0, format!("{word}_").as_bytes());
        expect(3, format!("_{capital}").as_bytes());
        expect(3, format!("__{word}").as_bytes());
        expect(3, format!("{word}__").as_bytes());
        expect(3, format!("{word}__{word}").as_bytes());
    }
}

/// No table has these, though C++20 gives the first two a meaning.
#[test]
fn words_that_are_no_keywords() {
    for name in ["import", "module", "final", "override", "main"] {
        expect(0, name.as_bytes());
    }
}

/// The tables as a whole.
#[test]
fn keywords_of_each_edition() {
    for word in KEYWORDS.iter().chain(&ALTERNATIVE_TOKENS) {
        expect(3, word.as_bytes());
    }
    for word in ADDED_KEYWORDS {
        expect_each([0, 3], word.as_bytes());
    }
}

#[test]
fn words_of_order_3() {
    for (name, wanted) in [
        ("_Tool", 3),
        ("a__b", 3),
        ("__", 3),
        ("x__", 3),
        ("_", 0),
        ("_t", 0),
        ("_1", 0),
        ("a_B", 0),
    ] {
        expect(wanted, name.as_bytes());
    }
}

/// Every name of up to three of the characters that occur in words, and of some
/// others.
#[test]
fn short_names() {
    let mut chars: Vec<u8> = words(2).flatten().copied().collect();
    chars.extend(b"_A$-01");
    chars.sort();
    chars.dedup();
    // All small letters but `j`; five digits of words.
    assert_eq!(chars.len(), 25 + 5 + 5);
    let mut names = vec![Vec::new()];
    let mut start = 0;
    for _ in 0..3 {
        let end = names.len();
        for at in start..end {
            let front = names[at].clone();
            names.extend(chars.iter().map(|c| [&front, &[*c][..]].concat()));
        }
        start = end;
    }
    assert_eq!(names.len(), 1 + 35 + 35 * 35 + 35 * 35 * 35);
    let short = words(2).filter(|word| word.len() <= 3);
    let short: Vec<Vec<u8>> = short.map(Vec::from).collect();
    assert_eq!(short.len(), 11);
    assert!(short.iter().all(|word| names.contains(word)));
    judge_all(&names);
    for name in names.iter().filter(|name| name.len() < 3) {
        expect_each([1, 2].map(|edition| wanted(edition, name)), name);
    }
}

#[test]
fn every_second_character() {
    for c in 0..128 {
        let is_name = c == b'_' || c.is_ascii_alphanumeric();
        let is_free = !c.is_ascii_uppercase() && c != b'_';
        expect(if is_name && is_free { 0 } else { 3 }, &[b'_', c]);
    }
}

/// One or two characters at every place of names of every length, each of which
/// begins at every bit.
#[test]
fn at_every_place() {
    for len in 1..=limit::NAME_CHARS {
        for at in 0..len {
            for put in ["_", "__", "_A", "A_", "1", "$"] {
                let mut name = vec![b'q'; len];
                for (place, c) in name[at..].iter_mut().zip(put.bytes()) {
                    *place = c;
                }
                (1..=8).for_each(|before| judge(before, &name));
            }
        }
    }
}

/// The first and the last of many underscores at every place.
#[test]
fn underscores_up_to_every_place() {
    for len in 1..=limit::NAME_CHARS {
        let few = vec![b'q'; len];
        for fill in [b"_q", b"q_"] {
            let many: Vec<u8> = fill.iter().copied().cycle().take(len).collect();
            for at in 0..=len {
                let before = 1 + (len + at) % 8;
                judge(before, &[&many[..at], &few[at..]].concat());
                judge(before, &[&few[..at], &many[at..]].concat());
            }
        }
    }
}

/// Both ends of each range of characters that a name may have, and what stands
/// beside them; the least and the greatest.
const ENDS: &[u8] = b"\0/09:@AZ[^_`az{\x7f";

/// These characters at every place of names of every length, and every character
/// at every place of the longest.
#[test]
fn every_character() {
    let all: Vec<u8> = (0..128).collect();
    for len in 1..=limit::NAME_CHARS {
        let chars = if len < limit::NAME_CHARS { ENDS } else { &all };
        for at in 0..len {
            for c in chars {
                let mut name = vec![b'q'; len];
                name[at] = *c;
                judge(1 + (len + at + usize::from(*c)) % 8, &name);
            }
        }
    }
}

/// Every two characters side by side, at each place of the first eight and
/// across their end; and two of those above at the end of a name.
#[test]
fn every_two_characters() {
    let all: Vec<u8> = (0..128).collect();
    for at in 0..9 {
        for (len, chars) in [(19, all.as_slice()), (at + 2, ENDS)] {
            for first in chars {
                for second in chars {
                    let mut name = vec![b'q'; len];
                    name[at..at + 2].copy_from_slice(&[*first, *second]);
                    judge(1 + (at + usize::from(first ^ second)) % 8, &name);
                }
            }
        }
    }
}

/// A name with its length is one field, so a cut comes first, whatever was read.
/// Behind names of each length the cut falls on every bit.
#[test]
fn a_name_that_is_cut() {
    let long = |front: &str| format!("{front:q<63}").into_bytes();
    let mut names: Vec<Vec<u8>> = words(2).map(Vec::from).collect();
    names.extend(["", "1", "$", "_Tool", "a__b", "__", "x__", "__x", "a$b"].map(Vec::from));
    names.extend(["__", "_T", "1", "$", "q$", "q__", "qqqqqqq__"].map(long));
    for name in names {
        for edition in EDITIONS {
            for len in 0..=8 {
                let before = before(len);
                let sheet = match len {
                    0 => used(edition, &name),
                    _ => table(edition, &[before, &name]),
                };
                // Edition, both bits and N; the lengths; the characters.
                let start = if len == 0 { 16 } else { 16 + 6 + 7 * len };
                let end = start + 6 + 7 * name.len();
                for len in 0..sheet.len() {
                    let wanted = match wanted(edition, &name) {
                        3 if len * 8 >= end => 3,
                        _ => 1,
                    };
                    let name = name.escape_ascii();
                    assert_eq!(answer(&sheet[..len]), wanted, "{name} cut at {len}");
                }
            }
        }
    }
}

/// A word's front, with the rest of its characters behind it as other fields.
#[test]
fn what_follows_is_no_part() {
    for word in words(2) {
        for edition in EDITIONS {
            for names in [&[word][..], &[word, word]] {
                let whole = table(edition, names);
                for len in 0..word.len() {
                    let mut sheet = whole.clone();
                    // The length is the six bits behind edition, both bits and N.
                    sheet[2] = (len as u8) << 2 | sheet[2] & 3;
                    let is_name = wanted(edition, &word[..len]) == 0;
                    let answer = answer(&sheet);
                    if !is_name || names.len() == 1 {
                        let word = word.escape_ascii();
                        assert_eq!(answer != 3, is_name, "{len} of {word}");
                    }
                }
            }
        }
    }
}

/// At every place of a table.
#[test]
fn no_name_of_no_characters() {
    for count in 1..=9 {
        for at in 0..count {
            for len in 1..=8 {
                let mut names = vec![before(len); count];
                names[at] = b"";
                for edition in EDITIONS {
                    assert_eq!(answer(&table(edition, &names)), 3, "{at} of {count}");
                }
            }
        }
    }
}

/// How two names come to be compared.
#[derive(Clone, Copy, Debug)]
enum Compared {
    Types,
    Functions,
    Arguments,
    Namespaces,
}

/// A sheet that is refused 10 where both names are one.
fn compared(how: Compared, edition: u8, names: [&[u8]; 2]) -> Vec<u8> {
    let mut sheet = Sheet::empty();
    sheet.edition = edition;
    sheet.names = names.map(Vec::from).to_vec();
    sheet.names.push(b"mill".to_vec());
    let mill: NameIndex = 2;
    let kind = Kind::RustType { pointer: false };
    let item = |namespace, name, kind| Item {
        namespace: vec![namespace],
        name,
        kind,
    };
    sheet.items = match how {
        Compared::Types => vec![item(mill, 0, kind.clone()), item(mill, 1, kind)],
        Compared::Functions => vec![
            item(mill, mill, function(0, Form::Free, &[])),
            item(mill, mill, function(1, Form::Free, &[])),
        ],
        Compared::Arguments => vec![item(mill, mill, function(mill, Form::Free, &[0, 1]))],
        Compared::Namespaces => vec![item(0, mill, kind.clone()), item(1, mill, kind)],
    };
    encode(&sheet)
}

/// One that throws, with a C++ string for each argument.
fn function(rust_name: NameIndex, form: Form, args: &[NameIndex]) -> Kind {
    let args = args.iter().map(|name| Arg {
        name: *name,
        ty: Type::Atom(CXX_STRING),
    });
    Kind::Function(Function {
        rust_name,
        form,
        throws: true,
        ret: None,
        args: args.collect(),
        comment: Vec::new(),
    })
}

/// However both come to be compared they are two names.
#[track_caller]
fn expect_two(one: &[u8], two: &[u8]) {
    use Compared::*;
    for edition in EDITIONS {
        for how in [Types, Functions, Arguments, Namespaces] {
            let answer = answer(&compared(how, edition, [one, two]));
            let [one, two] = [one, two].map(<[u8]>::escape_ascii);
            assert_eq!(answer, 0, "{how:?} {one} {two}");
        }
    }
}

/// All different.
const CHARS: &[u8; 63] = b"abcdefghijklmnopqrstuvwxyzABCDEFGHIJKLMNOPQRSTUVWXYZ0123456789_";

/// Names of every length are one with themselves, and two with a name that is
/// shorter by a character or differs in one, at every place.
#[test]
fn names_that_differ_at_one_place() {
    use Compared::*;
    for len in 1..=limit::NAME_CHARS {
        let name = &CHARS[..len];
        for edition in EDITIONS {
            for how in [Types, Functions, Arguments, Namespaces] {
                let sheet = compared(how, edition, [name, name]);
                assert_eq!(answer(&sheet), 10, "{how:?} {len}");
            }
        }
        if len > 1 {
            expect_two(name, &name[..len - 1]);
        }
        for at in 0..len {
            let mut other = name.to_vec();
            other[at] = if name[at] == b'z' { b'y' } else { b'z' };
            expect_two(name, &other);
            expect_two(&other, name);
        }
    }
}

/// Any two characters exchanged.
#[test]
fn names_of_the_same_characters() {
    let mut count = 0;
    for at in 0..CHARS.len() {
        for with in 0..at {
            let mut other = CHARS.to_vec();
            other.swap(at, with);
            if wanted(1, &other) == 0 {
                expect_two(CHARS, &other);
                count += 1;
            }
        }
    }
    // None begins with a digit.
    assert_eq!(count, 63 * 62 / 2 - 10);
}

/// A sheet of this edition with a throwing method that has one argument, of this
/// name.
fn method(edition: u8, name: &[u8]) -> Vec<u8> {
    let mut sheet = Sheet::empty();
    sheet.edition = edition;
    sheet.names = vec![b"mill".to_vec(), name.to_vec()];
    let kinds = [
        Kind::RustType { pointer: false },
        function(0, Form::ConstMethod(0), &[1]),
    ];
    let items = kinds.map(|kind| Item {
        namespace: Vec::new(),
        name: 0,
        kind,
    });
    sheet.items = items.to_vec();
    encode(&sheet)
}

/// Names that differ in one character from those of which rules 10 and 11 speak.
#[test]
fn near_words_of_the_rules() {
    for (word, refusal) in [("std", 10), ("rust", 10), ("self", 11), ("error", 11)] {
        let sheet = if refusal == 10 { used } else { method };
        let near = near(word.as_bytes());
        for edition in EDITIONS {
            assert_eq!(answer(&sheet(edition, word.as_bytes())), refusal, "{word}");
            for name in &near {
                let answer = answer(&sheet(edition, name));
                assert_eq!(answer, wanted(edition, name), "{}", name.escape_ascii());
            }
        }
    }
}

/// At the end of a table of 1,023 names, and used by nothing.
#[test]
fn the_last_name() {
    let mut sheet = trials::sheets::many_names(limit::NAMES);
    for edition in EDITIONS {
        sheet.edition = edition;
        let keyword = if edition == 1 { 0 } else { 3 };
        for (name, wanted) in [
            ("tool", 0),
            ("_tool", 0),
            ("_Tool", 3),
            ("tool__", 3),
            ("requires", keyword),
            ("while", 3),
        ] {
            *sheet.names.last_mut().unwrap() = name.into();
            assert_eq!(answer(&encode(&sheet)), wanted, "{name}");
        }
    }
}

#[test]
fn a_refusal_leaves_the_buffer() {
    for (edition, name) in [(1, "_Tool"), (1, "a__b"), (2, "x__"), (2, "concept")] {
        let mut buf = vec![0xa5; 65_536];
        for service in [bridgetext::write, bridgetext::struct_order] {
            let answer = service(&used(edition, name.as_bytes()), &mut buf);
            assert_eq!(answer, Err(Refusal::BadName), "{name}");
        }
        assert!(buf.iter().all(|byte| *byte == 0xa5), "{name}");
    }
}
