//! The two readers, the encoder and the generator against one another.

use sheet::generate::{
    any, boundaries, damaged, faulty, good, graph, keyword, put_keyword, reserve, reserved,
};
use sheet::name::{ADDED_KEYWORDS, is_base_name, is_name, is_near, is_reserved_shape, words};
use sheet::{
    Blame, EDITIONS, Kind, Refusal, Rng, Sheet, Type, check, decode, decode_base, desc, encode,
    limit, read, with_edition,
};
use std::collections::HashSet;

/// The answer, on which both readers agree.
#[track_caller]
fn answer(bytes: &[u8]) -> u8 {
    let plain = read(bytes).err().map_or(0, |refusal| refusal.number());
    assert_eq!(check(bytes), plain, "{}", desc::hex(bytes));
    plain
}

#[test]
fn good_sheets_are_accepted_and_come_back() {
    let mut rng = Rng::new(1);
    for _ in 0..8_000 {
        let sheet = good(&mut rng);
        let bytes = encode(&sheet);
        assert_eq!(answer(&bytes), 0);
        assert_eq!(decode(&bytes).unwrap(), sheet);
    }
}

#[test]
fn a_single_fault_is_the_answer() {
    let mut rng = Rng::new(2);
    for refusal in Refusal::ALL {
        for _ in 0..1_000 {
            let bytes = faulty(&mut rng, &[refusal]);
            assert_eq!(answer(&bytes), refusal.number(), "{}", desc::hex(&bytes));
        }
    }
}

#[test]
fn two_faults_follow_the_priorities() {
    let mut rng = Rng::new(3);
    for one in Refusal::ALL {
        for two in Refusal::ALL {
            for _ in 0..60 {
                let bytes = faulty(&mut rng, &[one, two]);
                let given = answer(&bytes);
                let lower = one.min(two).number();
                if one.max(two) > Refusal::Tail {
                    assert_eq!(given, lower, "{one:?} {two:?} {}", desc::hex(&bytes));
                } else {
                    // The first field at fault decides.
                    let either = [one.number(), two.number()];
                    assert!(either.contains(&given), "{one:?} {two:?} gave {given}");
                }
            }
        }
    }
}

/// Each has one such name; without the rule nearly all would be accepted.
#[test]
fn reserved_names_are_3() {
    let mut rng = Rng::new(8);
    let [mut double, mut capital, mut not_used, mut only] = [0; 4];
    for _ in 0..4_000 {
        let bytes = reserved(&mut rng);
        assert_eq!(answer(&bytes), 3, "{}", desc::hex(&bytes));
        let sheet = decode_base(&bytes).unwrap();
        assert_eq!(encode(&sheet), bytes);
        assert!(sheet.names.iter().all(|name| is_base_name(name)));
        let names = sheet.names.iter();
        let shapes: Vec<&Vec<u8>> = names.filter(|name| is_reserved_shape(name)).collect();
        let [name] = shapes[..] else {
            panic!("{shapes:?}");
        };
        let name = str::from_utf8(name).unwrap();
        double += u32::from(name.contains("__"));
        capital += u32::from(!name.contains("__"));
        not_used += u32::from(sheet.names.last().unwrap() == name.as_bytes());
        only += u32::from(Blame::reserved(&bytes) == Blame::Only);
    }
    assert!(double > 1_000 && capital > 1_000, "{double} {capital}");
    assert!(not_used > 100, "{not_used}");
    assert!(only > 3_500, "{only}");
}

/// Of the sheets that `any` makes at least one in fifty is refused so.
#[test]
fn enough_reserved_names() {
    let mut rng = Rng::new(9);
    let [mut first, mut only] = [0; 2];
    for _ in 0..20_000 {
        let bytes = any(&mut rng);
        match Blame::reserved(&bytes) {
            Blame::No => continue,
            Blame::First => first += 1,
            Blame::Only => only += 1,
        }
        assert_eq!(answer(&bytes), 3);
    }
    assert!(first > 20 && only > 500, "{first} {only}");
    assert!(first + only > 800, "{first} {only}");
}

/// Each has one such name, and edition 1 accepts nearly all.
#[test]
fn keywords_of_cxx20_are_3_in_edition_2() {
    let mut rng = Rng::new(11);
    let mut only = 0;
    let mut words = HashSet::new();
    for _ in 0..4_000 {
        let bytes = keyword(&mut rng);
        assert_eq!(answer(&bytes), 3, "{}", desc::hex(&bytes));
        let sheet = decode_base(&bytes).unwrap();
        assert_eq!((sheet.edition, encode(&sheet)), (2, bytes.clone()));
        let names = sheet.names.iter().map(|name| str::from_utf8(name).unwrap());
        let found: Vec<&str> = names.filter(|name| ADDED_KEYWORDS.contains(name)).collect();
        let [word] = found[..] else {
            panic!("{found:?}");
        };
        words.insert(word.to_string());
        let older = answer(&with_edition(&bytes, 1));
        assert_ne!(older, 3, "{}", desc::hex(&bytes));
        let blame = if older == 0 {
            Blame::Only
        } else {
            Blame::First
        };
        assert_eq!(Blame::keyword(&bytes), blame);
        assert_eq!(Blame::reserved(&bytes), Blame::No);
        only += u32::from(blame == Blame::Only);
    }
    assert_eq!(words.len(), ADDED_KEYWORDS.len());
    assert!(only > 3_500, "{only}");
}

/// Names of both sorts in one sheet: neither order alone is why.
#[test]
fn a_reserved_identifier_and_a_keyword() {
    let mut sheet = Sheet::empty();
    sheet.edition = 2;
    sheet.names = vec![b"a__b".to_vec(), b"concept".to_vec()];
    let bytes = encode(&sheet);
    assert_eq!(answer(&bytes), 3);
    assert_eq!(Blame::reserved(&bytes), Blame::No);
    assert_eq!(Blame::keyword(&bytes), Blame::No);
    assert_eq!(Blame::orders(&bytes), Blame::Only);
}

/// Of the sheets that `any` makes enough are accepted with names that come close
/// to keywords: to each one of their edition.
#[test]
fn names_near_keywords() {
    let mut rng = Rng::new(14);
    let mut near = [(); 2].map(|()| HashSet::new());
    let mut hit = [(); 2].map(|()| HashSet::new());
    for _ in 0..20_000 {
        let Ok(sheet) = read(&any(&mut rng)) else {
            continue;
        };
        let at = usize::from(sheet.edition) - 1;
        for name in sheet.names {
            let words = words(sheet.edition);
            let words: Vec<&str> = words
                .filter(|word| is_near(&name, word.as_bytes()))
                .collect();
            if !words.is_empty() {
                hit[at].extend(words);
                near[at].insert(name);
            }
        }
    }
    assert_eq!(hit.map(|words| words.len()), [84, 92]);
    let near = near.map(|names| names.len());
    assert!(near.iter().all(|count| *count > 1_000), "{near:?}");
}

/// Half of the sheets that `any` makes are of edition 2, and every edition
/// occurs; enough are refused for a keyword of C++20 alone.
#[test]
fn editions() {
    let mut rng = Rng::new(12);
    let mut editions = [0; 16];
    let [mut first, mut only, mut older] = [0; 3];
    for _ in 0..20_000 {
        let bytes = any(&mut rng);
        let Some(byte) = bytes.first() else {
            continue;
        };
        let edition = byte >> 4;
        editions[usize::from(edition)] += 1;
        let given = answer(&bytes);
        if bytes.len() <= limit::SHEET_BYTES {
            assert_eq!(given == 2, !EDITIONS.contains(&edition));
        }
        match Blame::keyword(&bytes) {
            Blame::No => {}
            Blame::First => first += 1,
            Blame::Only => only += 1,
        }
        if given == 0 && edition == 1 {
            older += u32::from(answer(&with_edition(&bytes, 2)) == 3);
        }
    }
    assert!((9_800..10_400).contains(&editions[2]), "{editions:?}");
    assert!(editions[1] > 8_500, "{editions:?}");
    assert!(editions.iter().all(|count| *count > 20), "{editions:?}");
    assert!(first > 10 && only > 400, "{first} {only}");
    assert!(older > 500, "{older}");
}

/// A sheet of edition 2 is one of edition 1 with the same value. The other way
/// round a keyword of C++20 is what can keep it from that.
#[test]
fn the_other_edition() {
    let mut rng = Rng::new(13);
    let mut accepted = [0; 2];
    for _ in 0..8_000 {
        let sheet = good(&mut rng);
        let bytes = encode(&sheet);
        let mut other = sheet.clone();
        other.edition = 3 - sheet.edition;
        let is_kept = sheet.names.iter().all(|name| is_name(other.edition, name));
        let given = answer(&with_edition(&bytes, other.edition));
        assert_eq!(given, if is_kept { 0 } else { 3 }, "{}", desc::hex(&bytes));
        assert_eq!(encode(&other), with_edition(&bytes, other.edition));
        if is_kept {
            assert_eq!(decode(&encode(&other)), Ok(other));
            accepted[usize::from(sheet.edition) - 1] += 1;
        } else {
            assert_eq!(sheet.edition, 1);
        }
    }
    assert!(accepted.iter().all(|count| *count > 2_000), "{accepted:?}");
}

/// A table of no names can get one too.
#[test]
fn a_name_is_added() {
    let mut sheet = Sheet::empty();
    reserve(&mut Rng::new(10), &mut sheet);
    assert_eq!((sheet.names.len(), answer(&encode(&sheet))), (1, 3));
    for edition in EDITIONS {
        let mut sheet = Sheet::empty();
        sheet.edition = edition;
        put_keyword(&mut Rng::new(10), &mut sheet);
        let wanted = if edition == 1 { 0 } else { 3 };
        assert_eq!((sheet.names.len(), answer(&encode(&sheet))), (1, wanted));
    }
}

#[test]
fn both_readers_agree_on_damage_and_graphs() {
    let mut rng = Rng::new(4);
    for _ in 0..8_000 {
        answer(&damaged(&mut rng));
        answer(&any(&mut rng));
    }
    let graphs = (0..1_000).map(|_| answer(&encode(&graph(&mut rng))));
    let rings = graphs.filter(|answer| *answer == 12).count();
    assert!((100..500).contains(&rings), "{rings}");
}

#[test]
fn every_cut_of_a_good_sheet_is_1() {
    let mut rng = Rng::new(5);
    for _ in 0..50 {
        let bytes = encode(&good(&mut rng));
        for len in 0..bytes.len() {
            assert_eq!(answer(&bytes[..len]), 1);
        }
    }
}

/// All sheets of up to two bytes, and those of three of a known edition: of these
/// the eight empty ones are accepted.
#[test]
fn short_sheets() {
    assert_eq!(answer(&[]), 1);
    let mut accepted = 0;
    for first in 0..=u8::MAX {
        let is_known = EDITIONS.contains(&(first >> 4));
        let cut = if is_known { 1 } else { 2 };
        assert_eq!(answer(&[first]), cut);
        for second in 0..=u8::MAX {
            assert_eq!(answer(&[first, second]), cut);
            let thirds = if is_known { 0..=u8::MAX } else { 0..=0 };
            for third in thirds {
                let given = answer(&[first, second, third]);
                assert_eq!(given == 2, !is_known);
                accepted += u32::from(given == 0);
            }
        }
    }
    assert_eq!(accepted, 8);
}

#[test]
fn limits() {
    let boundaries = boundaries();
    let find = |label: &str| {
        let found = boundaries.iter().find(|(other, _)| other == label);
        &found.expect("such a boundary").1
    };
    for (label, bytes) in &boundaries {
        let given = answer(bytes);
        let expected = if label == "reserved __x, cut" {
            1
        } else if let Some(edition) = label.strip_prefix("edition ") {
            let (edition, cut) = match edition.strip_suffix(", cut") {
                Some(edition) => (edition, 1),
                None => (edition.trim_end_matches(", both bits"), 0),
            };
            if ["1", "2"].contains(&edition) {
                cut
            } else {
                2
            }
        } else if label.starts_with("keyword ") {
            if label.contains("edition 2") { 3 } else { 0 }
        } else if label.starts_with("no keyword ") {
            0
        } else if label.starts_with("reserved ") {
            3
        } else if label.starts_with("not reserved ") {
            0
        } else if label.contains("depth 10") {
            6
        } else if label.contains("type kind") {
            5
        } else if label.contains("depth 9") {
            6
        } else if label.contains("past the end") || label.contains("no name") {
            4
        } else {
            continue;
        };
        assert_eq!(given, expected, "{label}");
    }
    for label in [
        "0 names",
        "1 names",
        "2 names",
        "3 names",
        "1023 names",
        "255 items",
        "31 arguments",
        "31 arguments of a method",
        "63 fields",
        "15 slots in a Fn",
        "7 namespaces",
        "name of 63 characters",
        "not reserved _",
        "31 comment lines of 127, Doxygen true",
        "array of 4294967295",
        "wrapper 0 at depth 8",
        "32,768 bytes",
    ] {
        assert_eq!(answer(find(label)), 0, "{label}");
    }
    for label in ["reserved _Tool", "reserved _Tool, not used"] {
        assert_eq!(answer(find(label)), 3, "{label}");
    }
    assert_eq!(find("32,768 bytes").len(), limit::SHEET_BYTES);
    for label in [
        "32,768 bytes and one more",
        "32,769 bytes",
        "32,769 bytes of edition 0",
    ] {
        assert_eq!(find(label).len(), limit::SHEET_BYTES + 1);
        assert_eq!(answer(find(label)), 1, "{label}");
    }
    assert_eq!(answer(find("32,768 bytes of edition 0")), 2);
}

#[test]
fn descriptions_come_back() {
    let mut rng = Rng::new(6);
    let mut compared = 0;
    for _ in 0..3_000 {
        let sheet = good(&mut rng);
        let printed = desc::print(&sheet);
        let parsed = desc::parse(&printed).unwrap();
        // Equal names become one, so print once more.
        assert_eq!(desc::print(&parsed), printed);
        let mut names = sheet.names.clone();
        names.sort();
        names.dedup();
        if names.len() == sheet.names.len() {
            assert_eq!(parsed, sheet);
            compared += 1;
        }
    }
    assert!(compared > 100);
}

/// Every type kind stands at every place: as a field, argument or return, at
/// every depth, and inside every other kind.
#[test]
fn good_sheets_have_every_type_everywhere() {
    let mut seen = Seen::default();
    let mut rng = Rng::new(7);
    for _ in 0..8_000 {
        let sheet = good(&mut rng);
        for item in &sheet.items {
            match &item.kind {
                Kind::Struct { fields, .. } => fields.iter().for_each(|ty| seen.top("field", ty)),
                Kind::Function(function) => {
                    function.ret.iter().for_each(|ty| seen.top("return", ty));
                    function
                        .args
                        .iter()
                        .for_each(|arg| seen.top("argument", &arg.ty));
                }
                _ => {}
            }
        }
    }
    let kinds = (0..15).filter(|kind| *kind != 12);
    let places = [("field", 14), ("return", 14), ("argument", 13)];
    for (place, count) in places {
        assert_eq!(
            kinds
                .clone()
                .filter(|kind| seen.places.contains(&(place, *kind)))
                .count(),
            count
        );
    }
    let leaves = [0, 1, 9];
    for kind in kinds.clone() {
        for depth in 1..=limit::TYPE_DEPTH {
            let fits = depth < limit::TYPE_DEPTH || leaves.contains(&kind) || kind == 11;
            assert_eq!(
                seen.depths.contains(&(depth, kind)),
                fits,
                "{kind} at {depth}"
            );
        }
        if !leaves.contains(&kind) {
            for inner in kinds.clone() {
                assert!(seen.inside.contains(&(kind, inner)), "{inner} in {kind}");
            }
        }
    }
}

#[derive(Default)]
struct Seen {
    places: HashSet<(&'static str, u8)>,
    depths: HashSet<(usize, u8)>,
    inside: HashSet<(u8, u8)>,
}

impl Seen {
    fn top(&mut self, place: &'static str, ty: &Type) {
        self.places.insert((place, ty.number()));
        self.visit(1, ty);
    }

    fn visit(&mut self, depth: usize, ty: &Type) {
        self.depths.insert((depth, ty.number()));
        ty.each_inner(&mut |inner| {
            self.inside.insert((ty.number(), inner.number()));
            self.visit(depth + 1, inner);
        });
    }
}
