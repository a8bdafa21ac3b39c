//! The name rule: that of document 01, and what document 02 takes out of it:
//! reserved identifiers (order 3) and, in edition 2, the keywords that C++20
//! added (order 13).

/// The keyword table of ISO C++17 [lex.key].
#[rustfmt::skip]
pub const KEYWORDS: [&str; 73] = [
    "alignas", "alignof", "asm", "auto", "bool", "break", "case", "catch", "char", "char16_t",
    "char32_t", "class", "const", "const_cast", "constexpr", "continue", "decltype", "default",
    "delete", "do", "double", "dynamic_cast", "else", "enum", "explicit", "export", "extern",
    "false", "float", "for", "friend", "goto", "if", "inline", "int", "long", "mutable",
    "namespace", "new", "noexcept", "nullptr", "operator", "private", "protected", "public",
    "register", "reinterpret_cast", "return", "short", "signed", "sizeof", "static",
    "static_assert", "static_cast", "struct", "switch", "template", "this", "thread_local",
    "throw", "true", "try", "typedef", "typeid", "typename", "union", "unsigned", "using",
    "virtual", "void", "volatile", "wchar_t", "while",
];

/// What the keyword table of ISO C++20 has besides: the keywords of edition 2.
#[rustfmt::skip]
pub const ADDED_KEYWORDS: [&str; 8] = [
    "char8_t", "co_await", "co_return", "co_yield", "concept", "consteval", "constinit",
    "requires",
];

/// The alternative tokens of [lex.digraph] that are words; C++20 has the same.
#[rustfmt::skip]
pub const ALTERNATIVE_TOKENS: [&str; 11] = [
    "and", "and_eq", "bitand", "bitor", "compl", "not", "not_eq", "or", "or_eq", "xor",
    "xor_eq",
];

/// The keywords of an edition's table and the alternative tokens: 84 words in
/// edition 1, 92 in edition 2.
pub fn words(edition: u8) -> impl Iterator<Item = &'static str> {
    let added: &[&str] = match edition {
        2 => &ADDED_KEYWORDS,
        _ => &[],
    };
    let words = KEYWORDS.iter().chain(added).chain(&ALTERNATIVE_TOKENS);
    words.copied()
}

/// Whether one character changed, dropped or added makes one of the other.
pub fn is_near(one: &[u8], two: &[u8]) -> bool {
    let mut both = one.iter().zip(two);
    let same = both.position(|(one, two)| one != two);
    let same = same.unwrap_or(one.len().min(two.len()));
    match (&one[same..], &two[same..]) {
        (one @ [_, one_rest @ ..], two @ [_, two_rest @ ..]) => {
            one_rest == two_rest || one_rest == two || one == two_rest
        }
        ([_], []) | ([], [_]) => true,
        _ => false,
    }
}

/// The name rule of a sheet of this edition: a letter or underscore, then
/// letters, digits or underscores; no keyword of the edition's table and no
/// alternative token; no identifier that C++ reserves. Any edition but 2 has the
/// table of edition 1.
#[inline]
pub fn is_name(edition: u8, chars: &[u8]) -> bool {
    is_identifier(edition, chars) && !is_reserved_shape(chars)
}

/// The same without order 3: identifiers that C++ reserves are let through.
#[inline]
pub fn is_identifier(edition: u8, chars: &[u8]) -> bool {
    has_shape(chars) && !is_reserved_word(edition, chars)
}

/// Document 01's rule, whatever the edition: the older table, and reserved
/// identifiers are let through. A text's names keep it.
pub fn is_base_name(chars: &[u8]) -> bool {
    is_identifier(1, chars)
}

#[inline]
fn has_shape(chars: &[u8]) -> bool {
    let Some((first, rest)) = chars.split_first() else {
        return false;
    };
    (first.is_ascii_alphabetic() || *first == b'_')
        && rest.iter().all(|c| c.is_ascii_alphanumeric() || *c == b'_')
}

/// Whether ISO C++ [lex.name] reserves such an identifier for any use: it has
/// two underscores in a row, or begins with an underscore and a capital.
#[inline]
pub fn is_reserved_shape(chars: &[u8]) -> bool {
    chars.windows(2).any(|pair| pair == b"__") || matches!(chars, [b'_', b'A'..=b'Z', ..])
}

/// The reserved words of each edition as sorted numbers: the longest has 16
/// characters, so each fits a `u128`.
const WORDS_17: [u128; 84] = sorted([&KEYWORDS, &[], &ALTERNATIVE_TOKENS]);
const WORDS_20: [u128; 92] = sorted([&KEYWORDS, &ADDED_KEYWORDS, &ALTERNATIVE_TOKENS]);

const fn sorted<const N: usize>(tables: [&[&str]; 3]) -> [u128; N] {
    let mut sorted = [0; N];
    let mut count = 0;
    let mut table = 0;
    while table < tables.len() {
        let mut word = 0;
        while word < tables[table].len() {
            let number = pack(tables[table][word].as_bytes());
            let mut at = count;
            while at > 0 && sorted[at - 1] > number {
                sorted[at] = sorted[at - 1];
                at -= 1;
            }
            sorted[at] = number;
            count += 1;
            word += 1;
        }
        table += 1;
    }
    assert!(count == N);
    sorted
}

const LONGEST: usize = 16;

/// At most 16 characters, none of them 0, as one number.
const fn pack(chars: &[u8]) -> u128 {
    assert!(chars.len() <= LONGEST);
    let mut number = 0;
    let mut at = 0;
    while at < chars.len() {
        number = number << 8 | chars[at] as u128;
        at += 1;
    }
    number
}

#[inline]
fn is_reserved_word(edition: u8, chars: &[u8]) -> bool {
    chars.len() <= LONGEST
        && match edition {
            2 => WORDS_20.binary_search(&pack(chars)).is_ok(),
            _ => WORDS_17.binary_search(&pack(chars)).is_ok(),
        }
}

#[cfg(test)]
mod tests {
    use super::*;

    /// What `is_name` says in edition 1 and in edition 2.
    fn in_both(name: &str) -> [bool; 2] {
        [1, 2].map(|edition| is_name(edition, name.as_bytes()))
    }

    /// Whether the word is in the table of edition 1, and in that of edition 2.
    fn is_listed(word: &str) -> [bool; 2] {
        let older = KEYWORDS.contains(&word) || ALTERNATIVE_TOKENS.contains(&word);
        [older, older || ADDED_KEYWORDS.contains(&word)]
    }

    #[test]
    fn all_tables_are_reserved_and_nothing_near_them() {
        let tables = [&KEYWORDS[..], &ADDED_KEYWORDS, &ALTERNATIVE_TOKENS];
        for word in tables.concat() {
            assert_eq!(in_both(word), is_listed(word).map(|listed| !listed));
            let mut near = vec![format!("{word}_"), format!("_{word}"), format!("{word}s")];
            for at in 0..word.len() {
                let (front, back) = (&word[..at], &word[at + 1..]);
                let capital = word[at..=at].to_ascii_uppercase();
                near.extend(["", "q", &capital].map(|put| format!("{front}{put}{back}")));
            }
            near.retain(|name| name != word && !is_reserved_shape(name.as_bytes()));
            for name in near {
                let wanted = is_listed(&name).map(|listed| !listed && has_shape(name.as_bytes()));
                assert_eq!(in_both(&name), wanted, "{name}");
            }
        }
    }

    #[test]
    fn tables_are_sorted_and_without_repeats() {
        assert!(KEYWORDS.is_sorted_by(|a, b| a < b));
        assert!(ADDED_KEYWORDS.is_sorted_by(|a, b| a < b));
        assert!(ALTERNATIVE_TOKENS.is_sorted_by(|a, b| a < b));
        assert!(WORDS_17.is_sorted_by(|a, b| a < b));
        assert!(WORDS_20.is_sorted_by(|a, b| a < b));
        assert!(WORDS_17.iter().all(|word| WORDS_20.contains(word)));
    }

    #[test]
    fn words_of_each_edition() {
        for (edition, table) in [(1, &WORDS_17[..]), (2, &WORDS_20)] {
            let mut words: Vec<u128> = words(edition).map(|word| pack(word.as_bytes())).collect();
            words.sort();
            assert_eq!(words, table);
        }
    }

    #[test]
    fn near_words() {
        for (one, two) in [
            ("int", "in"),
            ("int", "nt"),
            ("int", "it"),
            ("int", "ant"),
            ("int", "iNt"),
            ("int", "inq"),
            ("a", ""),
            ("aab", "ab"),
        ] {
            assert!(is_near(one.as_bytes(), two.as_bytes()), "{one} {two}");
            assert!(is_near(two.as_bytes(), one.as_bytes()), "{one} {two}");
        }
        for (one, two) in [
            ("int", "int"),
            ("int", "i"),
            ("int", "tni"),
            ("int", "intab"),
            ("int", "xin"),
            ("", ""),
        ] {
            assert!(!is_near(one.as_bytes(), two.as_bytes()), "{one} {two}");
            assert!(!is_near(two.as_bytes(), one.as_bytes()), "{one} {two}");
        }
    }

    #[test]
    fn words_of_order_13() {
        for word in [
            "char8_t",
            "concept",
            "consteval",
            "constinit",
            "co_await",
            "co_return",
            "co_yield",
            "requires",
        ] {
            assert_eq!(in_both(word), [true, false], "{word}");
            assert!(is_base_name(word.as_bytes()), "{word}");
        }
        for word in ["import", "module", "final", "override", "char8", "co_"] {
            assert_eq!(in_both(word), [true, true], "{word}");
        }
    }

    #[test]
    fn shapes() {
        for good in ["a", "_", "_1", "A9_z", "std", "rust", "main", "self"] {
            assert_eq!(in_both(good), [true, true], "{good}");
        }
        for reserved in ["__", "_A9", "a__z"] {
            assert!(is_base_name(reserved.as_bytes()), "{reserved}");
            assert_eq!(in_both(reserved), [false, false], "{reserved}");
        }
        for bad in [
            "", "1", "9a", "a-b", "a b", "a$", "$", "a.", "a\0", "\u{7f}",
        ] {
            assert_eq!(in_both(bad), [false, false], "{bad:?}");
            assert!(!is_base_name(bad.as_bytes()), "{bad:?}");
        }
    }

    #[test]
    fn words_of_order_3() {
        for reserved in ["_Tool", "a__b", "__", "x__", "__concept", "concept__"] {
            assert!(is_reserved_shape(reserved.as_bytes()), "{reserved}");
            assert!(is_base_name(reserved.as_bytes()), "{reserved}");
            assert_eq!(in_both(reserved), [false, false], "{reserved}");
        }
        for free in [
            "_", "_t", "_1", "a_B", "_1T", "a_", "a_b_c", "T_", "_a_B_1_", "_concept",
        ] {
            assert!(!is_reserved_shape(free.as_bytes()), "{free}");
            assert_eq!(in_both(free), [true, true], "{free}");
        }
    }

    /// Both ends of the capitals, and what stands beside them.
    #[test]
    fn capitals() {
        for c in 0..128 {
            let capital = char::from(c).is_ascii_uppercase();
            let expected = capital || c == b'_';
            assert_eq!(is_reserved_shape(&[b'_', c]), expected, "{c}");
            assert_eq!(is_reserved_shape(&[b'_', c, b'x']), expected, "{c}");
            assert_eq!(is_reserved_shape(&[b'x', b'_', c]), c == b'_', "{c}");
        }
    }

    /// Every word of up to three of these characters.
    #[test]
    fn short_words() {
        let mut words = vec![String::new()];
        let mut start = 0;
        for _ in 0..3 {
            let end = words.len();
            for at in start..end {
                for c in ['_', 'a', 'A', '1', '$'] {
                    words.push(format!("{}{c}", words[at]));
                }
            }
            start = end;
        }
        assert_eq!(words.len(), 1 + 5 + 25 + 125);
        let mut counts = [0; 3];
        for word in &words {
            let base = !word.is_empty() && !word.starts_with('1') && !word.contains('$');
            let reserved = word.contains("__") || word.starts_with("_A");
            assert_eq!(is_base_name(word.as_bytes()), base, "{word}");
            assert_eq!(is_reserved_shape(word.as_bytes()), reserved, "{word}");
            assert_eq!(in_both(word), [base && !reserved; 2], "{word}");
            let flags = [base, reserved, base && !reserved];
            for (count, flag) in counts.iter_mut().zip(flags) {
                *count += u32::from(flag);
            }
        }
        // 3 + 12 + 48; `__`, `_A`, five of each with one more behind, four of `x__`.
        assert_eq!(counts, [63, 16, 51]);
    }
}
