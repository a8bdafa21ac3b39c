//! docs/SHEET.md against the code: its drawn example, its sheets, its tables.

use sheet::name::{ADDED_KEYWORDS, ALTERNATIVE_TOKENS, KEYWORDS, is_name};
use sheet::{EDITIONS, Kind, Sheet, Type, check, desc, encode, index_width, indirect, limit, read};
use std::fs;

const PAGE: &str = include_str!("../../../docs/SHEET.md");

fn example(name: &str) -> Vec<u8> {
    let folder = concat!(env!("CARGO_MANIFEST_DIR"), "/../../vectors/examples/");
    fs::read(format!("{folder}{name}")).unwrap()
}

/// The lines between a heading and the next one.
fn section(heading: &str) -> Vec<&'static str> {
    let mut lines = PAGE.lines().skip_while(|line| *line != heading);
    assert_eq!(lines.next(), Some(heading));
    let mut is_code = false;
    let is_inside = |line: &&str| {
        is_code ^= line.starts_with("```");
        is_code || !line.starts_with('#')
    };
    lines.take_while(is_inside).collect()
}

/// The cells of a table's row; none for another line and for the rule below a head.
fn cells(line: &'static str) -> Option<Vec<&'static str>> {
    let row = line.strip_prefix("| ")?.strip_suffix(" |")?;
    Some(row.split(" | ").map(str::trim).collect())
}

/// The rows of the section's only table, without its head.
fn table(heading: &str) -> Vec<Vec<&'static str>> {
    let rows = section(heading).into_iter().filter_map(cells);
    rows.skip(1).collect()
}

/// The section's block of code with this number, line by line.
fn code(heading: &str, number: usize) -> Vec<&'static str> {
    let lines = section(heading);
    let fences: Vec<usize> = (0..lines.len())
        .filter(|at| lines[*at].starts_with("```"))
        .collect();
    lines[fences[2 * number] + 1..fences[2 * number + 1]].to_vec()
}

/// What stands between backquotes.
fn quoted(cell: &'static str) -> Vec<&'static str> {
    cell.split('`').skip(1).step_by(2).collect()
}

fn number(cell: &str) -> usize {
    cell.replace(',', "").parse().unwrap()
}

fn binary(bytes: &[u8]) -> String {
    bytes.iter().map(|byte| format!("{byte:08b}")).collect()
}

const EXAMPLE: &str = "## A sheet, bit by bit";

#[test]
fn every_bit_of_the_example() {
    let sheet = example("mill.sheet");
    let mut bits = String::new();
    let mut ruler = String::new();
    for row in table(EXAMPLE) {
        let field = quoted(row[2])[0];
        assert_eq!(number(row[0]), bits.len(), "{row:?}");
        assert_eq!(number(row[1]), field.len(), "{row:?}");
        assert_eq!(Ok(number(row[3])), usize::from_str_radix(field, 2));
        bits += field;
        ruler += &format!("|{}", "-".repeat(field.len() - 1));
    }
    assert_eq!(bits, binary(&sheet));

    let drawn = |mark: &str| -> Vec<&str> {
        let lines = code(EXAMPLE, 0).into_iter();
        let lines = lines.filter_map(|line| line.strip_prefix(mark));
        lines.flat_map(str::split_whitespace).collect()
    };
    let numbers: Vec<usize> = drawn("byte ").into_iter().map(number).collect();
    assert!(numbers.into_iter().eq(0..sheet.len()));
    assert_eq!(desc::unhex(&drawn("hex ").concat()), Some(sheet));
    assert_eq!(drawn("bits ").concat(), bits);
    assert_eq!(drawn("field ").concat(), ruler);
}

#[test]
fn the_text_of_the_example() {
    let text = example("mill.text");
    let shown = code("## The text", 0).join("\n") + "\n";
    assert_eq!(shown.as_bytes(), text);
    assert!(PAGE.contains(&format!(", {} bytes:", text.len())));
    assert!(PAGE.contains(&format!("a buffer of {} bytes gives 13", text.len() - 1)));
}

/// The bytes of a cell: hex digits, `and N times` before those that are repeated.
fn bytes(cell: &'static str) -> Vec<u8> {
    if cell == "no byte" {
        return Vec::new();
    }
    let mut bytes = Vec::new();
    let mut times = 1;
    for (at, part) in cell.split('`').enumerate() {
        if at % 2 == 1 {
            bytes.extend(desc::unhex(part).unwrap().repeat(times));
        } else if let Some(count) = part.trim().strip_prefix("and ") {
            times = number(count.strip_suffix(" times").unwrap());
        } else {
            assert_eq!(part, "");
        }
    }
    bytes
}

/// Looks at each example of the section, and says which answers they have.
fn answers(heading: &str) -> Vec<u8> {
    let rows = table(heading).into_iter();
    rows.map(|row| {
        let [form, sheet, answer, _] = row[..] else {
            panic!("{row:?}");
        };
        let sheet = bytes(sheet);
        let answer = match answer.strip_prefix("refused ") {
            Some(refusal) => refusal.parse().unwrap(),
            None => {
                assert_eq!(answer, "accepted");
                0
            }
        };
        assert_eq!(check(&sheet), answer, "{row:?}");
        let plain = read(&sheet).err().map_or(0, |refusal| refusal.number());
        assert_eq!(plain, answer, "{row:?}");
        if form != "—" {
            let lines: Vec<&str> = form.split("<br>").flat_map(quoted).collect();
            let described = desc::parse(&lines.join("\n")).unwrap();
            assert_eq!(encode(&described), sheet, "{row:?}");
        }
        answer
    })
    .collect()
}

#[test]
fn every_sheet_in_hex() {
    let refusals = table("## Refusals");
    assert_eq!(refusals.len(), 13);
    for (row, refusal) in refusals.iter().zip(1..) {
        assert_eq!(number(row[0]), usize::from(refusal));
        let heading = format!("### {refusal} {}", row[1]);
        if refusal == 13 {
            section(&heading);
            continue;
        }
        let answers = answers(&heading);
        assert!(answers.contains(&refusal), "{heading}");
        assert!(answers.iter().all(|answer| [0, refusal].contains(answer)));
    }
    assert!(!answers("### Which number comes first").is_empty());
}

#[test]
fn widths_and_limits() {
    for row in table("## Bits, bytes and indexes") {
        let width = index_width(number(row[0])) as usize;
        assert_eq!(number(row[1]), width, "{row:?}");
    }
    let limits = table("## Limits").into_iter().map(|row| number(row[1]));
    let constants = [
        limit::SHEET_BYTES,
        limit::NAMES,
        limit::NAME_CHARS,
        limit::ITEMS,
        limit::NAMESPACES,
        limit::FIELDS,
        limit::ARGUMENTS,
        limit::SLOTS,
        limit::COMMENT_LINES,
        limit::COMMENT_CHARS,
        limit::TYPE_DEPTH,
        u32::MAX as usize,
    ];
    assert!(limits.eq(constants));
}

#[test]
fn editions_and_reserved_words() {
    let words = |number| -> Vec<&str> {
        let lines = code("### Reserved words", number).into_iter();
        lines.flat_map(str::split_whitespace).collect()
    };
    let in_both = words(0);
    assert_eq!(in_both, [&KEYWORDS[..], &ALTERNATIVE_TOKENS].concat());
    let in_edition_2 = words(1);
    assert_eq!(in_edition_2, ADDED_KEYWORDS);
    let all = [in_both, in_edition_2].concat();
    let editions = table("### Editions");
    assert_eq!(editions.len(), EDITIONS.count());
    for (row, edition) in editions.iter().zip(EDITIONS) {
        assert_eq!(number(row[0]), usize::from(edition));
        assert_eq!(quoted(row[1]), [format!("{edition:04b}")]);
        let is_reserved = |word: &&&str| !is_name(edition, word.as_bytes());
        assert_eq!(number(row[3]), all.iter().filter(is_reserved).count());
    }
}

/// The type of a readable form; `::T` is a type whose pointer bit is set.
fn parse_type(form: &str) -> (Sheet, Type) {
    let text = format!("rust-type T indirect\nstruct S {{ {form} }}");
    let sheet = desc::parse(&text).unwrap();
    let Kind::Struct { fields, .. } = &sheet.items[1].kind else {
        unreachable!("item 1 is a struct");
    };
    let ty = fields[0].clone();
    (sheet, ty)
}

#[test]
fn types_and_atoms() {
    let mut kinds = Vec::new();
    for row in table("## Types") {
        let (sheet, ty) = parse_type(quoted(row[3])[0]);
        assert_eq!(number(row[0]), usize::from(ty.number()), "{row:?}");
        kinds.push(ty.number());
        let is_indirect = match row[5] {
            "yes" | "its pointer bit" => true,
            "no" | "14 and 15 only" => false,
            other => panic!("{other}"),
        };
        assert_eq!(indirect(&sheet, &ty), is_indirect, "{row:?}");
    }
    let good = (0..16).filter(|kind| ![12, 15].contains(kind));
    assert!(kinds.into_iter().eq(good));

    let atoms = table("### Atoms");
    assert_eq!(atoms.len(), 16);
    for (row, atom) in atoms.iter().zip(0..) {
        assert_eq!(number(row[0]), usize::from(atom));
        let (sheet, ty) = parse_type(quoted(row[1])[0]);
        assert_eq!(ty, Type::Atom(atom));
        assert_eq!(indirect(&sheet, &ty), atom >= 14);
    }
}

#[test]
fn the_lines_of_the_readable_form() {
    let rows = table("## The readable form").into_iter();
    let lines: Vec<&str> = rows.flat_map(|row| quoted(row[0])).collect();
    let sheet = desc::parse(&lines.join("\n")).unwrap();
    assert!(sheet.header && sheet.doxygen);
    assert_eq!((sheet.edition, sheet.items.len()), (2, 5));
    assert_eq!(check(&encode(&sheet)), 0);
}
