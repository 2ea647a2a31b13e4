//! The library against the reference on random texts, tables, orders, pages and windows, in every edition and character
//! set: answers and lent memory, byte by byte.
//! HEATHDAPPLE_SEED names another seed.

use harness::generate;
use harness::random::Random;
use harness::reference::{
    self, Meaning, Meanings, Pairs, Refusal, Search, Set, Shown, Window, BYTE_EDITION, CELLS, CONDITIONS, DIFFERENCES,
    ORDER_WORDS, PAIRS, SET_WORD, TEXT_BYTES, TEXT_EDITION, WORDS,
};
use harness::side::{Side, HASHED, LIBRARY, REFERENCE};
use std::collections::BTreeSet;
use std::fmt::Debug;
use std::ops::RangeInclusive;
use std::process::exit;
use std::time::Instant;

const TEXTS: u64 = 110_000;
const LONG_TEXTS: u64 = 500;
const LARGE_TEXTS: u64 = 300;
const CHAIN_TEXTS: u64 = 60;
const LONG_CHAINS: u64 = 2;
const TABLES: u64 = 20_000;
const TABLES_FOR_WINDOWS: u64 = 30_000;
const TABLES_TO_ORDER: u64 = 2_000;
const ATTRIBUTES_TEXTS: u64 = 25_000;
const BYTE_TEXTS: u64 = 50_000;
const TEXTS_FOR_EDITIONS: u64 = 4_000;
const GROWING_TEXTS: u64 = 20_000;
const LEAST: u64 = 100;
/// The least of what is met around a column, and the least columns of a number.
const FEW: u64 = 10;
const SEVERAL: usize = 3;
/// Differences after which the run stops.
const ENOUGH: u64 = 10;
const GUARD: usize = 16;
/// The highest number of a refusal.
const REFUSALS: usize = 23;
/// The refusals with a column that a text table, an attributes table and a byte table can have.
const WITH_COLUMN: [&[usize]; 3] =
    [&[3, 4, 5, 6, 7, 8, 9, 10, 11, 12, 13, 17, 22], &[3, 4, 5, 6, 8, 9, 11, 16], &[3, 4, 6, 7, 8, 9, 11, 16]];
const TEXT_TABLE: usize = 0;
const ATTRIBUTES_TABLE: usize = 1;
const BYTE_TABLE: usize = 2;
const RULES: [usize; 15] = [1, 3, 4, 5, 6, 7, 8, 9, 19, 20, 21, 22, 23, 24, 25];

/// Lengths of a buffer for all 256 cells or bytes.
const LENGTHS: [usize; 4] = [0, 255, 256, 300];

/// Lengths of a slice of words, which an edition other than that of text tables does not look at.
const WORD_LENGTHS: [usize; 7] = [0, SET_WORD - 1, SET_WORD, SET_WORD + 1, WORDS, WORDS + 1, WORDS + 2];

/// Editions and sets that there are not, also such as are 1 or 2 in fewer bits.
const OTHER_EDITIONS: [u32; 4] = [0, 3, 4, u32::MAX];
const OTHER_SETS: [u32; 8] = [0, 3, 4, 0x101, 0x102, 0x1_0001, 0x8000_0002, u32::MAX];

/// Lines of which every five are put together, so every four and fewer too.
const BLOCK_LINES: [&str; 14] = [
    "",
    "ifGlyph a\n",
    "ifNotGlyph a\n",
    "ifNotGlyph a ifGlyph b\n",
    "ifGlyph b ifNotGlyph a # c\r\n",
    " else\n",
    "\tendIf \n",
    "char a 1\n",
    "ifGlyph a char b 1\n",
    "glyph ⠁ 1\n",
    "else \tx\n",
    "  endIf  x\n",
    "ifGlyph a  endIf\n",
    "char b \r\n",
];

/// Words of which every five are put on a line, so every four and fewer too, and lines before it.
const LINE_WORDS: [&str; 16] = [
    "", "char", "alias", "ifNotGlyph", "ifNotCell", "endIf", "é", "€", "𝄞", "⠁", "\u{F0E9}", "1", "(1 2)", "(1 9)",
    "#", "\r",
];
const BEFORE_WORDS: &str = "glyph é 1\nalias € 𝄞\n";

/// Words of attributes tables of which every four are put on a line, and a line before it.
const ATTRIBUTES_WORDS: [&str; 10] = ["", "dot", "1", "2", "9", "=blink", "~fg-red", "é", "#", "\r"];
const BEFORE_ATTRIBUTES_WORDS: &str = "dot 1 =blink\n";

/// Words of byte tables of which every five are put on a line, so every four and fewer too, and lines before it.
const BYTE_WORDS: [&str; 14] =
    ["", "byte", "dot", "a", "\\X61", "1", "(1 2)", "(1 9)", "off", "~blink", "é", "€", "#", "\r"];
const BEFORE_BYTE_WORDS: &str = "\\x61 1\ndot 1 on\n";

/// Last lines of a table that is full or lacks one definition, and what is before each of them on its line.
const LAST_LINES: [&str; 12] = [
    "char ⠁ 1", "glyph \\u28FF 1", "alias \\u2800 \\u2800", "alias ⠁ a", "alias a ⠁", "char \\uF061 1",
    "alias \\uF061 a", "glyph \\u4000 1", "alias a a", "ifCell 1 char ⠁ 1", "ifGlyph a", "char ⠁ 1 x",
];
const BEFORE_LAST: [&str; 5] = ["", "  ", "ifNotCell 1 ", "ifNotGlyph é ifNotGlyph ⠁\t", "\tifNotGlyph 𝄞 "];

const LINE_ENDS: [&str; 8] = ["", "\n", "\r", "\r\n", "\r\r\n", "  \n", "\t\r\n", " \r\r\n"];

/// The compile call counts as three: by edition 2, by edition 1 and by any other.
const CALLS: [&str; 16] = [
    "compile 2", "compile 1", "compile n", "byte_cells", "look_up", "page", "windows", "typed", "entries", "list",
    "attribute", "attributes", "order", "search", "look_up_by", "page_by",
];
const COMPILE: usize = 0;
const COMPILE_BYTES: usize = 1;
const COMPILE_OTHER: usize = 2;
const BYTE_CELLS: usize = 3;
const LOOK_UP: usize = 4;
const PAGE: usize = 5;
const WINDOWS: usize = 6;
const TYPED: usize = 7;
const ENTRIES: usize = 8;
const LIST: usize = 9;
const ATTRIBUTE_CELL: usize = 10;
const ATTRIBUTE_CELLS: usize = 11;
const ORDER: usize = 12;
const SEARCH: usize = 13;
const LOOK_UP_BY: usize = 14;
const PAGE_BY: usize = 15;

/// Counts of definitions around those where a search takes one comparison more.
const COUNTS: [usize; 9] = [0, 1, 2, 3, 31, 32, 33, PAIRS - 1, PAIRS];

/// The most comparisons of a search.
const COMPARISONS: usize = 11;

/// Words of which every few are an order.
const ORDER_NUMBERS: [u32; 5] = [0, 1, 2, 3, u32::MAX];

/// Windows of which every two are put together, so also one and none: starts and widths of 0 to 4, and sums of 2^64.
const SMALL_WINDOWS: usize = 28;

fn small_window(which: usize) -> Option<Window> {
    match which {
        0 => None,
        1 => Some(Window { start: usize::MAX, width: 1 }),
        2 => Some(Window { start: 1, width: usize::MAX }),
        _ => Some(Window { start: (which - 3) / 5, width: (which - 3) % 5 }),
    }
}

/// The index behind a window, if it is on a page of that length.
fn end_on(window: &Window, length: usize) -> Option<usize> {
    window.start.checked_add(window.width).filter(|end| *end <= length)
}

/// The widths together of the windows that are on a page of that length.
fn widths_on(windows: &[Window], length: usize) -> usize {
    windows.iter().filter(|window| end_on(window, length).is_some()).map(|window| window.width).sum()
}

/// What a windows call may meet: how it ends, and what else there is to tell apart.
const WINDOWS_MEET: usize = 18;

fn windows_meet(
    words: &[u32],
    characters: &[u32],
    windows: &[Window],
    [cells, rules]: [usize; 2],
    answer: Result<(), Refusal>,
) -> [(&'static str, bool); WINDOWS_MEET] {
    let page = characters.len();
    let (number, place) = answer.map_or_else(|refusal| (refusal.number, refusal.place as usize), |()| (0, 0));
    let beyond = windows.iter().filter(|window| end_on(window, page).is_none()).count();
    let wraps = |window: &Window| window.start.checked_add(window.width).is_none();
    let holds = |window: &Window| window.start <= place && place - window.start < window.width;
    let share =
        |one: &Window, other: &Window| Some(one.start.max(other.start)) < end_on(one, page).min(end_on(other, page));
    let overlaps = |(k, window): (usize, &Window)| windows[..k].iter().any(|earlier| share(earlier, window));
    let widths = widths_on(windows, page);
    let short_table = number == 2 && words.len() < WORDS;
    let short = number == 2 && !short_table;
    let accepted = number == 0;
    [
        ("refusal 2 for the table", short_table),
        ("  a window beyond too", short_table && beyond > 0),
        ("refusal 15", number == 15),
        ("  a window beyond too", number == 15 && beyond > 0),
        ("refusal 19", number == 19),
        ("  by a sum over 2^64 - 1", number == 19 && windows.get(place).is_some_and(wraps)),
        ("  a further window beyond", number == 19 && beyond > 1),
        ("  buffers short too", number == 19 && cells.min(rules) < widths),
        ("refusal 2 for the buffers", short),
        ("  cells alone", short && widths <= rules),
        ("  rules alone", short && widths <= cells),
        ("  no scalar too", short && !characters.iter().all(|character| reference::scalar(*character))),
        ("refusal 14", number == 14),
        ("  outside all windows", number == 14 && !windows.iter().any(holds)),
        ("accepted", accepted),
        ("  windows that overlap", accepted && windows.iter().enumerate().any(overlaps)),
        ("  an empty window at the page's end", accepted && windows.contains(&Window { start: page, width: 0 })),
        ("  buffers shorter than the page", accepted && cells.max(rules) < page),
    ]
}

/// What may be around the byte of a line that a column names.
const COLUMN_MEETS: usize = 8;

/// For a line with its end.
fn column_meets(line: &[u8], column: usize) -> [(&'static str, bool); COLUMN_MEETS] {
    let before = &line[..column - 1];
    let bare = reference::lines(line).next().unwrap_or_default();
    let holds = |leads: RangeInclusive<u8>| before.iter().any(|byte| leads.contains(byte));
    [
        ("behind 1", column > 1),
        ("2 bytes", holds(0xC2..=0xDF)),
        ("3 bytes", holds(0xE0..=0xEF)),
        ("4 bytes", holds(0xF0..=0xF4)),
        ("condition", before.trim_ascii_start().starts_with(b"if")),
        ("blank last", bare.ends_with(b" ") || bare.ends_with(b"\t")),
        ("CR LF", line.ends_with(b"\r\n")),
        ("CR CR LF", line.ends_with(b"\r\r\n")),
    ]
}

/// Which of these each number is to be met with. `else` and `endIf` stand first on their line; in an attributes table only
/// a bad sequence has characters of several bytes before it, in a byte table also what follows a byte, of three bytes at most.
fn columns_due(table: usize, number: usize) -> &'static [usize] {
    match (table, number) {
        (TEXT_TABLE, 6) => &[0, 1, 2, 3, 4, 5, 6, 7],
        (TEXT_TABLE, 4..=13 | 22) => &[0, 1, 2, 3, 4],
        (ATTRIBUTES_TABLE | BYTE_TABLE, 4) => &[0, 1, 2, 3],
        (BYTE_TABLE, 6) => &[0, 1, 2, 5, 6, 7],
        (BYTE_TABLE, 8 | 9) => &[0, 1, 2],
        _ => &[0],
    }
}

/// The words of a line; none if it is skipped.
fn words_of(line: &[u8]) -> Vec<&[u8]> {
    let words: Vec<&[u8]> = line.split(|byte| b" \t".contains(byte)).filter(|word| !word.is_empty()).collect();
    if words.first().is_some_and(|word| word.starts_with(b"#")) {
        return Vec::new();
    }
    words
}

/// Whether a line of a byte table is a `dot` line.
fn of_dot(words: &[&[u8]]) -> bool {
    words.first() == Some(&b"dot".as_slice())
}

/// The dot of a line of a byte table, or its byte, as it is written.
fn operand<'a>(words: &[&'a [u8]]) -> Option<&'a [u8]> {
    let named = of_dot(words) || words.first() == Some(&b"byte".as_slice());
    words.get(usize::from(named)).copied()
}

/// What a byte table's text may meet: how its reading ends, and by which writings.
const BYTES_MEET: usize = 27;

fn bytes_meet(text: &[u8], answer: Result<u32, Refusal>) -> [(&'static str, bool); BYTES_MEET] {
    let lines: Vec<Vec<&[u8]>> = reference::lines(text).map(words_of).collect();
    let (number, place) = answer.map_or_else(|refusal| (refusal.number, refusal.place as usize), |_| (0, 0));
    let (earlier, faulty): (&[Vec<&[u8]>], &[&[u8]]) = match place {
        0 => (&[], &[]),
        _ => (&lines[..place - 1], &lines[place - 1]),
    };
    let written_before =
        earlier.iter().any(|words| of_dot(words) == of_dot(faulty) && operand(words) == operand(faulty));
    let accepted = answer.is_ok();
    let dots = lines.iter().filter(|words| of_dot(words)).count();
    let state = |holds: &dyn Fn(&[u8]) -> bool| {
        accepted && lines.iter().any(|words| of_dot(words) && words.get(2).is_some_and(|word| holds(word)))
    };
    let byte = |holds: &dyn Fn(&[u8], &[u8]) -> bool| {
        accepted && lines.iter().any(|words| !of_dot(words) && operand(words).is_some_and(|byte| holds(words[0], byte)))
    };
    [
        ("accepted", accepted),
        ("  no byte line", answer == Ok(0)),
        ("  256 byte lines", answer == Ok(256)),
        ("  some of both kinds", accepted && dots > 0 && answer != Ok(0)),
        ("  eight dot lines", accepted && dots == 8),
        ("  a dot on", state(&|word| word == b"on")),
        ("  a dot off", state(&|word| word == b"off")),
        ("  a dot by a bit that is on", state(&|word| word[0] == b'=')),
        ("  a dot by a bit that is off", state(&|word| word[0] == b'~')),
        ("  a byte behind the word", byte(&|first, byte| first != byte)),
        ("  a byte without the word", byte(&|first, byte| first == byte)),
        ("  a byte as #", byte(&|_, byte| byte == b"#")),
        ("  a byte as CR", byte(&|_, byte| byte == b"\r")),
        ("  a byte in two or three bytes of UTF-8", byte(&|_, byte| byte[0] >= 0x80)),
        ("  a byte as \\\\", byte(&|_, byte| byte == b"\\\\")),
        ("  a byte by \\x", byte(&|_, byte| byte.starts_with(b"\\x"))),
        ("  a byte by \\X", byte(&|_, byte| byte.starts_with(b"\\X"))),
        ("  65,536 bytes", accepted && text.len() == TEXT_BYTES),
        ("  a last line without LF", accepted && text.last().is_some_and(|last| *last != b'\n')),
        ("refusal 1", number == 1),
        ("  by one byte", number == 1 && text.len() == TEXT_BYTES + 1),
        ("refusal 9, defined already too", number == 9 && written_before),
        ("refusal 11 for a dot", number == 11 && of_dot(faulty)),
        ("refusal 11 for a byte", number == 11 && !of_dot(faulty)),
        ("  in the same writing", number == 11 && !of_dot(faulty) && written_before),
        ("  in another writing", number == 11 && !of_dot(faulty) && !written_before),
        ("  without the word", number == 11 && faulty.len() == 2),
    ]
}

/// The number that a word of a text table stands for, and whether it is an escape.
fn number_of(word: &[u8]) -> Option<(u32, bool)> {
    let word = std::str::from_utf8(word).ok()?;
    reference::character(word, true).map(|number| (number, word.starts_with('\\')))
}

/// Whether a number is a byte in which the sets differ.
fn differs(number: u32) -> bool {
    u8::try_from(number).is_ok_and(|byte| DIFFERENCES.contains(&byte))
}

/// Whether a character is the private-row one of such a byte.
fn differs_in_private_row(character: u32) -> bool {
    character.checked_sub(0xF000).is_some_and(differs)
}

/// The word that is so many places behind the first of some words.
fn behind<'a>(words: &[&'a [u8]], names: &[&str], places: usize) -> Option<&'a [u8]> {
    let name = words.iter().position(|word| names.iter().any(|name| name.as_bytes() == *word))?;
    words.get(name + places).copied()
}

/// The character so many places behind.
fn character_behind(words: &[&[u8]], names: &[&str], places: usize) -> Option<u32> {
    behind(words, names, places).and_then(number_of).map(|(number, _)| number)
}

/// The byte operand of a line of a text table or of a byte table.
fn byte_operand<'a>(table: usize, words: &[&'a [u8]]) -> Option<&'a [u8]> {
    match table {
        BYTE_TABLE => operand(words).filter(|_| !of_dot(words)),
        _ => behind(words, &["byte"], 1),
    }
}

/// What a text may meet of the bytes in which the sets differ.
const SETS_MEET: usize = 8;

fn sets_meet(
    table: usize,
    set: Set,
    lines: &[Vec<&[u8]>],
    answer: Result<u32, Refusal>,
) -> [(&'static str, bool); SETS_MEET] {
    let number = answer.map_or_else(|refusal| refusal.number, |_| 0);
    let faulty = answer.err().and_then(|refusal| lines.get((refusal.place as usize).checked_sub(1)?));
    let byte = |words: &Vec<&[u8]>| byte_operand(table, words).and_then(number_of);
    let accepted = answer.is_ok();
    let some = |holds: &dyn Fn(&Vec<&[u8]>) -> bool| accepted && lines.iter().any(holds);
    let character = |words: &Vec<&[u8]>, names: &[&str]| behind(words, names, 1).and_then(number_of);
    let second = |number: u32| number > 0xFF && Set::Iso8859_15.byte(number).is_some();
    let refused =
        |by: u32, holds: &dyn Fn((u32, bool)) -> bool| number == by && faulty.and_then(byte).is_some_and(holds);
    let own = |(number, escape): (u32, bool)| match escape {
        true => differs(number),
        false => set.byte(number).is_some_and(|byte| differs(byte.into())),
    };
    [
        ("accepted", accepted),
        ("  a byte by an escape", some(&|words| byte(words).is_some_and(|word| word.1 && own(word)))),
        ("  a byte as its character", some(&|words| byte(words).is_some_and(|word| !word.1 && own(word)))),
        (
            "  the same escape for a character",
            some(&|words| {
                let names = ["char", "glyph", "alias", "ifGlyph", "ifNotGlyph"];
                character(words, &names).is_some_and(|(number, escape)| escape && differs(number))
            }),
        ),
        (
            "  a condition on the private row",
            some(&|words| {
                let condition = character(words, &["ifGlyph", "ifNotGlyph"]);
                condition.is_some_and(|(number, _)| differs_in_private_row(number))
            }),
        ),
        (
            "refusal 7 for a character of the other set",
            refused(7, &|(number, escape)| !escape && (differs(number) || second(number))),
        ),
        ("refusal 7 for an escape over FF", refused(7, &|(number, escape)| escape && second(number))),
        ("refusal 11 for a byte", refused(11, &own)),
    ]
}

/// Which of these a table is to be met with.
fn sets_due(table: usize) -> &'static [usize] {
    match table {
        BYTE_TABLE => &[0, 1, 2, 5, 6, 7],
        _ => &[0, 1, 2, 3, 4, 5, 6, 7],
    }
}

/// The pairs of a sound table.
fn pairs_of(words: &[u32]) -> Pairs<'_> {
    let count = words[..SET_WORD].chunks_exact(2).position(|pair| pair == [0, 0]);
    Pairs(&words[..2 * count.unwrap_or(PAIRS)])
}

/// The characters of its definitions.
fn characters_of(words: &[u32]) -> Vec<u32> {
    pairs_of(words).0.iter().step_by(2).copied().collect()
}

/// Whether a walk of at least one link leads from a character into the braille row.
fn leads_to_braille(pairs: Pairs, character: u32) -> bool {
    let walk = pairs.walk(character);
    walk.links > 0 && of_braille(walk.end)
}

fn of_braille(character: u32) -> bool {
    reference::braille_cell(character).is_some()
}

fn of_private(character: u32) -> bool {
    reference::private_byte(character).is_some()
}

/// What a text table may meet of the braille row and the private row.
const ROWS_MEET: usize = 17;

fn rows_meet(
    set: Set,
    lines: &[Vec<&[u8]>],
    answer: Result<u32, Refusal>,
    words: &[u32],
) -> [(&'static str, bool); ROWS_MEET] {
    let number = answer.map_or_else(|refusal| refusal.number, |_| 0);
    let faulty = answer.err().and_then(|refusal| lines.get((refusal.place as usize).checked_sub(1)?));
    let pairs = Pairs(&words[..2 * answer.unwrap_or(0) as usize]);
    let find = |character: u32| pairs.find(reference::local(character, set));
    let defined = |words: &[&[u8]]| character_behind(words, &["char", "glyph", "alias"], 1);
    let target = |words: &[&[u8]]| character_behind(words, &["alias"], 2);
    let accepted = answer.is_ok();
    let some = |holds: &dyn Fn(&[&[u8]]) -> bool| accepted && lines.iter().any(|words| holds(words));
    let defines =
        |of: &dyn Fn(u32) -> bool| some(&|words| defined(words).is_some_and(|one| of(one) && find(one).is_some()));
    let leads = |of: &dyn Fn(u32) -> bool| {
        some(&|words| {
            let meaning = target(words).filter(|end| of(*end)).map(|end| Meaning::Alias(reference::local(end, set)));
            meaning.is_some() && defined(words).and_then(find) == meaning
        })
    };
    let asks = |of: &dyn Fn(u32) -> bool| {
        some(&|words| character_behind(words, &["ifGlyph", "ifNotGlyph"], 1).is_some_and(of))
    };
    let refused = |by: u32, holds: &dyn Fn(&[&[u8]]) -> bool| number == by && faulty.is_some_and(|words| holds(words));
    let byte = |of: fn(u32) -> bool| {
        let holds =
            |words: &[&[u8]]| behind(words, &["byte"], 1).and_then(number_of).is_some_and(|byte| !byte.1 && of(byte.0));
        refused(7, &holds)
    };
    let some_private = |words: &[&[u8]]| defined(words).into_iter().chain(target(words)).any(of_private);
    [
        ("accepted", accepted),
        ("  a definition for a private-row operand", defines(&of_private)),
        ("    where the sets differ", defines(&differs_in_private_row)),
        ("  an alias to a private-row operand", leads(&of_private)),
        ("    where the sets differ", leads(&differs_in_private_row)),
        ("  an alias into the braille row", leads(&of_braille)),
        ("  a condition on the private row", asks(&of_private)),
        ("  a condition on the braille row", asks(&of_braille)),
        (
            "  a condition on a walk into the braille row",
            asks(&|asked| leads_to_braille(pairs, reference::local(asked, set))),
        ),
        ("  a definition for the braille row, not taken", some(&|words| defined(words).is_some_and(of_braille))),
        ("refusal 22", number == 22),
        ("  behind a condition", refused(22, &|words| words[0].starts_with(b"if"))),
        ("  a loop too", refused(22, &|words| defined(words) == target(words))),
        ("refusal 11 for a private-row operand", refused(11, &|words| defined(words).is_some_and(of_private))),
        ("refusal 12 with a private-row operand", refused(12, &some_private)),
        ("refusal 7 for a byte of the private row", byte(of_private)),
        ("refusal 7 for a byte of the braille row", byte(of_braille)),
    ]
}

/// What a lookup may meet of walks into the braille row.
const WALKS_MEET: usize = 5;

fn walks_meet(words: &[u32], character: u32, shown: Shown) -> [(&'static str, bool); WALKS_MEET] {
    let pairs = pairs_of(words);
    let local = Set::new(words[SET_WORD]).map_or(character, |set| reference::local(character, set));
    let (rule, leads) = (shown.rule, |from: u32| leads_to_braille(pairs, from));
    let near = || [reference::base(local), reference::stand_in(local)].into_iter().flatten().any(leads);
    [
        ("rule 4", rule == 4 && leads(local)),
        ("  by two links or more", rule == 4 && shown.links > 1 && leads(local)),
        ("rule 20", rule == 20 && leads(local)),
        ("rules 7 to 9, a base or stand-in leads there", rule % 16 > 6 && near()),
        ("rules 8 and 9, U+FFFD or ? leads there", rule % 16 > 7 && (leads(0xFFFD) || leads('?' as u32))),
    ]
}

/// What a call on a lent table may meet of its length, its last two words and the two rows.
const LENT_MEET: usize = 15;

fn lent_meet(words: &[u32], refusal: Option<Refusal>) -> [(&'static str, bool); LENT_MEET] {
    let (number, place) = refusal.map_or((0, 0), |refusal| (refusal.number, refusal.place as usize));
    let last = words.get(SET_WORD..WORDS).unwrap_or(&[0, 0]);
    let (set, zero) = (Set::new(last[0]), last[1] == 0);
    let (before, at_last) = (number == 15 && place < PAIRS, number == 15 && place == PAIRS);
    let [character, second] = if before { [words[2 * place], words[2 * place + 1]] } else { [0, 0] };
    let target_of =
        |of: fn(u32) -> bool, second| matches!(reference::meaning(second), Some(Meaning::Alias(end)) if of(end));
    let to_braille = || pairs_of(words).0.iter().skip(1).step_by(2).any(|second| target_of(of_braille, *second));
    [
        ("refusal 2 for 2,048 words", number == 2 && words.len() == SET_WORD),
        ("refusal 2 for 2,049 words", number == 2 && words.len() == SET_WORD + 1),
        ("refusal 15 at pair 1,024", at_last),
        ("  no set, but zero", at_last && last == [0, 0]),
        ("  no set, but another number", at_last && last[0] != 0 && set.is_none() && zero),
        ("  a set, but no zero behind it", at_last && set.is_some()),
        ("  neither", at_last && set.is_none() && !zero),
        ("refusal 15 before it, no set too", before && set.is_none()),
        ("refusal 15 before it, no zero too", before && !zero),
        ("refusal 15 at a character of the braille row", of_braille(character)),
        ("refusal 15 at a character of the private row", of_private(character)),
        ("refusal 15 at a target of the private row", !of_private(character) && target_of(of_private, second)),
        ("accepted in ISO 8859-1", number == 0 && set == Some(Set::Iso8859_1)),
        ("accepted in ISO 8859-15", number == 0 && set == Some(Set::Iso8859_15)),
        ("accepted with a target of the braille row", number == 0 && to_braille()),
    ]
}

/// The pairs of a lent slice, or those before its first pair at fault.
fn sound_pairs(words: &[u32]) -> Pairs<'_> {
    match reference::check(words) {
        Ok((pairs, _)) => pairs,
        Err(Refusal { number: 15, place, .. }) => {
            let Pairs(pairs) = pairs_of(words);
            Pairs(&pairs[..pairs.len().min(2 * place as usize)])
        }
        Err(_) => Pairs(&[]),
    }
}

/// What a list call may meet: how it ends, and what an accepted table has in it.
const LISTS_MEET: usize = 26;

/// `needed` is the length of the text of the sound pairs.
fn lists_meet(
    words: &[u32],
    buffer: usize,
    needed: usize,
    answer: Result<usize, Refusal>,
) -> [(&'static str, bool); LISTS_MEET] {
    let (number, place) = answer.map_or_else(|refusal| (refusal.number, refusal.place as usize), |_| (0, 0));
    let short_table = number == 2 && words.len() < WORDS;
    let short = number == 2 && !short_table;
    let accepted = number == 0;
    let Pairs(pairs) = if accepted { pairs_of(words) } else { Pairs(&[]) };
    let some =
        |holds: &dyn Fn(Option<Meaning>) -> bool| pairs.chunks_exact(2).any(|pair| holds(reference::meaning(pair[1])));
    let digits = |count| pairs.iter().step_by(2).any(|character| character.checked_ilog(16).unwrap_or(0) + 1 == count);
    [
        ("refusal 2 for the table", short_table),
        ("  an empty buffer", short_table && buffer == 0),
        ("refusal 15", number == 15),
        ("  an empty buffer", number == 15 && buffer == 0),
        ("  a buffer short for the pairs before it", number == 15 && buffer < needed),
        ("    at pair 1,024", number == 15 && buffer < needed && place == PAIRS),
        ("refusal 2 for the buffer", short),
        ("  an empty buffer", short && buffer == 0),
        ("  by one byte", short && buffer + 1 == needed),
        ("accepted", accepted),
        ("  a buffer of just the length", answer == Ok(buffer)),
        ("  a longer buffer", answer.is_ok_and(|length| length < buffer)),
        ("  no definition", answer == Ok(0)),
        ("    an empty buffer", answer == Ok(0) && buffer == 0),
        ("  1,024 definitions", pairs.len() == SET_WORD),
        ("  char", some(&|meaning| matches!(meaning, Some(Meaning::Typed(_))))),
        ("  glyph", some(&|meaning| matches!(meaning, Some(Meaning::Shown(_))))),
        ("  alias", some(&|meaning| matches!(meaning, Some(Meaning::Alias(_))))),
        ("  no dots", some(&|meaning| matches!(meaning, Some(Meaning::Typed(0) | Meaning::Shown(0))))),
        ("  all dots", some(&|meaning| matches!(meaning, Some(Meaning::Typed(255) | Meaning::Shown(255))))),
        ("  a character of 1 hex digit", digits(1)),
        ("  a character of 2", digits(2)),
        ("  a character of 3", digits(3)),
        ("  a character of 4", digits(4)),
        ("  a character of 5", digits(5)),
        ("  a character of 6", digits(6)),
    ]
}

/// What a call by an order may meet: how it ends, and what else there is to tell apart.
const ORDERS_MEET: usize = 30;

/// `scalars` tells whether all that is asked for are scalars.
fn orders_meet(
    words: &[u32],
    order: &[u32],
    scalars: bool,
    refusal: Option<Refusal>,
) -> [(&'static str, bool); ORDERS_MEET] {
    let rising = reference::rising(sound_pairs(words));
    let count = rising.len();
    let front = &order[..count.min(order.len())];
    let wrong = front != rising;
    let places: Vec<usize> = (0..front.len()).filter(|place| front[*place] != rising[*place]).collect();
    let of_pair = |number: &u32| (*number as usize) < count;
    let distinct = BTreeSet::from_iter(front).len();
    let once = distinct == count && front.iter().all(of_pair);
    let number = refusal.map_or(0, |refusal| refusal.number);
    let (short_table, short) = (words.len() < WORDS, order.len() < ORDER_WORDS);
    let (two, accepted) = (number == 2, number == 0);
    [
        ("refusal 2 for the table", two && short_table && !short),
        ("refusal 2 for the order", two && short && !short_table),
        ("  1,023 words", two && order.len() == ORDER_WORDS - 1),
        ("  no words", two && order.is_empty()),
        ("  no table", two && !short_table && reference::check(words).is_err()),
        ("  no scalar too", two && short && !scalars),
        ("refusal 2 for both", two && short && short_table),
        ("refusal 15", number == 15),
        ("  the rising order of the pairs before it", number == 15 && count > 0 && !wrong),
        ("  a wrong order of them", number == 15 && wrong),
        ("    no scalar too", number == 15 && wrong && !scalars),
        ("  no scalar too", number == 15 && !scalars),
        ("refusal 23", number == 23),
        ("  all pairs, in another order", number == 23 && once),
        ("  two exchanged", number == 23 && once && places.len() == 2),
        ("  a number twice", number == 23 && distinct < count),
        ("  at the first place alone", number == 23 && places == [0]),
        ("  at the last place alone", number == 23 && count > 1 && places == [count - 1]),
        ("  a number of no pair", number == 23 && !front.iter().all(of_pair)),
        ("  a number beyond 1,024", number == 23 && front.iter().any(|number| *number as usize >= PAIRS)),
        ("  2^32 - 1", number == 23 && front.contains(&u32::MAX)),
        ("  one definition", number == 23 && count == 1),
        ("  1,024 definitions", number == 23 && count == PAIRS),
        ("  no scalar too", number == 23 && !scalars),
        ("refusal 14", number == 14),
        ("accepted", accepted),
        ("  no definition", accepted && count == 0),
        ("  1,024 definitions", accepted && count == PAIRS),
        ("  just 1,024 words", accepted && order.len() == ORDER_WORDS),
        ("  words behind the order", accepted && order[count..].iter().any(|word| *word != 0)),
    ]
}

/// What the lookup of a character on a table and on a grown one may meet.
const GROWTH_MEETS: usize = 6;

/// `braille` tells whether the walk on the grown table leads into the braille row.
fn growth_meets(character: u32, first: Shown, grown: Shown, braille: bool) -> [(&'static str, bool); GROWTH_MEETS] {
    let fell = grown.rule < first.rule;
    [
        ("lookups", true),
        ("  the same answer", first == grown),
        ("  other links", first.links != grown.links),
        ("  a lower rule", fell),
        ("    on the private row, where the sets differ", fell && differs_in_private_row(character)),
        ("    by a walk into the braille row", fell && braille),
    ]
}

fn raw(character: u32) -> String {
    char::from_u32(character).expect("a scalar").to_string()
}

/// The characters around a byte in which the sets differ.
fn page_about(byte: u8) -> Vec<u32> {
    let [first, second] = Set::ALL.map(|set| set.character(byte));
    vec![first, second, 0xF000 + first, 0xF000 + first - 1, second + 1, 'b' as u32, 'z' as u32]
}

/// Such a byte in every form of its characters.
fn operands_about(byte: u8) -> Vec<String> {
    let [first, second] = Set::ALL.map(|set| set.character(byte));
    let private = 0xF000 + u32::from(byte);
    vec![
        raw(first),
        raw(second),
        raw(private),
        format!("\\x{byte:02X}"),
        format!("\\X{byte:02x}"),
        format!("\\o{byte:03o}"),
        format!("\\u{second:04X}"),
        format!("\\U{private:08x}"),
    ]
}

/// The characters in and around the two rows, and some that the private row stands for.
const ABOUT_ROWS: [u32; 16] = [
    0x27FF, 0x2800, 0x2841, 0x28FF, 0x2900, 0xEFFF, 0xF000, 0xF041, 0xF0FF, 0xF100, 0x12841, 0x1F041, 0x00, 0x41, 0xFF,
    0x7A,
];

/// Lines with one operand in every place.
const FORMS: [&str; 10] = [
    "char _ 1", "glyph _ 2", "byte _ 3", "alias _ z", "alias z _", "alias _ _", "ifGlyph _ char b 4",
    "ifNotGlyph _ char b 5", "_ 6", "byte _",
];

/// The text of two of these lines with any of the operands; the cases are the squares of their count.
fn two_forms(operands: &[String], case: usize) -> String {
    let count = FORMS.len() * operands.len();
    let line = |which: usize| FORMS[which % FORMS.len()].replace('_', &operands[which / FORMS.len()]) + "\n";
    line(case % count) + &line(case / count)
}

/// The columns of a number's refusals.
#[derive(Clone, Default)]
struct Columns {
    refusals: u64,
    columns: BTreeSet<u32>,
    met: [(&'static str, u64); COLUMN_MEETS],
}

/// A call that fills a cell and a rule buffer.
type Fill<'a> = &'a dyn Fn(&Side, &mut [u8], &mut [u8]) -> Result<(), Refusal>;

/// A cell and a rule buffer, each between guards.
#[derive(Clone, PartialEq)]
struct Buffers([Vec<u8>; 2]);

impl Buffers {
    fn lengths(&self) -> [usize; 2] {
        self.0.each_ref().map(|buffer| buffer.len() - 2 * GUARD)
    }

    /// The answer of a side, and the buffers after its call.
    fn filled(&self, side: &Side, fill: Fill) -> (Result<(), Refusal>, Buffers) {
        let mut buffers = self.clone();
        let [cells, rules] = buffers.0.each_mut().map(|buffer| {
            let end = buffer.len() - GUARD;
            &mut buffer[GUARD..end]
        });
        let answer = fill(side, cells, rules);
        (answer, buffers)
    }
}

struct Run {
    sides: Vec<Side>,
    random: Random,
    case: String,
    calls: [u64; CALLS.len()],
    refusals: [[u64; REFUSALS + 1]; CALLS.len()],
    columns: [[Columns; REFUSALS + 1]; WITH_COLUMN.len()],
    bytes_met: [(&'static str, u64); BYTES_MEET],
    windows_met: [(&'static str, u64); WINDOWS_MEET],
    /// By table and by set.
    sets_met: [[[(&'static str, u64); SETS_MEET]; 2]; WITH_COLUMN.len()],
    lent_met: [(&'static str, u64); LENT_MEET],
    walks_met: [(&'static str, u64); WALKS_MEET],
    lists_met: [(&'static str, u64); LISTS_MEET],
    orders_met: [(&'static str, u64); ORDERS_MEET],
    /// Searches by their comparisons, of those that find a pair and of the others.
    found: [u64; COMPARISONS + 1],
    not_found: [u64; COMPARISONS + 1],
    /// By set.
    rows_met: [[(&'static str, u64); ROWS_MEET]; 2],
    growth_met: [[(&'static str, u64); GROWTH_MEETS]; 2],
    /// Page calls beside accepted windows calls.
    pages_beside: u64,
    /// Plain calls beside accepted ones by order.
    plain_beside: u64,
    /// Texts of accepted list calls.
    read_back: u64,
    rules: [u64; 32],
    links: u32,
    texts: Share,
    with_blocks: Share,
    full_depth: Share,
    byte_texts: Share,
    differences: u64,
}

/// Texts and how many of them were accepted.
#[derive(Clone, Copy, Default)]
struct Share {
    all: u64,
    accepted: u64,
}

impl Share {
    fn count(&mut self, accepted: bool) {
        self.all += 1;
        self.accepted += u64::from(accepted);
    }

    fn print(self, name: &str) {
        println!("{name}: {}, accepted {} ({} %)", self.all, self.accepted, 100 * self.accepted / self.all.max(1));
    }
}

fn shown(bytes: &[u8]) -> String {
    let mut escaped = String::new();
    for byte in bytes {
        escaped.extend(std::ascii::escape_default(*byte).map(char::from));
    }
    if escaped.len() > 3000 {
        escaped.truncate(3000);
        escaped += " ... (cut)";
    }
    escaped
}

/// A smaller text that still differs, by leaving out ever smaller parts for a few seconds.
fn shrink(text: &[u8], differs: impl Fn(&[u8]) -> bool) -> Vec<u8> {
    let begun = Instant::now();
    let mut text = text.to_vec();
    let mut size = text.len() / 2;
    while size > 0 {
        let mut start = 0;
        while start < text.len() {
            if begun.elapsed().as_secs() >= 3 {
                return text;
            }
            let end = (start + size).min(text.len());
            let less = [&text[..start], &text[end..]].concat();
            if differs(&less) {
                text = less;
            } else {
                start += size;
            }
        }
        size /= 2;
    }
    text
}

/// A text on which a side differs, and a smaller one with both answers. A call also gives the memory that it leaves.
fn differing<A: Debug + PartialEq, M: PartialEq>(
    text: &[u8],
    side: &Side,
    call: impl Fn(&Side, &[u8]) -> (Result<A, Refusal>, M),
) -> String {
    let small = shrink(text, |text| call(&REFERENCE, text) != call(side, text));
    let [answer, other] = [&REFERENCE, side].map(|side| call(side, &small).0);
    format!("text \"{}\"\n  smaller \"{}\": {answer:?} and {other:?}", shown(text), shown(&small))
}

/// Adds what one call met to the counts.
fn count_met<const N: usize>(counts: &mut [(&'static str, u64); N], met: [(&'static str, bool); N]) {
    for (count, (name, met)) in counts.iter_mut().zip(met) {
        *count = (name, count.1 + u64::from(met));
    }
}

impl Run {
    fn tally<T>(&mut self, call: usize, answer: &Result<T, Refusal>) {
        self.calls[call] += 1;
        if let Err(refusal) = answer {
            self.refusals[call][refusal.number as usize] += 1;
        }
    }

    /// Counts where on its line a table's text is at fault.
    fn tally_column<T>(&mut self, table: usize, text: &[u8], answer: &Result<T, Refusal>) {
        let Err(refusal) = answer else {
            return;
        };
        let Refusal { number, place, column } = *refusal;
        let number = number as usize;
        assert_eq!(column > 0, WITH_COLUMN[table].contains(&number), "{refusal:?}");
        if column == 0 {
            return;
        }
        let line = text.split_inclusive(|byte| *byte == b'\n').nth(place as usize - 1).expect("a line of the text");
        let columns = &mut self.columns[table][number];
        columns.refusals += 1;
        columns.columns.insert(column);
        count_met(&mut columns.met, column_meets(line, column as usize));
    }

    fn differ(
        &mut self,
        side: &Side,
        call: usize,
        expected: impl Debug,
        got: impl Debug,
        input: impl FnOnce() -> String,
    ) {
        self.differences += 1;
        if self.differences <= ENOUGH {
            println!("DIFFERENCE in {} ({})", CALLS[call], self.case);
            println!("  reference {expected:?}\n  {} {got:?}\n  {}", side.name, input());
        }
    }

    fn random_words(&mut self, length: usize) -> Vec<u32> {
        let mut words = Vec::with_capacity(length + 1);
        while words.len() < length {
            let drawn = self.random.bits();
            words.push(drawn as u32);
            words.push((drawn >> 32) as u32);
        }
        words.truncate(length);
        words
    }

    fn random_bytes(&mut self, length: usize) -> Vec<u8> {
        (0..length).map(|_| self.random.byte()).collect()
    }

    /// The bytes behind a random start, with random bytes around them.
    fn place_bytes(&mut self, bytes: &[u8]) -> (Vec<u8>, usize) {
        let start = self.random.below(8);
        let mut all = self.random_bytes(start);
        all.extend(bytes);
        all.extend(self.random_bytes(8));
        (all, start)
    }

    /// One call that writes nothing.
    fn asking<A: Debug + PartialEq>(
        &mut self,
        call: usize,
        run: impl Fn(&Side) -> Result<A, Refusal>,
        input: impl Fn(&Side) -> String,
    ) -> Result<A, Refusal> {
        let answer = run(&REFERENCE);
        self.tally(call, &answer);
        for side in self.sides.clone() {
            let other = run(&side);
            if other != answer {
                self.differ(&side, call, &answer, other, || input(&side));
            }
        }
        answer
    }

    /// One call that fills a lent slice, whose guards lie before and behind it: answers and memory, guards too.
    fn filling<T: Copy + PartialEq, A: Debug + PartialEq>(
        &mut self,
        call: usize,
        before: &[T],
        run: impl Fn(&Side, &mut [T]) -> Result<A, Refusal>,
        input: impl Fn(&Side) -> String,
    ) -> (Result<A, Refusal>, Vec<T>) {
        let inside = GUARD..before.len() - GUARD;
        let filled = |side: &Side| {
            let mut memory = before.to_vec();
            (run(side, &mut memory[inside.clone()]), memory)
        };
        let (answer, expected) = filled(&REFERENCE);
        self.tally(call, &answer);
        for side in self.sides.clone() {
            let (other, got) = filled(&side);
            if other != answer || got != expected {
                let first = (0..got.len()).find(|k| got[*k] != expected[*k]).map(|k| k as isize - GUARD as isize);
                let length = inside.len();
                self.differ(&side, call, &answer, other, || {
                    format!("slice of {length}, first element that differs {first:?}\n  {}", input(&side))
                });
            }
        }
        (answer, expected[inside].to_vec())
    }

    fn any_set(&mut self) -> Set {
        *self.random.pick(&Set::ALL)
    }

    /// Compiles by an edition in a set into `length` words; answers the answer and them.
    fn compile_by(&mut self, edition: u32, set: u32, text: &[u8], length: usize) -> (Result<u32, Refusal>, Vec<u32>) {
        let name = match edition {
            TEXT_EDITION => COMPILE,
            BYTE_EDITION => COMPILE_BYTES,
            _ => COMPILE_OTHER,
        };
        let before = self.random_words(length + 2 * GUARD);
        let (bytes, start) = self.place_bytes(text);
        let text = &bytes[start..start + text.len()];
        let call = |side: &Side, words: &mut [u32]| (side.compile)(edition, set, text, words);
        self.filling(name, &before, call, |side| {
            let compiled = |side: &Side, text: &[u8]| {
                let mut words = before[GUARD..GUARD + length].to_vec();
                ((side.compile)(edition, set, text, &mut words), words)
            };
            format!("edition {edition}, set {set}, {}", differing(text, side, compiled))
        })
    }

    /// Compiles a text table in a set into `length` words; answers them and the count.
    fn compile(&mut self, set: Set, text: &[u8], length: usize) -> (Vec<u32>, Option<usize>) {
        let (answer, words) = self.compile_by(TEXT_EDITION, set.number(), text, length);
        self.tally_text(TEXT_TABLE, set, text, answer, &words);
        (words, answer.ok().map(|count| count as usize))
    }

    /// A byte table compiled in a set beside `words` words.
    fn compile_bytes(&mut self, set: Set, text: &[u8], words: usize) {
        let (answer, _) = self.compile_by(BYTE_EDITION, set.number(), text, words);
        self.tally_text(BYTE_TABLE, set, text, answer, &[]);
        count_met(&mut self.bytes_met, bytes_meet(text, answer));
    }

    /// Counts what a text in a set met, for a text table with the words that it left.
    fn tally_text(&mut self, table: usize, set: Set, text: &[u8], answer: Result<u32, Refusal>, words: &[u32]) {
        self.tally_column(table, text, &answer);
        let lines: Vec<Vec<&[u8]>> = reference::lines(text).map(words_of).collect();
        let met = &mut self.sets_met[table][set as usize];
        count_met(met, sets_meet(table, set, &lines, answer));
        if table == TEXT_TABLE {
            count_met(&mut self.rows_met[set as usize], rows_meet(set, &lines, answer, words));
        }
    }

    /// The cells of a byte table in a buffer of that length.
    fn byte_cells(&mut self, set: u32, text: &[u8], length: usize) {
        let before = self.random_bytes(length + 2 * GUARD);
        let (placed, start) = self.place_bytes(text);
        let text = &placed[start..start + text.len()];
        let call = |side: &Side, cells: &mut [u8]| (side.byte_cells)(set, text, cells);
        let _ = self.filling(BYTE_CELLS, &before, call, |side| {
            let cells = |side: &Side, text: &[u8]| {
                let mut cells = before[GUARD..GUARD + length].to_vec();
                ((side.byte_cells)(set, text, &mut cells), cells)
            };
            format!("set {set}, {}", differing(text, side, cells))
        });
    }

    /// A byte table with words and cells of any length.
    fn byte_table(&mut self, set: Set, text: &[u8]) {
        let words = *self.random.pick(&WORD_LENGTHS);
        self.compile_bytes(set, text, words);
        // A buffer that is too short tells nothing of the text.
        let cells = *self.random.pick(&[CELLS, CELLS, CELLS, LENGTHS[3], LENGTHS[1]]);
        self.byte_cells(set.number(), text, cells);
    }

    /// A byte table with words and cells of each length.
    fn byte_table_all(&mut self, set: Set, text: &[u8]) {
        for length in WORD_LENGTHS {
            self.compile_bytes(set, text, length);
        }
        for length in LENGTHS {
            self.byte_cells(set.number(), text, length);
        }
    }

    /// A text of any kind in every edition and every set, with words of each length where there is such an edition and set.
    fn editions(&mut self, text: &[u8]) {
        let any = self.random.word();
        let sets = OTHER_SETS.into_iter().chain([any]);
        for edition in OTHER_EDITIONS.into_iter().chain([any, BYTE_EDITION, TEXT_EDITION]) {
            for set in sets.clone().chain(Set::ALL.map(Set::number)) {
                let known = [BYTE_EDITION, TEXT_EDITION].contains(&edition) && Set::new(set).is_some();
                if !known {
                    let length = *self.random.pick(&WORD_LENGTHS);
                    let _ = self.compile_by(edition, set, text, length);
                }
            }
        }
        for length in LENGTHS {
            for set in sets.clone() {
                self.byte_cells(set, text, length);
            }
        }
        for set in Set::ALL {
            for length in WORD_LENGTHS {
                self.compile(set, text, length);
            }
            self.byte_table_all(set, text);
        }
    }

    /// A call for all 256 cells or bytes in buffers of several lengths, and beside the 256 single calls of each side.
    fn all_at_once<T: Copy + Debug + Default + PartialEq, A: Debug + PartialEq>(
        &mut self,
        [one_call, all_call]: [usize; 2],
        pattern: &[T],
        one: impl Fn(&Side, u8) -> Result<T, Refusal>,
        all: impl Fn(&Side, &mut [T]) -> Result<A, Refusal>,
        input: impl Fn() -> String,
    ) {
        for length in LENGTHS {
            let _ = self.filling(all_call, &pattern[..length + 2 * GUARD], &all, |_| input());
        }
        let at_once = |side: &Side| {
            let mut filled = [T::default(); 256];
            all(side, &mut filled).map(|_| filled)
        };
        let expected = at_once(&REFERENCE);
        for side in self.sides.clone() {
            let filled = at_once(&side);
            for byte in 0..=255 {
                let answer = expected.map(|filled| filled[usize::from(byte)]);
                let single = one(&side, byte);
                self.tally(one_call, &answer);
                if single != answer {
                    self.differ(&side, one_call, answer, single, || format!("cell or byte {byte:02X}, {}", input()));
                }
                if single != filled.map(|filled| filled[usize::from(byte)]) {
                    self.differ(&side, all_call, single, filled, || format!("single call for {byte:02X}, {}", input()));
                }
            }
        }
    }

    fn table_shown(words: &[u32]) -> String {
        let pairs = &words[..words.len().min(SET_WORD)];
        let used = pairs.len() - pairs.iter().rev().take_while(|word| **word == 0).count();
        let shown = &words[..used.min(80)];
        let last = words.get(SET_WORD..words.len().min(WORDS)).unwrap_or(&[]);
        format!("table of {} words, {used} to the last that is not 0: {shown:X?}, set and zero {last:X?}", words.len())
    }

    /// Counts what a call met of a lent table.
    fn tally_lent<T>(&mut self, words: &[u32], answer: Result<T, Refusal>) {
        count_met(&mut self.lent_met, lent_meet(words, answer.err()));
    }

    fn look_up(&mut self, words: &[u32], character: u32) -> Result<Shown, Refusal> {
        let input = |_: &Side| format!("character {character:X}, {}", Self::table_shown(words));
        let answer = self.asking(LOOK_UP, |side| (side.look_up)(words, character), input);
        self.tally_lent(words, answer);
        if let Ok(shown) = answer {
            self.rules[usize::from(shown.rule)] += 1;
            self.links = self.links.max(shown.links);
            count_met(&mut self.walks_met, walks_meet(words, character, shown));
        }
        answer
    }

    fn typed(&mut self, words: &[u32], cell: u8) {
        let input = |_: &Side| format!("cell {cell:02X}, {}", Self::table_shown(words));
        let answer = self.asking(TYPED, |side| (side.typed)(words, cell), input);
        self.tally_lent(words, answer);
    }

    /// What all cells type, in that many elements.
    fn entries(&mut self, words: &[u32], length: usize) -> Vec<u32> {
        let before = self.random_words(length + 2 * GUARD);
        let call = |side: &Side, entries: &mut [u32]| (side.entries)(words, entries);
        let (answer, entries) = self.filling(ENTRIES, &before, call, |_| Self::table_shown(words));
        self.tally_lent(words, answer);
        entries
    }

    /// What all cells type, in any number of elements.
    fn any_entries(&mut self, words: &[u32]) {
        let length = *self.random.pick(&LENGTHS);
        self.entries(words, length);
    }

    fn typed_all(&mut self, words: &[u32]) {
        let pattern = self.random_words(LENGTHS[3] + 2 * GUARD);
        self.all_at_once(
            [TYPED, ENTRIES],
            &pattern,
            |side, cell| side.entry(words, cell),
            |side, entries| (side.entries)(words, entries),
            || Self::table_shown(words),
        );
    }

    /// A lent slice as text in a buffer of that length; an accepted text is read back. `needed` is as for what is met.
    fn list_into(&mut self, words: &[u32], length: usize, needed: usize) {
        let before = self.random_bytes(length + 2 * GUARD);
        let call = |side: &Side, bytes: &mut [u8]| (side.list)(words, bytes);
        let (answer, bytes) = self.filling(LIST, &before, call, |_| Self::table_shown(words));
        self.tally_lent(words, answer);
        count_met(&mut self.lists_met, lists_meet(words, length, needed, answer));
        if let Ok(length) = answer {
            self.read_back(words, &bytes[..length]);
        }
    }

    /// A lent slice as text in buffers of several lengths around what it needs.
    fn list(&mut self, words: &[u32]) {
        let needed = reference::listing(sound_pairs(words)).len();
        let [less, more] = [self.random.below(needed + 1), self.random.between(1, 40)];
        for length in BTreeSet::from([0, less, needed.saturating_sub(1), needed, needed + more]) {
            self.list_into(words, length, needed);
        }
    }

    /// The text of a table compiled in its own set: the same words and their count.
    fn read_back(&mut self, words: &[u32], text: &[u8]) {
        self.read_back += 1;
        let length = WORDS + self.random.between(1, 9);
        let set = Set::new(words[SET_WORD]).expect("the set of a table");
        let (read, count) = self.compile(set, text, length);
        if count != Some(pairs_of(words).0.len() / 2) || read[..WORDS] != words[..WORDS] {
            self.differ(&REFERENCE, LIST, Self::table_shown(words), Self::table_shown(&read[..WORDS]), || {
                format!("read back by compile, which counts {count:?}: \"{}\"", shown(text))
            });
        }
    }

    /// Whether every side fills the buffers as expected, and answers so.
    fn fill_as(
        &mut self,
        call: usize,
        before: &Buffers,
        fill: Fill,
        (answer, after): &(Result<(), Refusal>, Buffers),
        input: &dyn Fn() -> String,
    ) {
        for side in self.sides.clone() {
            let (other, got) = before.filled(&side, fill);
            if other != *answer || got != *after {
                let memory = if got == *after { "buffers agree" } else { "buffers differ" };
                let [cells, rules] = before.lengths();
                self.differ(&side, call, answer, other, || {
                    format!("{memory}, buffers of {cells} and {rules}, {}", input())
                });
            }
        }
    }

    /// One call that fills buffers of these lengths; answers them as they were, the answer, and them after it.
    fn showing(
        &mut self,
        call: usize,
        lengths: [usize; 2],
        fill: Fill,
        input: &dyn Fn() -> String,
    ) -> (Buffers, (Result<(), Refusal>, Buffers)) {
        let before = Buffers(lengths.map(|length| self.random_bytes(length + 2 * GUARD)));
        let expected = before.filled(&REFERENCE, fill);
        self.tally(call, &expected.0);
        self.fill_as(call, &before, fill, &expected, input);
        (before, expected)
    }

    fn page(&mut self, words: &[u32], characters: &[u32], cells: usize, rules: usize) {
        let fill = |side: &Side, cells: &mut [u8], rules: &mut [u8]| (side.page)(words, characters, cells, rules);
        let input = || format!("characters {characters:X?}, {}", Self::table_shown(words));
        let (_, (answer, after)) = self.showing(PAGE, [cells, rules], &fill, &input);
        self.tally_lent(words, answer);
        if answer.is_ok() {
            for rule in &after.0[1][GUARD..GUARD + characters.len()] {
                self.rules[usize::from(*rule)] += 1;
            }
        }
    }

    fn order_shown(words: &[u32], order: &[u32]) -> String {
        let front = &order[..order.len().min(40)];
        format!("order of {} words {front:X?}, {}", order.len(), Self::table_shown(words))
    }

    /// Counts what a call by an order met.
    fn tally_order<T>(&mut self, words: &[u32], order: &[u32], characters: &[u32], answer: Result<T, Refusal>) {
        let (scalars, refusal) = (characters.iter().all(|asked| reference::scalar(*asked)), answer.err());
        count_met(&mut self.orders_met, orders_meet(words, order, scalars, refusal));
        count_met(&mut self.lent_met, lent_meet(words, refusal));
    }

    /// The order of a lent slice in a buffer of that length; answers the buffer, with any words where it is refused.
    fn order(&mut self, words: &[u32], length: usize) -> Vec<u32> {
        let before = self.random_words(length + 2 * GUARD);
        let call = |side: &Side, order: &mut [u32]| (side.order)(words, order);
        let (answer, order) = self.filling(ORDER, &before, call, |_| Self::table_shown(words));
        self.tally_lent(words, answer);
        order
    }

    /// A search, and whether it is right by looking at every pair.
    fn search(&mut self, words: &[u32], order: &[u32], character: u32) {
        let input = |_: &Side| format!("character {character:X}, {}", Self::order_shown(words, order));
        let answer = self.asking(SEARCH, |side| (side.search)(words, order, character), input);
        self.tally_order(words, order, &[character], answer);
        let Ok(Search { pair, comparisons }) = answer else {
            return;
        };
        let plain = characters_of(words).iter().position(|other| *other == character);
        let comparisons = comparisons as usize;
        if plain.map(|pair| pair as u32) != pair || comparisons > COMPARISONS {
            self.differ(&REFERENCE, SEARCH, plain, answer, || input(&REFERENCE));
            return;
        }
        let counts = if pair.is_some() { &mut self.found } else { &mut self.not_found };
        counts[comparisons] += 1;
    }

    /// A lookup by an order, and where it is accepted the plain one.
    fn look_up_by(&mut self, words: &[u32], order: &[u32], character: u32) {
        let input = |_: &Side| format!("character {character:X}, {}", Self::order_shown(words, order));
        let answer = self.asking(LOOK_UP_BY, |side| (side.look_up_by)(words, order, character), input);
        self.tally_order(words, order, &[character], answer);
        if answer.is_ok() {
            let plain = self.look_up(words, character);
            self.plain_beside += 1;
            if plain != answer {
                self.differ(&REFERENCE, LOOK_UP_BY, plain, answer, || input(&REFERENCE));
            }
        }
    }

    /// A page by an order, and where it is accepted the plain one.
    fn page_by(&mut self, words: &[u32], order: &[u32], characters: &[u32], lengths: [usize; 2]) {
        let fill =
            |side: &Side, cells: &mut [u8], rules: &mut [u8]| (side.page_by)(words, order, characters, cells, rules);
        let plain = |side: &Side, cells: &mut [u8], rules: &mut [u8]| (side.page)(words, characters, cells, rules);
        let input = || format!("characters {characters:X?}, {}", Self::order_shown(words, order));
        let (before, expected) = self.showing(PAGE_BY, lengths, &fill, &input);
        if lengths.iter().all(|length| *length >= characters.len()) {
            self.tally_order(words, order, characters, expected.0);
        }
        if expected.0.is_ok() {
            self.fill_as(PAGE, &before, &plain, &expected, &|| format!("beside a page by order, {}", input()));
            self.plain_beside += 1;
        }
    }

    /// A search, a lookup and a page by an order, the page at times with short buffers.
    fn by_order(&mut self, words: &[u32], order: &[u32], alphabet: &[u32]) {
        let [sought, shown] = [(); 2].map(|()| generate::query(&mut self.random, alphabet));
        self.search(words, order, sought);
        self.look_up_by(words, order, shown);
        let page = match self.random.below(4) {
            0 if !alphabet.is_empty() => generate::repeating_page(&mut self.random, alphabet),
            1 if !alphabet.is_empty() => generate::different_page(&mut self.random, alphabet),
            _ => self.characters(alphabet),
        };
        let lengths = [(); 2].map(|()| match self.random.below(20) {
            0 => self.random.below(page.len() + 1),
            1..=5 => page.len() + self.random.between(1, 9),
            _ => page.len(),
        });
        self.page_by(words, order, &page, lengths);
    }

    /// A lent slice with its order, at times too short, and with one that is mostly not its own.
    fn ordered(&mut self, words: &[u32], alphabet: &[u32]) {
        let length = match self.random.below(20) {
            0 => *self.random.pick(&[0, 1, ORDER_WORDS / 2]),
            1 => ORDER_WORDS - 1,
            2..=5 => ORDER_WORDS + self.random.between(1, 40),
            _ => ORDER_WORDS,
        };
        let mut order = self.order(words, length);
        let rising = reference::rising(sound_pairs(words));
        if self.random.percent(50) && rising.len() <= order.len() {
            // Of a table at fault, the order of the pairs before it.
            order[..rising.len()].copy_from_slice(&rising);
        }
        self.by_order(words, &order, alphabet);
        generate::damage_order(&mut self.random, &mut order, rising.len());
        self.by_order(words, &order, alphabet);
    }

    /// A windows call, and where it is accepted one page call for each window.
    fn windows(&mut self, words: &[u32], characters: &[u32], windows: &[Window], lengths: [usize; 2]) {
        let at_once =
            |side: &Side, cells: &mut [u8], rules: &mut [u8]| (side.windows)(words, characters, windows, cells, rules);
        let one_by_one = |side: &Side, cells: &mut [u8], rules: &mut [u8]| {
            side.page_by_window(words, characters, windows, cells, rules)
        };
        let input = || format!("windows {windows:X?}, characters {characters:X?}, {}", Self::table_shown(words));
        let (before, expected) = self.showing(WINDOWS, lengths, &at_once, &input);
        self.tally_lent(words, expected.0);
        if expected.0.is_ok() {
            self.fill_as(PAGE, &before, &one_by_one, &expected, &|| format!("beside a windows call, {}", input()));
            self.pages_beside += windows.len() as u64;
        }
        count_met(&mut self.windows_met, windows_meet(words, characters, windows, lengths, expected.0));
    }

    /// A page's characters; of 80 pages in a hundred all are scalars, of the others most.
    fn characters(&mut self, alphabet: &[u32]) -> Vec<u32> {
        let length = match self.random.below(8) {
            0 => 0,
            1 => self.random.between(20, 80),
            _ => self.random.between(1, 16),
        };
        let mut characters = Vec::new();
        let clean = self.random.percent(80);
        while characters.len() < length {
            let drawn = generate::query(&mut self.random, alphabet);
            if reference::scalar(drawn) || !clean {
                characters.push(drawn);
            }
        }
        characters
    }

    /// A page of some characters, at times with short buffers or with a character that is no scalar.
    fn any_page(&mut self, words: &[u32], alphabet: &[u32]) {
        let characters = self.characters(alphabet);
        let length = characters.len();
        let mut buffer = || match self.random.below(20) {
            0 => self.random.below(length + 1),
            1..=5 => length + self.random.between(1, 9),
            _ => length,
        };
        let (cells, rules) = (buffer(), buffer());
        self.page(words, &characters, cells, rules);
    }

    /// Windows of a page, at times beyond it, with short buffers or with characters that are no scalars.
    fn any_windows(&mut self, words: &[u32], alphabet: &[u32]) {
        let mut characters = self.characters(alphabet);
        let length = characters.len();
        if length > 0 && self.random.percent(25) {
            for _ in 0..self.random.between(1, 3) {
                characters[self.random.below(length)] = generate::non_scalar(&mut self.random);
            }
        }
        let windows = generate::windows(&mut self.random, length);
        let widths = widths_on(&windows, length);
        let lengths = [(); 2].map(|()| match self.random.below(20) {
            0 => 0,
            1 | 2 => widths.saturating_sub(1),
            3 => length,
            4..=8 => widths + self.random.between(1, 9),
            _ => widths,
        });
        self.windows(words, &characters, &windows, lengths);
    }

    /// A few calls on a lent slice.
    fn lent(&mut self, words: &[u32], alphabet: &[u32]) {
        match self.random.below(10) {
            0..=2 => self.page(words, &[], 0, 0),
            3 | 4 => self.any_page(words, alphabet),
            5 | 6 => self.any_windows(words, alphabet),
            7 | 8 => {
                let character = generate::query(&mut self.random, alphabet);
                let _ = self.look_up(words, character);
            }
            _ => {
                let cell = self.random.byte();
                self.typed(words, cell);
                self.any_entries(words);
            }
        }
        self.list(words);
        self.ordered(words, alphabet);
    }

    fn length_of_slice(&mut self) -> usize {
        match self.random.below(10) {
            0 => WORDS + 1,
            1 => WORDS + 2,
            2 => WORDS + self.random.below(200),
            _ => WORDS,
        }
    }

    fn short_length(&mut self) -> usize {
        *self.random.pick(&[0, 1, 1024, 2046, 2047, 2048, 2049, 2049])
    }

    /// A line of `count` words, those of the case, with any blanks; without its end.
    fn line(&mut self, words: &[&str], count: u32, case: u64) -> String {
        let mut line = self.random.pick(&["", "", " ", "\t "]).to_string();
        let mut rest = case as usize;
        for _ in 0..count {
            line += words[rest % words.len()];
            line += *self.random.pick(&[" ", " ", "\t", "  "]);
            rest /= words.len();
        }
        line.truncate(line.trim_end_matches([' ', '\t']).len());
        line
    }

    fn line_end(&mut self) -> &'static str {
        LINE_ENDS[self.random.below(LINE_ENDS.len())]
    }

    /// Everything on one text.
    fn text(&mut self, text: &generate::Text, lookups: usize, all_cells: bool, damaged: usize) {
        let length = self.length_of_slice();
        let (words, count) = self.compile(text.set, &text.bytes, length);
        self.texts.count(count.is_some());
        if text.depth > 0 {
            self.with_blocks.count(count.is_some());
        }
        if text.depth == CONDITIONS {
            self.full_depth.count(count.is_some());
        }
        if self.random.percent(4) {
            let length = self.short_length();
            self.compile(text.set, &text.bytes, length);
        }
        if self.random.percent(20) {
            // Made for one set, read in either.
            let set = self.any_set();
            self.compile(set, &text.bytes, WORDS);
        }
        let Some(count) = count else {
            return;
        };
        let kept = words.clone();
        for _ in 0..lookups {
            let character = generate::query(&mut self.random, &text.alphabet);
            let _ = self.look_up(&words, character);
        }
        self.any_page(&words, &text.alphabet);
        for _ in 0..2 {
            self.any_windows(&words, &text.alphabet);
        }
        if all_cells {
            self.typed_all(&words);
        } else {
            let cell = match count {
                0 => self.random.byte(),
                _ => words[2 * self.random.below(count) + 1] as u8,
            };
            self.typed(&words, cell);
            self.any_entries(&words);
        }
        self.list(&words);
        self.ordered(&words, &text.alphabet);
        if self.random.percent(4) {
            let length = self.short_length();
            self.lent(&words[..length], &text.alphabet);
        }
        if words != kept {
            self.differ(&self.sides[0].clone(), LOOK_UP, "nothing written", "the table changed", || shown(&text.bytes));
        }
        for _ in 0..damaged {
            let mut words = words.clone();
            generate::damage_table(&mut self.random, &mut words, count);
            self.lent(&words, &text.alphabet);
        }
    }

    /// A text and its first part of that length: by the lines behind that part no character gets a higher rule, or another
    /// cell by the same rule; none gets another answer without a line for a character that its lookup goes by; and a cell
    /// goes on typing what it typed.
    fn growth(&mut self, text: &generate::Text, first: usize) {
        let set = text.set;
        let (words, count) = self.compile(set, &text.bytes[..first], WORDS);
        let (grown_words, grown_count) = self.compile(set, &text.bytes, WORDS);
        let (Some(count), Some(grown_count)) = (count, grown_count) else {
            return;
        };
        let added: Vec<u32> = grown_words[2 * count..2 * grown_count].iter().step_by(2).copied().collect();
        let side = self.sides[0];
        let input = || format!("the first {first} bytes of \"{}\" in set {}", shown(&text.bytes), set.number());
        for _ in 0..16 {
            let character = generate::query(&mut self.random, &text.alphabet);
            let answers = (self.look_up(&words, character), self.look_up(&grown_words, character));
            let (Ok(before), Ok(after)) = answers else {
                continue;
            };
            let local = reference::local(character, set);
            let end = Pairs(&words[..2 * count]).walk(local).end;
            let asked = [reference::base(local), reference::stand_in(local)].into_iter().flatten();
            let touched = asked.chain([local, end, 0xFFFD, '?' as u32]).any(|asked| added.contains(&asked));
            let spoiled = after.rule > before.rule || after.rule == before.rule && after.cell != before.cell;
            if spoiled || !touched && after != before {
                self.differ(&side, LOOK_UP, before, after, || format!("growth, {character:X}, {}", input()));
            }
            let braille = leads_to_braille(Pairs(&grown_words[..2 * grown_count]), local);
            let met = growth_meets(character, before, after, braille);
            count_met(&mut self.growth_met[set as usize], met);
        }
        let [before, after] = [&words, &grown_words].map(|words| self.entries(words, CELLS));
        if before.iter().zip(&after).any(|(before, after)| *before != 0 && before != after) {
            self.differ(&side, ENTRIES, before, after, || format!("growth, {}", input()));
        }
        self.list(&grown_words);
    }

    /// Two lines in both sets and editions, and the characters of a page by them.
    fn two_lines(&mut self, page: &[u32], text: &str) {
        for set in Set::ALL {
            self.byte_table(set, text.as_bytes());
            let (words, count) = self.compile(set, text.as_bytes(), WORDS);
            if count.is_some() {
                for character in page {
                    let _ = self.look_up(&words, *character);
                }
                self.page(&words, page, page.len(), page.len());
                self.entries(&words, CELLS);
                self.list(&words);
            }
        }
    }

    /// A character as the operand of definitions and conditions, and in pairs of lent tables.
    fn as_operand(&mut self, character: u32) {
        let set = self.any_set();
        let word = format!("\\U{character:08X}");
        for text in ["alias z _\nifGlyph z char b 1\n", "glyph _ 12\nifGlyph _ char b 1\n"] {
            let (words, count) = self.compile(set, text.replace('_', &word).as_bytes(), WORDS);
            if count.is_some() {
                self.page(&words, &['z' as u32, character], 2, 2);
            }
        }
        for pair in [[character, 2 << 24 | 3], ['z' as u32, 3 << 24 | character]] {
            let words = table_of(&pair, [set.number(), 0]);
            let _ = self.look_up(&words, 'z' as u32);
            self.list(&words);
        }
    }

    /// A table of each length around that of a table, with these two words last.
    fn last_words(&mut self, pairs: &[u32], last: [u32; 2]) {
        let mut words = table_of(pairs, last);
        words.extend(self.random_words(2));
        for length in SET_WORD - 1..=words.len() {
            let words = &words[..length];
            let _ = self.look_up(words, 0xF0A4);
            self.typed(words, 1);
            self.entries(words, CELLS);
            self.page(words, &[0xF0BE, 0xD800], 2, 2);
            self.windows(words, &[0xF0A4, 0x20AC, 0xA4], &[Window { start: 0, width: 3 }], [3, 3]);
            self.list(words);
            let order = self.order(words, ORDER_WORDS);
            self.search(words, &order, 0x20AC);
            self.look_up_by(words, &order, 0xF0A4);
            self.page_by(words, &order, &[0xF0BE, 0xF0A4, 0xD800], [3, 3]);
        }
    }

    /// Single bytes of an attributes text, and all in a buffer of any length.
    fn attributes(&mut self, text: &[u8]) {
        let (placed, start) = self.place_bytes(text);
        let text = &placed[start..start + text.len()];
        for _ in 0..2 {
            let byte = self.random.byte();
            let answer = self.asking(
                ATTRIBUTE_CELL,
                |side| (side.attribute_cell)(text, byte),
                |side| {
                    let cell = |side: &Side, text: &[u8]| ((side.attribute_cell)(text, byte), ());
                    format!("byte {byte:02X}, {}", differing(text, side, cell))
                },
            );
            self.tally_column(ATTRIBUTES_TABLE, text, &answer);
        }
        let length = *self.random.pick(&LENGTHS);
        let before = self.random_bytes(length + 2 * GUARD);
        let call = |side: &Side, cells: &mut [u8]| (side.attribute_cells)(text, cells);
        let _ = self.filling(ATTRIBUTE_CELLS, &before, call, |_| shown(text));
    }

    fn attributes_all(&mut self, text: &[u8]) {
        let pattern = self.random_bytes(LENGTHS[3] + 2 * GUARD);
        self.all_at_once(
            [ATTRIBUTE_CELL, ATTRIBUTE_CELLS],
            &pattern,
            |side, byte| (side.attribute_cell)(text, byte),
            |side, cells| (side.attribute_cells)(text, cells),
            || shown(text),
        );
    }
}

/// A table of these pairs with these two words last.
fn table_of(pairs: &[u32], last: [u32; 2]) -> Vec<u32> {
    let mut words = pairs.to_vec();
    words.resize(SET_WORD, 0);
    words.extend(last);
    words
}

/// Characters of up to three pairs in every sequence, and with one twice.
const SMALL_TABLES: [&[u32]; 13] = [
    &[],
    &[0x61],
    &[0x63],
    &[0x61, 0x63],
    &[0x63, 0x61],
    &[0x61, 0x63, 0x65],
    &[0x61, 0x65, 0x63],
    &[0x63, 0x61, 0x65],
    &[0x63, 0x65, 0x61],
    &[0x65, 0x61, 0x63],
    &[0x65, 0x63, 0x61],
    &[0x61, 0x63, 0x61],
    &[0x61, 0x61],
];

/// These characters and their neighbours, so far as they are scalars; never none.
fn about(characters: &[u32]) -> Vec<u32> {
    let near = characters.iter().flat_map(|character| [character.wrapping_sub(1), *character, character + 1]);
    let all: BTreeSet<u32> = near.chain([0x61]).filter(|character| reference::scalar(*character)).collect();
    all.into_iter().collect()
}

fn sides_of(case: u64) -> Vec<Side> {
    // The hashed side is looked at now and then, for the benchmark's sake.
    match case % 16 {
        0 => vec![LIBRARY, HASHED],
        _ => vec![LIBRARY],
    }
}

fn main() {
    let seed: u64 = match std::env::var("HEATHDAPPLE_SEED") {
        Ok(seed) => seed.parse().expect("HEATHDAPPLE_SEED is a number"),
        Err(_) => 1,
    };
    println!("comparing {} with the reference, seed {seed}", sides_of(1)[0].name);
    let mut run = Run {
        sides: Vec::new(),
        random: Random::new(0),
        case: String::new(),
        calls: [0; CALLS.len()],
        refusals: [[0; REFUSALS + 1]; CALLS.len()],
        columns: Default::default(),
        bytes_met: [("", 0); BYTES_MEET],
        windows_met: [("", 0); WINDOWS_MEET],
        sets_met: [[[("", 0); SETS_MEET]; 2]; WITH_COLUMN.len()],
        lent_met: [("", 0); LENT_MEET],
        walks_met: [("", 0); WALKS_MEET],
        lists_met: [("", 0); LISTS_MEET],
        orders_met: [("", 0); ORDERS_MEET],
        found: [0; COMPARISONS + 1],
        not_found: [0; COMPARISONS + 1],
        rows_met: [[("", 0); ROWS_MEET]; 2],
        growth_met: [[("", 0); GROWTH_MEETS]; 2],
        pages_beside: 0,
        plain_beside: 0,
        read_back: 0,
        rules: [0; 32],
        links: 0,
        texts: Share::default(),
        with_blocks: Share::default(),
        full_depth: Share::default(),
        byte_texts: Share::default(),
        differences: 0,
    };
    let begun = Instant::now();
    let mut part = |name: &str, part: u64, cases: u64, each: &dyn Fn(&mut Run, u64)| {
        let begun = Instant::now();
        let part_seed = Random::new(seed).bits() ^ Random::new(part << 40).bits();
        for case in 0..cases {
            if run.differences >= ENOUGH {
                println!("  {name}: stopped at case {case}");
                return;
            }
            run.sides = sides_of(case);
            run.random = Random::new(Random::new(part_seed.wrapping_add(case)).bits());
            run.case = format!("seed {seed}, {name} {case}");
            each(&mut run, case);
        }
        println!("  {name:<18} {cases:>7} cases, seed {part_seed:016x}, {:.1} s", begun.elapsed().as_secs_f64());
    };

    part("texts", 1, TEXTS, &|run, case| {
        let text = generate::text(&mut run.random);
        run.text(&text, 5, case % 32 == 0, usize::from(case % 2 == 0));
    });
    part("long texts", 2, LONG_TEXTS, &|run, _| {
        let text = generate::long_text(&mut run.random);
        run.text(&text, 1, false, 0);
    });
    part("large texts", 3, LARGE_TEXTS, &|run, case| {
        let text = generate::large_text(&mut run.random);
        run.text(&text, 2, case == 0, 2);
    });
    part("chains", 4, CHAIN_TEXTS, &|run, _| {
        let links = run.random.between(1, 120);
        let text = generate::chain_text(&mut run.random, links);
        run.text(&text, 4, false, 4);
    });
    part("long chains", 5, LONG_CHAINS, &|run, case| {
        let links = if case == 0 { PAIRS - 1 } else { 400 };
        let text = generate::backward_chain_text(links);
        let set = run.any_set();
        let (words, count) = run.compile(set, text.as_bytes(), WORDS);
        assert_eq!(count, Some(links + 1));
        let _ = run.look_up(&words, 0x400);
        run.page(&words, &[0x400, 0xF041, 0x401], 3, 3);
        let order = run.order(&words, ORDER_WORDS);
        run.page_by(&words, &order, &[0x400, 0xF041, 0x401, 0x400], [4, 5]);
        run.windows(
            &words,
            &[0x401, 0xF041, 0x400],
            &[Window { start: 2, width: 1 }, Window { start: 0, width: 3 }],
            [4, 4],
        );
        run.list(&words);
        run.compile(set, format!("{text}alias \\u0400 a\n").as_bytes(), WORDS);
    });
    part("tables", 6, TABLES, &|run, case| {
        let mut words = vec![0; run.length_of_slice()];
        let alphabet = generate::any_table(&mut run.random, &mut words[..WORDS]);
        if run.random.percent(15) {
            generate::damage_set(&mut run.random, &mut words);
        }
        for _ in 0..2 {
            run.lent(&words, &alphabet);
        }
        if case % 40 == 0 {
            run.typed_all(&words);
        }
        if case % 400 == 0 {
            let length = run.short_length();
            run.typed_all(&words[..length]);
        }
    });
    part("windows", 12, TABLES_FOR_WINDOWS, &|run, _| {
        let mut words = vec![0; run.length_of_slice()];
        let alphabet = generate::any_table(&mut run.random, &mut words[..WORDS]);
        if run.random.percent(10) {
            let length = run.short_length();
            words.truncate(length);
        }
        for _ in 0..4 {
            run.any_windows(&words, &alphabet);
        }
    });
    part("any two windows", 13, (SMALL_WINDOWS as u64).pow(2), &|run, case| {
        let case = case as usize;
        let windows: Vec<Window> =
            [case % SMALL_WINDOWS, case / SMALL_WINDOWS].into_iter().filter_map(small_window).collect();
        let set = run.any_set();
        let (sound, _) = run.compile(set, b"char a 1\nchar b 12\n", WORDS);
        let mut broken = sound.clone();
        broken[*run.random.pick(&[3, SET_WORD])] = 0;
        // Pages of up to three characters, each shown by its own cell and rule or no scalar.
        for length in 0..=3 {
            for damaged in 0..1 << length {
                let character = |k: usize| if damaged >> k & 1 == 1 { 0xD800 } else { [0x61, 0x2806, 0xF062][k] };
                let page: Vec<u32> = (0..length).map(character).collect();
                for lengths in 0..64 {
                    run.windows(&sound, &page, &windows, [lengths / 8, lengths % 8]);
                }
                for lengths in [[0, 0], [7, 7]] {
                    run.windows(&broken, &page, &windows, lengths);
                    run.windows(&sound[..WORDS - 1], &page, &windows, lengths);
                }
            }
        }
    });
    part("any five lines", 11, (BLOCK_LINES.len() as u64).pow(5), &|run, case| {
        let mut rest = case as usize;
        let mut text = String::new();
        for _ in 0..5 {
            text += BLOCK_LINES[rest % BLOCK_LINES.len()];
            rest /= BLOCK_LINES.len();
        }
        let set = run.any_set();
        run.compile(set, text.as_bytes(), WORDS);
    });
    part("any five words", 14, (LINE_WORDS.len() as u64).pow(5), &|run, case| {
        let text = BEFORE_WORDS.to_string() + &run.line(&LINE_WORDS, 5, case) + run.line_end();
        let set = run.any_set();
        run.compile(set, text.as_bytes(), WORDS);
    });
    part("any four words", 15, (ATTRIBUTES_WORDS.len() as u64).pow(4), &|run, case| {
        let text = BEFORE_ATTRIBUTES_WORDS.to_string() + &run.line(&ATTRIBUTES_WORDS, 4, case) + run.line_end();
        run.attributes(text.as_bytes());
    });
    part("byte table words", 17, (BYTE_WORDS.len() as u64).pow(5), &|run, case| {
        let line = BEFORE_BYTE_WORDS.to_string() + &run.line(&BYTE_WORDS, 5, case);
        // Up to three words with every end.
        let few = case < (BYTE_WORDS.len() as u64).pow(3);
        let ends = if few { LINE_ENDS.to_vec() } else { vec![run.line_end()] };
        for end in ends {
            let set = run.any_set();
            run.byte_table(set, (line.clone() + end).as_bytes());
        }
    });
    part("any two bytes", 8, 1 << 16, &|run, case| {
        let two = [(case >> 8) as u8, case as u8];
        let set = run.any_set();
        run.compile(set, &[b"char ", two.as_slice(), b" 1"].concat(), WORDS);
        run.compile(set, &[b"ifNotGlyph a char a ", two.as_slice()].concat(), WORDS);
        for front in ["", "byte ", "\\", "byte \\x", "\\X"] {
            run.byte_table(set, &[front.as_bytes(), two.as_slice(), b" 1"].concat());
        }
        for front in ["a ", "dot ", "dot 1 o"] {
            run.byte_table(set, &[front.as_bytes(), two.as_slice()].concat());
        }
    });
    part("UTF-8 sequences", 9, 64 * 1000, &|run, case| {
        // Each lead byte with continuations at the borders of what may follow.
        let at = |k: u64| [0x0A, 0x7F, 0x80, 0x8F, 0x90, 0x9F, 0xA0, 0xBF, 0xC0, 0xFF][(k % 10) as usize];
        let sequence = [0xC0 + (case / 1000) as u8, at(case), at(case / 10), at(case / 100)];
        let kept = 1 + run.random.below(4);
        let front = *run.random.pick(&["#", "# é", "#€", "#𝄞", "#é€𝄞"]);
        let comment = [front.as_bytes(), &sequence[..kept]].concat();
        let set = run.any_set();
        run.compile(set, &comment, WORDS);
        run.compile(set, &[b"glyph ", sequence.as_slice(), b" 1"].concat(), WORDS);
        run.byte_table(set, &comment);
        run.byte_table(set, &[sequence.as_slice(), b" 1"].concat());
    });
    part("every character", 10, 8, &|run, case| {
        let texts = [
            "",
            "char A 1\nchar C 2\nchar E 3\nchar I 4\nchar N 5\nchar O 6\nchar U 7\nchar Y 8\nchar a 12\nchar c 13\nchar e 14\n\
             char i 15\nchar n 16\nchar o 17\nchar u 18\nchar y 23\nchar x 24\nchar s 25\nchar \\s 26\nchar - 27\nchar ' 28\n\
             char \" 34\nchar \\uFFFD 35\nchar ? 36\nalias \\u00E4 \\uF041\nalias ā \\u28FF\nchar S 38\nchar Z 45\nchar z 46\n",
            "char ? 1\nalias \\uFFFD \\u2801\nglyph \\uF041 2\nalias O \\u2841\nalias \\uF0E4 O\nalias B \\uF041\nalias a \\u0301\n\
             alias C \\uF0E4\n",
            "byte \\xA4 1\nbyte \\xA6 2\nglyph \\xA8 3\nglyph š 4\nalias \\xB4 ž\nalias ž Œ\nchar Œ 5\nchar \\xBD 6\nbyte \\o276 7\n",
        ];
        let set = Set::ALL[case as usize / texts.len()];
        let (words, count) = run.compile(set, texts[case as usize % texts.len()].as_bytes(), WORDS);
        assert!(count.is_some());
        let page: Vec<u32> = (0..0x11_0000).filter(|character| reference::scalar(*character)).collect();
        run.page(&words, &page, page.len(), page.len());
        let half = page.len() / 2;
        let halves = [Window { start: half, width: page.len() - half }, Window { start: 0, width: half }];
        run.windows(&words, &page, &halves, [page.len(); 2]);
        for character in (0xD7FF..=0xE000).chain(0x10_FFFF..0x11_0100).chain(0..0x180).chain(0xF000..0xF100) {
            let _ = run.look_up(&words, character);
        }
    });
    part("attributes texts", 7, ATTRIBUTES_TEXTS, &|run, case| {
        let text = generate::attributes_text(&mut run.random);
        match case % 25 {
            0 => run.attributes_all(&text),
            _ => run.attributes(&text),
        }
    });
    part("byte texts", 16, BYTE_TEXTS, &|run, case| {
        let (text, set) = generate::byte_text(&mut run.random);
        run.byte_texts.count(reference::byte_table(set, &text).0.is_ok());
        match case % 8 {
            0 => run.byte_table_all(set, &text),
            _ => run.byte_table(set, &text),
        }
        if run.random.percent(20) {
            // Made for one set, read in either.
            let set = run.any_set();
            run.byte_table(set, &text);
        }
    });
    part("editions", 18, TEXTS_FOR_EDITIONS, &|run, case| {
        let text = match case % 10 {
            0 => generate::long_text(&mut run.random).bytes,
            1..=3 => generate::text(&mut run.random).bytes,
            4..=6 => generate::attributes_text(&mut run.random),
            _ => generate::byte_text(&mut run.random).0,
        };
        run.editions(&text);
    });
    part("characters as bytes", 19, 1 << 16, &|run, case| {
        let Some(character) = char::from_u32(case as u32) else {
            return;
        };
        for set in Set::ALL {
            run.compile(set, format!("byte {character} 1").as_bytes(), WORDS);
            run.byte_table(set, format!("{character} 1").as_bytes());
        }
    });
    part("any operand", 23, 1 << 16, &|run, case| {
        // Of the first plane each, and one of another with the same low bits.
        let other = run.random.between(1, 16) as u32;
        for character in [case as u32, other << 16 | case as u32].into_iter().filter(|one| reference::scalar(*one)) {
            run.as_operand(character);
        }
    });
    let lines_about = (FORMS.len() * operands_about(DIFFERENCES[0]).len()).pow(2);
    part("any two lines", 20, (DIFFERENCES.len() * lines_about) as u64, &|run, case| {
        let case = case as usize;
        let byte = DIFFERENCES[case / lines_about];
        run.two_lines(&page_about(byte), &two_forms(&operands_about(byte), case % lines_about));
    });
    part("any two of rows", 24, (FORMS.len() * ABOUT_ROWS.len()).pow(2) as u64, &|run, case| {
        run.two_lines(&ABOUT_ROWS, &two_forms(&ABOUT_ROWS.map(raw), case as usize));
    });
    part("full tables", 25, (LAST_LINES.len() * BEFORE_LAST.len()) as u64, &|run, case| {
        let case = case as usize;
        let (before, last) = (BEFORE_LAST[case % BEFORE_LAST.len()], LAST_LINES[case / BEFORE_LAST.len()]);
        for count in [PAIRS - 1, PAIRS] {
            let pairs: String = (0..count).map(|k| format!("glyph \\u{:04X} 1\n", 0x4000 + k)).collect();
            for set in Set::ALL {
                let (words, count) = run.compile(set, format!("{pairs}{before}{last}").as_bytes(), WORDS);
                if count.is_some() {
                    run.list(&words);
                }
            }
        }
    });
    part("last words", 21, 300 + 96 + 4, &|run, case| {
        let case = case as u32;
        let set = match case {
            0..300 => case,
            300..396 => (1 << (case % 32)) | ((case - 300) / 32),
            _ => u32::MAX - (case - 396),
        };
        // A sound pair, none, and each of several first pairs at fault.
        let tables: [&[u32]; 6] = [
            &[0x20AC, 0x0100_0001],
            &[],
            &[0x20AC, 0],
            &[0x20AC, 0x0100_0001, 0x20AC, 0x0100_0001],
            &[0x20AC, 0x0300_00A4, 0xA4, 0x0300_20AC],
            &[0, 0, 0x20AC, 0x0100_0001],
        ];
        for pairs in tables {
            for zero in [0, 1, 2, 1 << 31, u32::MAX] {
                run.last_words(pairs, [set, zero]);
                run.last_words(pairs, [zero, set]);
            }
        }
    });
    part("any line", 26, 3 * 256, &|run, case| {
        // Each kind with each cell, and as many aliases, in every buffer up to one that is too long.
        let (kind, number) = (1 + case as u32 / 256, case as u32 % 256);
        let number = if kind == 3 { generate::any_scalar(&mut run.random) } else { number };
        let set = run.any_set().number();
        let words = table_of(&[generate::any_scalar(&mut run.random), kind << 24 | number], [set, 0]);
        let needed = reference::listing(sound_pairs(&words)).len();
        for length in 0..=needed + 2 {
            run.list_into(&words, length, needed);
        }
    });
    part("orders", 27, TABLES_TO_ORDER, &|run, case| {
        let count = match COUNTS.get(case as usize % (COUNTS.len() + 2)) {
            Some(count) => *count,
            None => run.random.between(0, 300),
        };
        let mut words = generate::table_to_order(&mut run.random, count);
        let defined = characters_of(&words);
        let about = about(&defined);
        let order = run.order(&words, ORDER_WORDS);
        for place in [0, 1, count / 2, count.saturating_sub(2), count.saturating_sub(1)] {
            if let Some(pair) = order[..count].get(place) {
                let character = defined[*pair as usize];
                for character in [character.wrapping_sub(1), character, character + 1] {
                    run.search(&words, &order, character);
                }
            }
        }
        for character in [0, 0xF000, 0x10_FFFF] {
            run.search(&words, &order, character);
        }
        run.ordered(&words, &about);
        for length in [ORDER_WORDS - 1, run.random.below(ORDER_WORDS)] {
            run.order(&words, length);
            run.by_order(&words, &order[..length], &about);
        }
        if run.random.percent(30) {
            generate::damage_table(&mut run.random, &mut words, count);
            run.by_order(&words, &order, &about);
            run.ordered(&words, &about);
        }
    });
    part("every search", 28, 3 * COUNTS.len() as u64, &|run, case| {
        let words = generate::table_to_order(&mut run.random, COUNTS[case as usize % COUNTS.len()]);
        let order = run.order(&words, ORDER_WORDS);
        let page = about(&characters_of(&words));
        for character in &page {
            run.search(&words, &order, *character);
        }
        run.page_by(&words, &order, &page, [page.len(); 2]);
    });
    part("small orders", 29, (ORDER_NUMBERS.len() as u64).pow(3), &|run, case| {
        // Every three numbers as the order of up to three pairs in any sequence, sound or with one at fault.
        let mut order = run.random_words(ORDER_WORDS);
        let case = case as usize;
        let base = ORDER_NUMBERS.len();
        for (place, which) in [case % base, case / base % base, case / base / base].into_iter().enumerate() {
            order[place] = ORDER_NUMBERS[which];
        }
        for characters in SMALL_TABLES {
            let pairs: Vec<u32> = characters.iter().flat_map(|character| [*character, 1 << 24 | 5]).collect();
            for last in [[1, 0], [2, 0], [1, 1]] {
                let words = table_of(&pairs, last);
                for character in [0x60, 0x61, 0x62, 0x63, 0x64, 0x65, 0x66, 0xF063, 0x2800, 0xDFFF] {
                    run.search(&words, &order, character);
                    run.look_up_by(&words, &order, character);
                }
                run.page_by(&words, &order, &[0x61, 0x63, 0x65, 0x62, 0xF061], [5, 5]);
            }
        }
    });
    part("growth", 22, GROWING_TEXTS, &|run, _| {
        let (text, first) = generate::growing_text(&mut run.random);
        run.growth(&text, first);
    });

    run.texts.print("texts of tables");
    run.with_blocks.print("  of these with blocks");
    run.full_depth.print(&format!("  of these {CONDITIONS} deep"));
    run.byte_texts.print("texts of byte tables");
    println!("longest walk looked up: {}", run.links);
    let all_calls: u64 = run.calls.iter().sum();
    println!("calls compared: {all_calls}");
    print!("  {:<12}", "");
    CALLS.iter().for_each(|call| print!("{call:>12}"));
    println!("{:>12}", "all");
    print!("  {:<12}", "calls");
    run.calls.iter().for_each(|count| print!("{count:>12}"));
    println!("{all_calls:>12}");
    let (mut short, mut rare) = (Vec::new(), Vec::new());
    for number in 1..=REFUSALS {
        let counts: Vec<u64> = run.refusals.iter().map(|call| call[number]).collect();
        let all: u64 = counts.iter().sum();
        print!("  refusal {number:<4}");
        counts.iter().for_each(|count| print!("{count:>12}"));
        println!("{all:>12}");
        if all < LEAST {
            short.push(format!("refusal {number}"));
        }
    }
    let tables = [(TEXT_TABLE, "text tables"), (ATTRIBUTES_TABLE, "attributes tables"), (BYTE_TABLE, "byte tables")];
    for (table, name) in tables {
        println!("columns of refusals of {name}, what is before them on the line, and how it ends:");
        print!("  {:<12}{:>12}{:>12}", "", "refusals", "columns");
        column_meets(b"", 1).iter().for_each(|(name, _)| print!("{name:>12}"));
        println!();
        for &number in WITH_COLUMN[table] {
            let Columns { refusals, columns, met } = &run.columns[table][number];
            print!("  refusal {number:<4}{refusals:>12}{:>12}", columns.len());
            met.iter().for_each(|(_, count)| print!("{count:>12}"));
            println!();
            if *refusals < LEAST {
                short.push(format!("refusal {number} of {name}"));
            }
            // 3 is always at the same.
            if number != 3 && columns.len() < SEVERAL {
                rare.push(format!("columns of refusal {number} of {name}"));
            }
            for (fact, count) in columns_due(table, number).iter().map(|which| met[*which]) {
                if count < FEW {
                    rare.push(format!("refusal {number} of {name}, {fact}"));
                }
            }
        }
    }
    for rule in RULES {
        println!("  rule {rule:<4} {:>12}", run.rules[rule]);
        if run.rules[rule] < LEAST {
            short.push(format!("rule {rule}"));
        }
    }
    let others: u64 = (0..run.rules.len()).filter(|rule| !RULES.contains(rule)).map(|rule| run.rules[rule]).sum();
    let mut print_met = |call: &str, met: &[(&str, u64)]| {
        for (name, count) in met {
            println!("  {name:<45} {count:>12}");
            if *count < LEAST {
                short.push(format!("{call}, {}", name.trim()));
            }
        }
    };
    println!("windows calls: {}, {} page calls beside those accepted", run.calls[WINDOWS], run.pages_beside);
    print_met("windows call", &run.windows_met);
    println!("list calls: {}, {} texts read back", run.calls[LIST], run.read_back);
    print_met("list call", &run.lists_met);
    let by_order: u64 = run.calls[SEARCH..=PAGE_BY].iter().sum();
    println!("calls by order: {by_order}, {} plain ones beside those accepted", run.plain_beside);
    print_met("call by order", &run.orders_met);
    // What is found takes a comparison.
    let found = (1..=COMPARISONS).map(|count| (format!("found by comparison {count}"), run.found[count]));
    let not_found = (0..=COMPARISONS).map(|count| (format!("not found by {count} comparisons"), run.not_found[count]));
    let searches: Vec<(String, u64)> = found.chain(not_found).collect();
    let searches: Vec<(&str, u64)> = searches.iter().map(|(name, count)| (name.as_str(), *count)).collect();
    print_met("search", &searches);
    println!("compile calls by edition 1: {}", run.calls[COMPILE_BYTES]);
    print_met("compile call by edition 1", &run.bytes_met);
    println!("calls on lent tables, their length, last words and rows:");
    print_met("lent table", &run.lent_met);
    println!("lookups of walks into the braille row:");
    print_met("walk into the braille row", &run.walks_met);
    for (which, set) in ["ISO 8859-1", "ISO 8859-15"].into_iter().enumerate() {
        for (table, name) in [(TEXT_TABLE, "text tables"), (BYTE_TABLE, "byte tables")] {
            println!("{name} in {set}, around the bytes in which the sets differ:");
            let met: Vec<_> = sets_due(table).iter().map(|fact| run.sets_met[table][which][*fact]).collect();
            print_met(&format!("{name} in {set}"), &met);
        }
        println!("text tables in {set}, around the braille row and the private row:");
        print_met(&format!("rows in {set}"), &run.rows_met[which]);
        println!("tables in {set} that grow:");
        print_met(&format!("growth in {set}"), &run.growth_met[which]);
    }
    println!("time {:.1} s, differences {}", begun.elapsed().as_secs_f64(), run.differences);

    let mut failed = false;
    let mut fail = |why: String| {
        println!("FAILED: {why}");
        failed = true;
    };
    if run.differences > 0 {
        fail(format!("{} differences", run.differences));
    }
    if !short.is_empty() {
        fail(format!("seen less than {LEAST} times: {}", short.join(", ")));
    }
    if !rare.is_empty() {
        fail(format!("less than {SEVERAL} columns, or seen less than {FEW} times: {}", rare.join(", ")));
    }
    if 2 * run.texts.accepted < run.texts.all {
        fail("less than half of the texts were accepted".into());
    }
    if 2 * run.with_blocks.accepted < run.with_blocks.all {
        fail("less than half of the texts with blocks were accepted".into());
    }
    if 2 * run.byte_texts.accepted < run.byte_texts.all {
        fail("less than half of the texts of byte tables were accepted".into());
    }
    if run.texts.all < 100_000 {
        fail("less than 100,000 texts".into());
    }
    if run.with_blocks.all < 50_000 {
        fail("less than 50,000 texts with blocks".into());
    }
    if run.full_depth.accepted < LEAST {
        fail(format!("less than {LEAST} accepted texts with blocks {CONDITIONS} deep"));
    }
    if others > 0 {
        fail("a rule number that no lookup gives".into());
    }
    if failed {
        exit(1);
    }
    println!("compare: ok");
}
