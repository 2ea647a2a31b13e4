//! The worked examples and edges of document 01, the blocks, windows, columns, byte tables, character sets, aliases
//! into the braille row, listings and orders of document 02 and the settled readings, with the answers written out, on
//! every side.

use harness::reference::{
    self, Place, Refusal, Search, Shown, Window, BYTE_EDITION, ISO_8859_1, ISO_8859_15, LISTING_BYTES, TEXT_EDITION,
    WORDS,
};
use harness::side::SIDES;
use std::fmt::Debug;

const SMALL: &str = "char a 1\nchar b (12)\nglyph A 17\nalias \\u00E4 a\nalias \\u03B1 \\u00E4\nchar ? 1456\n";

/// The sets, which most examples do not depend on: their texts have no byte in which the sets differ.
const SETS: [u32; 2] = [ISO_8859_1, ISO_8859_15];

type Answer = Result<u32, (u32, u32)>;

fn compiled_in(set: u32, text: &[u8]) -> Vec<u32> {
    let mut words = vec![7; WORDS];
    reference::compile(TEXT_EDITION, set, text, &mut words).expect("an accepted text");
    words
}

fn compiled(text: &[u8]) -> Vec<u32> {
    compiled_in(ISO_8859_1, text)
}

/// Number and place of a refusal, which has a column exactly if it is of a number with one.
fn pair(refusal: Refusal) -> (u32, u32) {
    assert_eq!(refusal.column > 0, matches!(refusal.number, 3..=13 | 16 | 17 | 22), "{refusal}");
    (refusal.number, refusal.place)
}

/// Compiles in a set on every side and looks at the answer and the words.
fn expect_in(set: u32, text: &[u8], answer: Answer, pairs: Option<&[[u32; 2]]>) {
    for side in SIDES {
        let mut words = vec![0xA5A5_A5A5; 2053];
        let got = (side.compile)(TEXT_EDITION, set, text, &mut words).map_err(pair);
        assert_eq!(got, answer, "{}: set {set}, {:?}", side.name, String::from_utf8_lossy(text));
        assert_eq!(words[2050..], [0xA5A5_A5A5; 3], "{}", side.name);
        match answer {
            Err((1, _)) => assert!(words.iter().all(|word| *word == 0xA5A5_A5A5), "{}", side.name),
            Err(_) => assert!(words[..2050].iter().all(|word| *word == 0), "{}", side.name),
            Ok(count) => {
                assert!(words[2 * count as usize..2048].iter().all(|word| *word == 0), "{}", side.name);
                assert_eq!(words[2048..2050], [set, 0], "{}", side.name);
            }
        }
        if let Some(pairs) = pairs {
            assert_eq!(words[..2 * pairs.len()], pairs.concat(), "{}: set {set}", side.name);
        }
    }
}

/// The same in every set.
fn expect_bytes(text: &[u8], answer: Answer, pairs: Option<&[[u32; 2]]>) {
    for set in SETS {
        expect_in(set, text, answer, pairs);
    }
}

fn accepts(text: &str, pairs: &[[u32; 2]]) {
    expect_bytes(text.as_bytes(), Ok(pairs.len() as u32), Some(pairs));
}

fn refuses(text: &str, number: u32) {
    expect_bytes(text.as_bytes(), Err((number, 1)), None);
}

fn refuses_at(text: &str, number: u32, line: u32) {
    expect_bytes(text.as_bytes(), Err((number, line)), None);
}

fn shows(text: &str, character: u32, cell: u8, rule: u8, links: u32) {
    for set in SETS {
        shows_in(set, text, character, cell, rule, links);
    }
}

fn shows_in(set: u32, text: &str, character: u32, cell: u8, rule: u8, links: u32) {
    let words = compiled_in(set, text.as_bytes());
    for side in SIDES {
        let shown = Ok(Shown { cell, rule, links });
        assert_eq!((side.look_up)(&words, character), shown, "{}: set {set}, {text:?} {character:X}", side.name);
        let (mut cells, mut rules) = ([9, 9], [9, 9]);
        assert_eq!((side.page)(&words, &[character], &mut cells, &mut rules), Ok(()), "{}", side.name);
        assert_eq!((cells, rules), ([cell, 9], [rule, 9]), "{}", side.name);
    }
}

fn types(text: &str, cell: u8, character: Option<u32>) {
    for set in SETS {
        types_in(set, text, cell, character);
    }
}

fn types_in(set: u32, text: &str, cell: u8, character: Option<u32>) {
    let words = compiled_in(set, text.as_bytes());
    for side in SIDES {
        assert_eq!((side.typed)(&words, cell), Ok(character), "{}: set {set}, {text:?} {cell:X}", side.name);
    }
}

fn char_pair(character: char, dots: u32) -> [u32; 2] {
    [character as u32, 0x0100_0000 + dots]
}

fn glyph_pair(character: char, dots: u32) -> [u32; 2] {
    [character as u32, 0x0200_0000 + dots]
}

fn alias_pair(character: char, target: char) -> [u32; 2] {
    [character as u32, 0x0300_0000 + target as u32]
}

#[test]
fn small_table() {
    accepts(
        SMALL,
        &[
            char_pair('a', 1),
            char_pair('b', 3),
            glyph_pair('A', 0x41),
            alias_pair('ä', 'a'),
            alias_pair('α', 'ä'),
            char_pair('?', 0x39),
        ],
    );
    shows(SMALL, 0x61, 0x01, 3, 0);
    shows(SMALL, 0xE4, 0x01, 4, 1);
    shows(SMALL, 0x3B1, 0x01, 4, 2);
    shows(SMALL, 0xE0, 0x01, 5, 0);
    shows(SMALL, 0xC5, 0x41, 5, 0);
    shows(SMALL, 0xE6, 0x01, 6, 0);
    shows(SMALL, 0xE9, 0x39, 8, 0);
    shows(SMALL, 0x2809, 0x09, 1, 0);
    shows(SMALL, 0xF061, 0x01, 19, 0);
    types(SMALL, 0x41, None);
    types(SMALL, 0x01, Some(0x61));
    shows("", 0x61, 0xFF, 9, 0);
}

#[test]
fn lengths() {
    let line = |length: usize| format!("char a 1{}", " ".repeat(length - 8));
    accepts(&line(1024), &[char_pair('a', 1)]);
    accepts(&format!("{}\r\n", line(1024)), &[char_pair('a', 1)]);
    accepts(&format!("{}\r", line(1024)), &[char_pair('a', 1)]);
    refuses(&line(1025), 3);
    refuses(&format!("{}\r\r\n", line(1024)), 3);
    refuses(&format!("#{}", "x".repeat(1024)), 3);
    refuses(&" ".repeat(1025), 3);
    expect_bytes(&[[0xFF; 1025].as_slice(), b"\n"].concat(), Err((3, 1)), None);
    accepts(&"\n".repeat(65_536), &[]);
    refuses_at(&"\n".repeat(65_537), 1, 0);
    refuses_at(&format!("{}x", "\n".repeat(65_535)), 5, 65_536);
    for side in SIDES {
        for length in [0, 1, 2047, 2048, 2049] {
            let mut words = vec![5; length];
            let short = Err(Refusal { number: 2, place: 0, column: 0 });
            assert_eq!((side.compile)(TEXT_EDITION, ISO_8859_1, b"", &mut words), short, "{}", side.name);
            assert_eq!((side.compile)(TEXT_EDITION, ISO_8859_1, &[b'\n'; 65_537], &mut words), short, "{}", side.name);
            assert!(words.iter().all(|word| *word == 5), "{}", side.name);
            assert_eq!((side.look_up)(&words, 0xD800).map_err(pair), Err((2, 0)), "{}", side.name);
            assert_eq!((side.typed)(&words, 0).map_err(pair), Err((2, 0)), "{}", side.name);
        }
    }
}

#[test]
fn count_of_definitions() {
    let text = |count: u32| -> String { (0..count).map(|k| format!("glyph \\u{:04X} 1\n", 0x4000 + k)).collect() };
    expect_bytes(text(1024).as_bytes(), Ok(1024), None);
    refuses_at(&text(1025), 13, 1025);
    let full = text(1024);
    expect_bytes(format!("{full}ifCell 1 char a 1").as_bytes(), Ok(1024), None);
    refuses_at(&format!("{full}ifNotCell 1 char a 1"), 13, 1025);
    refuses_at(&format!("{full}char \\u4000 1"), 11, 1025);
    refuses_at(&format!("{full}alias a a"), 12, 1025);
}

#[test]
fn lines() {
    accepts("", &[]);
    accepts("\r", &[]);
    accepts("\n\r", &[]);
    accepts(" \t\n  # \\q\n#\r\n", &[]);
    accepts("char a 1\r", &[char_pair('a', 1)]);
    accepts("\tchar\t\ta \t1\t", &[char_pair('a', 1)]);
    refuses("char a 1\r\r\n", 8);
    refuses("\r\r\n", 5);
    accepts("char \r 1", &[char_pair('\r', 1)]);
    refuses_at("char a\r\n", 6, 1);
    accepts(
        "char \u{A0} 1\nchar \0 2\nchar \u{B} 3\nchar \u{FEFF} 4",
        &[char_pair('\u{A0}', 1), char_pair('\0', 2), char_pair('\u{B}', 4), char_pair('\u{FEFF}', 8)],
    );
    refuses("\u{FEFF}char a 1", 5);
    refuses_at("char a 1\nchar b 2\nx", 5, 3);
    refuses("Char a 1", 5);
    refuses("dot 1 =blink", 5);
    expect_bytes(b"# \xC0\x80", Err((4, 1)), None);
    expect_bytes(b"#\n \xED\xA0\x80", Err((4, 2)), None);
    expect_bytes(b"x \xF4\x90\x80\x80", Err((4, 1)), None);
    expect_bytes(b"# \xF4\x8F\xBF\xBF \xEE\x80\x80", Ok(0), None);
    expect_bytes(b"# \xE2\x82\n", Err((4, 1)), None);
}

#[test]
fn ends_and_comments() {
    accepts("char a 1 # b c", &[char_pair('a', 1)]);
    accepts("char a 1 #b", &[char_pair('a', 1)]);
    accepts("char # 1", &[char_pair('#', 1)]);
    accepts("char a (1 2) #", &[char_pair('a', 3)]);
    refuses("char a # note", 8);
    refuses("alias a #note", 7);
    refuses("alias a # note", 9);
    refuses("ifCell # char a 1", 8);
    refuses("char #", 6);
    refuses("char", 6);
    refuses("char a", 6);
    refuses("alias a", 6);
    refuses("ifGlyph", 6);
    refuses("ifGlyph a", 18);
    refuses("ifGlyph a #char b 1", 18);
    refuses("ifGlyph a # char b 1", 18);
    refuses("ifGlyph a # x", 18);
    refuses("ifGlyph \\q foo", 7);
    refuses("ifGlyph a foo \\q", 5);
    refuses("ifCell 9 ifGlyph", 8);
    refuses("char a 1 x", 9);
    refuses("char a 1 \\#", 9);
    refuses("char a (1 2) 3", 9);
}

#[test]
fn characters() {
    accepts(
        "char \\b 1\nchar \\t 1\nchar \\n 1\nchar \\v 1\nchar \\f 1\nchar \\r 1\nchar \\s 1\nchar \\# 1\nchar \\\\ 1\n\
         char \\o101 1\nchar \\x4a 1\nchar \\XFf 1\nchar \\u20aC 1\nchar \\U0010FFFF 1\nchar \\o777 1\nchar é 1",
        &[8, 9, 10, 11, 12, 13, 32, 35, 92, 0x41, 0x4A, 0xFF, 0x20AC, 0x10FFFF, 0x1FF, 0xE9].map(|c| [c, 0x0100_0001]),
    );
    let bad = [
        "ab", "\\", "\\q", "\\B", "\\S", "\\R", "\\uD800", "\\uDFFF", "\\U0000D800", "\\U00110000", "\\UFFFFFFFF",
        "\\u41", "\\u00041", "\\x4", "\\x041", "\\x+4", "\\o10", "\\o1010", "\\o800", "\\O101", "\\<a>", "\\{a}",
        "\\ss", "\\xg0", "é\\",
    ];
    for word in bad {
        for line in
            [format!("char {word} 1"), format!("alias a {word}"), format!("byte {word} 1"), format!("ifGlyph {word} x")]
        {
            refuses(&line, 7);
        }
    }
    refuses("char \\ 145", 7);
    accepts(
        "byte é 1\nbyte \\x41 2\nbyte \\o377 0\nbyte \\s ()",
        &[glyph_pair('é', 1), glyph_pair('A', 2), glyph_pair('ÿ', 0), glyph_pair(' ', 0)],
    );
    for word in ["\\o777", "\\o400", "\\u0041", "\\U00000041", "\\u00A4", "\\u20AC", "Ā", "₠", "\u{F061}"] {
        refuses(&format!("byte {word} 1"), 7);
    }
}

#[test]
fn dots() {
    for (word, dots) in [
        ("0", 0),
        ("()", 0),
        ("( \t)", 0),
        ("1", 1),
        ("8", 128),
        ("87654321", 255),
        ("(12)", 3),
        ("( 4 1 )", 9),
        ("(8\t1)", 129),
    ] {
        accepts(&format!("char a {word}"), &[char_pair('a', dots)]);
        accepts(&format!("glyph a {word} #x"), &[glyph_pair('a', dots)]);
    }
    for word in [
        "9", "11", "00", "01", "10", "121", "(11)", "(1 1)", "(0)", "(1 0)", "(9)", "(1 2", "(", "( ", ")", "(12)x",
        "(12)#c", "12#c", "()()", "(1)2", "1(2)", "((1))", "(1))", "a", "+1", "1,2", "(1 # 2)", "(1\r)", "é",
    ] {
        refuses(&format!("char a {word}"), 8);
    }
    for word in ["(1)", "()", "9", "11", "01", "#", "a"] {
        refuses(&format!("ifCell {word} x"), 8);
        refuses(&format!("ifNotCell {word} x"), 8);
    }
}

#[test]
fn conditions() {
    let line = |count: usize| format!("{}char a 1", "ifNotGlyph a ".repeat(count));
    accepts(&line(8), &[char_pair('a', 1)]);
    refuses(&line(9), 10);
    refuses(&format!("{}ifCell", "ifNotGlyph a ".repeat(8)), 10);
    refuses(&format!("{}ifCell 9", "ifNotGlyph a ".repeat(8)), 10);
    refuses(&format!("{}\\q", "ifNotGlyph a ".repeat(8)), 5);
    refuses("ifGlyph a char b 9", 8);
    refuses("ifGlyph a char b 1 x", 9);
    accepts("ifGlyph a char b 1\nifNotGlyph a char a 1\nifGlyph a char c 2", &[char_pair('a', 1), char_pair('c', 2)]);
    accepts(
        "glyph a 1\nifCell 1 char b 1\nifNotCell 1 char c 1\nifCell 1 char d 2",
        &[glyph_pair('a', 1), char_pair('c', 1), char_pair('d', 2)],
    );
    // A failed condition hides 11 and 12.
    accepts("char a 1\nifGlyph b char a 2\nifGlyph b alias b b", &[char_pair('a', 1)]);
    // By rule 4, through rule 2, and never by rules 1 or 5 to 9.
    accepts(
        "alias b a\nifGlyph b char c 1\nglyph a 1\nifGlyph b char d 1",
        &[alias_pair('b', 'a'), glyph_pair('a', 1), char_pair('d', 1)],
    );
    accepts("char a 1\nifGlyph \\uF061 char c 1\nifGlyph \\u00E0 char d 1", &[char_pair('a', 1), char_pair('c', 1)]);
    accepts("ifGlyph \\u2801 char c 1\nifNotGlyph \\u2801 char d 1", &[char_pair('d', 1)]);
    accepts("char \\uF061 1\nifGlyph \\uF061 char c 1", &[char_pair('a', 1), char_pair('c', 1)]);
}

/// What a table of examples says of a text: the characters of its definitions in order, or number and line.
#[derive(Clone, Copy)]
enum Says {
    Defines(&'static str),
    Refuses(u32, u32),
}

use Says::{Defines, Refuses};

/// Examples whose definitions are all `char C 1`.
fn examples(table: &[(&str, Says)]) {
    for (text, says) in table {
        match says {
            Defines(characters) => {
                let pairs: Vec<[u32; 2]> = characters.chars().map(|character| char_pair(character, 1)).collect();
                accepts(text, &pairs);
            }
            Refuses(number, line) => refuses_at(text, *number, *line),
        }
    }
}

#[test]
fn blocks() {
    examples(&[
        ("ifGlyph a\nendIf", Defines("")),
        ("ifGlyph a\nelse\nendIf\n", Defines("")),
        ("ifNotGlyph a\nchar b 1\nendIf", Defines("b")),
        ("ifGlyph a\nchar b 1\nendIf", Defines("")),
        ("ifNotGlyph a\nchar b 1\nelse\nchar c 1\nendIf\nchar d 1", Defines("bd")),
        ("ifGlyph a\nchar b 1\nelse\nchar c 1\nendIf\nchar d 1", Defines("cd")),
        ("char a 1\nifGlyph a\nchar b 1\nelse\nchar c 1\nendIf", Defines("ab")),
        ("char a 1\nifCell 1\nchar b 1\nelse\nchar c 1\nendIf", Defines("ab")),
        ("char a 1\nifCell 2\nchar b 1\nelse\nchar c 1\nendIf", Defines("ac")),
        ("char a 1\nifNotCell 1\nchar b 1\nelse\nchar c 1\nendIf", Defines("ac")),
        ("ifNotCell 1\nchar b 1\nelse\nchar c 1\nendIf", Defines("b")),
        // Several lines in a half, one block behind another, lines that are skipped.
        ("ifNotGlyph a\nchar b 1\nchar c 1\n\n# d\nchar e 1\nendIf\nifGlyph b\nchar f 1\nendIf", Defines("bcef")),
        // An inner block in each half.
        (
            "ifNotGlyph a\nifGlyph b\nchar c 1\nelse\nchar d 1\nendIf\nchar e 1\nelse\nifGlyph b\nchar f 1\nelse\n\
             char g 1\nendIf\nchar h 1\nendIf",
            Defines("de"),
        ),
        (
            "ifGlyph a\nifGlyph b\nchar c 1\nelse\nchar d 1\nendIf\nchar e 1\nelse\nifGlyph b\nchar f 1\nelse\n\
             char g 1\nendIf\nchar h 1\nendIf",
            Defines("gh"),
        ),
        // A line with its own condition inside.
        ("ifNotGlyph a\nifGlyph b char c 1\nifNotGlyph b char d 1\nendIf", Defines("d")),
        ("ifGlyph a\nifNotGlyph b char d 1\nelse\nifNotGlyph b char e 1\nendIf", Defines("e")),
    ]);
}

#[test]
fn opening_lines() {
    examples(&[
        // A condition without its own operand opens nothing.
        ("ifGlyph\nendIf", Refuses(6, 1)),
        ("ifNotCell \t\nendIf", Refuses(6, 1)),
        ("ifGlyph a ifGlyph\nendIf", Refuses(6, 1)),
        // `#` as the operand, and a comment behind it.
        ("ifGlyph #\nendIf", Defines("")),
        ("ifNotGlyph #\nchar b 1\nendIf", Defines("b")),
        ("char # 1\nifGlyph # # x\nchar b 1\nendIf", Defines("#b")),
        ("ifGlyph # note\nendIf", Refuses(5, 1)),
        ("ifGlyph #note\nendIf", Refuses(7, 1)),
        ("ifCell # \nendIf", Refuses(8, 1)),
        ("ifNotGlyph a #char b 1\nchar c 1\nendIf", Defines("c")),
        ("ifNotGlyph a # x\nchar c 1\nendIf", Defines("c")),
        ("ifNotGlyph a#\nchar c 1\nendIf", Refuses(7, 1)),
        ("ifNotGlyph a x\nchar c 1\nendIf", Refuses(5, 1)),
        ("ifNotGlyph a \\#\nchar c 1\nendIf", Refuses(5, 1)),
        (" \tifNotGlyph a \t\nchar c 1\nendIf", Defines("c")),
        // As whole texts.
        ("ifGlyph a", Refuses(18, 1)),
        ("ifGlyph a # x", Refuses(18, 1)),
        ("ifGlyph a #char b 1", Refuses(18, 1)),
        ("ifGlyph a\n", Refuses(18, 1)),
        ("ifGlyph a\r", Refuses(18, 1)),
    ]);
}

#[test]
fn conditions_judged_once() {
    examples(&[
        // The lines inside make the condition false, or true.
        ("ifNotGlyph a\nchar a 1\nchar b 1\nendIf", Defines("ab")),
        ("ifNotGlyph a\nchar a 1\nelse\nchar c 1\nendIf", Defines("a")),
        ("ifNotCell 1\nchar a 1\nchar b 1\nelse\nchar c 1\nendIf", Defines("ab")),
        ("ifGlyph a\nchar a 1\nelse\nchar a 1\nchar b 1\nendIf", Defines("ab")),
        ("ifCell 1\nchar b 1\nelse\nchar a 1\nchar c 1\nendIf", Defines("ac")),
        // By the lines before, and not by those behind.
        ("ifGlyph a\nchar b 1\nendIf\nchar a 1\nifGlyph a\nchar c 1\nendIf", Defines("ac")),
        // An inner condition is judged at its own line.
        ("ifNotGlyph a\nchar a 1\nifGlyph a\nchar b 1\nelse\nchar c 1\nendIf\nendIf", Defines("ab")),
        ("ifNotGlyph a\nchar a 1\nifGlyph a char b 1\nelse\nchar c 1\nendIf", Defines("ab")),
        // Lines not taken define nothing for a later condition.
        ("ifGlyph a\nchar b 1\nendIf\nifGlyph b\nchar c 1\nelse\nchar d 1\nendIf", Defines("d")),
    ]);
}

#[test]
fn several_conditions_open_one_block() {
    let halves = |front: &str, says: Says| {
        let text = format!("char a 1\n{front}\nchar c 1\nelse\nchar d 1\nendIf\nchar e 1");
        examples(&[(text.as_str(), says)]);
    };
    halves("ifGlyph a ifGlyph a", Defines("ace"));
    halves("ifGlyph a ifGlyph b", Defines("ade"));
    halves("ifGlyph b ifGlyph a", Defines("ae"));
    halves("ifGlyph b ifGlyph b", Defines("ae"));
    halves("ifGlyph a ifNotGlyph b ifCell 1", Defines("ace"));
    halves("ifGlyph a ifNotGlyph b ifCell 2", Defines("ade"));
    halves("ifGlyph a ifGlyph b ifCell 1", Defines("ae"));
    halves("ifGlyph b ifGlyph a ifCell 2", Defines("ae"));
    halves("ifGlyph a ifGlyph a # ifGlyph b", Defines("ace"));
    examples(&[
        // One block, so one `endIf`.
        ("ifGlyph a ifGlyph b\nendIf\nendIf", Refuses(17, 3)),
        ("ifGlyph a ifGlyph b\nelse\nelse\nendIf\nendIf", Refuses(17, 3)),
        ("ifGlyph a ifGlyph b\nendIf\nchar c 1", Defines("c")),
    ]);
}

#[test]
fn lines_not_taken() {
    examples(&[
        // Neither half of a block inside them is taken.
        ("ifGlyph a\nifNotGlyph b\nchar c 1\nelse\nchar d 1\nendIf\nendIf", Defines("")),
        ("ifGlyph a\nifGlyph b\nchar c 1\nelse\nchar d 1\nendIf\nendIf", Defines("")),
        ("ifNotGlyph a\nelse\nifGlyph b\nchar c 1\nelse\nchar d 1\nendIf\nendIf", Defines("")),
        ("ifGlyph b ifGlyph b\nelse\nifGlyph b\nelse\nchar d 1\nendIf\nendIf", Defines("")),
        // Well formed all the same.
        ("ifGlyph a\nx\nendIf", Refuses(5, 2)),
        ("ifGlyph a\nchar b\nendIf", Refuses(6, 2)),
        ("ifGlyph a\nifGlyph\nendIf", Refuses(6, 2)),
        ("ifGlyph a\nchar bc 1\nendIf", Refuses(7, 2)),
        ("ifGlyph a\nifGlyph bc\nendIf\nendIf", Refuses(7, 2)),
        ("ifGlyph a\nchar b 9\nendIf", Refuses(8, 2)),
        ("ifGlyph a\nifCell 9 char b 1\nendIf", Refuses(8, 2)),
        ("ifGlyph a\nchar b 1 x\nendIf", Refuses(9, 2)),
        ("ifNotGlyph a\nelse\nchar b 1 x\nendIf", Refuses(9, 3)),
        ("ifGlyph a\nifGlyph b ifGlyph c char d\nendIf", Refuses(6, 2)),
        // Never 11 or 12.
        ("char a 1\nifGlyph b\nchar a 1\nendIf", Defines("a")),
        ("char a 1\nifGlyph a\nelse\nchar a 1\nendIf", Defines("a")),
        ("char a 1\nifGlyph a\nchar a 1\nendIf", Refuses(11, 3)),
        ("ifGlyph b\nalias a a\nendIf", Defines("")),
        ("ifNotGlyph b\nalias a a\nendIf", Refuses(12, 2)),
        ("ifNotGlyph a\nchar a 1\nelse\nchar a 1\nendIf", Defines("a")),
    ]);
    let long = "#".repeat(1025);
    refuses_at(&format!("ifGlyph a\n{long}\nendIf"), 3, 2);
    expect_bytes(b"ifGlyph a\n# \xFF\nendIf", Err((4, 2)), None);
    // Nor 13.
    let full: String = (0..1024).map(|k| format!("glyph \\u{:04X} 1\n", 0x4000 + k)).collect();
    expect_bytes(format!("{full}ifCell 1\nchar a 1\nendIf").as_bytes(), Ok(1024), None);
    expect_bytes(format!("ifNotCell 1\n{full}else\nchar a 1\nendIf").as_bytes(), Ok(1024), None);
    refuses_at(&format!("{full}ifCell 1\nelse\nchar a 1\nendIf"), 13, 1027);
}

#[test]
fn else_and_end_if() {
    examples(&[
        // Nothing open, or a second `else`, before what follows the word.
        ("else", Refuses(17, 1)),
        ("endIf", Refuses(17, 1)),
        ("char a 1\nendIf", Refuses(17, 2)),
        ("endIf x", Refuses(17, 1)),
        ("else x", Refuses(17, 1)),
        ("else # x", Refuses(17, 1)),
        ("else ifGlyph b", Refuses(17, 1)),
        (" \tendIf", Refuses(17, 1)),
        ("ifGlyph a char b 1\nendIf", Refuses(17, 2)),
        ("ifGlyph a\nendIf\nendIf", Refuses(17, 3)),
        ("ifGlyph a\nendIf\nelse", Refuses(17, 3)),
        ("ifGlyph a\nelse\nelse\nendIf", Refuses(17, 3)),
        ("ifGlyph a\nelse\nelse x\nendIf", Refuses(17, 3)),
        ("ifNotGlyph a\nelse\nelse\nendIf", Refuses(17, 3)),
        // The `else` of another block is none of the innermost, and the reverse.
        ("ifGlyph a\nelse\nifGlyph b\nelse\nendIf\nendIf", Defines("")),
        ("ifGlyph a\nifGlyph b\nelse\nendIf\nelse\nendIf", Defines("")),
        ("ifGlyph a\nifGlyph b\nelse\nendIf\nelse\nelse\nendIf", Refuses(17, 6)),
        ("ifGlyph a\nelse\nendIf\nifGlyph a\nelse\nendIf", Defines("")),
        // Inside lines not taken too.
        ("ifGlyph a\nifGlyph b\nelse\nelse\nendIf\nendIf", Refuses(17, 4)),
        ("ifGlyph a\nifGlyph b\nelse\nelse x\nendIf\nendIf", Refuses(17, 4)),
        // Text behind them.
        ("ifGlyph a\nendIf x", Refuses(9, 2)),
        ("ifGlyph a\nelse x\nendIf", Refuses(9, 2)),
        ("ifGlyph a\nelse ifGlyph b\nendIf", Refuses(9, 2)),
        ("ifGlyph a\nelse char b 1\nendIf", Refuses(9, 2)),
        ("ifGlyph a\nendIf \\#", Refuses(9, 2)),
        ("ifGlyph a\nelse endIf", Refuses(9, 2)),
        ("ifGlyph a\nelse # x\nchar b 1\nendIf #x", Defines("b")),
        ("ifGlyph a\n\telse\t#\nchar b 1\n  endIf  ", Defines("b")),
        ("ifGlyph a\r\nelse\r\nchar b 1\r\nendIf\r", Defines("b")),
        ("ifGlyph a\nelse\r\r\nendIf", Refuses(5, 2)),
        ("ifGlyph a\nendIf\u{A0}", Refuses(5, 2)),
        // After a condition, whatever is open.
        ("ifGlyph a else", Refuses(5, 1)),
        ("ifGlyph a endIf", Refuses(5, 1)),
        ("ifGlyph a\nifGlyph b else\nendIf", Refuses(5, 2)),
        ("ifGlyph a\nifGlyph b endIf", Refuses(5, 2)),
        ("ifGlyph a\nelse\nifGlyph b else\nendIf", Refuses(5, 3)),
        ("ifGlyph a\nifGlyph b endIf x", Refuses(5, 2)),
        // Exact words.
        ("ifGlyph a\nelse#\nendIf", Refuses(5, 2)),
        ("ifGlyph a\nendIf#", Refuses(5, 2)),
        ("ifGlyph a\nElse\nendIf", Refuses(5, 2)),
        ("ifGlyph a\nELSE\nendIf", Refuses(5, 2)),
        ("ifGlyph a\nendif", Refuses(5, 2)),
        ("ifGlyph a\nEndIf", Refuses(5, 2)),
        ("ifGlyph a\nelseIf\nendIf", Refuses(5, 2)),
        ("ifGlyph a\nelse\nendIfs", Refuses(5, 3)),
        ("endif", Refuses(5, 1)),
        ("else#", Refuses(5, 1)),
        // As operands they are words like any other.
        ("char else 1", Refuses(7, 1)),
        ("ifCell endIf\nendIf", Refuses(8, 1)),
        ("# else\n#endIf\nchar a 1", Defines("a")),
    ]);
}

#[test]
fn at_most_eight() {
    let open = |count: usize| "ifNotGlyph z\n".repeat(count);
    let close = |count: usize| "endIf\n".repeat(count);
    let front = |count: usize| "ifNotGlyph z ".repeat(count);
    let says = |text: String, says: Says| examples(&[(text.as_str(), says)]);
    // Blocks alone.
    says(open(8) + "char a 1\n" + &close(8), Defines("a"));
    says(open(9) + "char a 1\n" + &close(9), Refuses(10, 9));
    says(format!("{}else\n{}", open(8), close(8)), Defines(""));
    // A ninth condition with a directive behind it, at its word.
    says(open(8) + "ifNotGlyph z char a 1\n" + &close(8), Refuses(10, 9));
    says(open(8) + "ifNotGlyph\n" + &close(8), Refuses(10, 9));
    says(open(8) + "ifCell 9\n" + &close(8), Refuses(10, 9));
    says(open(8) + "x\n" + &close(8), Refuses(5, 9));
    // Blocks and conditions of a line together.
    for blocks in 0..=8 {
        let room = 8 - blocks;
        says(open(blocks) + &front(room) + "char a 1\n" + &close(blocks), Defines("a"));
        says(open(blocks) + &front(room + 1) + "char a 1\n" + &close(blocks), Refuses(10, blocks as u32 + 1));
        says(open(blocks) + &front(room + 1) + "\n" + &close(blocks + 1), Refuses(10, blocks as u32 + 1));
        says(open(blocks) + &front(room) + "ifCell\n" + &close(blocks), Refuses(10, blocks as u32 + 1));
    }
    for blocks in 0..=7 {
        says(open(blocks) + &front(8 - blocks) + "\nchar a 1\n" + &close(blocks + 1), Defines("a"));
    }
    // A block counts as one, however many conditions its line had.
    says(format!("{}\n{}char a 1\n{}", front(8), open(7), close(8)), Defines("a"));
    says(format!("{}\n{}char a 1\n{}", front(8), open(8), close(9)), Refuses(10, 9));
    says(format!("{}\n{}char a 1\nendIf\n", front(8), front(7)), Defines("a"));
    says(format!("{}\n{}char a 1\nendIf\n", front(8), front(8)), Refuses(10, 2));
    // A closed block does not count; the half behind `else` counts as the first.
    says(format!("{}{}{}char a 1\n{}", open(8), close(1), open(1), close(8)), Defines("a"));
    says((open(1) + &close(1)).repeat(20) + "char a 1", Defines("a"));
    says(format!("{}else\nifNotGlyph z\n{}", open(8), close(9)), Refuses(10, 10));
    // In lines not taken the same.
    let not_taken = |count: usize| "ifGlyph z\n".repeat(count);
    says(not_taken(8) + "char a 1\n" + &close(8), Defines(""));
    says(not_taken(9) + &close(9), Refuses(10, 9));
    says(not_taken(8) + "ifGlyph z char a 1\n" + &close(8), Refuses(10, 9));
    says(not_taken(3) + &front(5) + "char a 1\n" + &close(3), Defines(""));
    says(not_taken(3) + &front(6) + "char a 1\n" + &close(3), Refuses(10, 4));
    // Of several faults on a line the leftmost.
    says(open(8) + "ifCell 1 x\n" + &close(8), Refuses(10, 9));
    says(open(7) + "ifCell 9 ifCell 1 x\n" + &close(7), Refuses(8, 8));
    says(open(7) + "ifCell 1 ifCell 9 x\n" + &close(7), Refuses(10, 8));
}

#[test]
fn blocks_left_open() {
    examples(&[
        // The innermost's condition, not its `else`.
        ("char a 1\nifGlyph a\nchar b 1", Refuses(18, 2)),
        ("ifGlyph a\nchar b 1\nelse\nchar c 1", Refuses(18, 1)),
        ("ifGlyph a\nifGlyph b\nchar c 1", Refuses(18, 2)),
        ("ifGlyph a\nifGlyph b\nelse\n", Refuses(18, 2)),
        ("ifGlyph a\nifGlyph b\nendIf\n", Refuses(18, 1)),
        ("ifGlyph a\nelse\nifGlyph b\nendIf\n", Refuses(18, 1)),
        ("ifGlyph a\n\n\nifNotGlyph b\nelse\n\n", Refuses(18, 4)),
        ("ifGlyph a\nendIf\nifGlyph b", Refuses(18, 3)),
        // Whether or not a half is taken.
        ("ifGlyph a ifGlyph b\n", Refuses(18, 1)),
        ("ifGlyph a\nifGlyph b ifGlyph c\nelse\n", Refuses(18, 2)),
        ("ifNotGlyph a\nifGlyph b\nchar c 1\n", Refuses(18, 2)),
        ("ifNotGlyph a\nifNotGlyph b\nelse\n", Refuses(18, 2)),
        ("ifNotGlyph a\nchar a 1\n", Refuses(18, 1)),
        // After all line faults.
        ("ifGlyph a\nx", Refuses(5, 2)),
        ("ifGlyph a\nchar b 1 x\n", Refuses(9, 2)),
        ("ifGlyph a\nelse\nelse", Refuses(17, 3)),
        ("char a 1\nifGlyph a\nchar a 1", Refuses(11, 3)),
        ("ifNotGlyph a\nalias b b", Refuses(12, 2)),
        // A block that its line does not open is not left open.
        ("ifGlyph a char b 1", Defines("")),
        ("ifNotGlyph a char b 1 # endIf", Defines("b")),
    ]);
    let deep = "ifNotGlyph z\n".repeat(8);
    refuses_at(&deep, 18, 8);
    refuses_at(&format!("{deep}char a 1\n{}", "endIf\n".repeat(7)), 18, 1);
    refuses_at(&format!("{}ifGlyph a\n", "\n".repeat(65_000)), 18, 65_001);
    // A text or a slice that is refused at once opens nothing.
    refuses_at(&format!("ifGlyph a\n{}", "\n".repeat(65_527)), 1, 0);
    refuses_at(&format!("ifGlyph a\n{}", "\n".repeat(65_526)), 18, 1);
    for side in SIDES {
        let mut words = [5; WORDS - 1];
        assert_eq!(
            (side.compile)(TEXT_EDITION, ISO_8859_1, b"ifGlyph a", &mut words).map_err(pair),
            Err((2, 0)),
            "{}",
            side.name
        );
        assert!(words.iter().all(|word| *word == 5), "{}", side.name);
    }
}

#[test]
fn kinds_in_blocks() {
    accepts(
        "ifNotGlyph a\nglyph a 1\nalias b a\nelse\nalias a b\nendIf\nifGlyph b\nbyte \\xE9 2\nelse\nbyte \\xE9 3\nendIf",
        &[glyph_pair('a', 1), alias_pair('b', 'a'), glyph_pair('é', 2)],
    );
    shows("ifGlyph a\nchar a 1\nelse\nchar a 12\nendIf\n", 'a' as u32, 3, 3, 0);
    shows("ifNotGlyph a\nalias b a\nelse\nchar b 1\nendIf\nchar a 1\n", 'b' as u32, 1, 4, 1);
    types("ifCell 1\nchar a 1\nelse\nchar b 1\nendIf\nchar c 1\n", 1, Some('b' as u32));
}

#[test]
fn repeats_and_loops() {
    refuses_at("char a 1\nglyph a 1", 11, 2);
    refuses_at("alias a b\nbyte a 1", 11, 2);
    refuses_at("char a 1\nalias a a", 11, 2);
    refuses("alias a a", 12);
    refuses_at("alias a b\nalias b a", 12, 2);
    refuses_at("alias a b\nalias c a\nalias b c", 12, 3);
    accepts("alias a b\nalias b c\nalias d a", &[alias_pair('a', 'b'), alias_pair('b', 'c'), alias_pair('d', 'a')]);
}

/// Refused text tables with number, line and column.
fn columns<T: AsRef<[u8]>>(table: &[(T, [u32; 3])]) {
    for (text, [number, place, column]) in table {
        let text = text.as_ref();
        expect_bytes(text, Err((*number, *place)), None);
        let refusal = Refusal { number: *number, place: *place, column: *column };
        for side in SIDES {
            for set in SETS {
                let got = (side.compile)(TEXT_EDITION, set, text, &mut [0; WORDS]);
                assert_eq!(got, Err(refusal), "{}: set {set}, {:?}", side.name, String::from_utf8_lossy(text));
            }
        }
    }
}

// In what follows é has two bytes, € three and 𝄞 four.

#[test]
fn columns_of_long_lines() {
    columns(&[
        (format!("char a 1{}", " ".repeat(1017)), [3, 1, 1025]),
        (format!("char a 1{}\r\r\n", " ".repeat(1016)), [3, 1, 1025]),
        (format!("\r\n#{}\n", "x".repeat(3000)), [3, 2, 1025]),
        // Byte 1,025 is inside a character.
        (format!("#{}", "é".repeat(512)), [3, 1, 1025]),
        (format!("ifGlyph é char 𝄞 9{}", " ".repeat(1025)), [3, 1, 1025]),
    ]);
    columns(&[([0xFFu8; 1025], [3, 1, 1025])]);
}

#[test]
fn columns_of_bad_sequences() {
    columns::<&[u8]>(&[
        (b"\xFF", [4, 1, 1]),
        (b"char \xFF 1", [4, 1, 6]),
        (b"#\n \xFE", [4, 2, 2]),
        // The lead byte of one that is overlong, a surrogate, too high.
        (b"# \xC0\x80", [4, 1, 3]),
        (b"# \xE0\x80\x80", [4, 1, 3]),
        (b"# \xF0\x8F\xBF\xBF", [4, 1, 3]),
        (b"#\n \xED\xA0\x80", [4, 2, 2]),
        (b"x \xF4\x90\x80\x80", [4, 1, 3]),
        (b"#\xF5\x80\x80\x80", [4, 1, 2]),
        (b"#\xF8\x88\x80\x80\x80", [4, 1, 2]),
        // Cut by the line's end, by another character or by another lead byte.
        (b"# \xC3", [4, 1, 3]),
        (b"# \xE2\x82", [4, 1, 3]),
        (b"# \xE2\x82\nx", [4, 1, 3]),
        (b"# \xE2\x82\r\n", [4, 1, 3]),
        (b"# \xE2\x82\r\r\n", [4, 1, 3]),
        (b"# \xF0\x9D\x84x", [4, 1, 3]),
        (b"# \xE2\x82 \xFF", [4, 1, 3]),
        (b"# \xC3\xC3\xA9", [4, 1, 3]),
        (b"#\xF0\x9D\xE2\x82\xAC", [4, 1, 2]),
        // A stray continuation is its own sequence, also right behind a whole character.
        (b"\x80", [4, 1, 1]),
        (b"# \xBF", [4, 1, 3]),
        (b"# \xC3\xA9\x80", [4, 1, 5]),
        (b"# \xE2\x82\xAC\xAC", [4, 1, 6]),
        (b"# \xF0\x9D\x84\x9E\xBF\xBF", [4, 1, 7]),
        // Behind characters of two, three and four bytes, a byte order mark, a condition.
        (b"# \xC3\xA9 \xC3", [4, 1, 6]),
        (b"# \xE2\x82\xAC \xFF", [4, 1, 7]),
        (b"# \xF0\x9D\x84\x9E \xED\xBF\xBF", [4, 1, 8]),
        (b"# \xC3\xA9\xE2\x82\xAC\xF0\x9D\x84\x9E\xF0\x9D\x84", [4, 1, 12]),
        (b"\xEF\xBB\xBF\xFF", [4, 1, 4]),
        (b"ifGlyph \xC3\xA9 char \xC3 1", [4, 1, 17]),
        // Before any fault of the words, wherever it stands.
        (b"Char ab 9 x\xFF", [4, 1, 12]),
    ]);
    let mut full = [b'#'; 1024];
    full[1023] = 0xC3;
    columns(&[(full, [4, 1, 1024])]);
}

#[test]
fn columns_of_directive_words() {
    columns(&[
        ("x", [5, 1, 1]),
        ("Char a 1", [5, 1, 1]),
        (" \tx", [5, 1, 3]),
        ("\u{FEFF}char a 1", [5, 1, 1]),
        ("\r\r\n", [5, 1, 1]),
        ("\n\r\n\tx\r\n", [5, 3, 2]),
        ("char a 1\n    char# b 1", [5, 2, 5]),
        // Behind conditions.
        ("ifGlyph a foo \\q", [5, 1, 11]),
        ("ifGlyph é foo", [5, 1, 12]),
        ("ifGlyph € foo", [5, 1, 13]),
        ("ifGlyph 𝄞 foo", [5, 1, 14]),
        ("ifGlyph 𝄞 ifNotGlyph € ifGlyph é x", [5, 1, 40]),
        ("ifCell 1 \t else", [5, 1, 12]),
        ("ifGlyph a endIf", [5, 1, 11]),
        ("ifGlyph # note", [5, 1, 11]),
        ("ifGlyph \\u00E9 é", [5, 1, 16]),
        // In blocks, taken or not.
        ("ifGlyph a\n else#", [5, 2, 2]),
        ("ifNotGlyph a\n\tifGlyph é x", [5, 2, 13]),
        // 17: the same.
        ("else", [17, 1, 1]),
        (" \tendIf", [17, 1, 3]),
        ("endIf x", [17, 1, 1]),
        ("char a 1\r\n\tendIf\r\n", [17, 2, 2]),
        ("ifGlyph a\nelse\n  else x", [17, 3, 3]),
        ("ifGlyph é\n ifGlyph €\n else\n\t \t else # 𝄞\n", [17, 4, 5]),
    ]);
}

#[test]
fn columns_of_missing_operands() {
    columns(&[
        ("char", [6, 1, 5]),
        ("char ", [6, 1, 6]),
        ("char a", [6, 1, 7]),
        ("char a\nchar b 1", [6, 1, 7]),
        // Blanks at the end count, its LF and one CR do not.
        ("char a  ", [6, 1, 9]),
        ("char a\t \t\nchar b 1", [6, 1, 10]),
        ("char a\r\n", [6, 1, 7]),
        ("char a\r", [6, 1, 7]),
        ("char a \r\n", [6, 1, 8]),
        ("\n\nalias a \r\n", [6, 3, 9]),
        // Any other CR does; here it is the character.
        ("char \r\n", [6, 1, 6]),
        ("char \r\r\n", [6, 1, 7]),
        ("char \r\r", [6, 1, 7]),
        ("char \r \r\n", [6, 1, 8]),
        ("char \r \t\n", [6, 1, 9]),
        // A `#` where an operand is due begins no comment.
        ("char #", [6, 1, 7]),
        ("char # ", [6, 1, 8]),
        ("alias é", [6, 1, 9]),
        ("alias €", [6, 1, 10]),
        ("alias 𝄞 ", [6, 1, 12]),
        ("byte é\t", [6, 1, 9]),
        ("glyph \\U0001D11E", [6, 1, 17]),
        ("ifGlyph", [6, 1, 8]),
        ("  ifNotCell\t", [6, 1, 13]),
        ("ifGlyph é ifCell", [6, 1, 18]),
        ("ifGlyph 𝄞 char €", [6, 1, 22]),
        ("ifGlyph a\nifGlyph € \r\n  alias  é  \r\nendIf", [6, 3, 14]),
    ]);
    let full = format!("char a{}", " ".repeat(1018));
    columns(&[(full.clone(), [6, 1, 1025]), (full + "\r\n", [6, 1, 1025])]);
}

#[test]
fn columns_of_characters() {
    columns(&[
        ("char ab 1", [7, 1, 6]),
        ("char \\q 1", [7, 1, 6]),
        ("char \\ 145", [7, 1, 6]),
        ("char (1) 1", [7, 1, 6]),
        ("  char\t\\uD800 1", [7, 1, 8]),
        ("char \u{A0}\u{A0} 1", [7, 1, 6]),
        ("alias a bc", [7, 1, 9]),
        ("alias é bc", [7, 1, 10]),
        ("alias € #note", [7, 1, 11]),
        ("alias 𝄞 \\x4", [7, 1, 12]),
        ("alias \\u00E9 \t\\", [7, 1, 15]),
        ("byte \\u0041 1", [7, 1, 6]),
        ("byte   ₠ 1", [7, 1, 8]),
        ("ifGlyph \\q foo", [7, 1, 9]),
        ("ifGlyph é ifNotGlyph éé", [7, 1, 23]),
        ("ifGlyph 𝄞 ifGlyph € char é\\ 1", [7, 1, 31]),
        ("char a\r\r\n", [7, 1, 6]),
        ("#\nifNotCell 1 glyph a\r\r\n", [7, 2, 19]),
    ]);
}

#[test]
fn columns_of_dots() {
    columns(&[
        ("char a 9", [8, 1, 8]),
        ("char a 121", [8, 1, 8]),
        ("char a # note", [8, 1, 8]),
        ("char a 1\r\r\n", [8, 1, 8]),
        ("char a  \t9 x", [8, 1, 10]),
        // The opening parenthesis, whatever is bad, also behind the closing one.
        ("char a (1 9)", [8, 1, 8]),
        ("char a (1 2", [8, 1, 8]),
        ("char a (1 2  \r\n", [8, 1, 8]),
        ("char a (", [8, 1, 8]),
        ("char a ( ", [8, 1, 8]),
        ("char a (1)x", [8, 1, 8]),
        ("char a (12)#c", [8, 1, 8]),
        ("char a ((1))", [8, 1, 8]),
        ("char a (1 2 1) # x", [8, 1, 8]),
        ("char a (1\r)\n", [8, 1, 8]),
        ("char a (1 2)\r\r\n", [8, 1, 8]),
        ("char a  \t(0)", [8, 1, 10]),
        ("char a )", [8, 1, 8]),
        ("char é 9", [8, 1, 9]),
        ("char € (1 x)", [8, 1, 10]),
        ("glyph 𝄞 (1", [8, 1, 12]),
        ("byte é 1(2)", [8, 1, 9]),
        // Cells.
        ("ifCell 9 ifGlyph", [8, 1, 8]),
        ("ifNotCell (1) char a 1", [8, 1, 11]),
        ("ifCell # char a 1", [8, 1, 8]),
        ("ifGlyph é ifCell 11", [8, 1, 19]),
        ("ifGlyph € char 𝄞 (1 2 é)", [8, 1, 23]),
        ("ifGlyph a\n\tifCell 1 char a  9\nendIf", [8, 2, 19]),
    ]);
}

#[test]
fn columns_of_text_behind() {
    columns(&[
        // The first word behind the last operand, not the byte behind that.
        ("char a 1 x", [9, 1, 10]),
        ("char a 1  \tx", [9, 1, 12]),
        ("char a (1) x", [9, 1, 12]),
        ("char a (1 2)   3", [9, 1, 16]),
        ("char a ()\t()", [9, 1, 11]),
        ("char a 1 \\#", [9, 1, 10]),
        ("char a 1 x # y", [9, 1, 10]),
        ("char a 1 é # y", [9, 1, 10]),
        ("char a 1 \r\r\n", [9, 1, 10]),
        ("char a 1 \r #\r\n", [9, 1, 10]),
        ("alias a # note", [9, 1, 11]),
        ("alias é € x", [9, 1, 14]),
        ("glyph 𝄞 1 x", [9, 1, 14]),
        // Whether or not the conditions hold.
        ("ifGlyph b char a 1 x", [9, 1, 20]),
        ("ifNotGlyph b char a 1 x", [9, 1, 23]),
        ("ifGlyph é char € 1 x", [9, 1, 23]),
        ("ifGlyph a\nelse x\nendIf", [9, 2, 6]),
        ("ifGlyph a\n\tendIf  x", [9, 2, 9]),
        ("ifGlyph a\nelse ifGlyph b", [9, 2, 6]),
    ]);
}

#[test]
fn columns_of_conditions() {
    let open = |count: usize| "ifNotGlyph z\n".repeat(count);
    columns(&[
        // Eight times 13, 14, 15 and 16 bytes.
        ("ifNotGlyph a ".repeat(8) + "ifCell", [10, 1, 105]),
        ("ifNotGlyph a ".repeat(9) + "char a 1", [10, 1, 105]),
        ("ifNotGlyph a ".repeat(12), [10, 1, 105]),
        ("ifNotGlyph é ".repeat(8) + "ifGlyph", [10, 1, 113]),
        ("ifNotGlyph € ".repeat(8) + "\tifCell 9 x", [10, 1, 122]),
        (" ".to_string() + &"ifNotGlyph 𝄞 ".repeat(9), [10, 1, 130]),
        // With open blocks.
        (open(8) + "ifNotGlyph z", [10, 9, 1]),
        (open(8) + "  ifCell 9", [10, 9, 3]),
        (open(7) + "ifCell 1 ifCell 9 x", [10, 8, 10]),
        (open(5) + &"ifGlyph é ".repeat(4), [10, 6, 34]),
        (open(1) + "else\n" + &"ifGlyph z ".repeat(8), [10, 3, 71]),
        ("ifNotGlyph z ".repeat(8) + "\n" + &"ifNotGlyph z ".repeat(8), [10, 2, 92]),
    ]);
}

#[test]
fn columns_of_effects() {
    columns(&[
        ("char a 1\nglyph a 1", [11, 2, 1]),
        ("char a 1\n  glyph a 1", [11, 2, 3]),
        // The word behind the conditions.
        ("char a 1\nifCell 1 glyph a 1", [11, 2, 10]),
        ("char a 1\nifCell 1 char a 1  \r\n", [11, 2, 10]),
        ("char a 1\r\n ifCell 1\tchar a 1 # x\r\n", [11, 2, 11]),
        ("char é 1\nifGlyph é alias é é", [11, 2, 12]),
        ("char € 1\n\tifGlyph € ifNotGlyph 𝄞 glyph € 1", [11, 2, 30]),
        ("char 𝄞 1\nifGlyph 𝄞 glyph 𝄞 (1 2)", [11, 2, 14]),
        ("char \\xE9 1\nifGlyph a\nelse\n \tifCell 1 byte é 1\nendIf", [11, 4, 12]),
        ("alias a a", [12, 1, 1]),
        ("ifNotGlyph a alias a a", [12, 1, 14]),
        ("ifNotGlyph é alias é é", [12, 1, 15]),
        ("ifNotGlyph € alias € €", [12, 1, 16]),
        ("ifNotGlyph 𝄞 alias 𝄞 𝄞", [12, 1, 17]),
        ("alias a b\n\talias b a", [12, 2, 2]),
        ("ifNotGlyph b\n ifNotCell 1  alias a a \nendIf", [12, 2, 15]),
        ("char ⠁ 1", [22, 1, 1]),
        ("\n \tglyph \\u2801 1", [22, 2, 3]),
        ("alias ⠁ a", [22, 1, 1]),
        ("ifNotGlyph a alias ⠁ ⠁", [22, 1, 14]),
        ("ifNotGlyph é char \\u28FF (1 2) # x\r\n", [22, 1, 15]),
        ("ifNotGlyph € glyph ⠀ 1", [22, 1, 16]),
        ("ifNotGlyph 𝄞 alias ⠁ 𝄞", [22, 1, 17]),
        ("ifNotGlyph ⠁ ifNotGlyph \u{F0E9} char ⠁ 1", [22, 1, 31]),
        ("ifGlyph a\nelse\n \tifNotCell 1  char ⠁ 1 \nendIf", [22, 3, 16]),
        // What stands there counts as it is written.
        ("char é 1\nifGlyph \u{F0E9} char \u{F0E9} 1", [11, 2, 13]),
        ("ifNotGlyph \u{F041} alias \\uF041 A", [12, 1, 16]),
    ]);
    let full: String = (0..1024).map(|k| format!("glyph \\u{:04X} 1\n", 0x4000 + k)).collect();
    columns(&[
        (format!("{full}char a 1"), [13, 1025, 1]),
        (format!("{full} \talias a b\r\n"), [13, 1025, 3]),
        (format!("{full}ifNotCell 1 char a 1"), [13, 1025, 13]),
        (format!("{full}ifNotGlyph é ifNotGlyph € ifNotGlyph 𝄞 byte a 1"), [13, 1025, 46]),
        (format!("{full}ifCell 1\nelse\n\tchar a 1\nendIf"), [13, 1027, 2]),
        // The line is read to its end before.
        (format!("{full}ifNotCell 1 char a 1 x"), [9, 1025, 22]),
        (format!("{full}ifNotCell 1 char \\u4000 1"), [11, 1025, 13]),
        (format!("{full}ifNotCell 1 alias a a"), [12, 1025, 13]),
        (format!("{full} char ⠁ 1"), [22, 1025, 2]),
        (format!("{full}ifNotCell 1 alias ⠁ ⠁"), [22, 1025, 13]),
        (format!("{full}ifNotCell 1 char ⠁ 1 x"), [9, 1025, 24]),
    ]);
}

#[test]
fn no_columns() {
    columns(&[
        ("ifGlyph a", [18, 1, 0]),
        ("\n  ifGlyph é \r\n# x\n", [18, 2, 0]),
        ("ifGlyph a\n ifCell 1 ifGlyph 𝄞\nelse\n", [18, 2, 0]),
    ]);
    columns(&[("\n".repeat(65_537), [1, 0, 0]), (format!("x{}", "\n".repeat(65_536)), [1, 0, 0])]);
    for side in SIDES {
        let short = Err(Refusal { number: 2, place: 0, column: 0 });
        assert_eq!((side.compile)(TEXT_EDITION, ISO_8859_1, b"char a 9", &mut [0; WORDS - 1]), short, "{}", side.name);
        assert_eq!((side.attribute_cells)(b"dot 9", &mut [0; 255]), short, "{}", side.name);
    }
}

#[test]
fn rules() {
    // Rule 5 takes only an explicit cell of the base.
    shows("char b 1\nalias a b\n", 0xE0, 0xFF, 9, 0);
    // Rule 5 before 7 before 8; links stay under them.
    shows("alias \\u00E0 z\nchar a 1\n", 0xE0, 1, 5, 1);
    shows("alias z \\u00E0\nchar a 1\n", 'z' as u32, 0xFF, 9, 1);
    shows("alias z y\nalias y x\nglyph \\uFFFD 2\nchar ? 3\n", 'z' as u32, 2, 7, 2);
    shows("char ? 3\n", 0xF0E0, 4, 24, 0);
    shows("char A 3\nalias x \\uF041\n", 'x' as u32, 4, 4, 1);
    shows("char \\uF041 3\nalias x \\uF041\n", 'x' as u32, 4, 4, 1);
    shows("char \\uF041 3\n", 0xF041, 4, 19, 0);
    shows("alias x \\u2801\n", 'x' as u32, 1, 4, 1);
    shows("alias x \\u2801\n", 0x2801, 1, 1, 0);
    shows("alias A x\nchar x 3\n", 0xF041, 4, 20, 1);
    shows("char A 3\n", 0xF0C0, 4, 21, 0);
    shows("char A 3\n", 0xF0C6, 4, 22, 0);
    shows("char \\uFFFD 3\n", 0xF0C6, 4, 23, 0);
    shows("char \\s 3\nchar - 4\nchar ' 5\nchar \" 6\n", 0xA0, 4, 6, 0);
    for (character, cell) in [(0x2010, 8), (0x2014, 8), (0x2018, 16), (0x2019, 16), (0x201C, 32), (0x201D, 32)] {
        shows("char \\s 3\nchar - 4\nchar ' 5\nchar \" 6\n", character, cell, 6, 0);
    }
    for character in [0x200F, 0x2015, 0x2017, 0x201A, 0x201B, 0x201E, 0x27FF, 0x2900, 0xEFFF, 0xF100, 0, 0x10FFFF] {
        shows("char \\s 3\nchar - 4\nchar ' 5\nchar \" 6\n", character, 0xFF, 9, 0);
    }
}

#[test]
fn typing() {
    types("glyph x 1\nchar a 1\nchar b 1\n", 1, Some('a' as u32));
    types("char \\x00 1\n", 1, Some(0));
    types("char \\uF041 3\n", 4, Some('A' as u32));
    types("alias x \\u2801\n", 1, None);
    types("char a 0\n", 0, Some('a' as u32));
    types("byte a 1\nalias b a\n", 1, None);
}

#[test]
fn lent_tables() {
    let table = |pairs: &[[u32; 2]]| {
        let mut words = pairs.concat();
        words.resize(2048, 0);
        words.extend([1, 0, 1, 2, 3]);
        words
    };
    let sound: [&[[u32; 2]]; 5] = [
        &[],
        &[[0, 0x0100_0000]],
        &[[1, 0x0300_0000]],
        &[[0x10FFFF, 0x0310_FFFE], [0x10FFFE, 0x0200_00FF]],
        &[[1, 0x0300_0002], [2, 0x0300_0003]],
    ];
    for pairs in sound {
        for side in SIDES {
            assert_eq!((side.page)(&table(pairs), &[], &mut [], &mut []), Ok(()), "{} {pairs:X?}", side.name);
        }
    }
    let faulty: [(&[[u32; 2]], u32); 16] = [
        (&[[1, 0]], 0),
        (&[[0, 0], [1, 0x0100_0000]], 1),
        (&[[1, 0x0100_0000], [0, 0], [0, 0], [0, 1]], 3),
        (&[[1, 0x0000_0001]], 0),
        (&[[1, 0x0400_0000]], 0),
        (&[[1, 0xFF00_0000]], 0),
        (&[[1, 0x0100_0100]], 0),
        (&[[1, 0x0200_0100]], 0),
        (&[[1, 0x0300_D800]], 0),
        (&[[1, 0x0311_0000]], 0),
        (&[[0xDFFF, 0x0100_0000]], 0),
        (&[[0x11_0000, 0x0100_0000]], 0),
        (&[[1, 0x0100_0000], [1, 0x0200_0000]], 1),
        (&[[1, 0x0300_0001]], 0),
        (&[[1, 0x0300_0002], [2, 0x0300_0001]], 1),
        (&[[0, 0x0300_0000]], 0),
    ];
    for (pairs, place) in faulty {
        let words = table(pairs);
        for side in SIDES {
            let fault = Err((15, place));
            assert_eq!(
                (side.page)(&words, &[0xD800], &mut [0], &mut [0]).map_err(pair),
                fault,
                "{} {pairs:X?}",
                side.name
            );
            assert_eq!((side.look_up)(&words, 0xD800).map_err(pair), fault.map(|()| unreachable!()), "{}", side.name);
            assert_eq!((side.typed)(&words, 0).map_err(pair), fault.map(|()| unreachable!()), "{}", side.name);
        }
        list_refused(&words, (15, place));
    }
}

#[test]
fn pages() {
    let words = compiled(SMALL.as_bytes());
    for side in SIDES {
        let (mut cells, mut rules) = ([9; 4], [8; 5]);
        assert_eq!((side.page)(&words, &[], &mut [], &mut []), Ok(()), "{}", side.name);
        assert_eq!((side.page)(&words, &[0x61, 0x2809, 0xF061], &mut cells, &mut rules), Ok(()), "{}", side.name);
        assert_eq!((cells, rules), ([1, 9, 1, 9], [3, 1, 19, 8, 8]), "{}", side.name);
        let refusal = (side.page)(&words, &[0x62, 0x62, 0x11_0000, 0xD800], &mut cells, &mut rules);
        assert_eq!(refusal.map_err(pair), Err((14, 2)), "{}", side.name);
        let refusal = (side.page)(&words, &[0x62; 5], &mut cells, &mut rules);
        assert_eq!(refusal.map_err(pair), Err((2, 0)), "{}", side.name);
        let refusal = (side.page)(&words, &[0xD800; 4], &mut cells, &mut rules[..3]);
        assert_eq!(refusal.map_err(pair), Err((2, 0)), "{}", side.name);
        assert_eq!((cells, rules), ([1, 9, 1, 9], [3, 1, 19, 8, 8]), "{}", side.name);
        assert_eq!((side.look_up)(&words, 0xD800).map_err(pair), Err((14, 0)), "{}", side.name);
    }
}

/// Windows by start and width.
type List<'a> = &'a [(usize, usize)];

/// `a`, `b`, `A`, `æ`, `é` and U+2809, which show 01, 03, 41, 01, 39 and 09 by `SMALL`.
const PAGE: [u32; 6] = [0x61, 0x62, 0x41, 0xE6, 0xE9, 0x2809];

/// Cells and rules.
type Written<'a> = (&'a [u8], &'a [u8]);

/// Asks every side for windows, with buffers of these lengths, and looks at the answer and the buffers: what is written
/// from their front, or number and place and nothing written.
fn windows_are(
    words: &[u32],
    page: &[u32],
    windows: List,
    [cells_length, rules_length]: [usize; 2],
    answer: Result<Written, (u32, u32)>,
) {
    let list: Vec<Window> = windows.iter().map(|&(start, width)| Window { start, width }).collect();
    let (cells_written, rules_written) = answer.unwrap_or_default();
    let after = |written: &[u8], length: usize, pattern: u8| {
        let mut buffer = vec![pattern; length];
        buffer[..written.len()].copy_from_slice(written);
        buffer
    };
    for side in SIDES {
        let (mut cells, mut rules) = (vec![0xA5; cells_length], vec![0x5A; rules_length]);
        let got = (side.windows)(words, page, &list, &mut cells, &mut rules).map_err(pair);
        let input =
            || format!("{}: {:X?} of {:X?}", side.name, &windows[..windows.len().min(9)], &page[..page.len().min(9)]);
        assert_eq!(got, answer.map(|_| ()), "{} {cells_length} {rules_length}", input());
        assert_eq!(cells, after(cells_written, cells_length, 0xA5), "{}", input());
        assert_eq!(rules, after(rules_written, rules_length, 0x5A), "{}", input());
    }
}

#[test]
fn windows() {
    let words = compiled(SMALL.as_bytes());
    let all: Written = (&[0x01, 0x03, 0x41, 0x01, 0x39, 0x09], &[3, 3, 3, 6, 8, 1]);
    let examples: &[(List, &[u8], &[u8])] = &[
        (&[], &[], &[]),
        (&[(0, 6)], all.0, all.1),
        (&[(3, 1)], &[0x01], &[6]),
        // One after another, in the order of the list and not of the page.
        (&[(1, 2), (4, 1)], &[0x03, 0x41, 0x39], &[3, 3, 8]),
        (&[(4, 1), (1, 2)], &[0x39, 0x03, 0x41], &[8, 3, 3]),
        (&[(5, 1), (4, 1), (3, 1), (0, 1)], &[0x09, 0x39, 0x01, 0x01], &[1, 8, 6, 3]),
        (&[(0, 3), (3, 3)], all.0, all.1),
        // Overlapping, one in the other, the same twice, more than the page together.
        (&[(0, 3), (1, 3)], &[0x01, 0x03, 0x41, 0x03, 0x41, 0x01], &[3, 3, 3, 3, 3, 6]),
        (&[(2, 4), (4, 1)], &[0x41, 0x01, 0x39, 0x09, 0x39], &[3, 6, 8, 1, 8]),
        (&[(5, 1), (5, 1)], &[0x09, 0x09], &[1, 1]),
        (
            &[(0, 6), (1, 5)],
            &[0x01, 0x03, 0x41, 0x01, 0x39, 0x09, 0x03, 0x41, 0x01, 0x39, 0x09],
            &[3, 3, 3, 6, 8, 1, 3, 3, 6, 8, 1],
        ),
        // Empty ones anywhere, also at the very end of the page.
        (&[(0, 0)], &[], &[]),
        (&[(6, 0)], &[], &[]),
        (&[(0, 0), (2, 1), (3, 0), (6, 0), (4, 1), (6, 0)], &[0x41, 0x39], &[3, 8]),
    ];
    for (list, cells, rules) in examples {
        let widths = cells.len();
        // Buffers that just hold the widths, whatever the page's length; longer ones, whose other bytes stay.
        for lengths in [[widths, widths], [widths + 1, widths], [widths, widths + 9], [widths + 7, widths + 3]] {
            windows_are(&words, &PAGE, list, lengths, Ok((cells, rules)));
        }
        if widths > 0 {
            for lengths in [[widths - 1, widths], [widths, widths - 1], [widths - 1, widths - 1], [0, 99], [99, 0]] {
                windows_are(&words, &PAGE, list, lengths, Err((2, 0)));
            }
        }
    }
    windows_are(&words, &[], &[], [0, 0], Ok((&[], &[])));
    windows_are(&words, &[], &[(0, 0), (0, 0)], [1, 0], Ok((&[], &[])));
    windows_are(&compiled(b""), &[0x61], &[(0, 1), (0, 1)], [2, 2], Ok((&[0xFF, 0xFF], &[9, 9])));
}

#[test]
fn windows_beyond() {
    let words = compiled(SMALL.as_bytes());
    let examples: &[(List, u32)] = &[
        (&[(0, 7)], 0),
        (&[(1, 6)], 0),
        (&[(5, 2)], 0),
        (&[(6, 1)], 0),
        (&[(7, 0)], 0),
        (&[(100, 0)], 0),
        // Numbered from 0, the first of several, empty ones counted.
        (&[(0, 6), (0, 7)], 1),
        (&[(6, 0), (6, 0), (7, 0)], 2),
        (&[(0, 1), (6, 1), (9, 9), (0, 1)], 1),
        (&[(9, 0), (0, 7)], 0),
        (&[(0, 0), (0, 6), (0, 6), (3, 3), (3, 4), (0, 0)], 4),
        // True sums.
        (&[(usize::MAX, 0)], 0),
        (&[(usize::MAX, 1)], 0),
        (&[(usize::MAX, 2)], 0),
        (&[(1, usize::MAX)], 0),
        (&[(6, usize::MAX)], 0),
        (&[(0, usize::MAX)], 0),
        (&[(usize::MAX, usize::MAX)], 0),
        (&[(1 << 63, 1 << 63)], 0),
        (&[(0, 1), (1 << 63 | 1, 1 << 63)], 1),
        (&[(1 << 32, 1)], 0),
        (&[(0, 1 << 32)], 0),
        (&[(0, 1), (1, usize::MAX), (0, usize::MAX)], 1),
    ];
    for (list, number) in examples {
        for lengths in [[99, 99], [0, 0], [99, 0], [0, 99]] {
            windows_are(&words, &PAGE, list, lengths, Err((19, *number)));
        }
    }
    windows_are(&words, &[], &[(0, 0), (0, 1)], [9, 9], Err((19, 1)));
    windows_are(&words, &[], &[(1, 0)], [9, 9], Err((19, 0)));
    let mut many = vec![(6, 0); 70_000];
    windows_are(&words, &PAGE, &many, [0, 0], Ok((&[], &[])));
    many.push((6, 1));
    windows_are(&words, &PAGE, &many, [0, 0], Err((19, 70_000)));
}

/// A page whose first number is no scalar. The others take no memory as long as nobody reads them.
fn hardly_there(length: usize) -> Option<&'static [u32]> {
    extern "C" {
        fn mmap(at: *mut u32, bytes: usize, access: i32, flags: i32, file: i32, offset: i64) -> *mut u32;
    }
    const READ_AND_WRITE: i32 = 1 | 2;
    const PRIVATE_ANONYMOUS_NORESERVE: i32 = 0x2 | 0x20 | 0x4000;
    // SAFETY: new memory, all zero, that nobody else has and nobody gives back.
    unsafe {
        let page = mmap(std::ptr::null_mut(), 4 * length, READ_AND_WRITE, PRIVATE_ANONYMOUS_NORESERVE, -1, 0);
        if page as isize == -1 {
            return None;
        }
        *page = 0xD800;
        Some(std::slice::from_raw_parts(page, length))
    }
}

#[test]
fn widths_together() {
    // Sums of 2^32 and 2^64. A page that large is refused by 2 before anybody reads it; a wrapped sum makes it 14.
    let words = compiled(SMALL.as_bytes());
    windows_are(&words, &[0xD800; 1 << 16], &vec![(0, 1 << 16); 1 << 16], [9, 9], Err((2, 0)));
    match hardly_there(1 << 43) {
        Some(page) => windows_are(&words, page, &vec![(0, 1 << 43); 1 << 21], [9, 9], Err((2, 0))),
        None => println!("widths of 2^64 together: not tried, there is no address space of 32 TiB"),
    }
}

#[test]
fn windows_in_order() {
    let words = compiled(SMALL.as_bytes());
    let mut broken = words.clone();
    broken[4] = 0x61;
    // Two numbers that are no scalars, at 2 and 4.
    let damaged = [0x61, 0x62, 0xD800, 0xE6, 0x11_0000, 0x2809];
    let beyond: List = &[(0, 1), (5, 2)];
    let inside: List = &[(0, 1), (5, 1)];
    for page in [PAGE, damaged] {
        for list in [beyond, inside, &[]] {
            for lengths in [[0, 0], [1, 2], [2, 1], [2, 2], [9, 9]] {
                windows_are(&words[..WORDS - 1], &page, list, lengths, Err((2, 0)));
                windows_are(&[], &page, list, lengths, Err((2, 0)));
                windows_are(&broken[..WORDS - 1], &page, list, lengths, Err((2, 0)));
                windows_are(&broken, &page, list, lengths, Err((15, 2)));
                windows_are(&words, &page, beyond, lengths, Err((19, 1)));
            }
        }
        for lengths in [[0, 0], [1, 1], [1, 2], [2, 1], [0, 9], [9, 1]] {
            windows_are(&words, &page, inside, lengths, Err((2, 0)));
        }
    }
    // Over the whole page, inside the windows or not, and with none.
    let lists: [List; 7] = [inside, &[], &[(0, 0)], &[(6, 0)], &[(4, 1)], &[(4, 1), (2, 1)], &[(0, 6), (0, 6)]];
    for list in lists {
        windows_are(&words, &damaged, list, [12, 12], Err((14, 2)));
    }
    windows_are(&words, &damaged[3..], &[(0, 1), (2, 1)], [2, 2], Err((14, 1)));
    windows_are(&words, &damaged[5..], &[(0, 1)], [1, 1], Ok((&[0x09], &[1])));
    windows_are(&words, &[0xDFFF], &[], [0, 0], Err((14, 0)));
    windows_are(&words, &[0xDFFF], &[(1, 0)], [0, 0], Err((14, 0)));
    windows_are(&words, &[0xDFFF], &[(2, 0)], [0, 0], Err((19, 0)));
    windows_are(&words, &[0xDFFF], &[(0, 1)], [1, 0], Err((2, 0)));
    // Words beyond the table are not looked at.
    let mut longer = words;
    longer.extend([1, 2, 3]);
    windows_are(&longer, &PAGE, inside, [2, 2], Ok((&[0x01, 0x09], &[3, 1])));
}

/// A call for all 256 and its single calls. Buffers of several lengths hold a pattern: a refusal leaves all of it, an
/// answer what is past 256.
fn filled<T: Copy + PartialEq + Debug, A: Copy + PartialEq + Debug>(
    side: &str,
    pattern: T,
    call: impl Fn(&mut [T]) -> Result<A, Refusal>,
    single: impl Fn(u8) -> Result<T, Refusal>,
    answer: Result<(A, [T; 256]), (u32, u32)>,
) {
    for byte in 0..=255 {
        let element = answer.map(|(_, elements)| elements[usize::from(byte)]);
        assert_eq!(single(byte).map_err(pair), element, "{side} {byte:X}");
    }
    for length in [0, 1, 255, 256, 300] {
        let mut buffer = vec![pattern; length];
        let got = call(&mut buffer).map_err(pair);
        match answer {
            _ if length < 256 => assert_eq!((got, &buffer), (Err((2, 0)), &vec![pattern; length]), "{side}"),
            Err(refusal) => assert_eq!((got, &buffer), (Err(refusal), &vec![pattern; length]), "{side}"),
            Ok((count, elements)) => {
                assert_eq!((got, &buffer[..256]), (Ok(count), &elements[..]), "{side}");
                assert_eq!(buffer[256..], vec![pattern; length - 256], "{side}");
            }
        }
    }
}

fn entries_are(words: &[u32], answer: Result<&[(usize, u32)], (u32, u32)>) {
    let answer = answer.map(|typing| {
        let mut entries = [0; 256];
        typing.iter().for_each(|(cell, entry)| entries[*cell] = *entry);
        ((), entries)
    });
    for side in SIDES {
        let all = |entries: &mut [u32]| (side.entries)(words, entries);
        filled(side.name, 0xA5A5_A5A5, all, |cell| side.entry(words, cell), answer);
    }
}

#[test]
fn entries() {
    let of = |text: &str| compiled(text.as_bytes());
    entries_are(&of(""), Ok(&[]));
    entries_are(&of(SMALL), Ok(&[(0x01, 0x62), (0x03, 0x63), (0x39, 0x40)]));
    entries_are(&of("char \\x00 0\nchar \\U0010FFFF 12345678\n"), Ok(&[(0, 1), (255, 0x11_0000)]));
    entries_are(&of("glyph x 1\nchar a 1\nchar b 1\nbyte c 2\nalias d a\n"), Ok(&[(1, 0x62)]));
    entries_are(&of("alias x \\u2803\nchar \\uF041 3\n"), Ok(&[(4, 0x42)]));
    let mut words = of(SMALL);
    for length in [0, 2047, 2048, 2049] {
        entries_are(&words[..length], Err((2, 0)));
    }
    words[4] = 0x61;
    entries_are(&words, Err((15, 2)));
    words[0] = 0xD800;
    entries_are(&words, Err((15, 0)));
    words.extend([1, 2, 3]);
    words[..2048].fill(0);
    entries_are(&words, Ok(&[]));
    words[2047] = 1;
    entries_are(&words, Err((15, 1023)));
}

fn attribute_cells_are(text: &[u8], answer: Result<(u32, [u8; 256]), (u32, u32)>) {
    for side in SIDES {
        let all = |cells: &mut [u8]| (side.attribute_cells)(text, cells);
        filled(side.name, 0xA5, all, |byte| (side.attribute_cell)(text, byte), answer);
    }
}

#[test]
fn attribute_cells() {
    attribute_cells_are(b"", Ok((0, [0; 256])));
    attribute_cells_are(b"# a\r\n\n \t", Ok((0, [0; 256])));
    // Dot 1 is 1 and goes by bit 04; dot 4 is 8 and is down where bit 10 is on.
    let red_and_blue = |byte: usize| match (byte / 4 % 2, byte / 16 % 2) {
        (0, 0) => 8,
        (0, _) => 0,
        (_, 0) => 9,
        _ => 1,
    };
    attribute_cells_are(b"dot 1 =fg-red\n#\ndot 4 ~bg-blue", Ok((2, std::array::from_fn(red_and_blue))));
    let blink = |byte: usize| if byte < 128 { 0 } else { 0x40 };
    attribute_cells_are(b"\tdot 7 =blink # on", Ok((1, std::array::from_fn(blink))));
    attribute_cells_are(&[b'\n'; 65_536], Ok((0, [0; 256])));
    attribute_cells_are(&[b'\n'; 65_537], Err((1, 0)));
    attribute_cells_are(b"dot 1 =fg-red\ndot 2 on\n", Err((16, 2)));
    attribute_cells_are(b"dot 1 =fg-red\ndot 1 =blink\nx", Err((11, 2)));
    attribute_cells_are(b"\n\nchar a 1", Err((5, 3)));
}

#[test]
fn attributes() {
    let text = b"dot 1 =fg-red\ndot 4 ~bg-blue\n";
    assert_eq!(reference::attributes(text).0, Ok(2));
    for side in SIDES {
        for (byte, cell) in [(0x04, 0x09), (0x10, 0x00), (0x00, 0x08), (0x14, 0x01)] {
            assert_eq!((side.attribute_cell)(text, byte), Ok(cell), "{} {byte:X}", side.name);
        }
        assert_eq!((side.attribute_cell)(b"", 0xFF), Ok(0), "{}", side.name);
        assert_eq!((side.attribute_cell)(&[b'\n'; 65_537], 0).map_err(pair), Err((1, 0)), "{}", side.name);
        let faults: [(&[u8], u32, u32); 28] = [
            (b"dot 12 =blink", 8, 1),
            (b"dot 0 =blink", 8, 1),
            (b"dot 9 =blink", 8, 1),
            (b"dot (1) =blink", 8, 1),
            (b"dot 1=blink", 8, 1),
            (b"dot #", 8, 1),
            (b"dot", 6, 1),
            (b"dot 1", 6, 1),
            (b"dot 1 # x", 16, 1),
            (b"dot 1 =", 16, 1),
            (b"dot 1 ~", 16, 1),
            (b"dot 1 = fg-red", 16, 1),
            (b"dot 1 =FG-RED", 16, 1),
            (b"dot 1 on", 16, 1),
            (b"dot 1 fg-red", 16, 1),
            (b"dot 1 =fg-redd", 16, 1),
            (b"dot 1 =fg-red#", 16, 1),
            (b"dot 1 =blink x", 9, 1),
            (b"#\ndot 1 =blink\ndot 1 =blink", 11, 3),
            (b"ifCell 1 dot 1 =blink", 5, 1),
            (b"ifCell 1", 5, 1),
            (b"else", 5, 1),
            (b"endIf", 5, 1),
            (b"dot 1 =blink\nendIf", 5, 2),
            (b"Dot 1 =blink", 5, 1),
            (b"char a 1", 5, 1),
            (b"\n#\xFF", 4, 2),
            (&[b' '; 1025], 3, 1),
        ];
        for (text, number, line) in faults {
            let answer = (side.attribute_cell)(text, 0).map_err(pair);
            assert_eq!(answer, Err((number, line)), "{}: {:?}", side.name, String::from_utf8_lossy(text));
            assert_eq!(reference::attributes(text).1, [Place::Unnamed; 8]);
        }
    }
}

#[test]
fn columns_of_attributes() {
    let faults: [(&[u8], [u32; 3]); 44] = [
        (&[b'\n'; 65_537], [1, 0, 0]),
        (&[b' '; 1025], [3, 1, 1025]),
        (&[b'\xFF'; 1026], [3, 1, 1025]),
        (b"\n#\xFF", [4, 2, 2]),
        (b"dot \xE2\x82 =blink", [4, 1, 5]),
        (b"dot 1 =blink # \xC3\xA9\xFF", [4, 1, 18]),
        (b"dot 1 =blink # \xE2\x82\xAC\xF0\x9D\x84\x9E\xBF", [4, 1, 23]),
        (b"Dot 1 =blink", [5, 1, 1]),
        (b" \tchar a 1", [5, 1, 3]),
        (b"\xEF\xBB\xBFdot 1 =blink", [5, 1, 1]),
        (b"dot 1 =blink\r\n  endIf\r\n", [5, 2, 3]),
        (b"ifCell 1 dot 1 =blink", [5, 1, 1]),
        (b"dot", [6, 1, 4]),
        (b"dot ", [6, 1, 5]),
        (b"dot 1", [6, 1, 6]),
        (b"dot 1\r", [6, 1, 6]),
        (b"dot 1\r\n", [6, 1, 6]),
        (b" dot 1 ", [6, 1, 8]),
        (b"dot 8 \t\r\n", [6, 1, 8]),
        (b"dot 12 =blink", [8, 1, 5]),
        (b"dot  \xC3\xA9 =blink", [8, 1, 6]),
        (b"dot (1) =blink", [8, 1, 5]),
        (b"dot ( 1", [8, 1, 5]),
        (b"dot 1=blink", [8, 1, 5]),
        (b"dot #", [8, 1, 5]),
        (b"dot 1\r\r\n", [8, 1, 5]),
        (b"dot \r\r\n", [8, 1, 5]),
        (b"\tdot\t0 x", [8, 1, 6]),
        (b"dot 1 on", [16, 1, 7]),
        (b"dot 1 = fg-red", [16, 1, 7]),
        (b"dot 1 \t=FG-RED", [16, 1, 8]),
        (b"dot 1 # x", [16, 1, 7]),
        (b"dot 1 \xC3\xA9 x", [16, 1, 7]),
        (b"dot 1 =blink\r\r\n", [16, 1, 7]),
        (b"dot 1 \r\r\n", [16, 1, 7]),
        (b"#\n dot 2  ~blink# x", [16, 2, 9]),
        (b"dot 1 =blink x", [9, 1, 14]),
        (b"dot 1 =blink  \t\xC3\xA9 # x", [9, 1, 16]),
        (b"dot 1 =blink \r\r\n", [9, 1, 14]),
        (b"\tdot 2 ~fg-bright\t\t(1)", [9, 1, 20]),
        (b"#\ndot 1 =blink\ndot 1 =blink", [11, 3, 1]),
        (b"dot 1 =blink\n \tdot 1 ~fg-red # x\r\n", [11, 2, 3]),
        (b"dot 1 =blink\r\n    dot 1 =blink", [11, 2, 5]),
        (b"dot 1 =blink\ndot 1 =blink x", [9, 2, 14]),
    ];
    for (text, [number, place, column]) in faults {
        let refusal = Refusal { number, place, column };
        for side in SIDES {
            let input = || format!("{}: {:?}", side.name, String::from_utf8_lossy(text));
            assert_eq!((side.attribute_cell)(text, 0), Err(refusal), "{}", input());
            assert_eq!((side.attribute_cells)(text, &mut [0; 256]), Err(refusal), "{}", input());
        }
    }
}

#[test]
fn attribute_names() {
    let names = ["fg-blue", "fg-green", "fg-red", "fg-bright", "bg-blue", "bg-green", "bg-red", "blink"];
    let on: String = (0..8).map(|d| format!("dot {} ={} # x\r\n", d + 1, names[d])).collect();
    let off: String = (0..8).rev().map(|d| format!("\tdot\t{} ~{}\n\n", d + 1, names[d])).collect();
    let same = |byte: usize| byte as u8;
    attribute_cells_are(on.as_bytes(), Ok((8, std::array::from_fn(same))));
    attribute_cells_are(off.as_bytes(), Ok((8, std::array::from_fn(|byte| !same(byte)))));
}

/// Cells that are all the same but for some bytes.
fn cells_but(all: u8, bytes: &[(u8, u8)]) -> [u8; 256] {
    let mut cells = [all; 256];
    bytes.iter().for_each(|(byte, cell)| cells[usize::from(*byte)] = *cell);
    cells
}

/// A byte table in every set.
fn byte_table_is(text: impl AsRef<[u8]>, answer: Result<(u32, [u8; 256]), [u32; 3]>) {
    for set in SETS {
        byte_table_in(set, text.as_ref(), answer);
    }
}

/// Reads a byte table on every side, into buffers and beside words of several lengths, and looks at the answer, the cells
/// and all that has to stay: the count and the cells, or number, line and column, and 255 for every byte.
fn byte_table_in(set: u32, text: &[u8], answer: Result<(u32, [u8; 256]), [u32; 3]>) {
    let expected = answer.map(|(count, _)| count);
    let expected = expected.map_err(|[number, place, column]| Refusal { number, place, column });
    let cells = answer.map_or([255; 256], |(_, cells)| cells);
    for side in SIDES {
        let input = || format!("{}: set {set}, {:?}", side.name, String::from_utf8_lossy(&text[..text.len().min(200)]));
        for length in [0, 1, 2048, 2049, 2050, 2052] {
            let mut words = vec![0xA5A5_A5A5; length];
            assert_eq!((side.compile)(BYTE_EDITION, set, text, &mut words), expected, "{}", input());
            assert_eq!(words, vec![0xA5A5_A5A5; length], "{}", input());
        }
        for length in [0, 1, 255] {
            let mut short = vec![0xA5; length];
            let refusal = Err(Refusal { number: 2, place: 0, column: 0 });
            assert_eq!((side.byte_cells)(set, text, &mut short), refusal, "{}", input());
            assert_eq!(short, vec![0xA5; length], "{}", input());
        }
        for length in [256, 257, 300] {
            let mut buffer = vec![0xA5; length];
            assert_eq!((side.byte_cells)(set, text, &mut buffer), expected, "{}", input());
            assert_eq!(buffer[..256], cells, "{}", input());
            assert_eq!(buffer[256..], vec![0xA5; length - 256], "{}", input());
        }
    }
}

/// A byte table without `dot` lines that defines these bytes.
fn defines(text: impl AsRef<[u8]>, bytes: &[(u8, u8)]) {
    byte_table_is(text, Ok((bytes.len() as u32, cells_but(0xFF, bytes))));
}

/// Refused byte tables with number, line and column.
fn bytes_refused<T: AsRef<[u8]>>(table: &[(T, [u32; 3])]) {
    for (text, refusal) in table {
        byte_table_is(text, Err(*refusal));
    }
}

#[test]
fn byte_tables() {
    // The examples of document 002: its byte lines, its `dot` lines, both.
    let bytes = "   byte a 1\n   b 12\n   c (14)\n   d ( 1  4   5    )\n   \\\\ 12567\n   \\x20 0\n";
    let dots = "   dot 1 on\n   dot 2 off\n   dot 3 =fg-red\n   dot 4 ~bg-blue\n";
    let lines = [(b'a', 0x01), (b'b', 0x03), (b'c', 0x09), (b'd', 0x19), (b'\\', 0x73), (b' ', 0x00)];
    defines(bytes, &lines);
    // Dot 1 and the four without a line are F1; dot 3 is 04 and goes by bit 04; dot 4 is 08 and is down where bit 10 is on.
    let by_dots: [u8; 256] = std::array::from_fn(|byte| match (byte / 4 % 2, byte / 16 % 2) {
        (0, 0) => 0xF9,
        (0, _) => 0xF1,
        (_, 0) => 0xFD,
        _ => 0xF5,
    });
    byte_table_is(dots, Ok((0, by_dots)));
    let mut both = by_dots;
    lines.iter().for_each(|(byte, cell)| both[usize::from(*byte)] = *cell);
    byte_table_is(format!("{bytes}{dots}"), Ok((6, both)));
    byte_table_is(format!("{dots}{bytes}"), Ok((6, both)));
    byte_table_is(format!("# x\r\n\r\n{dots}\n \t\n{bytes}"), Ok((6, both)));
    // Its forms with a comment.
    defines("byte a 1 # comment", &[(b'a', 1)]);
    byte_table_is("dot 1 off # comment", Ok((0, [0xFE; 256])));
}

#[test]
fn bytes_without_a_line() {
    defines("", &[]);
    defines("\n# a 1\n \t\r\n", &[]);
    byte_table_is("dot 8 off", Ok((0, [0x7F; 256])));
    byte_table_is("dot 8 on", Ok((0, [0xFF; 256])));
    let all = |state: &str| (1..=8).map(|dot| format!("dot {dot} {state}\n")).collect::<String>();
    byte_table_is(all("off"), Ok((0, [0; 256])));
    byte_table_is(all("on"), Ok((0, [0xFF; 256])));
    byte_table_is(all("=blink"), Ok((0, std::array::from_fn(|byte| if byte < 128 { 0 } else { 0xFF }))));
    byte_table_is(all("~blink"), Ok((0, std::array::from_fn(|byte| if byte < 128 { 0xFF } else { 0 }))));
    let names = ["fg-blue", "fg-green", "fg-red", "fg-bright", "bg-blue", "bg-green", "bg-red", "blink"];
    let each = |sign: &str| (0..8).map(|d| format!("dot {} {sign}{}\n", d + 1, names[d])).collect::<String>();
    byte_table_is(each("="), Ok((0, std::array::from_fn(|byte| byte as u8))));
    byte_table_is(each("~"), Ok((0, std::array::from_fn(|byte| !(byte as u8)))));
    // A byte with a line has that line's cell alone, wherever the `dot` lines stand.
    let only = |byte: u8, cell: u8| Ok((1, cells_but(0, &[(byte, cell)])));
    byte_table_is(all("off") + "a 12", only(b'a', 3));
    byte_table_is("byte \\xFF 0\n".to_string() + &all("off"), only(0xFF, 0));
    byte_table_is("dot 1 off\na 1\ndot 2 off\nb ()", Ok((2, cells_but(0xFC, &[(b'a', 1), (b'b', 0)]))));
}

#[test]
fn every_byte() {
    let cell = |byte: u8| byte.wrapping_mul(7);
    let dots = |cell: u8| match cell {
        0 => "0".to_string(),
        _ => (1..=8).rev().filter(|dot| cell >> (dot - 1) & 1 == 1).map(|dot| dot.to_string()).collect(),
    };
    let cells: [u8; 256] = std::array::from_fn(|byte| cell(byte as u8));
    let text = |form: fn(u8) -> String| -> String {
        (0..=255).map(|byte| format!("{} {}\n", form(byte), dots(cell(byte)))).collect()
    };
    let hex = [
        text(|byte| format!("\\x{byte:02x}")),
        text(|byte| format!("\\X{byte:02x}")),
        text(|byte| format!("byte \\x{byte:02X}")),
        text(|byte| format!("\tbyte\t\\X{byte:02X}\t")),
    ];
    for text in hex {
        byte_table_is(&text, Ok((256, cells)));
        byte_table_is(format!("{text}dot 1 off\n"), Ok((256, cells)));
        byte_table_is(format!("{text}a 1\n"), Err([11, 257, 1]));
        byte_table_is(format!("{text}a 1 x\n"), Err([9, 257, 5]));
    }
    // As characters, but for whitespace, LF and the backslash.
    for set in SETS {
        let raw = |byte: u8| match byte {
            b'\t' | b'\n' | b' ' | b'\\' => format!("\\x{byte:02X}"),
            _ => local(set, byte).to_string(),
        };
        let line = |byte: u8| format!("{} {}\n", raw(byte), dots(cell(byte)));
        let text: String = (0..=255).map(|byte| format!("byte {}", line(byte))).collect();
        byte_table_in(set, text.as_bytes(), Ok((256, cells)));
        let text: String = (0..=255).filter(|byte| *byte != b'#').map(line).collect();
        let mut but_number_sign = cells;
        but_number_sign[usize::from(b'#')] = 0xFF;
        byte_table_in(set, text.as_bytes(), Ok((255, but_number_sign)));
    }
}

#[test]
fn byte_operands() {
    defines(
        "\\\\ 1\n\\x41 2\n\\X42 3\n\\xe9 4\n\\XEa 5\n\\xEB 6",
        &[(b'\\', 0x01), (b'A', 0x02), (b'B', 0x04), (0xE9, 0x08), (0xEA, 0x10), (0xEB, 0x20)],
    );
    defines("é 1\nbyte ÿ 2\n\u{80} 3\n\u{A0} 4", &[(0xE9, 1), (0xFF, 2), (0x80, 4), (0xA0, 8)]);
    defines("1 1\n( 2\n) 3\n0 0\n= 4", &[(b'1', 1), (b'(', 2), (b')', 4), (b'0', 0), (b'=', 8)]);
    defines("byte # 1", &[(b'#', 1)]);
    defines("\\x23 1", &[(b'#', 1)]);
    defines("# 1\n#a 1\n \t# 1", &[]);
    // Control characters that are no whitespace and no line end.
    defines("\0 1\n\u{B} 2\nbyte \u{C} 3\n\u{7F} 4", &[(0x00, 1), (0x0B, 2), (0x0C, 4), (0x7F, 8)]);
    defines("\r 1\r\n", &[(b'\r', 1)]);
    defines("byte \r 1", &[(b'\r', 1)]);
    defines("\\x0A 1\n\\x0d 2\n\\x09 3", &[(b'\n', 1), (b'\r', 2), (b'\t', 4)]);
    let bad = [
        "ab", "\\", "\\#", "\\s", "\\b", "\\t", "\\n", "\\v", "\\f", "\\r", "\\o101", "\\o377", "\\u0041",
        "\\U00000041", "\\x", "\\x4", "\\x041", "\\X", "\\X4", "\\X041", "\\xg0", "\\x0g", "\\x+4", "\\x4\u{661}",
        "\\\\\\", "\\\\x41", "\\é", "é\\", "\\x41\\", "Ā", "₠", "𝄞", "\u{FFFD}", "\u{F061}", "\u{FEFF}a", "a\u{301}",
        "éé", "aa#", "byte", "dot",
    ];
    for word in bad {
        bytes_refused(&[
            (format!("byte {word} 1"), [7, 1, 6]),
            (format!("  byte\t \t{word}"), [7, 1, 10]),
            (format!("b 1\nbyte {word} 9 x"), [7, 2, 6]),
        ]);
        if word != "byte" && word != "dot" {
            bytes_refused(&[
                (format!("{word} 1"), [7, 1, 1]),
                (format!("\t {word}"), [7, 1, 3]),
                (format!("b 1\r\n {word} 9 x\r\n"), [7, 2, 2]),
            ]);
        }
    }
    bytes_refused(&[("byte ## 1", [7, 1, 6]), ("byte #a 1", [7, 1, 6])]);
}

#[test]
fn first_words() {
    // Only these two, exactly; any other word is a byte operand.
    let words = [
        "Byte", "BYTE", "bytes", "byter", "byt", "byte#", "Dot", "DOT", "dots", "do", "dot#", "char", "glyph", "alias",
        "else", "endIf", "ifGlyph", "ifCell", "include", "\u{FEFF}byte", "\u{FEFF}dot", "dot\u{A0}1", "byte\u{A0}a",
    ];
    for word in words {
        bytes_refused(&[
            (word.to_string(), [7, 1, 1]),
            (format!("{word} 1"), [7, 1, 1]),
            (format!("\n\t{word} a 1"), [7, 2, 2]),
            (format!("a 1\n  {word} 1 off\n"), [7, 2, 3]),
        ]);
    }
    bytes_refused(&[("byte\r\r\n", [7, 1, 1]), ("dot\r\r\n", [7, 1, 1])]);
    // A byte table has no conditions and no blocks.
    bytes_refused(&[("ifNotGlyph a\nb 1\nendIf", [7, 1, 1]), ("ifNotGlyph a byte b 1", [7, 1, 1])]);
}

#[test]
fn missing_in_byte_tables() {
    bytes_refused(&[
        ("byte", [6, 1, 5]),
        ("byte ", [6, 1, 6]),
        ("byte a", [6, 1, 7]),
        ("byte 1", [6, 1, 7]),
        ("byte a \t", [6, 1, 9]),
        ("byte #", [6, 1, 7]),
        ("byte é", [6, 1, 8]),
        ("\tbyte \\xE9", [6, 1, 11]),
        ("dot", [6, 1, 4]),
        ("dot 1", [6, 1, 6]),
        ("b 1\n\ndot 8 \r\n", [6, 3, 7]),
        ("a", [6, 1, 2]),
        ("1", [6, 1, 2]),
        ("é", [6, 1, 3]),
        (" é \r\n", [6, 1, 5]),
        ("\\\\", [6, 1, 3]),
        ("a\r\n", [6, 1, 2]),
        ("a\r", [6, 1, 2]),
        ("a \r\n", [6, 1, 3]),
        // A CR that is not of the line's end is a byte.
        ("\r\r\n", [6, 1, 2]),
        ("\r\r", [6, 1, 2]),
        ("byte \r\n", [6, 1, 6]),
        ("byte \r\r\n", [6, 1, 7]),
    ]);
    let full = format!("a{}", " ".repeat(1023));
    bytes_refused(&[(full.clone(), [6, 1, 1025]), (full + "\r\n", [6, 1, 1025])]);
}

#[test]
fn dots_in_byte_tables() {
    for (word, dots) in [
        ("0", 0),
        ("()", 0),
        ("( \t)", 0),
        ("1", 1),
        ("8", 128),
        ("87654321", 255),
        ("(12)", 3),
        ("( 4 1 )", 9),
        ("(8\t1)", 129),
    ] {
        defines(format!("a {word}"), &[(b'a', dots)]);
        defines(format!("\tbyte\t\ta \t{word}\t#x\r\n"), &[(b'a', dots)]);
    }
    for word in [
        "9", "11", "00", "01", "10", "121", "(11)", "(1 1)", "(0)", "(1 0)", "(9)", "(1 2", "(", "( ", ")", "(12)x",
        "(12)#c", "12#c", "()()", "(1)2", "1(2)", "((1))", "(1))", "a", "+1", "1,2", "(1 # 2)", "(1\r)", "é", "#",
        "#1",
    ] {
        bytes_refused(&[
            (format!("a {word}"), [8, 1, 3]),
            (format!("byte é \t{word}"), [8, 1, 10]),
            (format!("#\n \\x61 {word} x"), [8, 2, 7]),
        ]);
    }
    bytes_refused(&[
        ("a # note", [8, 1, 3]),
        ("byte a # 1", [8, 1, 8]),
        ("a b 1", [8, 1, 3]),
        ("a 1\r\r\n", [8, 1, 3]),
        ("a (1 2)\r\r\n", [8, 1, 3]),
        // Dot numbers.
        ("dot 1\r\r\n", [8, 1, 5]),
    ]);
    for word in ["0", "9", "12", "(1)", "01", "1=blink", "#", "a", "+1", "\\x31", "1#", "é", "on"] {
        bytes_refused(&[
            (format!("dot {word} on"), [8, 1, 5]),
            (format!("a 1\n\tdot  {word}"), [8, 2, 7]),
            (format!("dot {word} x y"), [8, 1, 5]),
        ]);
    }
}

#[test]
fn states_in_byte_tables() {
    for word in [
        "=", "~", "On", "ON", "Off", "OFF", "onn", "of", "=on", "~off", "on,off", "blink", "=Blink", "=fg-redd",
        "=fg-", "#", "#off", "on#", "=fg-red#", "1", "é",
    ] {
        bytes_refused(&[(format!("dot 1 {word}"), [16, 1, 7]), (format!("\n dot 8 \t{word} x"), [16, 2, 9])]);
    }
    bytes_refused(&[
        ("dot 1 = blink", [16, 1, 7]),
        ("dot 1 # on", [16, 1, 7]),
        ("dot 1 on\r # x", [16, 1, 7]),
        ("dot 1 off\r\r\n", [16, 1, 7]),
        ("dot 1 \r\r\n", [16, 1, 7]),
    ]);
    // An attributes table has neither.
    for side in SIDES {
        for text in ["dot 1 on", "dot 1 off"] {
            let refusal = Err(Refusal { number: 16, place: 1, column: 7 });
            assert_eq!((side.attribute_cell)(text.as_bytes(), 0), refusal, "{}", side.name);
        }
    }
}

#[test]
fn text_behind_in_byte_tables() {
    defines("a 1 #\nb 2 #x y\nbyte c (3)\t# # 1 \r\n", &[(b'a', 1), (b'b', 2), (b'c', 4)]);
    byte_table_is("dot 1 off #\ndot 2 off\t#x y", Ok((0, [0xFC; 256])));
    bytes_refused(&[
        ("a 1 x", [9, 1, 5]),
        ("byte a 1 x", [9, 1, 10]),
        ("byte a 1 2", [9, 1, 10]),
        ("byte 1 2 3", [9, 1, 10]),
        ("a (1 2)  x # y", [9, 1, 10]),
        ("a ()\t()", [9, 1, 6]),
        ("é 1 \\#", [9, 1, 6]),
        ("a 1 \r\r\n", [9, 1, 5]),
        ("dot 1 on x", [9, 1, 10]),
        ("dot 1 =blink  off", [9, 1, 15]),
        ("a 1\r\n dot 2 ~fg-red\t1\r\n", [9, 2, 16]),
    ]);
}

#[test]
fn twice_in_byte_tables() {
    bytes_refused(&[
        // However the byte is written, at the first word of the line.
        ("a 1\na 1", [11, 2, 1]),
        ("a 1\nbyte a 2", [11, 2, 1]),
        ("byte a 1\n  a 2", [11, 2, 3]),
        ("a 1\n\\x61 2", [11, 2, 1]),
        ("\\X61 1\n\t byte \\x61 2", [11, 2, 3]),
        ("\\xeA 1\n\\xEa 2", [11, 2, 1]),
        ("é 1\n \\xE9 2", [11, 2, 2]),
        ("\\xe9 1\nbyte é 2 # x", [11, 2, 1]),
        ("\\\\ 1\n\\x5c 1", [11, 2, 1]),
        ("byte # 1\n\\x23 1", [11, 2, 1]),
        ("\r 1\n\\x0D 1", [11, 2, 1]),
        ("a 1\nb 2\n# c\n\nA 1\n a 1\r\n", [11, 6, 2]),
        // Dots.
        ("dot 1 on\ndot 1 on", [11, 2, 1]),
        ("dot 1 on\n \tdot 1 =blink # x", [11, 2, 3]),
        ("dot 8 off\na 1\nbyte b 1\n dot 8 on\n", [11, 4, 2]),
        // After the other faults of the line.
        ("a 1\na", [6, 2, 2]),
        ("a 1\na 9", [8, 2, 3]),
        ("a 1\n\\x61 1 x", [9, 2, 8]),
        ("dot 1 on\ndot 1", [6, 2, 6]),
        ("dot 1 on\ndot 1 x", [16, 2, 7]),
        ("dot 1 on\ndot 1 off x", [9, 2, 11]),
        // The first faulty line decides.
        ("a 1\na 1\nbc", [11, 2, 1]),
        ("bc 1\na 1\na 1", [7, 1, 1]),
    ]);
    defines("a 1\nA 2\n\\x01 3\n1 4", &[(b'a', 1), (b'A', 2), (0x01, 4), (b'1', 8)]);
    // A byte and a dot are two.
    byte_table_is("1 1\ndot 1 off", Ok((1, cells_but(0xFE, &[(b'1', 1)]))));
}

#[test]
fn lengths_of_byte_tables() {
    let line = |length: usize| format!("a 1{}", " ".repeat(length - 3));
    defines(line(1024), &[(b'a', 1)]);
    defines(line(1024) + "\r\n", &[(b'a', 1)]);
    defines(line(1024) + "\r", &[(b'a', 1)]);
    bytes_refused(&[
        (line(1025), [3, 1, 1025]),
        (line(1024) + "\r\r\n", [3, 1, 1025]),
        (format!("a 1\n#{}", "x".repeat(1024)), [3, 2, 1025]),
        (" ".repeat(1025), [3, 1, 1025]),
        (format!("ab{}", " ".repeat(1023)), [3, 1, 1025]),
    ]);
    bytes_refused(&[([0xFFu8; 1025], [3, 1, 1025])]);
    bytes_refused::<&[u8]>(&[
        // The byte itself is no UTF-8.
        (b"\xE9 1", [4, 1, 1]),
        (b"byte \xE9 1", [4, 1, 6]),
        (b"a 1\n# \xFF", [4, 2, 3]),
        (b"\xC3\xA9 1 # \xC3", [4, 1, 8]),
        (b"dot 1 \xE2\x82", [4, 1, 7]),
        // Before any fault of the words.
        (b"ab 9\xFF", [4, 1, 5]),
        (b"a 1\na 1 \xFF", [4, 2, 5]),
    ]);
    defines("\n".repeat(65_536), &[]);
    defines("\n".repeat(65_533) + "a 1", &[(b'a', 1)]);
    bytes_refused(&[
        ("\n".repeat(65_537), [1, 0, 0]),
        ("\n".repeat(65_534) + "a 1", [1, 0, 0]),
        ("ab\n".to_string() + &"\n".repeat(65_534), [1, 0, 0]),
        ("\n".repeat(65_535) + "x", [6, 65_536, 2]),
    ]);
}

#[test]
fn editions() {
    let texts = ["", "char a 1\n", "byte a 1\n", "dot 1 on\n", "x", "ifGlyph a", &"\n".repeat(65_537)];
    // Also such as are 1 or 2 in fewer bits.
    for edition in [0, 3, 4, 0x101, 0x102, 0x1_0001, 0x1_0002, 0x8000_0001, 0x8000_0002, u32::MAX - 1, u32::MAX] {
        for text in texts {
            for length in [0, 2047, 2048, 2049, 2050, 2052] {
                for set in [0, 1, 2, 3, u32::MAX] {
                    for side in SIDES {
                        let mut words = vec![0xA5A5_A5A5; length];
                        let refusal = Err(Refusal { number: 20, place: 0, column: 0 });
                        let got = (side.compile)(edition, set, text.as_bytes(), &mut words);
                        assert_eq!(got, refusal, "{}: edition {edition:X}, set {set:X}", side.name);
                        assert_eq!(words, vec![0xA5A5_A5A5; length], "{}: edition {edition:X}", side.name);
                    }
                }
            }
        }
    }
    // The same texts in both.
    accepts("byte a 1", &[glyph_pair('a', 1)]);
    defines("byte a 1", &[(b'a', 1)]);
    for (text, number, old_number) in [
        ("char a 1", 0, 7),
        ("byte \\s 1", 0, 7),
        ("byte \\o101 1", 0, 7),
        ("a 1", 5, 0),
        ("dot 1 on", 5, 0),
        ("a", 5, 6),
    ] {
        for side in SIDES {
            for (edition, number) in [(TEXT_EDITION, number), (BYTE_EDITION, old_number)] {
                for set in SETS {
                    let got = (side.compile)(edition, set, text.as_bytes(), &mut [0; WORDS]);
                    assert_eq!(got.map_or_else(|refusal| refusal.number, |_| 0), number, "{}: {text:?}", side.name);
                }
            }
        }
    }
}

// In what follows the characters are written out a second time, beside those of the reference.

/// The bytes in which the sets differ, with their characters in ISO 8859-1 and ISO 8859-15.
const DIFFERENCES: [(u8, char, char); 8] = [
    (0xA4, '\u{A4}', '\u{20AC}'),
    (0xA6, '\u{A6}', '\u{160}'),
    (0xA8, '\u{A8}', '\u{161}'),
    (0xB4, '\u{B4}', '\u{17D}'),
    (0xB8, '\u{B8}', '\u{17E}'),
    (0xBC, '\u{BC}', '\u{152}'),
    (0xBD, '\u{BD}', '\u{153}'),
    (0xBE, '\u{BE}', '\u{178}'),
];

/// The character of a byte in a set.
fn local(set: u32, byte: u8) -> char {
    match DIFFERENCES.iter().find(|(differing, ..)| *differing == byte && set == ISO_8859_15) {
        Some((_, _, character)) => *character,
        None => char::from(byte),
    }
}

#[test]
fn sets_that_there_are_not() {
    let texts = ["", "char a 1\n", "byte a 1\n", "dot 1 on\n", "x", "ifGlyph a", "€ 1", &"\n".repeat(65_537)];
    let refusal = Err(Refusal { number: 21, place: 0, column: 0 });
    // Also such as are 1 or 2 in fewer bits.
    for set in [0, 3, 4, 5, 0x101, 0x102, 0x1_0001, 0x1_0002, 0x8000_0001, 0x8000_0002, u32::MAX - 1, u32::MAX] {
        for text in texts.map(str::as_bytes) {
            for side in SIDES {
                let input = || format!("{}: set {set:X}", side.name);
                for length in [0, 2047, 2048, 2049, 2050, 2052] {
                    for edition in [BYTE_EDITION, TEXT_EDITION] {
                        let mut words = vec![0xA5A5_A5A5; length];
                        assert_eq!((side.compile)(edition, set, text, &mut words), refusal, "{}", input());
                        assert_eq!(words, vec![0xA5A5_A5A5; length], "{}", input());
                    }
                }
                for length in [0, 1, 255, 256, 300] {
                    // A buffer that is too short comes first; else all cells of a refused table are 255.
                    let (answer, filled) = match length {
                        256.. => (refusal, 256),
                        _ => (Err(Refusal { number: 2, place: 0, column: 0 }), 0),
                    };
                    let mut cells = vec![0xA5; length];
                    assert_eq!((side.byte_cells)(set, text, &mut cells), answer, "{}", input());
                    assert_eq!(cells[..filled], vec![0xFF; filled], "{}", input());
                    assert_eq!(cells[filled..], vec![0xA5; length - filled], "{}", input());
                }
            }
        }
    }
}

#[test]
fn bytes_of_a_set() {
    for set in SETS {
        for byte in 0..=255 {
            let character = local(set, byte);
            let mut forms = vec![format!("\\x{byte:02x}"), format!("\\X{byte:02X}"), format!("\\o{byte:03o}")];
            if !matches!(byte, b'\t' | b'\n' | b' ' | b'\\') {
                forms.push(character.to_string());
            }
            for form in forms {
                let text = format!("byte {form} 1\n");
                expect_in(set, text.as_bytes(), Ok(1), Some(&[glyph_pair(character, 1)]));
                shows_in(set, &text, character as u32, 1, 3, 0);
                shows_in(set, &text, 0xF000 + u32::from(byte), 1, 19, 0);
            }
        }
    }
}

#[test]
fn characters_of_one_set() {
    for (byte, first, second) in DIFFERENCES {
        for (set, own, other) in [(ISO_8859_1, first, second), (ISO_8859_15, second, first)] {
            expect_in(set, format!("byte {own} 12").as_bytes(), Ok(1), Some(&[glyph_pair(own, 3)]));
            byte_table_in(set, format!("{own} 12").as_bytes(), Ok((1, cells_but(0xFF, &[(byte, 3)]))));
            byte_table_in(set, format!("byte {own} 12").as_bytes(), Ok((1, cells_but(0xFF, &[(byte, 3)]))));
            byte_table_in(set, format!("{other} 12").as_bytes(), Err([7, 1, 1]));
            byte_table_in(set, format!("a 1\n  byte {other}").as_bytes(), Err([7, 2, 8]));
            for (text, column) in [
                (format!("byte {other} 12"), 6),
                (format!("  byte\t{other}"), 8),
                (format!("ifGlyph a byte {other} 9"), 16),
                (format!("byte {other} {other}"), 6),
            ] {
                expect_in(set, text.as_bytes(), Err((7, 1)), None);
                for side in SIDES {
                    let refusal = Err(Refusal { number: 7, place: 1, column });
                    let got = (side.compile)(TEXT_EDITION, set, text.as_bytes(), &mut [0; WORDS]);
                    assert_eq!(got, refusal, "{}: set {set}, {text:?}", side.name);
                }
            }
            // Two of them, and one with text behind it, are no character.
            for word in [format!("{own}{own}"), format!("{own}{other}"), format!("{own}a"), format!("\\{own}")] {
                expect_in(set, format!("byte {word} 1").as_bytes(), Err((7, 1)), None);
                byte_table_in(set, format!("{word} 1").as_bytes(), Err([7, 1, 1]));
            }
        }
        // The numbers of the characters that ISO 8859-15 has are no bytes, however they are written.
        let number = second as u32;
        let mut words = vec![format!("\\u{number:04X}"), format!("\\U{number:08x}"), format!("\\u{byte:04X}")];
        words.extend([format!("\\U{byte:08X}"), char::from_u32(0xF000 + u32::from(byte)).into_iter().collect()]);
        if number <= 0o777 {
            words.push(format!("\\o{number:o}"));
        }
        for word in words {
            refuses(&format!("byte {word} 1"), 7);
            byte_table_is(format!("{word} 1"), Err([7, 1, 1]));
        }
    }
}

#[test]
fn other_operands_in_every_set() {
    for (byte, first, second) in DIFFERENCES {
        // As a character an escape is its number.
        for form in [format!("\\x{byte:02X}"), format!("\\X{byte:02x}"), format!("\\o{byte:03o}"), first.to_string()] {
            accepts(&format!("char {form} 1"), &[char_pair(first, 1)]);
            accepts(&format!("glyph {form} 1"), &[glyph_pair(first, 1)]);
            accepts(&format!("alias {form} a"), &[alias_pair(first, 'a')]);
            accepts(&format!("alias a {form}"), &[alias_pair('a', first)]);
            accepts(&format!("char {form} 1\nchar {second} 2"), &[char_pair(first, 1), char_pair(second, 2)]);
            accepts(&format!("glyph {first} 1\nifGlyph {form} char b 2"), &[glyph_pair(first, 1), char_pair('b', 2)]);
            accepts(&format!("glyph {second} 1\nifGlyph {form} char b 2"), &[glyph_pair(second, 1)]);
            accepts(
                &format!("glyph {second} 1\nifNotGlyph {form}\nchar b 1\nendIf"),
                &[glyph_pair(second, 1), char_pair('b', 1)],
            );
            shows(&format!("char {form} 1"), first as u32, 1, 3, 0);
            shows(&format!("char {form} 1"), second as u32, 0xFF, 9, 0);
            shows(&format!("alias a {form}\nchar {first} 1"), 'a' as u32, 1, 4, 1);
            shows(&format!("alias a {form}\nchar {second} 1"), 'a' as u32, 0xFF, 9, 1);
            types(&format!("char {form} 1"), 1, Some(first as u32));
        }
        types(&format!("char {second} 1"), 1, Some(second as u32));
    }
}

#[test]
fn repeats_in_a_set() {
    for (byte, first, second) in DIFFERENCES {
        for (set, own, other) in [(ISO_8859_1, first, second), (ISO_8859_15, second, first)] {
            // By the character that comes out.
            for form in [format!("\\x{byte:02X}"), format!("\\o{byte:03o}"), own.to_string()] {
                for directive in ["char _ 1", "glyph _ 2", "alias _ a", "byte _ 3"] {
                    let line = directive.replace('_', &own.to_string());
                    expect_in(set, format!("{line}\nbyte {form} 1").as_bytes(), Err((11, 2)), None);
                    expect_in(set, format!("byte {form} 1\n{line}").as_bytes(), Err((11, 2)), None);
                    expect_in(set, format!("{line}\nifCell 8 byte {form} 1").as_bytes(), Ok(1), None);
                    if !directive.starts_with("byte") {
                        let line = directive.replace('_', &other.to_string());
                        expect_in(set, format!("{line}\nbyte {form} 1").as_bytes(), Ok(2), None);
                        expect_in(set, format!("byte {form} 1\n{line}").as_bytes(), Ok(2), None);
                    }
                }
                expect_in(set, format!("alias {own} {own}").as_bytes(), Err((12, 1)), None);
            }
            for text in [
                format!("\\x{byte:02x} 1\n{own} 1"),
                format!("{own} 1\nbyte \\X{byte:02X} 2"),
                format!("byte {own} 1\n{own} 2"),
            ] {
                byte_table_in(set, text.as_bytes(), Err([11, 2, 1]));
            }
        }
    }
    // Both currency signs, by what one set has for them.
    for (text, in_first, in_second) in [
        ("char € 1\nbyte \\xA4 1", Ok(2), Err((11, 2))),
        ("char ¤ 1\nbyte \\xA4 1", Err((11, 2)), Ok(2)),
        ("char \\xA4 1\nbyte \\xA4 1", Err((11, 2)), Ok(2)),
        ("byte \\xA4 1\nchar \\u20AC 1", Ok(2), Err((11, 2))),
        ("byte \\o244 1\nbyte €  1", Err((7, 2)), Err((11, 2))),
        ("byte \\o244 1\nbyte ¤ 1", Err((11, 2)), Err((7, 2))),
        ("alias € ¤\nbyte \\xA4 1", Ok(2), Err((11, 2))),
    ] {
        expect_in(ISO_8859_1, text.as_bytes(), in_first, None);
        expect_in(ISO_8859_15, text.as_bytes(), in_second, None);
    }
}

#[test]
fn private_row_in_a_set() {
    for (byte, first, second) in DIFFERENCES {
        let private = 0xF000 + u32::from(byte);
        for (set, own, other) in [(ISO_8859_1, first, second), (ISO_8859_15, second, first)] {
            shows_in(set, &format!("char {own} 1"), private, 1, 19, 0);
            shows_in(set, &format!("char {own} 1\nchar {other} 2"), private, 1, 19, 0);
            shows_in(set, &format!("alias {own} a\nglyph a 1\nchar {other} 2"), private, 1, 20, 1);
            shows_in(set, &format!("alias {own} {other}\nglyph {other} 2"), private, 2, 20, 1);
            shows_in(set, &format!("alias {own} a\nalias a b\nchar ? 1"), private, 1, 24, 2);
            shows_in(set, &format!("char {other} 1"), private, 0xFF, 25, 0);
            shows_in(set, &format!("char {other} 1\nchar \\uFFFD 12"), private, 3, 23, 0);
            // Conditions, in both forms and in blocks.
            let private = format!("\\u{private:04X}");
            let asked = format!("char {own} 1\nifGlyph {private} char a 1\nifNotGlyph {private} char b 1");
            expect_in(set, asked.as_bytes(), Ok(2), Some(&[char_pair(own, 1), char_pair('a', 1)]));
            let asked = format!("char {other} 1\nifGlyph {private} char a 1\nifNotGlyph {private} char b 1");
            expect_in(set, asked.as_bytes(), Ok(2), Some(&[char_pair(other, 1), char_pair('b', 1)]));
            let asked = format!("byte \\x{byte:02X} 1\nifGlyph {private}\nchar a 1\nelse\nchar b 1\nendIf");
            expect_in(set, asked.as_bytes(), Ok(2), Some(&[glyph_pair(own, 1), char_pair('a', 1)]));
            let asked = format!("alias {own} z\nglyph z 1\nifGlyph {private} char a 1");
            expect_in(set, asked.as_bytes(), Ok(3), None);
        }
        // No base and no stand-in, however it is asked for.
        let letters =
            "char S 1\nchar s 1\nchar Z 1\nchar z 1\nchar O 1\nchar o 1\nchar Y 1\nchar y 1\nchar E 1\nchar e 1\n";
        shows(letters, second as u32, 0xFF, 9, 0);
        shows(letters, private, 0xFF, 25, 0);
        shows(&format!("{letters}char ? 2\n"), private, 2, 24, 0);
    }
    // The bytes between them are the same in both.
    for (character, rule) in [(0xF0A5, 25), (0xF0A7, 25), (0xF0C5, 21), (0xF0C6, 22), (0xF0FF, 21), (0xF0A0, 22)] {
        let cell = if rule == 25 { 0xFF } else { 1 };
        shows("char A 1\nchar y 1\nchar \\s 1\nchar ¤ 1\nchar € 1\n", character, cell, rule, 0);
    }
}

#[test]
fn byte_tables_in_a_set() {
    let states = "dot 1 =fg-red\ndot 2 ~bg-green\ndot 3 =blink\ndot 4 off\ndot 5 on\n";
    // Dots 5 to 8 are F0: `on`, and three without a line.
    let by_dots: [u8; 256] = std::array::from_fn(|byte| {
        let dots = [(byte / 4 % 2 == 1, 1), (byte / 32 % 2 == 0, 2), (byte / 128 == 1, 4)];
        0xF0 + dots.iter().filter(|(raised, _)| *raised).map(|(_, dot)| dot).sum::<u8>()
    });
    byte_table_is(states, Ok((0, by_dots)));
    // A byte goes by its own bits, whatever its character is.
    for (byte, first, second) in DIFFERENCES {
        for (set, own) in [(ISO_8859_1, first), (ISO_8859_15, second)] {
            let mut cells = by_dots;
            cells[usize::from(byte)] = 0x80;
            for form in [own.to_string(), format!("byte \\x{byte:02X}"), format!("\\X{byte:02x}")] {
                byte_table_in(set, format!("{form} 8\n{states}").as_bytes(), Ok((1, cells)));
            }
            byte_table_in(set, format!("{own} 9").as_bytes(), Err([8, 1, own.len_utf8() as u32 + 2]));
            byte_table_in(set, format!(" {own}").as_bytes(), Err([6, 1, own.len_utf8() as u32 + 2]));
        }
    }
    // All sixteen characters: eight are bytes.
    for set in SETS {
        let (mut text, mut cells) = (String::new(), [0xFF; 256]);
        for (byte, ..) in DIFFERENCES {
            text += &format!("{} 1\n", local(set, byte));
            cells[usize::from(byte)] = 1;
        }
        byte_table_in(set, text.as_bytes(), Ok((8, cells)));
        byte_table_in(3 - set, text.as_bytes(), Err([7, 1, 1]));
    }
}

#[test]
fn last_words_of_a_table() {
    let table = |pairs: &[[u32; 2]], last: [u32; 2]| {
        let mut words = pairs.concat();
        words.resize(2048, 0);
        words.extend(last);
        // Beyond it anything may stand.
        words.extend([9, 9, 9]);
        words
    };
    let refused = |words: &[u32], number: u32, place: u32| {
        let refusal = Refusal { number, place, column: 0 };
        for side in SIDES {
            let last = &words[2040.min(words.len())..];
            let (mut cells, mut rules, mut entries) = ([5; 2], [6; 2], [7; 256]);
            let windows = [Window { start: 0, width: 2 }];
            assert_eq!((side.look_up)(words, 0xF0A4), Err(refusal), "{} {last:X?}", side.name);
            assert_eq!((side.look_up)(words, 0xD800), Err(refusal), "{} {last:X?}", side.name);
            assert_eq!((side.typed)(words, 1), Err(refusal), "{} {last:X?}", side.name);
            assert_eq!((side.entries)(words, &mut entries), Err(refusal), "{} {last:X?}", side.name);
            let page = [0xD800, 0x61];
            assert_eq!((side.page)(words, &page, &mut cells, &mut rules), Err(refusal), "{} {last:X?}", side.name);
            assert_eq!((side.page)(words, &[], &mut [], &mut []), Err(refusal), "{} {last:X?}", side.name);
            let got = (side.windows)(words, &page, &windows, &mut cells, &mut rules);
            assert_eq!(got, Err(refusal), "{} {last:X?}", side.name);
            assert_eq!((cells, rules, entries), ([5; 2], [6; 2], [7; 256]), "{} {last:X?}", side.name);
        }
        list_refused(words, (number, place));
    };
    let sound: [&[[u32; 2]]; 3] = [&[], &[[0x20AC, 0x0100_0001]], &[[0x20AC, 0x0300_00A4], [0xA4, 0x0200_0002]]];
    for pairs in sound {
        // Zeros are no table.
        refused(&table(pairs, [0, 0]), 15, 1024);
        for set in [3, 4, 0x100, 0x101, 0x102, 0x1_0001, 0x1_0002, 0x8000_0001, 0x8000_0002, u32::MAX] {
            refused(&table(pairs, [set, 0]), 15, 1024);
            refused(&table(pairs, [set, 1]), 15, 1024);
        }
        for set in SETS {
            for zero in [1, 2, 0x100, 0x1_0000, 0x8000_0000, u32::MAX] {
                refused(&table(pairs, [set, zero]), 15, 1024);
            }
            refused(&table(pairs, [0, set]), 15, 1024);
            for length in [0, 1, 2047, 2048, 2049] {
                refused(&table(pairs, [set, 0])[..length], 2, 0);
                refused(&table(pairs, [3, 1])[..length], 2, 0);
            }
        }
    }
    // After all other pairs.
    let faulty: [(&[[u32; 2]], u32); 5] = [
        (&[[0x61, 0]], 0),
        (&[[0x61, 0x0100_0001], [0x61, 0x0100_0001]], 1),
        (&[[0x61, 0x0100_0001], [0x62, 0x0300_0062]], 1),
        (&[[0, 0], [0, 0], [0, 1]], 2),
        (&[[0, 0], [0x61, 0x0100_0001]], 1),
    ];
    for (pairs, place) in faulty {
        for last in [[1, 0], [2, 0], [0, 0], [3, 0], [1, 1], [3, 1]] {
            refused(&table(pairs, last), 15, place);
        }
    }
    let full: Vec<[u32; 2]> = (0..1024).map(|k| [0x4000 + k, 0x0100_0001]).collect();
    refused(&table(&full, [0, 0]), 15, 1024);
    refused(&table(&full, [2, 1]), 15, 1024);
    let mut repeated = full.clone();
    repeated[1023] = repeated[0];
    refused(&table(&repeated, [0, 0]), 15, 1023);
    // The same pairs in either set; typing does not go by it.
    let pairs = [[0xA4, 0x0100_0001], [0x20AC, 0x0100_0002]];
    for (set, cell) in [(ISO_8859_1, 1), (ISO_8859_15, 2)] {
        let words = table(&pairs, [set, 0]);
        for side in SIDES {
            let shown = Ok(Shown { cell, rule: 19, links: 0 });
            assert_eq!((side.look_up)(&words, 0xF0A4), shown, "{}", side.name);
            let (mut cells, mut rules) = ([0; 3], [0; 3]);
            assert_eq!((side.page)(&words, &[0xA4, 0x20AC, 0xF0A4], &mut cells, &mut rules), Ok(()), "{}", side.name);
            assert_eq!((cells, rules), ([1, 2, cell], [3, 3, 19]), "{}", side.name);
            let (windows, mut cells) = ([Window { start: 2, width: 1 }, Window { start: 0, width: 2 }], [0; 3]);
            let got = (side.windows)(&words, &[0xA4, 0x20AC, 0xF0A4], &windows, &mut cells, &mut rules);
            assert_eq!((got, cells, rules), (Ok(()), [cell, 1, 2], [19, 3, 3]), "{}", side.name);
            assert_eq!(((side.typed)(&words, 1), (side.typed)(&words, 2)), (Ok(Some(0xA4)), Ok(Some(0x20AC))));
        }
        for place in [0, 1, 2, 3, 1022, 1023] {
            let mut words = table(&pairs, [set, 1]);
            words[2 * place] = 0xD800;
            refused(&words, 15, place as u32);
        }
    }
}

// In what follows ⠁ is U+2801, which shows 01, and \uF041 stands for A in either set.

/// The writings of a character: itself, and by its number.
fn writings(character: u32) -> Vec<String> {
    let itself = char::from_u32(character).expect("a scalar").to_string();
    let mut words = vec![itself, format!("\\U{character:08x}")];
    if character <= 0xFFFF {
        words.push(format!("\\u{character:04X}"));
    }
    words
}

#[test]
fn definitions_for_the_braille_row() {
    for character in [0x2800, 0x2801, 0x2841, 0x287F, 0x2880, 0x28FF] {
        for word in writings(character) {
            for line in [
                format!("char {word} 1"),
                format!("glyph {word} 0"),
                format!("alias {word} a"),
                format!("alias {word} {word}"),
            ] {
                refuses(&line, 22);
                refuses_at(&format!("char a 1\n{line} # x\n"), 22, 2);
                // As for 11 a failed condition hides it, and lines not taken do.
                accepts(&format!("ifGlyph a {line}"), &[]);
                accepts(&format!("ifNotGlyph a ifCell 1 {line}"), &[]);
                accepts(&format!("ifGlyph a\n{line}\nendIf"), &[]);
                accepts(&format!("ifNotGlyph a\nelse\n{line}\nendIf"), &[]);
                accepts(&format!("ifGlyph a ifNotGlyph b\n{line}\nelse\n{line}\nendIf"), &[]);
                refuses(&format!("ifNotGlyph a {line}"), 22);
                refuses_at(&format!("ifGlyph a\nelse\n{line}\nendIf"), 22, 3);
                refuses_at(&format!("ifNotGlyph a\n{line}"), 22, 2);
                // The line is read to its end before.
                refuses(&format!("{line} x"), 9);
            }
            refuses(&format!("char {word}"), 6);
            refuses(&format!("char {word} 9"), 8);
            refuses(&format!("alias {word} bc"), 7);
            refuses(&format!("char {word}{word} 1"), 7);
            // No set has it.
            refuses(&format!("byte {word} 1"), 7);
            byte_table_is(format!("{word} 1"), Err([7, 1, 1]));
            byte_table_is(format!("byte {word} 1"), Err([7, 1, 6]));
        }
    }
    for character in ['\u{27FF}', '\u{2900}', '\u{12801}', '\u{2701}', '\u{2A01}'] {
        for word in writings(character as u32) {
            accepts(&format!("char {word} 1"), &[char_pair(character, 1)]);
            accepts(&format!("glyph {word} 1"), &[glyph_pair(character, 1)]);
            accepts(&format!("alias {word} a"), &[alias_pair(character, 'a')]);
        }
    }
}

#[test]
fn braille_row_before_loops_and_count() {
    // A braille-row character is never defined, so 11 never meets 22.
    refuses_at("char a 1\nalias ⠁ a\nalias ⠁ a", 22, 2);
    refuses("alias ⠁ ⠁", 22);
    refuses_at("alias a ⠁\nalias ⠁ a", 22, 2);
    refuses_at("alias a ⠁\nalias b a\nalias ⠁ b", 22, 3);
    // The first faulty line decides.
    refuses_at("alias a a\nchar ⠁ 1", 12, 1);
    refuses_at("char ⠁ 1\nalias a a", 22, 1);
    refuses_at("char ⠁ 1\nx", 22, 1);
    refuses_at("ifGlyph a\nelse\nchar ⠁ 1", 22, 3);
    let full: String = (0..1024).map(|k| format!("glyph \\u{:04X} 1\n", 0x4000 + k)).collect();
    refuses_at(&format!("{full}char ⠁ 1"), 22, 1025);
    refuses_at(&format!("{full}alias ⠁ ⠁"), 22, 1025);
    refuses_at(&format!("{full}alias a ⠁"), 13, 1025);
    refuses_at(&format!("{full}alias \\uF041 A"), 12, 1025);
    refuses_at(&format!("{full}char \\uF041 1"), 13, 1025);
    expect_bytes(format!("{full}ifCell 1 char ⠁ 1").as_bytes(), Ok(1024), None);
}

#[test]
fn walks_into_the_braille_row() {
    for cell in 0..=255 {
        let target = 0x2800 + u32::from(cell);
        for word in writings(target) {
            let text = format!("alias x {word}\nalias A x\nalias é A\n");
            let pairs = [[0x78, 0x0300_0000 + target], alias_pair('A', 'x'), alias_pair('é', 'A')];
            accepts(&text, &pairs);
            for (character, rule, links) in [(0x78, 4, 1), (0x41, 4, 2), (0xE9, 4, 3)] {
                shows(&text, character, cell, rule, links);
                shows(&text, 0xF000 + character, cell, rule + 16, links);
            }
            shows(&text, target, cell, 1, 0);
            types(&text, cell, None);
        }
    }
    // Next to the row a walk ends as before.
    for word in ["\\u27FF", "\\u2900", "\\U00012801"] {
        shows(&format!("alias x {word}\n"), 'x' as u32, 0xFF, 9, 1);
        shows(&format!("alias x {word}\nchar {word} 12\n"), 'x' as u32, 3, 4, 1);
    }
    // Two aliases to one target, in any order, and beside explicit cells.
    shows("alias y x\nalias x ⠁\n", 'y' as u32, 1, 4, 2);
    shows("alias x ⠁\nalias y ⠁\n", 'y' as u32, 1, 4, 1);
    shows("char \\uFFFD 2\nchar ? 3\nalias x ⠁\n", 'x' as u32, 1, 4, 1);
    shows("char \\uFFFD 2\nchar ? 3\nalias x ⠁\n", 'y' as u32, 2, 7, 0);
    // Where its own walk ends there, rules 5 and 6 are not asked.
    shows("char a 12\nalias à ⠁\nalias æ ⠂\n", 0xE0, 1, 4, 1);
    shows("char a 12\nalias à ⠁\nalias æ ⠂\n", 0xF0E6, 2, 20, 1);
    // Rule 2, then a walk that begins at the local character of the set.
    shows_in(ISO_8859_1, "alias € ⠁\nalias ¤ ⠃\n", 0xF0A4, 3, 20, 1);
    shows_in(ISO_8859_15, "alias € ⠁\nalias ¤ ⠃\n", 0xF0A4, 1, 20, 1);
}

#[test]
fn no_explicit_cell_of_the_braille_row() {
    // Rules 5 to 8 take an explicit cell alone.
    shows("alias a \\u2801\n", 0xE0, 0xFF, 9, 0);
    shows("alias a \\u2801\n", 0xF0E0, 0xFF, 25, 0);
    shows("alias a \\u2801\n", 0xE6, 0xFF, 9, 0);
    shows("alias - ⠁\n", 0x2010, 0xFF, 9, 0);
    shows("alias \\uFFFD ⠁\n", 'z' as u32, 0xFF, 9, 0);
    shows("alias ? ⠁\n", 'z' as u32, 0xFF, 9, 0);
    shows("alias ? ⠁\n", '?' as u32, 1, 4, 1);
    shows("alias \\uFFFD ⠁\nchar ? 12\n", 'z' as u32, 3, 8, 0);
    shows("alias a ⠁\nchar ? 12\n", 0xE0, 3, 8, 0);
    shows("alias à b\nalias a ⠁\n", 0xE0, 0xFF, 9, 1);
    // No cell is typed by it, for `ifCell` neither.
    accepts("alias a ⠁\nifCell 1 char b 1\nifNotCell 1 char c 1", &[alias_pair('a', '⠁'), char_pair('c', 1)]);
    types("alias a ⠁\nchar b 1\nchar c 1\n", 1, Some('b' as u32));
}

#[test]
fn conditions_on_the_braille_row() {
    let alias = alias_pair('a', '⠁');
    accepts("alias a ⠁\nifGlyph a char c 1\nifNotGlyph a char d 1", &[alias, char_pair('c', 1)]);
    accepts("alias a ⠁\nifGlyph \\uF061 char c 1\nifNotGlyph \\uF061 char d 1", &[alias, char_pair('c', 1)]);
    accepts(
        "alias b a\nalias a ⠁\nifGlyph b\nchar c 1\nelse\nchar d 1\nendIf",
        &[alias_pair('b', 'a'), alias, char_pair('c', 1)],
    );
    accepts(
        "alias b a\nifGlyph b char c 1\nalias a ⠀\nifGlyph b char d 1",
        &[alias_pair('b', 'a'), alias_pair('a', '⠀'), char_pair('d', 1)],
    );
    // Not by rule 5, and not on the row itself, whatever leads there.
    accepts("alias a ⠁\nifGlyph à char c 1\nifGlyph æ char d 1", &[alias]);
    for word in ["⠁", "\\u2800", "\\U000028ff"] {
        accepts(
            &format!("alias a ⠁\nifGlyph {word} char c 1\nifNotGlyph {word} char d 1"),
            &[alias, char_pair('d', 1)],
        );
    }
    for character in ['\u{27FF}', '\u{2900}'] {
        let text = format!("glyph {character} 1\nifGlyph {character} char c 1");
        accepts(&text, &[glyph_pair(character, 1), char_pair('c', 1)]);
    }
}

/// In every set with the local character of each byte, and with every writing of its private-row character.
fn private_operands(each: impl Fn(u32, char, String)) {
    for set in SETS {
        for byte in 0..=255 {
            for word in writings(0xF000 + u32::from(byte)) {
                each(set, local(set, byte), word);
            }
        }
    }
}

#[test]
fn private_row_operands() {
    // U+FDD0 is in no set and means nothing to the rules.
    let other = '\u{FDD0}';
    private_operands(|set, own, word| {
        let says =
            |text: String, pairs: &[[u32; 2]]| expect_in(set, text.as_bytes(), Ok(pairs.len() as u32), Some(pairs));
        says(format!("char {word} 1"), &[char_pair(own, 1)]);
        says(format!("glyph {word} 1"), &[glyph_pair(own, 1)]);
        says(format!("alias {word} {other}"), &[alias_pair(own, other)]);
        says(format!("alias {other} {word}"), &[alias_pair(other, own)]);
        says(format!("alias {word} ⠁"), &[alias_pair(own, '⠁')]);
        // A failed condition hides 11 and 12, which look at what takes its place.
        for line in [format!("char {word} 1"), format!("glyph {word} 1"), format!("alias {word} {other}")] {
            let own = u32::from(own);
            let text = format!("glyph \\u{own:04X} 2\n{line}");
            expect_in(set, text.as_bytes(), Err((11, 2)), None);
            expect_in(set, format!("{line}\nchar \\u{own:04X} 2").as_bytes(), Err((11, 2)), None);
            expect_in(set, format!("{line}\n{line}").as_bytes(), Err((11, 2)), None);
            expect_in(set, format!("glyph \\u{own:04X} 2\nifCell 8 {line}").as_bytes(), Ok(1), None);
        }
        for itself in writings(own as u32).iter().skip(1).chain([&word]) {
            for (text, line) in [
                (format!("alias {word} {itself}"), 1),
                (format!("alias {itself} {word}"), 1),
                (format!("alias {itself} {other}\nalias {other} {word}"), 2),
                (format!("alias {other} {word}\nalias {itself} {other}"), 2),
            ] {
                expect_in(set, text.as_bytes(), Err((12, line)), None);
            }
            expect_in(set, format!("ifCell 8 alias {word} {itself}").as_bytes(), Ok(0), None);
        }
        says(
            format!("glyph {word} 1\nifGlyph {word} alias {other} {word}"),
            &[glyph_pair(own, 1), alias_pair(other, own)],
        );
        says(format!("ifGlyph {word} char {other} 1\nifNotGlyph {word} glyph {other} 2"), &[glyph_pair(other, 2)]);
        // A byte operand of it is bad as before.
        for text in [format!("byte {word} 1"), format!("ifCell 1 byte {word} 1")] {
            expect_in(set, text.as_bytes(), Err((7, 1)), None);
        }
        byte_table_in(set, format!("{word} 1").as_bytes(), Err([7, 1, 1]));
        byte_table_in(set, format!("byte {word} 1").as_bytes(), Err([7, 1, 6]));
    });
}

#[test]
fn private_row_shown_and_typed() {
    private_operands(|set, own, word| {
        let own = own as u32;
        let text = format!("char {word} 123\n");
        shows_in(set, &text, own, 7, 3, 0);
        types_in(set, &text, 7, Some(own));
        let text = format!("alias \\uFDD0 {word}\nglyph \\u{own:04X} 123\n");
        shows_in(set, &text, 0xFDD0, 7, 4, 1);
    });
    for (byte, first, second) in DIFFERENCES {
        let private = 0xF000 + u32::from(byte);
        for word in writings(private) {
            for (set, own, other) in [(ISO_8859_1, first, second), (ISO_8859_15, second, first)] {
                let text = format!("char {word} 1\nchar {other} 12\n");
                shows_in(set, &text, own as u32, 1, 3, 0);
                shows_in(set, &text, other as u32, 3, 3, 0);
                shows_in(set, &text, private, 1, 19, 0);
                types_in(set, &text, 1, Some(own as u32));
                let text = format!("alias a {word}\nchar {own} 1\nchar {other} 12\n");
                shows_in(set, &text, 'a' as u32, 1, 4, 1);
                let text = format!("alias {word} ⠿\nalias a {word}\n");
                shows_in(set, &text, own as u32, 0x3F, 4, 1);
                shows_in(set, &text, other as u32, 0xFF, 9, 0);
                shows_in(set, &text, private, 0x3F, 20, 1);
                shows_in(set, &text, 'a' as u32, 0x3F, 4, 2);
                // In a loop, and with the other set's character in none.
                expect_in(set, format!("alias {own} {word}").as_bytes(), Err((12, 1)), None);
                expect_in(set, format!("alias {other} {word}").as_bytes(), Ok(1), Some(&[alias_pair(other, own)]));
                expect_in(set, format!("char {other} 1\nchar {word} 1").as_bytes(), Ok(2), None);
            }
        }
    }
}

#[test]
fn around_the_private_row() {
    refuses("alias \\uF041 A", 12);
    refuses("alias A \\uF041", 12);
    refuses_at("alias A b\nalias b \\uF041", 12, 2);
    refuses_at("alias \\uF041 b\nalias b A", 12, 2);
    refuses_at("char A 1\nchar \\uF041 2", 11, 2);
    refuses_at("char \\uF041 1\nbyte A 2", 11, 2);
    // Each condition of a line.
    accepts(
        "char A 1\nifGlyph A ifGlyph \\uF041 ifNotGlyph \u{F042} char b 1",
        &[char_pair('A', 1), char_pair('b', 1)],
    );
    accepts(
        "char A 1\nifGlyph \u{F041} ifNotGlyph \\uF041\nchar b 1\nelse\nchar c 1\nendIf",
        &[char_pair('A', 1), char_pair('c', 1)],
    );
    // One step, and no base: the local character of U+F0C1 is Á.
    accepts("char \\uF0C1 1\nchar \\uF041 2", &[char_pair('Á', 1), char_pair('A', 2)]);
    // What an escape cannot be on its own, the private row may stand for.
    accepts(
        "char \u{F020} 1\nchar \u{F009} 1\nchar \u{F00A} 1\nchar \u{F05C} 1\nchar \u{F023} 1\nchar \u{F000} 1",
        &[' ', '\t', '\n', '\\', '#', '\0'].map(|character| char_pair(character, 1)),
    );
    // As text in comments and as part of a word it is itself.
    accepts("# \u{F041}\nchar a 1 #\u{F041}", &[char_pair('a', 1)]);
    refuses("char \u{F041}\u{F041} 1", 7);
    refuses("\u{F063}har a 1", 5);
    refuses("char a \u{F031}", 8);
    refuses("char a 1 \u{F023}", 9);
    // Next to the row a character stays.
    for character in ['\u{EFFF}', '\u{F100}', '\u{F141}', '\u{E041}', '\u{1F041}'] {
        for word in writings(character as u32) {
            accepts(&format!("char {word} 1\nchar A 2"), &[char_pair(character, 1), char_pair('A', 2)]);
            accepts(&format!("alias {word} A"), &[alias_pair(character, 'A')]);
            accepts(&format!("alias A {word}"), &[alias_pair('A', character)]);
            accepts(&format!("char A 1\nifGlyph {word} char b 1"), &[char_pair('A', 1)]);
            shows(&format!("char {word} 1\n"), character as u32, 1, 3, 0);
            types(&format!("char {word} 1\n"), 1, Some(character as u32));
            shows("char A 1\n", character as u32, 0xFF, 9, 0);
            refuses(&format!("byte {word} 1"), 7);
        }
    }
}

#[test]
fn rows_of_lent_tables() {
    let table = |pairs: &[[u32; 2]], set: u32| {
        let mut words = pairs.concat();
        words.resize(2048, 0);
        words.extend([set, 0]);
        words
    };
    let fault = |pairs: &[[u32; 2]], place: u32| {
        for set in SETS {
            let words = table(pairs, set);
            for side in SIDES {
                let input = || format!("{}: {pairs:X?}", side.name);
                let (mut cells, mut rules) = ([5; 2], [6; 2]);
                assert_eq!((side.look_up)(&words, 0xD800).map_err(pair), Err((15, place)), "{}", input());
                assert_eq!((side.typed)(&words, 1).map_err(pair), Err((15, place)), "{}", input());
                let got = (side.page)(&words, &[0xD800, 0x61], &mut cells, &mut rules).map_err(pair);
                assert_eq!((got, cells, rules), (Err((15, place)), [5; 2], [6; 2]), "{}", input());
                assert_eq!((side.entries)(&words, &mut [0; 256]).map_err(pair), Err((15, place)), "{}", input());
            }
            list_refused(&words, (15, place));
        }
    };
    let sound = |pairs: &[[u32; 2]], character: u32, shown: Shown| {
        for set in SETS {
            for side in SIDES {
                assert_eq!((side.look_up)(&table(pairs, set), character), Ok(shown), "{}: {pairs:X?}", side.name);
            }
        }
    };
    for character in (0x2800..=0x28FF).chain(0xF000..=0xF0FF) {
        for second in [0x0100_0001, 0x0200_0001, 0x0300_0061, 0x0300_2801, 0x0300_0000 + character] {
            fault(&[[character, second]], 0);
        }
        fault(&[[0x61, 0x0100_0001], [character, 0x0100_0001]], 1);
    }
    for target in 0xF000..=0xF0FF {
        fault(&[[0x61, 0x0300_0000 + target]], 0);
        fault(&[[0x61, 0x0300_2801], [0x62, 0x0300_0000 + target]], 1);
    }
    for cell in 0..=255 {
        let shown = Shown { cell, rule: 4, links: 1 };
        sound(&[[0x61, 0x0300_2800 + u32::from(cell)]], 0x61, shown);
        let pairs = [[0x62, 0x0300_0061], [0x61, 0x0300_2800 + u32::from(cell)]];
        sound(&pairs, 0xF062, Shown { cell, rule: 20, links: 2 });
        sound(&pairs, 0xE1, Shown { cell: 0xFF, rule: 9, links: 0 });
    }
    for character in [0x27FF, 0x2900, 0xEFFF, 0xF100, 0x12801, 0x1F041] {
        sound(&[[character, 0x0100_0003]], character, Shown { cell: 3, rule: 3, links: 0 });
        sound(&[[0x61, 0x0300_0000 + character]], 0x61, Shown { cell: 0xFF, rule: 9, links: 1 });
    }
    // The first pair at fault, whatever is at fault with it, before the last two words.
    fault(&[[0x2801, 0x0100_0001], [0x61, 0]], 0);
    fault(&[[0x61, 0], [0x2801, 0x0100_0001]], 0);
    fault(&[[0x61, 0x0100_0001], [0x61, 0x0300_F041], [0xF041, 0x0100_0001]], 1);
    fault(&[[0, 0], [0x2801, 0x0100_0001]], 1);
    for side in SIDES {
        let mut words = table(&[[0x61, 0x0300_F041]], 0);
        assert_eq!((side.look_up)(&words, 0x61).map_err(pair), Err((15, 0)), "{}", side.name);
        words[1] = 0x0300_2841;
        assert_eq!((side.look_up)(&words, 0x61).map_err(pair), Err((15, 1024)), "{}", side.name);
    }
}

/// The listing of a table in buffers of several lengths, which hold a pattern: a refusal leaves all of it, an answer
/// what is past the text. The text read back in the table's set is the same table.
fn lists(words: &[u32], listing: &str) {
    let (length, lines) = (listing.len(), listing.lines().count());
    for side in SIDES {
        for buffer in [0, length / 2, length.saturating_sub(1), length, length + 1, length + 300] {
            let mut bytes = vec![0xA5; buffer];
            let mut expected = bytes.clone();
            let answer = match expected.get_mut(..length) {
                Some(front) => {
                    front.copy_from_slice(listing.as_bytes());
                    Ok(length)
                }
                None => Err((2, 0)),
            };
            let got = (side.list)(words, &mut bytes).map_err(pair);
            assert_eq!(got, answer, "{}: {listing:?} in {buffer}", side.name);
            assert_eq!(String::from_utf8_lossy(&bytes), String::from_utf8_lossy(&expected), "{}", side.name);
        }
        let mut read = vec![0xA5A5_A5A5; 2053];
        let count = (side.compile)(TEXT_EDITION, words[2048], listing.as_bytes(), &mut read);
        assert_eq!(count, Ok(lines as u32), "{}: {listing:?}", side.name);
        assert_eq!((&read[..2050], &read[2050..]), (&words[..2050], &[0xA5A5_A5A5; 3][..]), "{}", side.name);
    }
}

/// The same for the table of a text, in every set.
fn lists_text(text: &str, listing: &str) {
    for set in SETS {
        lists(&compiled_in(set, text.as_bytes()), listing);
    }
}

fn list_refused(words: &[u32], refusal: (u32, u32)) {
    for side in SIDES {
        for length in [0, 1, 28, 300] {
            let mut bytes = vec![0xA5; length];
            let got = (side.list)(words, &mut bytes).map_err(pair);
            assert_eq!((got, bytes), (Err(refusal), vec![0xA5; length]), "{}", side.name);
        }
    }
}

#[test]
fn listings() {
    lists_text("", "");
    lists_text("# a\n\nifGlyph a char b 1\nifGlyph a\nchar b 1\nendIf", "");
    lists_text(
        SMALL,
        "char \\U00000061 1\n\
         char \\U00000062 12\n\
         glyph \\U00000041 17\n\
         alias \\U000000e4 \\U00000061\n\
         alias \\U000003b1 \\U000000e4\n\
         char \\U0000003f 1456\n",
    );
    // A byte is listed as the glyph of its character, and a definition without its conditions.
    lists_text(" byte a 1 # x\r\nifNotCell 1\nifGlyph a byte b 2\nendIf", "glyph \\U00000061 1\nglyph \\U00000062 2\n");
    // Dots rise, however they were written.
    lists_text("char a 0\nglyph b 0\nchar c ()\n", "char \\U00000061 0\nglyph \\U00000062 0\nchar \\U00000063 0\n");
    lists_text("char a (8 7654\t321)\nglyph b 12345678", "char \\U00000061 12345678\nglyph \\U00000062 12345678\n");
    lists_text("char a 81\nglyph b (7 2)", "char \\U00000061 18\nglyph \\U00000062 27\n");
    // One to six digits of a number, and what has a meaning in a text.
    lists_text(
        "char \\x00 1\nchar \\n 1\nchar \\s 1\nchar # 1\nchar \\\\ 1\n\
         char \\u0ABC 1\nchar \\uFFFF 1\nchar \\U000DEF01 1\nalias \\U0010FFFF \\U0010FFFE",
        "char \\U00000000 1\n\
         char \\U0000000a 1\n\
         char \\U00000020 1\n\
         char \\U00000023 1\n\
         char \\U0000005c 1\n\
         char \\U00000abc 1\n\
         char \\U0000ffff 1\n\
         char \\U000def01 1\n\
         alias \\U0010ffff \\U0010fffe\n",
    );
    // A target of the braille row is itself; a private-row operand is its local character.
    lists_text("alias a \\u28FF\nalias b ⠀", "alias \\U00000061 \\U000028ff\nalias \\U00000062 \\U00002800\n");
    let text = b"char \\uF0A4 1\nalias a \\uF0BE\nbyte \\xA6 2\n";
    let [first, second] = SETS.map(|set| compiled_in(set, text));
    lists(&first, "char \\U000000a4 1\nalias \\U00000061 \\U000000be\nglyph \\U000000a6 2\n");
    lists(&second, "char \\U000020ac 1\nalias \\U00000061 \\U00000178\nglyph \\U00000160 2\n");
    // The longest.
    let longest: String = (0..1024).map(|k| format!("alias \\U{:08x} \\U0010ffff\n", 0x10_0000 + k)).collect();
    assert_eq!(longest.len(), LISTING_BYTES);
    lists_text(&longest, &longest);
}

#[test]
fn every_cell_listed() {
    for cell in 0..=255u32 {
        let dots: String = ('1'..='8').filter(|dot| cell >> (*dot as u32 - '1' as u32) & 1 == 1).collect();
        let dots = if cell == 0 { "0" } else { &dots };
        let mut words = [char_pair('a', cell), glyph_pair('b', cell)].concat();
        words.resize(2048, 0);
        for set in SETS {
            let words = [&words[..], &[set, 0, 9]].concat();
            lists(&words, &format!("char \\U00000061 {dots}\nglyph \\U00000062 {dots}\n"));
        }
    }
}

#[test]
fn listings_refused() {
    let mut words = compiled(SMALL.as_bytes());
    for length in [0, 1, 2047, 2048, 2049] {
        list_refused(&words[..length], (2, 0));
    }
    // Words beyond the table are not looked at.
    words.extend([1, 2, 3]);
    words[4..2048].fill(0);
    lists(&words, "char \\U00000061 1\nchar \\U00000062 12\n");
    // A table at fault before a buffer that is too short, also where the fault is behind all lines.
    words[2047] = 1;
    list_refused(&words, (15, 1023));
    words[2047] = 0;
    words[2049] = 1;
    list_refused(&words, (15, 1024));
    words[2] = 0x61;
    list_refused(&words, (15, 1));
    list_refused(&words[..2049], (2, 0));
}

/// A call by an order of each kind, which is refused and leaves its buffers.
fn by_order_refused(words: &[u32], order: &[u32], character: u32, refusal: (u32, u32)) {
    for side in SIDES {
        assert_eq!((side.search)(words, order, character).map_err(pair), Err(refusal), "{}", side.name);
        assert_eq!((side.look_up_by)(words, order, character).map_err(pair), Err(refusal), "{}", side.name);
        let (mut cells, mut rules) = ([5; 2], [6; 2]);
        let got = (side.page_by)(words, order, &[character], &mut cells, &mut rules).map_err(pair);
        assert_eq!((got, cells, rules), (Err(refusal), [5; 2], [6; 2]), "{}", side.name);
    }
}

/// Builds an order in a buffer with a pattern, which stays behind it, and as it is where the build is refused.
fn order_answers(words: &[u32], length: usize, answer: Result<&[u32], (u32, u32)>) {
    for side in SIDES {
        let mut order = vec![0xA5A5_A5A5; length];
        let mut expected = order.clone();
        let count = answer.map(|front| {
            expected[..front.len()].copy_from_slice(front);
            front.len() as u32
        });
        assert_eq!((side.order)(words, &mut order).map_err(pair), count, "{} in {length}", side.name);
        assert_eq!(order, expected, "{} in {length}", side.name);
    }
}

/// The order in at least 1,024 words, with words behind it that are free.
fn order_with(front: &[u32]) -> Vec<u32> {
    let mut order = front.to_vec();
    order.resize(1025, u32::MAX);
    order
}

#[test]
fn orders() {
    // ? A a b ä α
    let words = compiled(SMALL.as_bytes());
    let order = [5, 2, 0, 1, 3, 4];
    for length in [1024, 1025, 3000] {
        order_answers(&words, length, Ok(&order));
    }
    for length in [0, 1, 6, 1023] {
        order_answers(&words, length, Err((2, 0)));
        order_answers(&words[..2049], length, Err((2, 0)));
        order_answers(&compiled(b""), length, Err((2, 0)));
    }
    order_answers(&words[..2049], 1024, Err((2, 0)));
    order_answers(&compiled(b""), 1024, Ok(&[]));
    order_answers(&compiled(b"char b 1\nchar \\x00 2\nalias \\U0010FFFF a\n"), 1024, Ok(&[1, 0, 2]));
    let mut broken = words.clone();
    broken[6] = 0x61;
    order_answers(&broken, 1024, Err((15, 3)));
    order_answers(&broken, 1023, Err((2, 0)));
    broken[6..].fill(0);
    order_answers(&broken, 1024, Err((15, 1024)));
    for characters in [(0..1024).collect::<Vec<u32>>(), (0..1024).rev().collect()] {
        let text: String = characters.iter().map(|k| format!("char \\u{:04X} 1\n", 0x4000 + k)).collect();
        order_answers(&compiled(text.as_bytes()), 1024, Ok(&characters));
    }
}

/// What a search finds, by how many comparisons.
fn finds(words: &[u32], order: &[u32], character: u32, found: Option<u32>, comparisons: u32) {
    for side in SIDES {
        let search = Ok(Search { pair: found, comparisons });
        assert_eq!((side.search)(words, order, character), search, "{}: {character:X}", side.name);
    }
}

#[test]
fn searches() {
    // Of six places the third is the middle one, then of three or two behind and before it the lower.
    let words = compiled(SMALL.as_bytes());
    let order = order_with(&[5, 2, 0, 1, 3, 4]);
    let find = |character: char, found, comparisons| finds(&words, &order, character as u32, found, comparisons);
    find('a', Some(0), 1);
    find('?', Some(5), 2);
    find('A', Some(2), 3);
    find('ä', Some(3), 2);
    find('b', Some(1), 3);
    find('α', Some(4), 3);
    find('>', None, 2);
    find('@', None, 3);
    find('`', None, 3);
    find('c', None, 3);
    find('å', None, 3);
    find('\u{10FFFF}', None, 3);
    // Rule 2 and rule 1 have no part in it: the private row and the braille row are looked for as they stand.
    find('\u{F061}', None, 3);
    find('⠁', None, 3);
    // No pair, one and two.
    finds(&compiled(b""), &order, 0x61, None, 0);
    let (one, two) = (compiled(b"char b 1\n"), compiled(b"char c 1\nchar b 1\n"));
    for character in 0x61..=0x64 {
        finds(&one, &order_with(&[0]), character, (character == 0x62).then_some(0), 1);
    }
    let two_order = order_with(&[1, 0]);
    for (character, found, comparisons) in [(0x61, None, 1), (0x62, Some(1), 1), (0x63, Some(0), 2), (0x64, None, 2)] {
        finds(&two, &two_order, character, found, comparisons);
    }
    // A full table: 511 is the lower middle of 1,024, and 11 are the most, at the last pair and behind it.
    let text: String = (0..1024).map(|k| format!("char \\u{:04X} 1\n", 0x4000 + k)).collect();
    let words = compiled(text.as_bytes());
    let order: Vec<u32> = (0..1024).collect();
    for (place, comparisons) in [(511, 1), (255, 2), (767, 2), (0, 10), (1, 9), (510, 10), (1022, 10), (1023, 11)] {
        finds(&words, &order, 0x4000 + place, Some(place), comparisons);
    }
    finds(&words, &order, 0x3FFF, None, 10);
    finds(&words, &order, 0x4400, None, 11);
}

#[test]
fn shown_by_order() {
    let order = order_with(&[5, 2, 0, 1, 3, 4]);
    let page = [0x61, 0x3B1, 0xE0, 0xC5, 0xE6, 0xE9, 0x2809, 0xF061, 0xF0E4, 0x61];
    let (cells, rules) = ([1, 1, 1, 0x41, 1, 0x39, 9, 1, 1, 1], [3, 4, 5, 5, 6, 8, 1, 19, 20, 3]);
    for set in SETS {
        let words = compiled_in(set, SMALL.as_bytes());
        for side in SIDES {
            for (character, links) in page.into_iter().zip([0, 2, 0, 0, 0, 0, 0, 0, 1, 0]) {
                let shown = (side.look_up_by)(&words, &order, character);
                assert_eq!(shown, (side.look_up)(&words, character), "{} {character:X}", side.name);
                assert_eq!(shown.map(|shown| shown.links), Ok(links), "{} {character:X}", side.name);
            }
            let (mut got_cells, mut got_rules) = ([7; 11], [8; 12]);
            assert_eq!((side.page_by)(&words, &order, &page, &mut got_cells, &mut got_rules), Ok(()), "{}", side.name);
            assert_eq!((&got_cells[..10], &got_cells[10..]), (&cells[..], &[7][..]), "{}", side.name);
            assert_eq!((&got_rules[..10], &got_rules[10..]), (&rules[..], &[8, 8][..]), "{}", side.name);
        }
    }
}

#[test]
fn wrong_orders() {
    let mut words = compiled(SMALL.as_bytes());
    let right = [5, 2, 0, 1, 3, 4];
    let order = order_with(&right);
    by_order_refused(&words, &order, 0xD800, (14, 0));
    for length in [0, 6, 1023] {
        by_order_refused(&words, &order[..length], 0xD800, (2, 0));
        by_order_refused(&compiled(b""), &order[..length], 0xD800, (2, 0));
    }
    by_order_refused(&words[..2049], &order, 0xD800, (2, 0));
    // Each place by a neighbour's number, by one of no pair and by the greatest; and two exchanged.
    for place in 0..6 {
        for number in [right[(place + 1) % 6], 6, 1024, u32::MAX] {
            let mut wrong = order.clone();
            wrong[place] = number;
            by_order_refused(&words, &wrong, 0x61, (23, 0));
            by_order_refused(&words, &wrong, 0x11_0000, (23, 0));
            by_order_refused(&words, &wrong[..1023], 0x61, (2, 0));
            wrong[(place + 1) % 6] = right[place];
            by_order_refused(&words, &wrong, 0x61, (23, 0));
        }
    }
    // The page's other refusals: 2 before 15 and 23, and 14 at the first that is no scalar.
    let wrong = order_with(&[0, 1, 2, 3, 4, 5]);
    let page = [0x61, 0xD800, 0xD801];
    let page_refused = |words: &[u32], order: &[u32], [cells, rules]: [usize; 2], refusal: (u32, u32)| {
        for side in SIDES {
            let (mut cells, mut rules) = (vec![5; cells], vec![6; rules]);
            let got = (side.page_by)(words, order, &page, &mut cells, &mut rules).map_err(pair);
            assert_eq!(got, Err(refusal), "{}", side.name);
            assert!(cells.iter().all(|cell| *cell == 5) && rules.iter().all(|rule| *rule == 6), "{}", side.name);
        }
    };
    page_refused(&words, &order, [3, 3], (14, 1));
    page_refused(&words, &wrong, [3, 3], (23, 0));
    page_refused(&words, &wrong, [2, 3], (2, 0));
    page_refused(&words, &wrong, [3, 2], (2, 0));
    // A table at fault before its order.
    words[4] = 0x61;
    by_order_refused(&words, &wrong, 0xD800, (15, 2));
    by_order_refused(&words, &order, 0x61, (15, 2));
    by_order_refused(&words, &order[..1023], 0x61, (2, 0));
    page_refused(&words, &wrong, [3, 3], (15, 2));
    page_refused(&words, &wrong, [0, 3], (2, 0));
}
