//! Texts, tables, orders, characters and windows at random: made by the grammar of the papers, then damaged in part.

use crate::random::Random;
use crate::reference::{
    self, Block, ByteTable, Condition, Definition, Meaning, Meanings, Pairs, Place, Reading, Set, Window, CONDITIONS,
    DIFFERENCES, LINE_BYTES, PAIRS, SET_WORD, TEXT_BYTES, WORDS,
};
use std::collections::BTreeSet;

/// Characters that the rules know: bases, characters with a base, stand-ins and characters with one.
const KNOWN: [u32; 40] = [
    0x41, 0x43, 0x45, 0x49, 0x4E, 0x4F, 0x55, 0x59, 0x61, 0x63, 0x65, 0x69, 0x6E, 0x6F, 0x75, 0x79, 0x20, 0x78, 0x73,
    0x2D, 0x27, 0x22, 0xA0, 0xC6, 0xD7, 0xD8, 0xDF, 0xE6, 0xF8, 0xC0, 0xC5, 0xE0, 0xE4, 0xFF, 0x2010, 0x2014, 0x2018,
    0x2019, 0x201C, 0x201D,
];

/// Characters at the borders of encodings, rows and operand forms.
const BORDERS: [u32; 40] = [
    0x00, 0x01, 0x07, 0x08, 0x09, 0x0A, 0x0B, 0x0C, 0x0D, 0x1F, 0x23, 0x28, 0x29, 0x30, 0x31, 0x5C, 0x7E, 0x7F, 0x80,
    0xBF, 0xFE, 0x100, 0x1FF, 0x200, 0x7FF, 0x800, 0x2015, 0x2017, 0x27FF, 0x2800, 0x28FF, 0x2900, 0xD7FF, 0xE000,
    0xEFFF, 0xF000, 0xF0FF, 0xF100, 0x10000, 0x10FFFF,
];

/// Characters at the borders of the braille row and the private row.
const ROW_BORDERS: [u32; 8] = [0x27FF, 0x2800, 0x28FF, 0x2900, 0xEFFF, 0xF000, 0xF0FF, 0xF100];

const NON_SCALARS: [u32; 8] = [0xD800, 0xDBFF, 0xDC00, 0xDFFF, 0x11_0000, 0xFF_FFFF, 0x100_0061, u32::MAX];

pub fn any_scalar(random: &mut Random) -> u32 {
    loop {
        let number = match random.below(4) {
            0 => random.below(0x100) as u32,
            1 => random.below(0x3000) as u32,
            2 => random.below(0x1_0000) as u32,
            _ => random.below(0x11_0000) as u32,
        };
        if reference::scalar(number) {
            return number;
        }
    }
}

pub fn non_scalar(random: &mut Random) -> u32 {
    match random.below(3) {
        0 => *random.pick(&NON_SCALARS),
        1 => random.between(0xD800, 0xDFFF) as u32,
        _ => random.word() | 0x0020_0000,
    }
}

fn pool_character(random: &mut Random) -> u32 {
    match random.below(100) {
        0..=24 => random.between(0x61, 0x6A) as u32,
        25..=64 => *random.pick(&KNOWN),
        65..=69 => *random.pick(&BORDERS),
        70..=75 => random.between(0xC0, 0xFF) as u32,
        76..=81 => 0xFFFD,
        82..=88 => '?' as u32,
        89..=91 => 0xF000 + random.pick(&KNOWN) % 256,
        92 | 93 => braille(random),
        94..=97 => random.between(0x1_0000, 0x1_FFFF) as u32,
        _ => any_scalar(random),
    }
}

/// A character around a byte in which the sets differ: that of either set, the private-row one, or the next to these.
fn differing(random: &mut Random) -> u32 {
    let byte = *random.pick(&DIFFERENCES);
    let [first, second] = Set::ALL.map(|set| set.character(byte));
    match random.below(20) {
        0..=5 => first,
        6..=11 => second,
        12..=16 => private(second),
        17 => first - 1,
        18 => second + 1,
        _ => second - 1,
    }
}

fn braille(random: &mut Random) -> u32 {
    0x2800 + u32::from(random.byte())
}

/// A character of the braille row or the private row, or at their borders.
fn of_rows(random: &mut Random) -> u32 {
    match random.below(5) {
        0 | 1 => braille(random),
        2 => 0xF000 + u32::from(random.byte()),
        3 => 0xF000 + u32::from(*random.pick(&DIFFERENCES)),
        _ => *random.pick(&ROW_BORDERS),
    }
}

/// A character of these, or a letter or one more that the private row stands for.
fn around_rows(random: &mut Random) -> u32 {
    let local = *random.pick(&[0x00, 0x3F, 0x41, 0x61, 0x62, 0x63, 0xE0, 0xE6, 0xFF]);
    match random.below(10) {
        0..=2 => of_rows(random),
        3 | 4 => private(local),
        _ => local,
    }
}

/// Characters to draw from; of 30 texts or tables in a hundred they are around the bytes in which the sets differ, and of 15
/// around the two rows.
fn pool(random: &mut Random, size: usize) -> Vec<u32> {
    let draw = match random.below(20) {
        0..=5 => differing,
        6..=8 => around_rows,
        _ => pool_character,
    };
    (0..size).map(|_| draw(random)).collect()
}

/// The private-row character that stands for a character in a set, or else that of its low byte.
fn private(character: u32) -> u32 {
    0xF000 + Set::Iso8859_15.byte(character).map_or(character % 256, u32::from)
}

/// A text and the characters it draws from.
pub struct Text {
    pub bytes: Vec<u8>,
    /// The set that it is made for.
    pub set: Set,
    pub alphabet: Vec<u32>,
    /// The most blocks that were open at once, before any damage.
    pub depth: usize,
}

/// Makes the lines of one text.
struct Maker<'r> {
    random: &'r mut Random,
    set: Set,
    bytes: Vec<u8>,
    alphabet: Vec<u32>,
    cells: Vec<u8>,
    aliases: usize,
    /// How deep the blocks may nest; 0 for a text without any.
    most_blocks: usize,
    /// The most blocks that were open at once.
    depth: usize,
    /// The characters of opening lines, which the lines inside ask for and define more often.
    asked: Vec<u32>,
    /// The table of the lines so far.
    words: Vec<u32>,
    reading: Reading,
    /// The same of a byte table.
    byte_table: ByteTable,
}

const UNKNOWN: [&str; 18] = [
    "Char", "CHAR", "chars", "cha", "ifglyph", "ifNotglyph", "IfCell", "ifCells", "if", "include", "dot",
    "\u{FEFF}char", "char\u{A0}a", "\r", "a", "1", "\\#", "char#",
];

/// The words that stand first on their line, and what is not quite one of them.
const FIRST: [&str; 2] = ["else", "endIf"];

const NOT_FIRST: [&str; 14] = [
    "Else", "ELSE", "els", "elseIf", "else#", "else\r", "\u{FEFF}else", "endif", "EndIf", "end", "endIfs", "endIf#",
    "endIf\r", "endIf\u{A0}",
];

const BAD_CHARACTERS: [&str; 34] = [
    "ab", "\\", "\\q", "\\B", "\\N", "\\S", "\\R", "\\uD800", "\\udfff", "\\U0000D800", "\\U00110000", "\\UFFFFFFFF",
    "\\u041", "\\u00041", "\\x4", "\\x041", "\\x+4", "\\X-1", "\\xg0", "\\o10", "\\o1010", "\\o800", "\\o18", "\\O101",
    "\\<A>", "\\{a}", "\\ss", "\\##", "\\\\\\", "é\\", "##", "#a", "a\r", "\\u00e",
];

/// No bytes in any set; also numbers over 255 of characters that ISO 8859-15 has.
const BAD_BYTES: [&str; 18] = [
    "\\u0041", "\\U00000041", "\\o400", "\\o777", "Ā", "\\u20AC", "\\u00A4", "\\o540", "\\o575", "\\o522", "\u{F0A4}",
    "\u{F061}", "\u{F000}", "\u{F0FF}", "\\uF0BD", "\u{2800}", "\u{28E9}", "\\u2801",
];

const BAD_DOTS: [&str; 35] = [
    "9", "11", "00", "01", "10", "121", "123456781", "(11)", "(1 1)", "(0)", "(1 0)", "(9)", "(1 2", "(", "( ", ")",
    "(12)x", "(12)#c", "12#c", "()()", "(1)2", "1(2)", "((1))", "(1))", "a", "+1", "1,2", "(1 # 2)", "(1\r)", "(1\r",
    "é", "#", "#1", "\\x31", "1\r",
];

const BAD_CELLS: [&str; 12] = ["9", "11", "00", "01", "10", "(1)", "()", "(", "a", "#", "#1", "1#"];

const AFTER: [&str; 11] = ["x", "1", "\\#", "x #", "\u{A0}", "\r #", "(1)", "char", "else", "endIf", "ifGlyph b"];

fn trim_end(bytes: &mut Vec<u8>) {
    while matches!(bytes.last(), Some(b' ' | b'\t')) {
        bytes.pop();
    }
}

fn add_character(bytes: &mut Vec<u8>, character: u32) {
    let character = char::from_u32(character).expect("a scalar");
    bytes.extend(character.encode_utf8(&mut [0; 4]).as_bytes());
}

impl Maker<'_> {
    fn new(random: &mut Random) -> Maker<'_> {
        let size = match random.below(20) {
            0 => random.between(20, 60),
            1..=5 => random.between(1, 3),
            _ => random.between(3, 12),
        };
        let set = *random.pick(&Set::ALL);
        let alphabet = pool(random, size);
        let cells = (0..random.between(1, 5)).map(|_| random.byte()).collect();
        let aliases = *random.pick(&[10, 35, 35, 35, 80]);
        let most_blocks = match random.below(20) {
            0..=7 => 0,
            8..=13 => random.between(1, 2),
            14..=16 => random.between(3, 7),
            _ => CONDITIONS,
        };
        Maker {
            random,
            set,
            bytes: Vec::new(),
            alphabet,
            cells,
            aliases,
            most_blocks,
            depth: 0,
            asked: Vec::new(),
            words: vec![0; WORDS],
            reading: Reading::new(set),
            byte_table: ByteTable::default(),
        }
    }

    fn open(&self) -> usize {
        self.reading.blocks.len()
    }

    /// How many conditions a line may have.
    fn room(&self) -> usize {
        CONDITIONS - self.open()
    }

    fn blanks(&mut self, bytes: &mut Vec<u8>) {
        let blanks: &[u8] = match self.random.below(20) {
            0 => b"\t",
            1 => b"  ",
            2 => b" \t ",
            _ => b" ",
        };
        bytes.extend(blanks);
    }

    fn hex(&mut self, number: u32, digits: usize) -> String {
        let hex = format!("{number:0digits$X}");
        hex.chars().map(|digit| if self.random.percent(50) { digit.to_ascii_lowercase() } else { digit }).collect()
    }

    fn hex_escape(&mut self, number: u32) -> String {
        let letter = if self.random.percent(50) { 'x' } else { 'X' };
        format!("\\{letter}{}", self.hex(number, 2))
    }

    /// A character in any form that can write it, at times as the private-row one of its byte.
    fn write_character(&mut self, bytes: &mut Vec<u8>, character: u32) {
        let byte = self.set.byte(character).filter(|_| self.random.percent(10));
        let character = byte.map_or(character, |byte| 0xF000 + u32::from(byte));
        self.write_operand(bytes, character, character, true);
    }

    /// A byte in any form that a text table has for it.
    fn write_byte(&mut self, bytes: &mut Vec<u8>, byte: u8) {
        let character = self.set.character(byte);
        self.write_operand(bytes, character, byte.into(), false);
    }

    /// An operand as the character itself, or by an escape for the number; `unicode` admits `\u` and `\U`.
    fn write_operand(&mut self, bytes: &mut Vec<u8>, character: u32, number: u32, unicode: bool) {
        let raw = !matches!(character, 0x09 | 0x0A | 0x20 | 0x5C);
        if raw && self.random.percent(60) {
            add_character(bytes, character);
            return;
        }
        loop {
            let form = match self.random.below(6) {
                0 if number <= 0o777 => format!("\\o{number:03o}"),
                1 if number <= 0xFF => self.hex_escape(number),
                2 if number <= 0xFFFF && unicode => format!("\\u{}", self.hex(number, 4)),
                3 if unicode => format!("\\U{}", self.hex(number, 8)),
                4 | 5 => match number {
                    8 => "\\b".into(),
                    9 => "\\t".into(),
                    10 => "\\n".into(),
                    11 => "\\v".into(),
                    12 => "\\f".into(),
                    13 => "\\r".into(),
                    32 => "\\s".into(),
                    35 => "\\#".into(),
                    92 => "\\\\".into(),
                    _ => continue,
                },
                _ => continue,
            };
            bytes.extend(form.as_bytes());
            return;
        }
    }

    fn draw(&mut self) -> u32 {
        match self.random.below(50) {
            0 | 1 => any_scalar(self.random),
            2 | 3 => private(*self.random.pick(&self.alphabet)),
            4 => braille(self.random),
            5..=18 if self.open() > 0 && !self.asked.is_empty() => *self.random.pick(&self.asked),
            _ => *self.random.pick(&self.alphabet),
        }
    }

    fn character(&mut self, bytes: &mut Vec<u8>) {
        let character = self.draw();
        self.write_character(bytes, character);
    }

    /// The target of an alias.
    fn target(&mut self, bytes: &mut Vec<u8>) {
        let target = if self.random.percent(12) { braille(self.random) } else { self.draw() };
        self.write_character(bytes, target);
    }

    /// The byte of a character of the alphabet in one of the sets, or else any byte.
    fn draw_byte(&mut self) -> u8 {
        let drawn = *self.random.pick(&self.alphabet);
        let local = Set::ALL.iter().any(|set| set.byte(drawn).is_some()) || drawn == private(drawn);
        if local {
            private(drawn) as u8
        } else {
            self.random.byte()
        }
    }

    fn byte(&mut self, bytes: &mut Vec<u8>) {
        let byte = self.draw_byte();
        self.write_byte(bytes, byte);
    }

    /// A word that is no byte of the set, at times since only the other set has it.
    fn write_bad_byte(&mut self, bytes: &mut Vec<u8>) {
        if self.random.percent(50) {
            bytes.extend(self.random.pick(&BAD_BYTES).as_bytes());
            return;
        }
        let other = Set::ALL[usize::from(self.set == Set::Iso8859_1)];
        add_character(bytes, other.character(*self.random.pick(&DIFFERENCES)));
    }

    fn cell(&mut self) -> u8 {
        if self.random.percent(85) {
            *self.random.pick(&self.cells)
        } else {
            self.random.byte()
        }
    }

    /// A cell's digits in any order.
    fn digits(&mut self, cell: u8) -> Vec<u8> {
        let mut digits: Vec<u8> = (0..8).filter(|d| cell >> d & 1 == 1).map(|d| b'1' + d).collect();
        for place in (1..digits.len()).rev() {
            digits.swap(place, self.random.below(place + 1));
        }
        digits
    }

    fn write_cell(&mut self, bytes: &mut Vec<u8>, cell: u8) {
        match cell {
            0 => bytes.push(b'0'),
            cell => bytes.extend(self.digits(cell)),
        }
    }

    fn write_dots(&mut self, bytes: &mut Vec<u8>) {
        let cell = self.cell();
        if self.random.percent(60) {
            return self.write_cell(bytes, cell);
        }
        let spaced = self.random.percent(50);
        bytes.push(b'(');
        for digit in self.digits(cell) {
            if spaced && self.random.percent(60) {
                self.blanks(bytes);
            }
            bytes.push(digit);
        }
        if spaced && self.random.percent(50) {
            self.blanks(bytes);
        }
        bytes.push(b')');
    }

    /// The definitions of the lines so far.
    fn pairs(&self) -> Pairs<'_> {
        Pairs(&self.words[..2 * self.reading.count])
    }

    /// Whether a condition holds with the lines so far.
    fn holds(&self, condition: Condition) -> bool {
        self.pairs().holds(condition)
    }

    /// A condition, which holds more often than not.
    fn condition(&mut self, bytes: &mut Vec<u8>) {
        let character = self.draw();
        self.condition_on(bytes, character, 70);
    }

    /// A condition on the character or on a cell, made to hold `wished` times in a hundred and else left to chance.
    fn condition_on(&mut self, bytes: &mut Vec<u8>, character: u32, wished: usize) {
        let wish = self.random.percent(wished);
        let mut plain = self.random.percent(50);
        let mut operand = Vec::new();
        let words = if self.random.percent(50) {
            if wish {
                plain = self.holds(Condition::Glyph(reference::local(character, self.set), true));
            }
            self.write_character(&mut operand, character);
            ["ifNotGlyph", "ifGlyph"]
        } else {
            let cell = self.cell();
            if wish {
                plain = self.holds(Condition::Cell(cell, true));
            }
            self.write_cell(&mut operand, cell);
            ["ifNotCell", "ifCell"]
        };
        bytes.extend(words[usize::from(plain)].as_bytes());
        self.blanks(bytes);
        bytes.extend(operand);
        self.blanks(bytes);
    }

    fn definition(&mut self, bytes: &mut Vec<u8>) {
        if self.random.percent(self.aliases) {
            bytes.extend(b"alias");
            self.blanks(bytes);
            self.character(bytes);
            self.blanks(bytes);
            self.target(bytes);
            return;
        }
        match self.random.below(6) {
            0 => {
                bytes.extend(b"byte");
                self.blanks(bytes);
                self.byte(bytes);
            }
            1 => {
                bytes.extend(b"glyph");
                self.blanks(bytes);
                self.character(bytes);
            }
            _ => {
                bytes.extend(b"char");
                self.blanks(bytes);
                self.character(bytes);
            }
        }
        self.blanks(bytes);
        self.write_dots(bytes);
    }

    fn comment(&mut self, bytes: &mut Vec<u8>) {
        bytes.push(b'#');
        for _ in 0..self.random.below(8) {
            match self.random.below(3) {
                0 => bytes.push(b' '),
                1 => bytes.push(b'#'),
                _ => {
                    let character = any_scalar(self.random);
                    add_character(bytes, if character == 10 { 11 } else { character });
                }
            }
        }
    }

    fn trail(&mut self, bytes: &mut Vec<u8>) {
        match self.random.below(20) {
            0 | 1 => self.blanks(bytes),
            2 | 3 => {
                self.blanks(bytes);
                self.comment(bytes);
            }
            _ => {}
        }
    }

    /// The conditions before a directive, as many as fit.
    fn conditions(&mut self, bytes: &mut Vec<u8>) {
        let count = match self.random.below(100) {
            0..=59 => 0,
            60..=81 => 1,
            82..=91 => 2,
            _ => self.random.between(3, 8),
        };
        for _ in 0..count.min(self.room()) {
            self.condition(bytes);
        }
    }

    /// The conditions that open a block, at least one and at most `most`.
    fn opening(&mut self, bytes: &mut Vec<u8>, most: usize) {
        let count = match self.random.below(10) {
            0..=5 => 1,
            6..=8 => 2,
            _ => self.random.between(1, 8),
        };
        // Of deep blocks each fails seldom, so that the innermost are taken too.
        let wished = if self.most_blocks > 2 { 85 } else { 40 };
        for _ in 0..count.min(most).max(1) {
            let character = self.draw();
            self.asked.push(character);
            self.condition_on(bytes, character, wished);
        }
        if self.random.percent(70) {
            trim_end(bytes);
        }
        self.trail(bytes);
    }

    /// Opens or closes a block, or turns to the half behind `else`.
    fn block_line(&mut self, bytes: &mut Vec<u8>) {
        let open = self.open();
        let turns = self.reading.blocks.last().is_some_and(Block::awaits_else);
        let climbs = if self.most_blocks > 2 { 80 } else { 50 };
        if open == 0 || open < self.most_blocks && self.random.percent(climbs) {
            let room = self.room();
            return self.opening(bytes, room);
        }
        let word = FIRST[usize::from(!turns || self.random.percent(45))];
        bytes.extend(word.as_bytes());
        self.trail(bytes);
    }

    /// A well-formed line without its end.
    fn line(&mut self) -> Vec<u8> {
        self.line_with(|maker, drawn, bytes| match drawn {
            4..=15 if maker.most_blocks > 0 => maker.block_line(bytes),
            _ => {
                maker.conditions(bytes);
                maker.definition(bytes);
                maker.trail(bytes);
            }
        })
    }

    /// A line that is skipped, or one whose directive is written by a number from 4 to 29.
    fn line_with(&mut self, directive: fn(&mut Self, usize, &mut Vec<u8>)) -> Vec<u8> {
        let mut bytes = Vec::new();
        if self.random.percent(10) {
            self.blanks(&mut bytes);
        }
        match self.random.below(30) {
            0 => {}
            1 => self.blanks(&mut bytes),
            2 | 3 => self.comment(&mut bytes),
            drawn => directive(self, drawn, &mut bytes),
        }
        if self.random.below(400) == 0 {
            self.pad(&mut bytes, 0);
        }
        bytes
    }

    /// Brings a line to `more` bytes over 1,024 or a few under.
    fn pad(&mut self, bytes: &mut Vec<u8>, more: usize) {
        let length = LINE_BYTES + more - if more == 0 { self.random.below(3) } else { 0 };
        if self.random.percent(50) && bytes.len() < length {
            bytes.push(b' ');
        } else if bytes.len() + 2 < length {
            bytes.extend(b" #");
        }
        let filler = if self.random.percent(50) { b' ' } else { b'\t' };
        while bytes.len() < length {
            bytes.push(filler);
        }
    }

    /// The first words of a directive, not all of them, at times with a `#` behind.
    fn write_part(&mut self, bytes: &mut Vec<u8>, directive: &[u8]) {
        let words: Vec<&[u8]> =
            directive.split(|byte| *byte == b' ' || *byte == b'\t').filter(|word| !word.is_empty()).collect();
        let kept = self.random.below(words.len());
        for word in &words[..kept] {
            bytes.extend(*word);
            self.blanks(bytes);
        }
        if self.random.percent(40) {
            bytes.push(b'#');
        } else if self.random.percent(50) {
            trim_end(bytes);
        }
    }

    /// A definition for a braille-row character, as an alias often with a loop too, and at times with text behind it.
    fn braille_definition(&mut self, bytes: &mut Vec<u8>) {
        // The end of a walk so far, if the draws find one.
        let [start, other] = [self.draw(), self.draw()].map(|drawn| reference::local(drawn, self.set));
        let end = self.pairs().walk(start).end;
        let character = if reference::braille_cell(end).is_some() { end } else { braille(self.random) };
        let word = *self.random.pick(&["char", "glyph", "alias", "alias", "alias", "byte"]);
        bytes.extend(word.as_bytes());
        self.blanks(bytes);
        self.write_character(bytes, character);
        self.blanks(bytes);
        if word == "alias" {
            let target = *self.random.pick(&[character, start, other]);
            self.write_character(bytes, target);
        } else {
            self.write_dots(bytes);
        }
        if self.random.percent(10) {
            self.blanks(bytes);
            bytes.extend(self.random.pick(&AFTER).as_bytes());
        }
    }

    /// An alias of a character to itself, in any spellings.
    fn self_alias(&mut self, bytes: &mut Vec<u8>) {
        let character = self.set.character(self.draw_byte());
        bytes.extend(b"alias ");
        self.write_character(bytes, character);
        self.blanks(bytes);
        self.write_character(bytes, character);
    }

    /// A line with one fault of the grammar or of the rows, behind conditions that may hold or fail.
    fn faulty_line(&mut self) -> Vec<u8> {
        let mut bytes = Vec::new();
        self.conditions(&mut bytes);
        let word = *self.random.pick(&["char", "glyph", "byte"]);
        match self.random.below(16) {
            0 => {
                bytes.extend(self.random.pick(&UNKNOWN).as_bytes());
                self.blanks(&mut bytes);
                self.character(&mut bytes);
                self.blanks(&mut bytes);
                self.write_dots(&mut bytes);
            }
            1 => {
                let mut end = Vec::new();
                self.definition(&mut end);
                self.write_part(&mut bytes, &end);
            }
            2 | 3 => {
                bytes.extend(word.as_bytes());
                self.blanks(&mut bytes);
                bytes.extend(self.random.pick(&BAD_CHARACTERS).as_bytes());
                self.blanks(&mut bytes);
                self.write_dots(&mut bytes);
            }
            4 => {
                bytes.extend(b"byte ");
                self.write_bad_byte(&mut bytes);
                self.blanks(&mut bytes);
                self.write_dots(&mut bytes);
            }
            5 => {
                bytes.extend(b"alias ");
                self.character(&mut bytes);
                self.blanks(&mut bytes);
                bytes.extend(self.random.pick(&BAD_CHARACTERS).as_bytes());
                self.trail(&mut bytes);
            }
            6 | 7 => {
                bytes.extend(word.as_bytes());
                self.blanks(&mut bytes);
                if word == "byte" {
                    self.byte(&mut bytes);
                } else {
                    self.character(&mut bytes);
                }
                self.blanks(&mut bytes);
                bytes.extend(self.random.pick(&BAD_DOTS).as_bytes());
                self.trail(&mut bytes);
            }
            8 => {
                if self.random.percent(50) {
                    bytes.extend(b"ifGlyph ");
                    bytes.extend(self.random.pick(&BAD_CHARACTERS).as_bytes());
                } else {
                    bytes.extend(b"ifNotCell ");
                    bytes.extend(self.random.pick(&BAD_CELLS).as_bytes());
                }
                self.blanks(&mut bytes);
                self.definition(&mut bytes);
            }
            9 => {
                self.definition(&mut bytes);
                self.blanks(&mut bytes);
                bytes.extend(self.random.pick(&AFTER).as_bytes());
            }
            10 => {
                bytes.clear();
                for _ in 0..self.room() + self.random.below(3) {
                    self.condition(&mut bytes);
                }
                match self.random.below(4) {
                    0 => {}
                    1 => {
                        let ends = ["ifCell", "ifGlyph ", "ifNotCell 9", "ifNotGlyph ab x", "ifCell #", "ifCells"];
                        bytes.extend(self.random.pick(&ends).as_bytes());
                    }
                    _ => self.definition(&mut bytes),
                }
            }
            11..=13 => self.braille_definition(&mut bytes),
            14 => self.self_alias(&mut bytes),
            _ => {
                self.definition(&mut bytes);
                let more = self.random.between(1, 3);
                self.pad(&mut bytes, more);
            }
        }
        bytes
    }

    /// Adds a line to the text; one that would be refused may be left out.
    fn add(&mut self, line: &[u8], only_accepted: bool) {
        let taken = reference::take_line(line, &mut self.words, &mut self.reading);
        if taken.is_ok() || !only_accepted {
            self.put(line);
        }
        self.depth = self.depth.max(self.open());
    }

    fn put(&mut self, line: &[u8]) {
        self.bytes.extend(line);
        end_line(self.random, &mut self.bytes);
    }

    fn add_lines(&mut self, count: usize, only_accepted: bool) {
        for _ in 0..count {
            let line = self.line();
            self.add(&line, only_accepted);
        }
    }

    /// `else` or `endIf`, with what may follow it.
    fn add_word(&mut self, word: &str) {
        let mut line = word.as_bytes().to_vec();
        self.trail(&mut line);
        self.add(&line, true);
    }

    /// Closes the open blocks but `left`, at times by way of a half behind `else`.
    fn close(&mut self, left: usize) {
        while self.open() > left {
            let open = self.open();
            if self.random.percent(30) && self.reading.blocks.last().is_some_and(Block::awaits_else) {
                self.add_word("else");
                let count = self.random.below(3);
                self.add_lines(count, true);
            }
            if self.open() >= open {
                self.add_word("endIf");
            }
        }
    }

    /// Lines that end in a fault of blocks.
    fn add_faulty_blocks(&mut self) {
        let word = *self.random.pick(&FIRST);
        let mut line = Vec::new();
        match self.random.below(8) {
            0 => {
                // Nothing is open.
                self.close(0);
                line.extend(word.as_bytes());
            }
            1 | 2 => {
                // A second `else`, also after an inner block.
                if self.open() == 0 {
                    self.opening(&mut line, 1);
                    self.add(&line, true);
                    line.clear();
                }
                if self.reading.blocks.last().is_some_and(Block::awaits_else) {
                    self.add_word("else");
                }
                let count = self.random.below(3);
                self.add_lines(count, true);
                line.extend(b"else");
            }
            3 => {
                // Behind conditions.
                for _ in 0..self.random.between(1, 3).min(self.room()) {
                    self.condition(&mut line);
                }
                line.extend(word.as_bytes());
            }
            4 => line.extend(self.random.pick(&NOT_FIRST).as_bytes()),
            5 => {
                // Text behind them, whatever is open.
                line.extend(word.as_bytes());
                self.blanks(&mut line);
                line.extend(self.random.pick(&AFTER).as_bytes());
            }
            _ => {
                // As many blocks as may be open, then a condition more.
                while self.room() > 0 {
                    let mut opening = Vec::new();
                    let room = self.room();
                    self.opening(&mut opening, room);
                    self.add(&opening, true);
                    if self.random.percent(20) {
                        self.add_lines(1, true);
                    }
                }
                self.opening(&mut line, 2);
                if self.random.percent(40) {
                    self.blanks(&mut line);
                    self.definition(&mut line);
                }
            }
        }
        if self.random.percent(30) {
            self.blanks(&mut line);
            line.extend(self.random.pick(&AFTER).as_bytes());
        }
        let line = spaced(self.random, &line);
        self.add(&line, false);
    }
}

/// A line at times with blanks before or behind it, or with a CR, which is one too many where the line ends by CR LF.
fn spaced(random: &mut Random, line: &[u8]) -> Vec<u8> {
    let mut blanks = || match random.below(25) {
        0 => " ",
        1 => "\t",
        2 => "  ",
        3 => " \t ",
        4 => "    ",
        _ => "",
    };
    let (before, behind) = (blanks(), blanks());
    let end = if random.percent(10) { "\r" } else { "" };
    [before.as_bytes(), line, behind.as_bytes(), end.as_bytes()].concat()
}

fn end_line(random: &mut Random, bytes: &mut Vec<u8>) {
    bytes.extend(if random.percent(12) { b"\r\n".as_slice() } else { b"\n" });
}

/// Now and then a text without its last LF, or with CR alone.
fn end_text(random: &mut Random, bytes: &mut Vec<u8>) {
    if random.percent(20) && bytes.last() == Some(&b'\n') {
        bytes.pop();
    } else if random.percent(3) {
        bytes.push(b'\r');
    }
}

const NOT_UTF8: [&[u8]; 20] = [
    b"\x80", b"\xBF", b"\xFF", b"\xFE", b"\xC0\x80", b"\xC1\xBF", b"\xC3", b"\xC3\x28", b"\xE0\x80\x80",
    b"\xE0\x9F\xBF", b"\xE2\x82", b"\xE2\x28\xA1", b"\xED\xA0\x80", b"\xED\xBF\xBF", b"\xF0\x80\x80\x80",
    b"\xF0\x8F\xBF\xBF", b"\xF0\x90\x80", b"\xF4\x90\x80\x80", b"\xF5\x80\x80\x80", b"\xF8\x88\x80\x80\x80",
];

/// Bytes that mean something to the reader.
const LOADED: &[u8] = b" \t\r\n#\\()0123456789abcdnuxUXobtvfrs=~AFG\x00\x7F\x80\xA0\xC0\xC3\xE2\xED\xF0\xF4\xFF";

/// Damages a text by bytes.
pub fn damage(random: &mut Random, bytes: &mut Vec<u8>) {
    for _ in 0..*random.pick(&[1, 1, 1, 2, 3, 6]) {
        let place = random.below(bytes.len() + 1);
        let inside = place.min(bytes.len().saturating_sub(1));
        match random.below(11) {
            0 if !bytes.is_empty() => bytes[inside] ^= 1 << random.below(8),
            1 if !bytes.is_empty() => bytes[inside] = *random.pick(LOADED),
            2 => bytes.insert(place, *random.pick(LOADED)),
            3 => bytes.insert(place, random.byte()),
            4 if !bytes.is_empty() => {
                bytes.remove(inside);
            }
            5 => bytes.truncate(place),
            6 => {
                // Two lines joined.
                let ends: Vec<usize> = (0..bytes.len()).filter(|k| bytes[*k] == b'\n').collect();
                if !ends.is_empty() {
                    bytes.remove(*random.pick(&ends));
                }
            }
            7 => {
                bytes.splice(place..place, random.pick(&NOT_UTF8).iter().copied());
            }
            8 | 9 if !bytes.is_empty() => {
                // A line left out, said twice, or said again elsewhere.
                let mut lines: Vec<&[u8]> = bytes.split_inclusive(|byte| *byte == b'\n').collect();
                let from = random.below(lines.len());
                let line = lines[from];
                match random.below(3) {
                    0 => {
                        lines.remove(from);
                    }
                    1 => lines.insert(from, line),
                    _ => lines.insert(random.below(lines.len() + 1), line),
                }
                *bytes = lines.concat();
            }
            _ => {
                // A part moved or said twice.
                let from = random.below(bytes.len() + 1);
                let to = (from + random.below(12)).min(bytes.len());
                let part = bytes[from..to].to_vec();
                bytes.splice(place..place, part);
            }
        }
    }
}

/// A text table's text.
pub fn text(random: &mut Random) -> Text {
    let mode = random.below(100);
    let mut maker = Maker::new(random);
    let count = match maker.random.below(10) {
        0 => maker.random.below(3),
        1 => maker.random.between(15, 40),
        _ => maker.random.between(3, 14),
    };
    // All but a few texts leave out the lines that would be refused as repeats or loops.
    let only_accepted = !(56..=67).contains(&mode);
    maker.add_lines(count + 3 * maker.most_blocks, only_accepted);
    if (68..=85).contains(&mode) {
        if maker.most_blocks > 0 && maker.random.percent(40) {
            maker.add_faulty_blocks();
        } else {
            let line = maker.faulty_line();
            let line = spaced(maker.random, &line);
            maker.add(&line, false);
        }
        let count = maker.random.below(3);
        maker.add_lines(count, false);
    }
    let open = maker.open();
    let left = if maker.random.percent(5) { maker.random.below(open + 1) } else { 0 };
    maker.close(left);
    let Maker { mut bytes, set, alphabet, depth, .. } = maker;
    if mode > 85 {
        damage(random, &mut bytes);
    }
    end_text(random, &mut bytes);
    Text { bytes, set, alphabet, depth }
}

/// A text table's text and the length of a first part, empty or to the end of a line. Both are accepted, but for a few where
/// the CR of an operand is taken for that of the line's end.
pub fn growing_text(random: &mut Random) -> (Text, usize) {
    let mut maker = Maker::new(random);
    let counts = [maker.random.below(10), maker.random.between(1, 8)];
    let [first, _] = counts.map(|count| {
        maker.add_lines(count + maker.most_blocks, true);
        maker.close(0);
        maker.bytes.len()
    });
    let Maker { bytes, set, alphabet, depth, .. } = maker;
    (Text { bytes, set, alphabet, depth }, first)
}

/// Fills a text with comments and blank lines up to `length`, within its lines' limit.
fn fill_up(random: &mut Random, bytes: &mut Vec<u8>, length: usize) {
    if bytes.last().is_some_and(|last| *last != b'\n') {
        bytes.push(b'\n');
    }
    while bytes.len() < length {
        let line = random.between(1, 1025).min(length - bytes.len());
        let filler = if random.percent(50) { b'#' } else { b' ' };
        bytes.extend(std::iter::repeat_n(filler, line - 1));
        bytes.push(b'\n');
    }
    bytes.truncate(length);
}

/// A text of about 65,536 bytes: below, at and over the limit.
pub fn long_text(random: &mut Random) -> Text {
    let mut made = text(random);
    let length = match random.below(8) {
        0 => TEXT_BYTES,
        1 => TEXT_BYTES - 1,
        2 => random.between(60_000, TEXT_BYTES),
        3..=5 => TEXT_BYTES + 1,
        _ => random.between(TEXT_BYTES + 1, TEXT_BYTES + 5000),
    };
    fill_up(random, &mut made.bytes, length);
    if random.percent(20) {
        let blank_lines = made.bytes.len() - 1;
        made.bytes[..blank_lines].fill(b'\n');
    }
    made
}

/// A text of about 1,024 definitions: below, at and over the limit, with conditions among its last lines.
pub fn large_text(random: &mut Random) -> Text {
    let first = random.between(0x100, 0x1000) as u32;
    let step = random.between(1, 3) as u32;
    let count = match random.below(8) {
        0 => PAIRS - 1,
        1 | 2 => PAIRS,
        _ => random.between(PAIRS + 1, PAIRS + 20),
    };
    let mut bytes = Vec::new();
    let mut alphabet = Vec::new();
    let inside = random.percent(30);
    if inside {
        bytes.extend(b"ifNotCell 8\n");
    }
    for k in 0..count as u32 {
        let character = first + step * k;
        alphabet.push(character);
        if random.below(300) == 0 {
            bytes.extend(b"ifCell 8 glyph b 1\n");
        }
        // No line defines these characters or types that cell, so the definition takes effect.
        let front = match random.below(7) {
            0 => " \t",
            1 => "ifNotCell 8 ",
            2 => "ifNotGlyph é ",
            3 => "\tifNotGlyph ⠁ ifNotCell 8 ",
            4 => "ifNotGlyph 𝄞\t",
            _ => "",
        };
        bytes.extend(front.as_bytes());
        let line = match random.below(10) {
            0..=2 => {
                let target = match random.below(20) {
                    0..=8 => character + 1,
                    9..=14 => 0x61,
                    15 => 0xF061,
                    _ => braille(random),
                };
                format!("alias \\u{character:04X} \\u{target:04X}\n")
            }
            3..=6 => format!("char \\u{character:04X} {}\n", random.between(1, 7)),
            _ => format!("glyph \\u{character:04x} ({})\n", random.between(1, 8)),
        };
        bytes.extend(line.as_bytes());
    }
    let last: &[u8] = match random.below(15) {
        0 => b"ifCell 8 char \\uF8FF 1",
        1 => b"ifNotCell 8 char \\uF8FF 1",
        2 => b"alias a a",
        3 => b"ifGlyph a alias a a",
        4 => b"ifCell 8\nchar \\uF8FF 1\nendIf",
        5 => b"ifCell 8\nelse\nchar \\uF8FF 1\nendIf",
        6 => b"ifNotCell 8\nelse\nchar \\uF8FF 1\nalias a a\nendIf",
        7 => b"alias \\uF061 a",
        8 => b"ifNotCell 8 glyph \\u28FF 1",
        9 => b"alias \\u2801 \\u2801",
        10 => b"ifCell 8 char \\u2800 1",
        _ => b"",
    };
    bytes.extend(last);
    if inside {
        bytes.extend(b"\nelse\nchar \\uF8FE 1\nendIf\n");
    }
    let depth = usize::from(inside) + usize::from(last.ends_with(b"endIf"));
    Text { bytes, set: *random.pick(&Set::ALL), alphabet, depth }
}

fn chain(links: usize) -> (Vec<u32>, Vec<String>) {
    let alphabet: Vec<u32> = (0..=links as u32).map(|k| 0x400 + k).collect();
    let lines = alphabet.windows(2).map(|pair| format!("alias \\u{:04X} \\u{:04X}\n", pair[0], pair[1])).collect();
    (alphabet, lines)
}

/// A text with a chain of aliases, said in any order, and conditions on its head.
pub fn chain_text(random: &mut Random, links: usize) -> Text {
    let (alphabet, mut lines) = chain(links);
    match random.below(3) {
        0 => {}
        1 => lines.reverse(),
        _ => random.shuffle(&mut lines),
    }
    let mut text = lines.concat();
    let end = alphabet[links];
    let in_block = random.percent(50);
    text += if in_block { "ifGlyph \\u0400\nchar a 1\nelse\nchar c 1\n" } else { "ifGlyph \\u0400 char a 1\n" };
    match random.below(8) {
        0 => text += &format!("alias \\u{end:04X} \\u0400\n"),
        // The same loop by the two spellings of a character.
        1 => text += &format!("alias \\u{end:04X} \\uF041\nalias A \\u0400\n"),
        2 => {}
        3 | 4 => text += &format!("alias \\u{end:04X} \\u{:04X}\n", braille(random)),
        _ => text += &format!("glyph \\u{end:04X} 2\n"),
    }
    text += "ifGlyph \\u0400 char b 1\n";
    if in_block {
        text += "char d 1\nendIf\n";
    }
    Text { bytes: text.into_bytes(), set: *random.pick(&Set::ALL), alphabet, depth: usize::from(in_block) }
}

/// A chain of aliases from U+0400 to an explicit character, each alias said before those that lead to it: every
/// alias walks all of the chain so far.
pub fn backward_chain_text(links: usize) -> String {
    let (alphabet, mut lines) = chain(links);
    lines.push(format!("char \\u{:04X} 2\n", alphabet[links]));
    lines.reverse();
    lines.concat()
}

/// A character whose base or stand-in is of the alphabet, if a few draws find one.
fn near(random: &mut Random, alphabet: &[u32]) -> u32 {
    for _ in 0..20 {
        let drawn = match random.below(4) {
            0 => *random.pick(&[0xA0, 0xC6, 0xD7, 0xD8, 0xDF, 0xE6, 0xF8]),
            1 => random.between(0x2010, 0x201D) as u32,
            _ => random.between(0xC0, 0xFF) as u32,
        };
        let other = reference::base(drawn).or(reference::stand_in(drawn));
        if other.is_some_and(|other| alphabet.contains(&other)) {
            return drawn;
        }
    }
    random.between(0xA0, 0xFF) as u32
}

/// A character to look up: from the text, near it by the rules, or any other; now and then no scalar.
pub fn query(random: &mut Random, alphabet: &[u32]) -> u32 {
    match random.below(40) {
        0..=12 if !alphabet.is_empty() => *random.pick(alphabet),
        13..=16 if !alphabet.is_empty() => private(*random.pick(alphabet)),
        17..=21 => near(random, alphabet),
        22..=25 => 0xF000 + near(random, alphabet) % 256,
        26 | 27 => random.between(0xA0, 0xFF) as u32,
        28 => 0xF0A0 + random.below(0x60) as u32,
        29 | 30 => *random.pick(&KNOWN),
        31 => differing(random),
        32 => braille(random),
        33 => 0xF000 + u32::from(random.byte()),
        34 => *random.pick(&BORDERS),
        35 => random.between(0x2008, 0x2020) as u32,
        36 => non_scalar(random),
        _ => any_scalar(random),
    }
}

/// A character that a table may define, in the place of one of the two rows.
fn definable(character: u32) -> u32 {
    let local = reference::local(character, Set::Iso8859_1);
    reference::braille_cell(local).map_or(local, u32::from)
}

/// A second word with a sound kind and number, but for a few targets of the private row.
fn second_word(random: &mut Random, characters: &[u32]) -> u32 {
    match random.below(20) {
        0..=4 => 1 << 24 | u32::from(random.byte()),
        5..=9 => 2 << 24 | u32::from(random.byte()),
        10 => 3 << 24 | *random.pick(characters),
        11 | 12 => 3 << 24 | braille(random),
        _ => 3 << 24 | reference::local(*random.pick(characters), Set::Iso8859_1),
    }
}

/// Changes the set of a compiled table, the zero behind it, or both; it may stay one, of either set.
pub fn damage_set(random: &mut Random, words: &mut [u32]) {
    let mut wrong = || match random.below(7) {
        0 => 0,
        1 => random.between(1, 4) as u32,
        // 1 or 2 in fewer bits.
        2 => 1 << random.between(2, 31) | random.between(1, 2) as u32,
        3 => 1 << random.below(32),
        4 => u32::MAX - random.below(3) as u32,
        _ => random.word(),
    };
    let [set, zero] = [wrong(), wrong()];
    let place = random.below(7);
    if place == 6 {
        words.swap(SET_WORD, SET_WORD + 1);
        return;
    }
    if place < 4 {
        words[SET_WORD] = set;
    }
    if place > 2 {
        words[SET_WORD + 1] = zero;
    }
}

/// Changes a compiled table of `count` definitions by a word or a pair, by its set, or by both; it may stay one.
pub fn damage_table(random: &mut Random, words: &mut [u32], count: usize) {
    let drawn = random.below(10);
    if drawn < 4 {
        damage_set(random, words);
    }
    if drawn > 1 {
        damage_pairs(random, words, count);
    }
}

fn damage_pairs(random: &mut Random, words: &mut [u32], count: usize) {
    let pair = if count > 0 && random.percent(85) { random.below(count) } else { random.below(PAIRS.min(count + 3)) };
    let other = random.below(PAIRS.min(count + 1));
    let (first, second) = (2 * pair, 2 * pair + 1);
    match random.below(17) {
        0 => words[first + random.below(2)] ^= 1 << random.below(32),
        1 => words[first + random.below(2)] = random.word(),
        2 => words[random.below(SET_WORD)] = random.word(),
        3 => words[first + random.below(2)] = 0,
        4 => words[first..=second].fill(0),
        5 => words[first] = words[2 * other],
        6 => words[first] = non_scalar(random),
        7 => words[second] = (random.below(6) as u32) << 24 | words[second] & 0xFF_FFFF,
        8 => words[second] = (random.between(1, 2) as u32) << 24 | 0x100 << random.below(15),
        9 => words[second] = 3 << 24 | non_scalar(random) & 0xFF_FFFF,
        10 | 11 => words[second] = 3 << 24 | words[2 * other] & 0xFF_FFFF,
        12 => {
            words.swap(first, 2 * other);
            words.swap(second, 2 * other + 1);
        }
        13 | 14 => words[first] = of_rows(random),
        15 => words[second] = 3 << 24 | of_rows(random),
        _ => words[SET_WORD - 1 - random.below(2)] = 1 << random.below(32),
    }
}

/// A table of pairs at random, mostly sound ones of few characters; never a compiled one by design.
pub fn any_table(random: &mut Random, words: &mut [u32]) -> Vec<u32> {
    words.fill(0);
    words[SET_WORD] = random.pick(&Set::ALL).number();
    let size = random.between(1, 40);
    let characters = pool(random, size);
    if random.percent(10) {
        words.iter_mut().for_each(|word| *word = random.word());
        return characters;
    }
    let count = match random.below(20) {
        0 => random.between(40, 120),
        1..=3 => 0,
        _ => random.between(1, 12),
    };
    let mut next = 0x3000;
    for pair in 0..count {
        // Repeats are rare enough that many tables come through.
        let repeats = random.percent(5);
        let drawn = *random.pick(&characters);
        let drawn = if random.percent(90) { definable(drawn) } else { drawn };
        let used = words[..2 * pair].chunks_exact(2).any(|earlier| earlier[0] == drawn);
        words[2 * pair] = if used && !repeats {
            next += 1;
            next
        } else {
            drawn
        };
        words[2 * pair + 1] = second_word(random, &characters);
    }
    if random.percent(20) {
        damage_table(random, words, count);
    }
    characters
}

// Orders.

/// A table of `count` definitions, for characters close together or far apart, in any order.
pub fn table_to_order(random: &mut Random, count: usize) -> Vec<u32> {
    let mut characters = BTreeSet::new();
    let (first, step) = *random.pick(&[(0, 1), (0x3000, 1), (0x400, 3), (0x10_0000, 63)]);
    let far = random.percent(40);
    while characters.len() < count {
        let next = if far { any_scalar(random) } else { first + step * characters.len() as u32 };
        characters.insert(definable(next));
    }
    let mut characters: Vec<u32> = characters.into_iter().collect();
    match random.below(5) {
        0 => {}
        1 => characters.reverse(),
        2 if count > 0 => characters.swap(random.below(count), random.below(count)),
        _ => random.shuffle(&mut characters),
    }
    let mut words = Vec::with_capacity(WORDS);
    for (pair, character) in characters.iter().enumerate() {
        let meaning = match random.below(10) {
            0..=3 => Meaning::Typed(random.byte()),
            4..=7 => Meaning::Shown(random.byte()),
            // No loop, as no alias leads to a later pair.
            8 if pair > 0 => Meaning::Alias(characters[random.below(pair)]),
            _ => Meaning::Alias(braille(random)),
        };
        words.extend(Definition { character: *character, meaning }.pair());
    }
    words.resize(SET_WORD, 0);
    words.extend([random.pick(&Set::ALL).number(), 0]);
    words
}

/// Changes an order of `count` pairs; it may stay the same.
pub fn damage_order(random: &mut Random, order: &mut [u32], count: usize) {
    if order.is_empty() {
        return;
    }
    let [place, other] = [(); 2].map(|()| random.below(count.clamp(1, order.len())));
    let last = count.clamp(1, order.len()) - 1;
    match random.below(13) {
        0 => order.swap(place, other),
        1 => order.swap(place, (place + 1).min(last)),
        2 => order.swap(0, last),
        3 => order[place] = order[other],
        4 => order[last] = order[last.saturating_sub(1)],
        5 => order[place] = (count + random.below(3)) as u32,
        6 => order[last] = random.between(count, PAIRS) as u32,
        7 => order[place] = u32::MAX - random.below(2) as u32,
        8 => order[*random.pick(&[0, last])] = u32::MAX,
        9 => order[place] ^= 1 << random.below(32),
        10 => order[..=last].reverse(),
        11 => order[..=last].rotate_left(1),
        _ => order.iter_mut().for_each(|word| *word = random.word()),
    }
}

/// A page that has a few of these characters often.
pub fn repeating_page(random: &mut Random, characters: &[u32]) -> Vec<u32> {
    let few: Vec<u32> = (0..random.between(1, 4)).map(|_| *random.pick(characters)).collect();
    (0..random.between(1, 80)).map(|_| *random.pick(&few)).collect()
}

/// A page of some of these characters, each once, in any order.
pub fn different_page(random: &mut Random, characters: &[u32]) -> Vec<u32> {
    let mut page: Vec<u32> = BTreeSet::from_iter(characters.iter().copied()).into_iter().collect();
    random.shuffle(&mut page);
    page.truncate(random.between(1, 300));
    page
}

// Windows.

/// A window on a page of that length.
fn window_inside(random: &mut Random, length: usize) -> Window {
    let start = random.between(0, length);
    match random.below(8) {
        0 => Window { start: 0, width: length },
        1 => Window { start: length, width: 0 },
        2 => Window { start, width: 0 },
        3 => Window { start, width: length - start },
        _ => Window { start, width: random.between(0, length - start) },
    }
}

/// A window beyond a page of that length: by little, or so far that a sum or a number of fewer bits would be on it.
fn window_beyond(random: &mut Random, length: usize) -> Window {
    let Window { start, width } = window_inside(random, length);
    // The same end by a sum that wraps at 2^64.
    let wrapped = |far: usize| Window { start: far, width: (start + width).wrapping_sub(far) };
    match random.below(10) {
        0 | 1 => Window { start, width: length - start + 1 },
        2 => Window { start: length + 1, width: 0 },
        3 => Window { start: length + random.between(1, 9), width },
        4 => wrapped(usize::MAX - random.below(9)),
        5 => wrapped(1 << 63 | random.bits() as usize),
        6 => wrapped(length + random.between(1, 9)),
        7 => Window { start: 1 << random.between(32, 63) | start, width },
        8 => Window { start, width: 1 << random.between(32, 63) | width },
        _ => {
            let far = [usize::MAX - random.below(9), 1 << 63, length];
            Window { start: *random.pick(&far), width: *random.pick(&far[..2]) }
        }
    }
}

/// Up to six windows of a page of that length; in part of the lists some are beyond it.
pub fn windows(random: &mut Random, length: usize) -> Vec<Window> {
    let beyond = *random.pick(&[0, 0, 0, 0, 0, 10, 30, 60]);
    let window = |random: &mut Random| {
        if random.percent(beyond) {
            window_beyond(random, length)
        } else {
            window_inside(random, length)
        }
    };
    (0..random.below(7)).map(|_| window(random)).collect()
}

// Attributes.

const BAD_STATES: [&str; 20] = [
    "=", "~", "on", "blink", "=FG-RED", "=fg-redd", "=fg-re", "~fg_red", "==blink", "=~blink", "#", "#x", "=blink#",
    "=fg-red\r", "~Blink", "=fg-", "-blink", "=bg-bright", "~\u{A0}blink", "=fg-blue,blink",
];

const BAD_DOT_NUMBERS: [&str; 12] = ["0", "9", "12", "(1)", "01", "1=blink", "#", "a", "+1", "\\x31", "1#", "é"];

fn few_blanks(random: &mut Random) -> &'static str {
    [" ", " ", " ", " ", "\t", "  "][random.below(6)]
}

/// A `dot` directive, `on` and `off` among its states where `fixed` admits them.
fn dot_directive(random: &mut Random, dot: usize, fixed: bool) -> String {
    let mut line = format!("dot{}{dot}{}", few_blanks(random), few_blanks(random));
    if fixed && random.percent(40) {
        line += if random.percent(50) { "on" } else { "off" };
    } else {
        line.push(if random.percent(50) { '=' } else { '~' });
        line += random.pick(&reference::NAMES).0;
    }
    line
}

fn attributes_line(random: &mut Random) -> Vec<u8> {
    let mut line = String::new();
    if random.percent(10) {
        line += few_blanks(random);
    }
    match random.below(20) {
        0 => {}
        1 => line += "#",
        2 => line += "# dot 1 =é€𝄞",
        _ => {
            let dot = random.between(1, 8);
            line += &dot_directive(random, dot, false);
            match random.below(10) {
                0 => line += few_blanks(random),
                1 => line += " # é€𝄞 on",
                2 => line += "\t#",
                _ => {}
            }
        }
    }
    let mut bytes = line.into_bytes();
    if random.below(400) == 0 {
        let length = LINE_BYTES - random.below(2);
        bytes.resize(length, b' ');
    }
    bytes
}

fn faulty_attributes_line(random: &mut Random) -> Vec<u8> {
    let dot = random.between(1, 8);
    let line = match random.below(8) {
        0 => format!("{} {dot} =blink", random.pick(&UNKNOWN)),
        1 => format!(
            "{} {dot} =blink",
            random.pick(&["Dot", "dots", "do", "ifCell 1 dot", "\u{FEFF}dot", "dot\u{A0}", "char", "else", "endIf"])
        ),
        2 => ["dot", "dot ", "dot 1", "dot 8\t", "dot #"][random.below(5)].into(),
        3 => format!("dot {} =blink", random.pick(&BAD_DOT_NUMBERS)),
        4 | 5 => format!("dot {dot} {}", random.pick(&BAD_STATES)),
        6 => format!("dot {dot} ~bg-red {}", random.pick(&AFTER)),
        _ => format!("dot {dot} ~bg-red{}", " ".repeat(LINE_BYTES - 13 + random.below(3))),
    };
    line.into_bytes()
}

/// The end of a text, damaged or not; now and then it is brought to about 65,536 bytes.
fn finish(random: &mut Random, bytes: &mut Vec<u8>, damaged: bool) {
    if damaged {
        damage(random, bytes);
    }
    end_text(random, bytes);
    if random.percent(2) {
        let length = random.between(TEXT_BYTES - 2, TEXT_BYTES + 2);
        fill_up(random, bytes, length);
    }
}

/// An attributes table's text.
pub fn attributes_text(random: &mut Random) -> Vec<u8> {
    let mode = random.below(100);
    let only_accepted = !(56..=66).contains(&mode);
    let mut places = [Place::Unnamed; 8];
    let mut bytes = Vec::new();
    for _ in 0..random.below(12) {
        let line = attributes_line(random);
        if reference::take_attributes_line(&line, &mut places).is_err() && only_accepted {
            continue;
        }
        bytes.extend(line);
        end_line(random, &mut bytes);
    }
    if (67..=84).contains(&mode) {
        let line = faulty_attributes_line(random);
        bytes.extend(spaced(random, &line));
        end_line(random, &mut bytes);
        bytes.extend(attributes_line(random));
        end_line(random, &mut bytes);
    }
    finish(random, &mut bytes, mode > 84);
    bytes
}

// Byte tables.

/// Words that a byte table does not take for a byte, beside those that no operand is.
const NOT_OLD_BYTES: [&str; 24] = [
    "\\b", "\\t", "\\n", "\\v", "\\f", "\\r", "\\s", "\\#", "\\o101", "\\o007", "\\x4G", "\\xé", "\\x41\r", "\\\\x",
    "Byte", "BYTE", "bytes", "byt", "Dot", "dots", "char", "else", "\u{FEFF}byte", "𝄞",
];

/// Words that are not quite `on` or `off`.
const NOT_FIXED: [&str; 12] = ["On", "ON", "Off", "OFF", "o", "onn", "of", "offs", "on#", "=on", "~off", "off\r"];

impl Maker<'_> {
    /// A byte in any form that a byte table has for it.
    fn write_old_byte(&mut self, bytes: &mut Vec<u8>, byte: u8) {
        let escaped = matches!(byte, b'\t' | b'\n' | b' ' | b'\\');
        if byte == b'\\' && self.random.percent(50) {
            bytes.extend(b"\\\\");
        } else if escaped || self.random.percent(40) {
            bytes.extend(self.hex_escape(byte.into()).as_bytes());
        } else {
            add_character(bytes, self.set.character(byte));
        }
    }

    /// A byte line up to its dots, with the word or without.
    fn byte_front(&mut self, bytes: &mut Vec<u8>, byte: u8) {
        if self.random.percent(50) {
            bytes.extend(b"byte");
            self.blanks(bytes);
        }
        self.write_old_byte(bytes, byte);
        self.blanks(bytes);
    }

    fn byte_directive(&mut self, bytes: &mut Vec<u8>, byte: u8) {
        self.byte_front(bytes, byte);
        self.write_dots(bytes);
    }

    /// A directive of a byte table: one in four is a `dot` line.
    fn old_directive(&mut self, bytes: &mut Vec<u8>) {
        if self.random.percent(25) {
            let dot = self.random.between(1, 8);
            bytes.extend(dot_directive(self.random, dot, true).as_bytes());
        } else {
            let byte = self.draw_byte();
            self.byte_directive(bytes, byte);
        }
    }

    /// Adds well-formed lines to a byte table; those that would be refused may be left out.
    fn add_old_lines(&mut self, count: usize, only_accepted: bool) {
        for _ in 0..count {
            let line = self.line_with(|maker, _, bytes| {
                maker.old_directive(bytes);
                maker.trail(bytes);
            });
            self.add_old(&line, only_accepted);
        }
    }

    fn add_old(&mut self, line: &[u8], only_accepted: bool) {
        if self.byte_table.take_line(line, self.set).is_ok() || !only_accepted {
            self.put(line);
        }
    }

    /// Adds a line for every byte, in any order.
    fn add_every_byte(&mut self) {
        let mut order: Vec<u8> = (0..=255).collect();
        for place in (1..order.len()).rev() {
            order.swap(place, self.random.below(place + 1));
        }
        for byte in order {
            let mut line = Vec::new();
            self.byte_directive(&mut line, byte);
            // A `#` without the word would make it a comment.
            if line[0] == b'#' {
                line.splice(..0, *b"byte ");
            }
            self.trail(&mut line);
            self.add_old(&line, true);
        }
    }

    /// Adds a line for every dot that has none.
    fn add_every_dot(&mut self) {
        for dot in 1..=8 {
            let line = dot_directive(self.random, dot, true);
            self.add_old(line.as_bytes(), true);
        }
    }

    /// Adds two lines for the same byte or dot, the second at times with a further fault.
    fn add_twice(&mut self) {
        let byte = self.draw_byte();
        let dot = self.random.between(1, 8);
        let for_byte = self.random.percent(70);
        for turn in 0..2 {
            let mut line = Vec::new();
            if for_byte {
                self.byte_directive(&mut line, byte);
            } else {
                line.extend(dot_directive(self.random, dot, true).as_bytes());
            }
            if turn == 1 && self.random.percent(20) {
                self.blanks(&mut line);
                line.extend(self.random.pick(&AFTER).as_bytes());
            } else {
                self.trail(&mut line);
            }
            let line = spaced(self.random, &line);
            self.add_old(&line, turn == 0);
            let count = self.random.below(3);
            self.add_old_lines(count, true);
        }
    }

    /// A line of a byte table with one fault of the grammar.
    fn faulty_old_line(&mut self) -> Vec<u8> {
        let mut bytes = Vec::new();
        let byte = self.draw_byte();
        match self.random.below(13) {
            0..=2 => {
                if self.random.percent(50) {
                    bytes.extend(b"byte");
                    self.blanks(&mut bytes);
                }
                match self.random.below(4) {
                    0 => bytes.extend(self.random.pick(&BAD_CHARACTERS).as_bytes()),
                    1 => self.write_bad_byte(&mut bytes),
                    _ => bytes.extend(self.random.pick(&NOT_OLD_BYTES).as_bytes()),
                }
                self.blanks(&mut bytes);
                self.write_dots(&mut bytes);
            }
            3 => {
                let mut directive = Vec::new();
                self.old_directive(&mut directive);
                self.write_part(&mut bytes, &directive);
            }
            4 | 5 => {
                self.byte_front(&mut bytes, byte);
                bytes.extend(self.random.pick(&BAD_DOTS).as_bytes());
                self.trail(&mut bytes);
            }
            6 => {
                bytes.extend(b"dot ");
                bytes.extend(self.random.pick(&BAD_DOT_NUMBERS).as_bytes());
                bytes.extend(b" off");
            }
            7 | 8 => {
                bytes.extend(b"dot ");
                bytes.push(b'1' + self.random.below(8) as u8);
                self.blanks(&mut bytes);
                let bad: &[&str] = if self.random.percent(50) { &BAD_STATES } else { &NOT_FIXED };
                bytes.extend(self.random.pick(bad).as_bytes());
                self.trail(&mut bytes);
            }
            9 | 10 => {
                self.old_directive(&mut bytes);
                self.blanks(&mut bytes);
                bytes.extend(self.random.pick(&AFTER).as_bytes());
            }
            11 => {
                // A line of a text table.
                self.conditions(&mut bytes);
                self.definition(&mut bytes);
            }
            _ => {
                self.old_directive(&mut bytes);
                let more = self.random.between(1, 3);
                self.pad(&mut bytes, more);
            }
        }
        bytes
    }
}

/// A byte table's text, and the set that it is made for.
pub fn byte_text(random: &mut Random) -> (Vec<u8>, Set) {
    let mode = random.below(100);
    let mut maker = Maker::new(random);
    let only_accepted = !(56..=60).contains(&mode);
    if maker.random.percent(3) {
        maker.add_every_byte();
    }
    let count = maker.random.below(16);
    maker.add_old_lines(count, only_accepted);
    if maker.random.percent(5) {
        maker.add_every_dot();
    }
    match mode {
        61..=67 => maker.add_twice(),
        68..=85 => {
            let line = maker.faulty_old_line();
            let line = spaced(maker.random, &line);
            maker.add_old(&line, false);
            let count = maker.random.below(3);
            maker.add_old_lines(count, false);
        }
        _ => {}
    }
    let Maker { mut bytes, set, .. } = maker;
    finish(random, &mut bytes, mode > 85);
    (bytes, set)
}
