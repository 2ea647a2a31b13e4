use std::error::Error;
use std::fmt;

/// A refusal by its number, place and column, and as an error with a message.
///
/// ```
/// let refusal = heathdapple::Refusal { number: 15, place: 2, column: 0 };
/// assert_eq!(refusal.to_string(), "pair 2: not a compiled table (refusal 15)");
/// ```
#[derive(Clone, Copy, Debug, PartialEq, Eq)]
pub struct Refusal {
    /// 1 to 23; 0 for an answer that the call never gives.
    pub number: u32,
    /// A line from 1, or a pair of words, a character or a window of a call's list from 0; 2^32 - 1 also for a greater
    /// one. The last two words of a table are pair 1,024.
    pub place: u32,
    /// Where on its line the text is at fault, in bytes from 1, for 3 to 13, 16, 17 and 22; 0 for all other numbers.
    ///
    /// The first byte of the word or operand at fault; for 3 byte 1,025, for 4 the first byte of the bad sequence, for 6
    /// one past the line's last byte, its end (LF, one CR) not counted, for 10 the condition word that is one too many, for
    /// 11 to 13 and 22 the directive word that took effect, in an old byte table the first word of the line. 2^16 - 1 also
    /// for a greater one, which no text has.
    pub column: u32,
}

impl Refusal {
    /// What the number says, without place and column.
    pub fn reason(self) -> &'static str {
        match self.number {
            0 => "not an answer of this call",
            1 => "text over 65,536 bytes",
            2 => "table under 2,050 words, or a buffer that is too short",
            3 => "line over 1,024 bytes",
            4 => "line not UTF-8",
            5 => "unknown directive word",
            6 => "operand missing",
            7 => "bad character or byte operand",
            8 => "bad dots, cell or dot number",
            9 => "text after the last operand",
            10 => "open blocks and conditions of a line together over 8",
            11 => "character, byte or dot already defined",
            12 => "alias loop",
            13 => "a definition beyond 1,024",
            14 => "character to look up is no scalar",
            15 => "not a compiled table",
            16 => "bad attribute state",
            17 => "`else` or `endIf` with no block open, or a second `else`",
            18 => "block open at the end of the text",
            19 => "window beyond the page",
            20 => "edition neither 1 nor 2",
            21 => "local character set neither 1 nor 2",
            22 => "definition for a character of the braille row",
            23 => "not the rising order of that table",
            _ => "refused for a reason unknown here",
        }
    }
}

impl fmt::Display for Refusal {
    fn fmt(&self, f: &mut fmt::Formatter<'_>) -> fmt::Result {
        let place = match self.number {
            0 => "answer",
            1 | 2 | 20 | 21 | 23 => "",
            3..=13 | 16..=18 | 22 => "line",
            14 => "character",
            15 => "pair",
            19 => "window",
            _ => "place",
        };
        if !place.is_empty() {
            write!(f, "{place} {}", self.place)?;
            if self.column != 0 {
                write!(f, ", column {}", self.column)?;
            }
            write!(f, ": ")?;
        }
        write!(f, "{} (refusal {})", self.reason(), self.number)
    }
}

impl Error for Refusal {}

#[cfg(test)]
mod tests {
    use super::Refusal;

    #[test]
    fn messages() {
        for (number, place, column, message) in [
            (0, 9, 0, "answer 9: not an answer of this call (refusal 0)"),
            (1, 0, 0, "text over 65,536 bytes (refusal 1)"),
            (3, 65_536, 1025, "line 65536, column 1025: line over 1,024 bytes (refusal 3)"),
            (11, 3, 1, "line 3, column 1: character, byte or dot already defined (refusal 11)"),
            (12, 3, 65_535, "line 3, column 65535: alias loop (refusal 12)"),
            (14, 7, 0, "character 7: character to look up is no scalar (refusal 14)"),
            (16, 1, 7, "line 1, column 7: bad attribute state (refusal 16)"),
            (17, 4, 2, "line 4, column 2: `else` or `endIf` with no block open, or a second `else` (refusal 17)"),
            (18, 2, 0, "line 2: block open at the end of the text (refusal 18)"),
            (19, 4, 0, "window 4: window beyond the page (refusal 19)"),
            (20, 0, 0, "edition neither 1 nor 2 (refusal 20)"),
            (21, 0, 0, "local character set neither 1 nor 2 (refusal 21)"),
            (22, 4, 10, "line 4, column 10: definition for a character of the braille row (refusal 22)"),
            (23, 0, 0, "not the rising order of that table (refusal 23)"),
            (24, 4, 0, "place 4: refused for a reason unknown here (refusal 24)"),
            (u32::MAX, 0, 5, "place 0, column 5: refused for a reason unknown here (refusal 4294967295)"),
        ] {
            assert_eq!(Refusal { number, place, column }.to_string(), message);
        }
    }
}
