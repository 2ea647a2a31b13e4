//! Safe calls over Heathdapple, a proved reference for braille terminals: text tables, attributes tables and old byte
//! tables, the cell that a character shows, also by a faster lookup, the character that a cell types, a compiled table
//! as text.
//!
//! [`Table`] owns a compiled table:
//!
//! ```
//! let table = heathdapple::Table::compile(b"char a 1\nalias \\u00E4 a\n")?;
//! let shown = table.look_up('ä')?;
//! assert_eq!((shown.cell, shown.rule, shown.links), (0x01, 4, 1));
//! assert_eq!(table.typed(0x01)?, Some('a'));
//! # Ok::<(), heathdapple::Refusal>(())
//! ```
//!
//! The bytes of such a table are those of ISO 8859-1; [`Table::compile_in`] takes another local character set.
//!
//! [`Ordered`] is a table with the order of its characters: the same answers by fewer comparisons, best for pages.
//!
//! The functions are the library's calls over lent memory. They take any slices and any numbers, and refuse what they
//! cannot use:
//!
//! ```
//! use heathdapple::{compile, ISO_8859_1, TABLE_WORDS, TEXT_EDITION};
//!
//! let mut words = [0; TABLE_WORDS];
//! let refusal = compile(TEXT_EDITION, ISO_8859_1, b"char a 1\n\nifCell 1 glyph a 2\n", &mut words).unwrap_err();
//! assert_eq!((refusal.number, refusal.place, refusal.column), (11, 3, 10));
//! assert_eq!(refusal.to_string(), "line 3, column 10: character, byte or dot already defined (refusal 11)");
//! ```
//!
//! Linking needs `libheathdapple.a`: `rt lib` in the folder `crates/heathdapple` builds it, and
//! `HEATHDAPPLE_LIB_DIR` names another folder that holds it.

#![deny(missing_docs)]
#![deny(unsafe_code)]

#[cfg(not(all(target_arch = "x86_64", target_os = "linux")))]
compile_error!("libheathdapple.a is for x86-64 Linux");

mod library;
mod ordered;
mod refusal;
mod table;

pub use ordered::Ordered;
pub use refusal::Refusal;
pub use table::Table;

/// The most definitions of a table.
const DEFINITIONS: u32 = 1024;

/// The words of a compiled table: two for each of 1,024 definitions, its local character set, and zero.
pub const TABLE_WORDS: usize = 2050;

/// The least words of an order, for [`order`], [`search`], [`look_up_by`] and [`page_by`]: one for each of 1,024
/// definitions.
pub const ORDER_WORDS: usize = 1024;

/// The most bytes of a listing, so the length of a buffer that [`list`] never finds too short: a line has at most 28
/// with its LF, those of an alias, and a table at most 1,024 definitions.
pub const LISTING_BYTES: usize = 28_672;

/// The cells of eight dots, and the bytes: the least length for [`entries`], [`attribute_cells`] and [`byte_cells`].
pub const CELLS: usize = 256;

/// The edition of old byte tables, for [`compile`]. Their lines give cells to single bytes and states to the dots of all
/// others.
pub const BYTE_EDITION: u32 = 1;

/// The edition of text tables, for [`compile`].
pub const TEXT_EDITION: u32 = 2;

/// The local character set ISO 8859-1, for [`compile`], [`byte_cells`] and [`Table::compile_in`]: byte n is character n.
///
/// A set says which characters the byte operands of a text are, and which one a private-row character (U+F000 to U+F0FF)
/// stands for in character operands and lookups. All other character operands, as that of `char \xA4 1`, are the same in
/// every set.
pub const ISO_8859_1: u32 = 1;

/// The local character set ISO 8859-15, which differs from [`ISO_8859_1`] in eight bytes: A4 is U+20AC, A6 U+0160, A8
/// U+0161, B4 U+017D, B8 U+017E, BC U+0152, BD U+0153 and BE U+0178.
pub const ISO_8859_15: u32 = 2;

/// What a lookup shows.
#[derive(Clone, Copy, Debug, PartialEq, Eq)]
pub struct Shown {
    /// The dots: dot d adds 2^(d-1).
    pub cell: u8,
    /// The rule that gave the cell: 1 or 3 to 9, plus 16 if rule 2 was passed.
    pub rule: u8,
    /// The length of the character's alias walk.
    pub links: u32,
}

/// What a search of an order finds.
#[derive(Clone, Copy, Debug, PartialEq, Eq)]
pub struct Search {
    /// The number of the character's pair, from 0, if it has one.
    pub pair: Option<u32>,
    /// How many pairs were looked at, at most 11.
    pub comparisons: u32,
}

/// A part of a page, counted in characters.
// As the header has it: the library reads lists of them.
#[repr(C)]
#[derive(Clone, Copy, Debug, Default, PartialEq, Eq)]
pub struct Window {
    /// The index of its first character.
    pub start: usize,
    /// How many characters it has; it may be empty.
    pub width: usize,
}

/// The value of a code, which is at most `most`, or its refusal: number * 2^48 + column * 2^32 + place. All that is no
/// refusal is below 2^48; there a value over `most`, which no call gives, is number 0.
fn value(code: u64, most: u32) -> Result<u32, Refusal> {
    match u32::try_from(code) {
        Ok(value) if value <= most => Ok(value),
        _ => Err(Refusal { number: (code >> 48) as u32, place: code as u32, column: (code >> 32 & 0xFFFF) as u32 }),
    }
}

/// Compiles a text by its edition in a local character set. A refusal has its line and its column.
///
/// [`TEXT_EDITION`]: a text table, into the first 2,050 words; answers the count of definitions. A refusal zeroes the 2,050
/// words, which is no table, but for 1 and 2, which touch nothing. Words beyond are never touched. The table keeps its set.
///
/// [`BYTE_EDITION`]: an old byte table; answers the count of its byte lines. The words are neither touched nor tested and
/// may be empty; [`byte_cells`] gives the cells.
///
/// Any other edition is 20, and then any set but [`ISO_8859_1`] and [`ISO_8859_15`] is 21, before all other refusals; both
/// touch nothing.
///
/// ```
/// use heathdapple::{compile, BYTE_EDITION, ISO_8859_1, ISO_8859_15};
///
/// assert_eq!(compile(BYTE_EDITION, ISO_8859_1, b"byte a 1\nb 12\ndot 8 off\n", &mut []), Ok(2));
/// assert_eq!(compile(BYTE_EDITION, ISO_8859_15, "byte € 15\n".as_bytes(), &mut []), Ok(1));
/// let refused = |edition, set| compile(edition, set, b"", &mut []).unwrap_err().to_string();
/// assert_eq!(refused(3, ISO_8859_1), "edition neither 1 nor 2 (refusal 20)");
/// assert_eq!(refused(BYTE_EDITION, 3), "local character set neither 1 nor 2 (refusal 21)");
/// ```
pub fn compile(edition: u32, set: u32, text: &[u8], words: &mut [u32]) -> Result<u32, Refusal> {
    value(library::compile(edition, set, text, words), DEFINITIONS)
}

/// The cells of all 256 bytes by an old byte table's text in a local character set, in the first 256 bytes; answers the count
/// of byte lines.
///
/// Bytes past them stay. A refused text, and 21 for any set but [`ISO_8859_1`] and [`ISO_8859_15`], make all 256 cells 255;
/// only 2, for a buffer that is too short, before all other refusals, touches nothing.
///
/// ```
/// use heathdapple::{byte_cells, CELLS, ISO_8859_1};
///
/// let mut cells = [0; CELLS];
/// assert_eq!(byte_cells(ISO_8859_1, b"byte a 1\n\\x20 0\ndot 8 =blink\n", &mut cells), Ok(2));
/// assert_eq!([b'a', b' ', b'b', 0xE9].map(|byte| cells[usize::from(byte)]), [0x01, 0x00, 0x7F, 0xFF]);
/// ```
pub fn byte_cells(set: u32, text: &[u8], cells: &mut [u8]) -> Result<u32, Refusal> {
    value(library::byte_cells(set, text, cells), CELLS as u32)
}

/// What a lookup's code says.
fn shown(code: u64) -> Result<Shown, Refusal> {
    let answer = value(code, u32::MAX)?;
    let [cell, rule, ..] = answer.to_le_bytes();
    Ok(Shown { cell, rule, links: answer >> 16 })
}

/// Looks a character up on a compiled table.
pub fn look_up(words: &[u32], character: u32) -> Result<Shown, Refusal> {
    shown(library::look_up(words, character))
}

/// Fills a cell and a rule for each character of a page; bytes past the page's length stay. A refusal writes nothing.
pub fn page(words: &[u32], characters: &[u32], cells: &mut [u8], rules: &mut [u8]) -> Result<(), Refusal> {
    value(library::page(words, characters, cells, rules), 0).map(drop)
}

/// Writes the order of a compiled table, the numbers of its pairs by rising character, at the front of a buffer;
/// answers the count of definitions, which is how many words are written.
///
/// Words past them stay. A refusal writes nothing: 2 for too few words or an order under [`ORDER_WORDS`], then 15.
///
/// ```
/// use heathdapple::{order, Table, ORDER_WORDS};
///
/// let table = Table::compile(b"char b 12\nchar c 14\nchar a 1\n")?;
/// let mut places = [9; ORDER_WORDS];
/// assert_eq!(order(table.words(), &mut places), Ok(3));
/// assert_eq!(places[..4], [2, 0, 1, 9]);
/// assert_eq!(order(table.words(), &mut [0; 3]).unwrap_err().number, 2);
/// # Ok::<(), heathdapple::Refusal>(())
/// ```
pub fn order(words: &[u32], order: &mut [u32]) -> Result<u32, Refusal> {
    value(library::order(words, order), DEFINITIONS)
}

/// Searches an order of a compiled table by halving for the pair of a character as it stands, also of one of the
/// private row, which has none.
///
/// The middle pair, the lower of two, is compared, until the character is found or no pair is left. An order that is
/// not the one [`order`] writes is 23, after 15 and before 14; words behind the count of definitions are free.
///
/// ```
/// use heathdapple::{search, Search, Table, ORDER_WORDS};
///
/// let table = Table::compile(b"char b 12\nchar c 14\nchar a 1\n")?;
/// let mut order = [0; ORDER_WORDS];
/// heathdapple::order(table.words(), &mut order)?;
/// let find = |character: char| search(table.words(), &order, character.into());
/// assert_eq!(find('b')?, Search { pair: Some(0), comparisons: 1 });
/// assert_eq!(find('a')?, Search { pair: Some(2), comparisons: 2 });
/// assert_eq!(find('d')?, Search { pair: None, comparisons: 2 });
/// let refusal = search(table.words(), &[0; ORDER_WORDS], 0x62).unwrap_err();
/// assert_eq!(refusal.to_string(), "not the rising order of that table (refusal 23)");
/// # Ok::<(), heathdapple::Refusal>(())
/// ```
pub fn search(words: &[u32], order: &[u32], character: u32) -> Result<Search, Refusal> {
    let answer = value(library::search(words, order, character), DEFINITIONS << 8 | 0xFF)?;
    Ok(Search { pair: (answer >> 8).checked_sub(1), comparisons: answer & 0xFF })
}

/// Looks a character up by searching an order, with the answer of [`look_up`]. Refusals are as for [`search`].
pub fn look_up_by(words: &[u32], order: &[u32], character: u32) -> Result<Shown, Refusal> {
    shown(library::look_up_by(words, order, character))
}

/// Fills a page by searching an order, with the cells and rules of [`page`]; bytes past the page's length stay.
/// Refusals are as for [`search`], and 2 also for a buffer shorter than the page; a refusal writes nothing.
///
/// ```
/// use heathdapple::{page_by, Table, ORDER_WORDS};
///
/// let table = Table::compile(b"char b 12\nalias \\u00E4 a\nchar a 1\n")?;
/// let mut order = [0; ORDER_WORDS];
/// heathdapple::order(table.words(), &mut order)?;
/// let (mut cells, mut rules) = ([0; 3], [0; 3]);
/// page_by(table.words(), &order, &['a', 'b', 'ä'].map(u32::from), &mut cells, &mut rules)?;
/// assert_eq!((cells, rules), ([0x01, 0x03, 0x01], [3, 3, 4]));
/// # Ok::<(), heathdapple::Refusal>(())
/// ```
pub fn page_by(
    words: &[u32],
    order: &[u32],
    characters: &[u32],
    cells: &mut [u8],
    rules: &mut [u8],
) -> Result<(), Refusal> {
    value(library::page_by(words, order, characters, cells, rules), 0).map(drop)
}

/// Fills a cell and a rule for each character of some windows of a page, one window after another from the front of both
/// buffers; bytes past all widths together stay. A refusal writes nothing.
///
/// It is as one call of [`page`] for each window, but for refusals: a window beyond the page is 19, a buffer that does not
/// hold all widths together is 2, and a character that is no scalar is 14 wherever it stands on the page. Windows may
/// overlap or be empty, and the buffers may be shorter than the page.
///
/// ```
/// use heathdapple::{Table, Window};
///
/// let table = Table::compile(b"char a 1\nchar b 12\nchar c 14\n")?;
/// let page = ['a', 'b', 'c'].map(u32::from);
/// let windows = [Window { start: 2, width: 1 }, Window { start: 0, width: 2 }];
/// let (mut cells, mut rules) = ([0; 3], [0; 3]);
/// heathdapple::windows(table.words(), &page, &windows, &mut cells, &mut rules)?;
/// assert_eq!((cells, rules), ([0x09, 0x01, 0x03], [3, 3, 3]));
/// # Ok::<(), heathdapple::Refusal>(())
/// ```
pub fn windows(
    words: &[u32],
    characters: &[u32],
    windows: &[Window],
    cells: &mut [u8],
    rules: &mut [u8],
) -> Result<(), Refusal> {
    value(library::windows(words, characters, windows, cells, rules), 0).map(drop)
}

/// The character that a cell types on a compiled table, if any.
pub fn typed(words: &[u32], cell: u8) -> Result<Option<u32>, Refusal> {
    Ok(value(library::typed(words, cell), char::MAX as u32 + 1)?.checked_sub(1))
}

/// What each of the 256 cells types, in the first 256 elements: 0 for nothing, else the character + 1.
///
/// Elements past them stay. A refusal writes nothing.
pub fn entries(words: &[u32], entries: &mut [u32]) -> Result<(), Refusal> {
    value(library::entries(words, entries), 0).map(drop)
}

/// Lists a compiled table as text, one line a definition, in order, at the front of the buffer; answers its length.
///
/// A line is `char`, `glyph` or `alias`, a blank, the character, a blank, and the dots, rising or `0` for none, or the
/// target of the alias. Characters are `\U` with eight lower-case hex digits. [`compile`] by [`TEXT_EDITION`] in the
/// table's own set makes the same words of the text.
///
/// Bytes past it stay. A refusal writes nothing: 2 for too few words, 15 for words that are no table, then 2 for a buffer
/// that does not hold the text; one of [`LISTING_BYTES`] always does.
///
/// ```
/// use heathdapple::{list, Table};
///
/// let table = Table::compile(b"byte a (21)\nalias \\u00E4 \\uF061\n")?;
/// let mut buffer = [b'.'; 50];
/// assert_eq!(list(table.words(), &mut buffer), Ok(48));
/// assert_eq!(&buffer, b"glyph \\U00000061 12\nalias \\U000000e4 \\U00000061\n..");
/// assert_eq!(list(table.words(), &mut buffer[..47]).unwrap_err().number, 2);
/// # Ok::<(), heathdapple::Refusal>(())
/// ```
pub fn list(words: &[u32], buffer: &mut [u8]) -> Result<usize, Refusal> {
    let most = buffer.len().min(LISTING_BYTES);
    Ok(value(library::list(words, buffer), most as u32)? as usize)
}

/// The cell of a VGA attribute byte by an attributes table's text, or the refusal of that text with its line and column.
pub fn attribute_cell(text: &[u8], byte: u8) -> Result<u8, Refusal> {
    Ok(value(library::attribute_cell(text, byte), 255)? as u8)
}

/// The cells of all 256 VGA attribute bytes, in the first 256 bytes; answers the count of `dot` lines.
///
/// Bytes past them stay. A refusal writes nothing.
///
/// ```
/// let mut cells = [0; heathdapple::CELLS];
/// assert_eq!(heathdapple::attribute_cells(b"dot 1 =fg-red\ndot 4 ~bg-blue\n", &mut cells), Ok(2));
/// assert_eq!((cells[0x04], cells[0x10]), (0x09, 0x00));
/// ```
pub fn attribute_cells(text: &[u8], cells: &mut [u8]) -> Result<u32, Refusal> {
    value(library::attribute_cells(text, cells), 8)
}

#[cfg(test)]
mod tests {
    use super::*;

    #[test]
    fn codes() {
        assert_eq!(value(0, 0), Ok(0));
        assert_eq!(value(u64::from(u32::MAX), u32::MAX), Ok(u32::MAX));
        for (code, most, [number, place, column]) in [
            (11 << 48 | 10 << 32 | 3, 1024, [11, 3, 10]),
            (18 << 48 | 3, 1024, [18, 3, 0]),
            (3 << 48 | 1025 << 32 | 65_536, 1024, [3, 65_536, 1025]),
            // The largest place and the largest column stand for greater ones too.
            (14 << 48 | 0xFFFF_FFFF, 0, [14, u32::MAX, 0]),
            (6 << 48 | 0xFFFF << 32 | 1, 1024, [6, 1, 0xFFFF]),
            (1 << 48, u32::MAX, [1, 0, 0]),
            (u64::MAX, u32::MAX, [0xFFFF, u32::MAX, 0xFFFF]),
            // Values over what the call gives, also where only their high bits are.
            (256, 255, [0, 256, 0]),
            (1 << 32, 0, [0, 0, 1]),
            (1 << 32, u32::MAX, [0, 0, 1]),
            (1 << 47 | 5, 255, [0, 5, 0x8000]),
            ((1 << 48) - 1, u32::MAX, [0, u32::MAX, 0xFFFF]),
        ] {
            assert_eq!(value(code, most), Err(Refusal { number, place, column }), "{code:X}");
        }
    }

    #[test]
    fn calls_over_lent_memory() {
        let mut words = [7; TABLE_WORDS + 1];
        assert_eq!(compile(TEXT_EDITION, ISO_8859_1, b"char a 1\nglyph A 17\n", &mut words), Ok(2));
        assert_eq!(words[..5], [0x61, 0x0100_0001, 0x41, 0x0200_0041, 0]);
        assert_eq!(words[TABLE_WORDS - 3..], [0, 1, 0, 7]);
        assert_eq!(look_up(&words, 0xF0C5), Ok(Shown { cell: 0x41, rule: 21, links: 0 }));
        assert_eq!(look_up(&words, 0xD800), Err(Refusal { number: 14, place: 0, column: 0 }));
        let (mut cells, mut rules) = ([9; 3], [9; 2]);
        assert_eq!(page(&words, &[0x61, 0x2809], &mut cells, &mut rules), Ok(()));
        assert_eq!((cells, rules), ([1, 9, 9], [3, 1]));
        assert_eq!(page(&words, &[0x61; 3], &mut cells, &mut rules), Err(Refusal { number: 2, place: 0, column: 0 }));
        assert_eq!((typed(&words, 0x01), typed(&words, 0x41)), (Ok(Some(0x61)), Ok(None)));
        let mut all = [9; CELLS];
        assert_eq!(entries(&words, &mut all), Ok(()));
        assert_eq!(all[..3], [0, 0x62, 0]);
        words[3] = 5;
        assert_eq!(entries(&words, &mut all), Err(Refusal { number: 15, place: 1, column: 0 }));
        assert_eq!(typed(&[], 0), Err(Refusal { number: 2, place: 0, column: 0 }));
        assert_eq!(typed(&words[..TABLE_WORDS - 1], 0), Err(Refusal { number: 2, place: 0, column: 0 }));
        assert_eq!(typed(&[0; TABLE_WORDS], 0), Err(Refusal { number: 15, place: 1024, column: 0 }));
    }

    #[test]
    fn columns() {
        let mut words = [7; TABLE_WORDS];
        let refused = |number, place, column| Err(Refusal { number, place, column });
        let text = "char é 1\r\nifGlyph é char € (1 9)\r\n";
        assert_eq!(compile(TEXT_EDITION, ISO_8859_1, text.as_bytes(), &mut words), refused(8, 2, 21));
        assert_eq!(words, [0; TABLE_WORDS]);
        assert_eq!(compile(TEXT_EDITION, ISO_8859_1, b"ifGlyph a \n", &mut words), refused(18, 1, 0));
        assert_eq!(compile(TEXT_EDITION, ISO_8859_1, b"x", &mut words[1..]), refused(2, 0, 0));
        assert_eq!(compile(TEXT_EDITION, ISO_8859_1, &[b'\n'; 65_537], &mut words), refused(1, 0, 0));
    }

    #[test]
    fn byte_tables() {
        let refused = |number, place, column| Err(Refusal { number, place, column });
        let text = b"byte a 1\nb (1 2)\n\\x20 0\ndot 8 off\ndot 1 =fg-blue\n";
        let mut words = [7; TABLE_WORDS];
        assert_eq!(compile(BYTE_EDITION, ISO_8859_1, text, &mut words), Ok(3));
        assert_eq!(compile(BYTE_EDITION, ISO_8859_1, b"byte a", &mut words), refused(6, 1, 7));
        assert_eq!(words, [7; TABLE_WORDS]);
        assert_eq!(compile(BYTE_EDITION, ISO_8859_1, b"", &mut []), Ok(0));
        let mut cells = [9; CELLS + 1];
        assert_eq!(byte_cells(ISO_8859_1, text, &mut cells), Ok(3));
        assert_eq!(cells[usize::from(b'`')..=usize::from(b'd')], [0x7E, 0x01, 0x03, 0x7F, 0x7E]);
        assert_eq!((cells[0x20], cells[0xFF], cells[CELLS]), (0x00, 0x7F, 9));
        assert_eq!(byte_cells(ISO_8859_1, b"a 1\n \\x61 2\n", &mut cells), refused(11, 2, 2));
        assert_eq!((cells[..CELLS] == [255; CELLS], cells[CELLS]), (true, 9));
        assert_eq!(byte_cells(ISO_8859_1, b"", &mut [9; CELLS - 1]), refused(2, 0, 0));
        let all: String = (0..=255).map(|byte| format!("\\x{byte:02x} 0\n")).collect();
        assert_eq!(byte_cells(ISO_8859_1, all.as_bytes(), &mut cells), Ok(256));
        assert_eq!(cells[..CELLS], [0; CELLS]);
    }

    #[test]
    fn editions() {
        let mut words = [7; TABLE_WORDS];
        for edition in [0, 3, u32::MAX] {
            let refused = Err(Refusal { number: 20, place: 0, column: 0 });
            assert_eq!(compile(edition, ISO_8859_1, b"char a 1\n", &mut words), refused);
            assert_eq!(compile(edition, ISO_8859_15, b"x", &mut words[1..]), refused);
            assert_eq!(compile(edition, 0, &[b'\n'; 65_537], &mut []), refused);
        }
        assert_eq!(words, [7; TABLE_WORDS]);
    }

    #[test]
    fn sets() {
        let refused = |number, place, column| Err(Refusal { number, place, column });
        let mut words = [7; TABLE_WORDS];
        for set in [0, 3, u32::MAX] {
            assert_eq!(compile(TEXT_EDITION, set, b"char a 1\n", &mut words), refused(21, 0, 0));
            assert_eq!(compile(TEXT_EDITION, set, b"x", &mut words[1..]), refused(21, 0, 0));
            assert_eq!(compile(BYTE_EDITION, set, &[b'\n'; 65_537], &mut []), refused(21, 0, 0));
            let mut cells = [9; CELLS + 1];
            assert_eq!(byte_cells(set, b"a 1\n", &mut cells[..CELLS - 1]), refused(2, 0, 0));
            assert_eq!(cells, [9; CELLS + 1]);
            assert_eq!(byte_cells(set, b"a 1\n", &mut cells), refused(21, 0, 0));
            assert_eq!((cells[..CELLS] == [255; CELLS], cells[CELLS]), (true, 9));
        }
        assert_eq!(words, [7; TABLE_WORDS]);
        let (euro, sign) = (0x20AC, 0xA4);
        for (set, local, other) in [(ISO_8859_1, sign, euro), (ISO_8859_15, euro, sign)] {
            assert_eq!(compile(TEXT_EDITION, set, b"byte \\xA4 1\n", &mut words), Ok(1));
            assert_eq!((words[0], words[TABLE_WORDS - 2..].to_vec()), (local, vec![set, 0]));
            assert_eq!(look_up(&words, 0xF0A4), Ok(Shown { cell: 1, rule: 19, links: 0 }));
            assert_eq!(look_up(&words, other), Ok(Shown { cell: 255, rule: 9, links: 0 }));
            let written = |character: u32| format!("byte {} 1\n", char::from_u32(character).unwrap_or_default());
            let mut cells = [0; CELLS];
            assert_eq!(byte_cells(set, written(local).as_bytes(), &mut cells), Ok(1));
            assert_eq!(cells[0xA4], 1);
            assert_eq!(byte_cells(set, written(other).as_bytes(), &mut cells), refused(7, 1, 6));
            assert_eq!(compile(TEXT_EDITION, set, written(local).as_bytes(), &mut words), Ok(1));
            assert_eq!(compile(TEXT_EDITION, set, written(other).as_bytes(), &mut words), refused(7, 1, 6));
            assert_eq!(words, [0; TABLE_WORDS]);
        }
    }

    #[test]
    fn windows_of_a_page() {
        let mut words = [0; TABLE_WORDS];
        assert_eq!(compile(TEXT_EDITION, ISO_8859_1, b"char a 1\nchar b 12\n", &mut words), Ok(2));
        let page = [0x61, 0x62, 0x2809];
        let shown = |page: &[u32], parts: &[(usize, usize)], length: usize| {
            let list: Vec<Window> = parts.iter().map(|&(start, width)| Window { start, width }).collect();
            let (mut cells, mut rules) = (vec![7; length], vec![8; length]);
            match windows(&words, page, &list, &mut cells, &mut rules) {
                Ok(()) => Ok((cells, rules)),
                Err(refusal) => {
                    assert_eq!((cells, rules), (vec![7; length], vec![8; length]));
                    assert_eq!(refusal.column, 0);
                    Err((refusal.number, refusal.place))
                }
            }
        };
        assert_eq!(shown(&page, &[(1, 2), (0, 2)], 5), Ok((vec![3, 9, 1, 3, 7], vec![3, 1, 3, 3, 8])));
        assert_eq!(shown(&page, &[(3, 0), (2, 1)], 1), Ok((vec![9], vec![1])));
        assert_eq!(shown(&page, &[], 0), Ok((vec![], vec![])));
        assert_eq!(shown(&page, &[(3, 0), (2, 2), (4, 0)], 0), Err((19, 1)));
        assert_eq!(shown(&page, &[(usize::MAX, 1)], 0), Err((19, 0)));
        assert_eq!(shown(&page, &[(0, 3), (2, 1)], 3), Err((2, 0)));
        assert_eq!(shown(&[0x61, 0xD800], &[(0, 1)], 1), Err((14, 1)));
        let list = [Window::default()];
        let refused = |number, place| Err(Refusal { number, place, column: 0 });
        assert_eq!(windows(&words[1..], &page, &list, &mut [], &mut []), refused(2, 0));
        words[3] = 5;
        assert_eq!(windows(&words, &[], &list, &mut [], &mut []), refused(15, 1));
    }

    #[test]
    fn listings() {
        let refused = |number, place| Err(Refusal { number, place, column: 0 });
        let mut words = [7; TABLE_WORDS];
        let text = "char a 0\nglyph \\U0010FFFF (87654321)\nalias é \\uF0A4\n";
        let listing = "char \\U00000061 0\nglyph \\U0010ffff 12345678\nalias \\U000000e9 \\U000020ac\n";
        assert_eq!(compile(TEXT_EDITION, ISO_8859_15, text.as_bytes(), &mut words), Ok(3));
        let length = listing.len();
        for past in [0, 1, LISTING_BYTES] {
            let mut bytes = vec![9; length + past];
            assert_eq!(list(&words, &mut bytes), Ok(length));
            assert_eq!((&bytes[..length], &bytes[length..]), (listing.as_bytes(), vec![9; past].as_slice()));
        }
        let mut read = [7; TABLE_WORDS + 1];
        assert_eq!(compile(TEXT_EDITION, ISO_8859_15, listing.as_bytes(), &mut read), Ok(3));
        assert_eq!((&read[..TABLE_WORDS], read[TABLE_WORDS]), (words.as_slice(), 7));
        let mut bytes = vec![9; length - 1];
        assert_eq!(list(&words, &mut bytes), refused(2, 0));
        assert_eq!(list(&words, &mut []), refused(2, 0));
        assert_eq!(list(&words[1..], &mut bytes), refused(2, 0));
        assert_eq!(list(&[], &mut []), refused(2, 0));
        words[4] = 0x61;
        assert_eq!(list(&words, &mut bytes), refused(15, 2));
        assert_eq!(list(&words, &mut []), refused(15, 2));
        assert_eq!(list(&[0; TABLE_WORDS], &mut bytes), refused(15, 1024));
        assert_eq!(bytes, vec![9; length - 1]);
        assert_eq!(compile(TEXT_EDITION, ISO_8859_1, b"", &mut words), Ok(0));
        assert_eq!((list(&words, &mut []), list(&words, &mut bytes)), (Ok(0), Ok(0)));
        assert_eq!(bytes, vec![9; length - 1]);
    }

    #[test]
    fn orders() {
        let refused = |number, place| Refusal { number, place, column: 0 };
        let mut words = [7; TABLE_WORDS + 1];
        assert_eq!(compile(TEXT_EDITION, ISO_8859_1, b"char b 12\nalias z a\nglyph a 1\n", &mut words), Ok(3));
        let mut places = [9; ORDER_WORDS + 1];
        assert_eq!(order(&words, &mut places[..ORDER_WORDS - 1]), Err(refused(2, 0)));
        assert_eq!(order(&words[..TABLE_WORDS - 1], &mut places), Err(refused(2, 0)));
        assert_eq!(order(&[0; TABLE_WORDS], &mut places), Err(refused(15, 1024)));
        assert_eq!(places, [9; ORDER_WORDS + 1]);
        assert_eq!(order(&words, &mut places), Ok(3));
        assert_eq!((&places[..3], &places[3..]), ([2, 0, 1].as_slice(), [9; ORDER_WORDS - 2].as_slice()));
        let found = |pair, comparisons| Ok(Search { pair, comparisons });
        assert_eq!(search(&words, &places, 0x62), found(Some(0), 1));
        assert_eq!(search(&words, &places, 0x7A), found(Some(1), 2));
        assert_eq!(search(&words, &places, 0x60), found(None, 2));
        assert_eq!(search(&words, &places, 0xF062), found(None, 2));
        assert_eq!(look_up_by(&words, &places, 0xF07A), Ok(Shown { cell: 1, rule: 20, links: 1 }));
        let (mut cells, mut rules) = ([9; 3], [9; 2]);
        assert_eq!(page_by(&words, &places, &[0x62, 0xF07A], &mut cells, &mut rules), Ok(()));
        assert_eq!((cells, rules), ([3, 1, 9], [3, 20]));
        let mut refuses = |words: &[u32], places: &[u32], number, place| {
            let refusal = refused(number, place);
            assert_eq!(search(words, places, 0xD800), Err(refusal));
            assert_eq!(look_up_by(words, places, 0xD800), Err(refusal));
            assert_eq!(page_by(words, places, &[0xD800], &mut cells, &mut rules), Err(refusal));
            assert_eq!((cells, rules), ([3, 1, 9], [3, 20]));
        };
        refuses(&words, &places, 14, 0);
        refuses(&words, &places[..ORDER_WORDS - 1], 2, 0);
        refuses(&words[..TABLE_WORDS - 1], &places, 2, 0);
        places.swap(0, 2);
        refuses(&words, &places, 23, 0);
        places[0] = u32::MAX;
        refuses(&words, &places, 23, 0);
        words[2] = 0x62;
        refuses(&words, &places, 15, 1);
        assert_eq!(compile(TEXT_EDITION, ISO_8859_1, b"", &mut words), Ok(0));
        assert_eq!(search(&words, &places, 0x62), found(None, 0));
    }

    #[test]
    fn attributes() {
        assert_eq!(attribute_cell(b"dot 8 =blink\n", 0x80), Ok(0x80));
        assert_eq!(attribute_cell(b"dot 8 on\n", 0), Err(Refusal { number: 16, place: 1, column: 7 }));
        let refusal = Err(Refusal { number: 11, place: 2, column: 2 });
        assert_eq!(attribute_cells(b"dot 1 =blink\n\tdot 1 =blink\n", &mut [0; 256]), refusal);
        assert_eq!(attribute_cells(b"", &mut [0; 255]), Err(Refusal { number: 2, place: 0, column: 0 }));
    }
}
