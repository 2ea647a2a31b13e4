use crate::{Ordered, Refusal, Shown, Window, CELLS, ISO_8859_1, LISTING_BYTES, TABLE_WORDS, TEXT_EDITION};

/// A compiled text table that owns its words.
///
/// The words are a table since compiling accepted them and nothing writes them after; the calls still hand on what the
/// library answers, but for [`Table::list`], which for a table has no refusal.
#[derive(Clone, Debug, PartialEq, Eq)]
pub struct Table {
    words: Box<[u32]>,
    definitions: u32,
}

impl Table {
    /// Compiles a text of [`TEXT_EDITION`] in [`ISO_8859_1`], or answers its refusal with line and column.
    pub fn compile(text: &[u8]) -> Result<Table, Refusal> {
        Table::compile_in(ISO_8859_1, text)
    }

    /// Compiles a text of [`TEXT_EDITION`] in a local character set, or answers its refusal with line and column; a set that
    /// there is not is 21.
    ///
    /// ```
    /// use heathdapple::{Table, ISO_8859_15};
    ///
    /// let table = Table::compile_in(ISO_8859_15, b"byte \\xA4 15\n")?;
    /// assert_eq!(table.look_up('€')?.cell, 0x11);
    /// assert_eq!(table.look_up('\u{F0A4}')?.cell, 0x11);
    /// # Ok::<(), heathdapple::Refusal>(())
    /// ```
    pub fn compile_in(set: u32, text: &[u8]) -> Result<Table, Refusal> {
        let mut words = vec![0; TABLE_WORDS].into_boxed_slice();
        let definitions = crate::compile(TEXT_EDITION, set, text, &mut words)?;
        Ok(Table { words, definitions })
    }

    /// The 2,050 words, as the calls over lent words take them.
    pub fn words(&self) -> &[u32] {
        &self.words
    }

    /// The local character set that it was compiled in.
    pub fn set(&self) -> u32 {
        self.words[TABLE_WORDS - 2]
    }

    /// The count of definitions.
    pub fn definitions(&self) -> u32 {
        self.definitions
    }

    /// Looks a character up.
    pub fn look_up(&self, character: char) -> Result<Shown, Refusal> {
        crate::look_up(&self.words, character.into())
    }

    /// The table with the order of its characters, for a faster lookup.
    pub fn ordered(self) -> Ordered {
        Ordered::new(self)
    }

    /// Fills a cell and a rule for each character; see [`crate::page`].
    pub fn page(&self, characters: &[u32], cells: &mut [u8], rules: &mut [u8]) -> Result<(), Refusal> {
        crate::page(&self.words, characters, cells, rules)
    }

    /// Fills a cell and a rule for each character of some windows; see [`crate::windows`].
    pub fn windows(
        &self,
        characters: &[u32],
        windows: &[Window],
        cells: &mut [u8],
        rules: &mut [u8],
    ) -> Result<(), Refusal> {
        crate::windows(&self.words, characters, windows, cells, rules)
    }

    /// The character that a cell types, if any.
    pub fn typed(&self, cell: u8) -> Result<Option<char>, Refusal> {
        Ok(crate::typed(&self.words, cell)?.and_then(char::from_u32))
    }

    /// What each of the 256 cells types.
    pub fn entries(&self) -> Result<[Option<char>; CELLS], Refusal> {
        let mut entries = [0; CELLS];
        crate::entries(&self.words, &mut entries)?;
        Ok(entries.map(|entry: u32| entry.checked_sub(1).and_then(char::from_u32)))
    }

    /// Its definitions as text, one line each; see [`crate::list`]. Compiled in the same set it is an equal table.
    ///
    /// ```
    /// use heathdapple::Table;
    ///
    /// let table = Table::compile(b"char a (21) # typed\n\nalias \\u00E4 a\n")?;
    /// assert_eq!(table.list(), "char \\U00000061 12\nalias \\U000000e4 \\U00000061\n");
    /// assert_eq!(Table::compile(table.list().as_bytes())?, table);
    /// # Ok::<(), heathdapple::Refusal>(())
    /// ```
    pub fn list(&self) -> String {
        let mut bytes = vec![0; LISTING_BYTES];
        // Refused are only words that are no table and bytes that are too few, and these are neither.
        let length = crate::list(&self.words, &mut bytes).expect("a table is listed");
        bytes.truncate(length);
        String::from_utf8(bytes).expect("a listing is ASCII")
    }
}

#[cfg(test)]
mod tests {
    use super::Table;
    use crate::{Refusal, Shown, Window, ISO_8859_1, ISO_8859_15, LISTING_BYTES};

    #[test]
    fn owned() {
        let table = Table::compile(b"char a 1\nchar b 1\nalias \\u03B1 a\n").expect("an accepted text");
        assert_eq!((table.definitions(), table.words().len()), (3, 2050));
        assert_eq!(table.look_up('α'), Ok(Shown { cell: 1, rule: 4, links: 1 }));
        assert_eq!((table.typed(1), table.typed(2)), (Ok(Some('a')), Ok(None)));
        let entries = table.entries().expect("a compiled table");
        assert_eq!(entries[..3], [None, Some('a'), None]);
        let (mut cells, mut rules) = ([0; 2], [0; 2]);
        assert_eq!(table.page(&[0x61, 0x62], &mut cells, &mut rules), Ok(()));
        assert_eq!((cells, rules), ([1, 1], [3, 3]));
        let windows = [Window { start: 2, width: 1 }, Window { start: 0, width: 1 }];
        assert_eq!(table.windows(&[0x61, 0x62, 0x3B1], &windows, &mut cells, &mut rules), Ok(()));
        assert_eq!((cells, rules), ([1, 1], [4, 3]));
    }

    #[test]
    fn refused() {
        let refused = |number, place, column| Err(Refusal { number, place, column });
        assert_eq!(Table::compile(b"\nifNotGlyph a alias a a\n"), refused(12, 2, 14));
        assert_eq!(Table::compile(b"ifGlyph a\nendIf\n endIf\n"), refused(17, 3, 2));
        assert_eq!(Table::compile(b"\nifGlyph a\nelse\n"), refused(18, 2, 0));
        assert_eq!(Table::compile_in(0, b""), refused(21, 0, 0));
    }

    #[test]
    fn sets() {
        let text = b"byte \\xBE 1\nifGlyph \\uF0BE char a 12\n";
        let table = Table::compile(text).expect("an accepted text");
        assert_eq!((table.set(), table.definitions()), (ISO_8859_1, 2));
        assert_eq!(table.look_up('¾'), Ok(Shown { cell: 1, rule: 3, links: 0 }));
        let table = Table::compile_in(ISO_8859_15, text).expect("an accepted text");
        assert_eq!((table.set(), table.definitions()), (ISO_8859_15, 2));
        assert_eq!(table.look_up('Ÿ'), Ok(Shown { cell: 1, rule: 3, links: 0 }));
        assert_eq!(table.look_up('¾'), Ok(Shown { cell: 255, rule: 9, links: 0 }));
        assert_eq!(table.look_up('\u{F0BE}'), Ok(Shown { cell: 1, rule: 19, links: 0 }));
    }

    #[test]
    fn listings() {
        let longest: String = (0..1024).map(|k| format!("alias \\U{:08x} \\U0010ffff\n", 0x10_0000 + k)).collect();
        assert_eq!(longest.len(), LISTING_BYTES);
        for (text, listing) in [
            ("# none\n", ""),
            ("byte \\xA4 1\n", "glyph \\U000020ac 1\n"),
            ("ifNotGlyph a\nalias \\uF0BE ⠁\nendIf", "alias \\U00000178 \\U00002801\n"),
            (&longest, &longest),
        ] {
            let table = Table::compile_in(ISO_8859_15, text.as_bytes()).expect("an accepted text");
            assert_eq!(table.list(), listing);
            assert_eq!(Table::compile_in(table.set(), listing.as_bytes()), Ok(table));
        }
    }
}
