use crate::{Refusal, Search, Shown, Table, ORDER_WORDS};

/// A compiled text table that owns the order of its characters too: the answers of [`Table`] by searching that order.
///
/// ```
/// use heathdapple::{Search, Table};
///
/// let table = Table::compile(b"char b 12\nalias \\u00E4 a\nchar a 1\n")?.ordered();
/// let shown = table.look_up('ä')?;
/// assert_eq!((shown.cell, shown.rule, shown.links), (0x01, 4, 1));
/// assert_eq!(table.search('a')?, Search { pair: Some(2), comparisons: 2 });
/// assert_eq!(table.table().typed(0x03)?, Some('b'));
/// # Ok::<(), heathdapple::Refusal>(())
/// ```
#[derive(Clone, Debug, PartialEq, Eq)]
pub struct Ordered {
    table: Table,
    order: Box<[u32]>,
}

impl Ordered {
    /// Takes a table and builds its order.
    pub fn new(table: Table) -> Ordered {
        let mut order = vec![0; ORDER_WORDS].into_boxed_slice();
        // Refused are only words that are no table and an order that is too short, and these are neither.
        crate::order(table.words(), &mut order).expect("a table has an order");
        Ordered { table, order }
    }

    /// The table, with its other calls.
    pub fn table(&self) -> &Table {
        &self.table
    }

    /// The 1,024 words of the order, as the calls over lent words take them; those behind the last definition are 0.
    pub fn order(&self) -> &[u32] {
        &self.order
    }

    /// The table without its order.
    pub fn into_table(self) -> Table {
        self.table
    }

    /// The pair of a character, and how many were looked at; see [`crate::search`].
    pub fn search(&self, character: char) -> Result<Search, Refusal> {
        crate::search(self.table.words(), &self.order, character.into())
    }

    /// Looks a character up, as [`Table::look_up`].
    pub fn look_up(&self, character: char) -> Result<Shown, Refusal> {
        crate::look_up_by(self.table.words(), &self.order, character.into())
    }

    /// Fills a cell and a rule for each character, as [`Table::page`].
    pub fn page(&self, characters: &[u32], cells: &mut [u8], rules: &mut [u8]) -> Result<(), Refusal> {
        crate::page_by(self.table.words(), &self.order, characters, cells, rules)
    }
}

#[cfg(test)]
mod tests {
    use crate::{Search, Table};

    #[test]
    fn owned() {
        let plain = Table::compile(b"char z 1\nchar b 12\nalias \\u03B1 z\nglyph ? 3\n").expect("an accepted text");
        let table = plain.clone().ordered();
        assert_eq!((&table.order()[..5], table.order().len()), ([3, 1, 0, 2, 0].as_slice(), 1024));
        assert_eq!(table.search('α'), Ok(Search { pair: Some(2), comparisons: 3 }));
        assert_eq!(table.search('\u{F062}'), Ok(Search { pair: None, comparisons: 3 }));
        let page = ['z', 'b', 'α', '\u{F062}', 'é', '⠉'];
        for character in page {
            assert_eq!(table.look_up(character), plain.look_up(character));
        }
        let (mut cells, mut rules) = ([9; 7], [9; 7]);
        assert_eq!(table.page(&page.map(u32::from), &mut cells, &mut rules), Ok(()));
        assert_eq!((cells, rules), ([1, 3, 1, 3, 4, 9, 9], [3, 3, 4, 19, 8, 1, 9]));
        assert_eq!((table.table(), table.clone().into_table()), (&plain, plain.clone()));
    }

    #[test]
    fn empty() {
        let table = Table::compile(b"").expect("an accepted text").ordered();
        assert_eq!(table.search('a'), Ok(Search { pair: None, comparisons: 0 }));
        assert_eq!(table.order(), [0; 1024]);
    }
}
