//! The calls of one implementation, so that several can be run side by side.

use crate::reference::{Refusal, Search, Shown, Window};
use crate::{hashed, reference};

/// By edition and set.
pub type Compile = fn(u32, u32, &[u8], &mut [u32]) -> Result<u32, Refusal>;
/// By set.
pub type ByteCells = fn(u32, &[u8], &mut [u8]) -> Result<u32, Refusal>;
pub type Page = fn(&[u32], &[u32], &mut [u8], &mut [u8]) -> Result<(), Refusal>;
/// These three by order.
pub type SearchBy = fn(&[u32], &[u32], u32) -> Result<Search, Refusal>;
pub type LookUpBy = fn(&[u32], &[u32], u32) -> Result<Shown, Refusal>;
pub type PageBy = fn(&[u32], &[u32], &[u32], &mut [u8], &mut [u8]) -> Result<(), Refusal>;
pub type Windows = fn(&[u32], &[u32], &[Window], &mut [u8], &mut [u8]) -> Result<(), Refusal>;

#[derive(Clone, Copy)]
pub struct Side {
    pub name: &'static str,
    pub compile: Compile,
    pub look_up: fn(&[u32], u32) -> Result<Shown, Refusal>,
    pub page: Page,
    pub order: fn(&[u32], &mut [u32]) -> Result<u32, Refusal>,
    pub search: SearchBy,
    pub look_up_by: LookUpBy,
    pub page_by: PageBy,
    pub windows: Windows,
    pub typed: fn(&[u32], u8) -> Result<Option<u32>, Refusal>,
    pub entries: fn(&[u32], &mut [u32]) -> Result<(), Refusal>,
    pub list: fn(&[u32], &mut [u8]) -> Result<usize, Refusal>,
    pub attribute_cell: fn(&[u8], u8) -> Result<u8, Refusal>,
    pub attribute_cells: fn(&[u8], &mut [u8]) -> Result<u32, Refusal>,
    pub byte_cells: ByteCells,
}

impl Side {
    /// One cell's entry as the call for all cells writes it.
    pub fn entry(&self, words: &[u32], cell: u8) -> Result<u32, Refusal> {
        (self.typed)(words, cell).map(reference::entry)
    }

    /// Windows that lie on the page by one page call each, on the next part of the buffers.
    pub fn page_by_window(
        &self,
        words: &[u32],
        characters: &[u32],
        windows: &[Window],
        cells: &mut [u8],
        rules: &mut [u8],
    ) -> Result<(), Refusal> {
        let mut at = 0;
        for &Window { start, width } in windows {
            let to = at + width;
            (self.page)(words, &characters[start..start + width], &mut cells[at..to], &mut rules[at..to])?;
            at = to;
        }
        Ok(())
    }
}

pub const LIBRARY: Side = Side {
    name: "library",
    compile: heathdapple::compile,
    look_up: heathdapple::look_up,
    page: heathdapple::page,
    order: heathdapple::order,
    search: heathdapple::search,
    look_up_by: heathdapple::look_up_by,
    page_by: heathdapple::page_by,
    windows: heathdapple::windows,
    typed: heathdapple::typed,
    entries: heathdapple::entries,
    list: heathdapple::list,
    attribute_cell: heathdapple::attribute_cell,
    attribute_cells: heathdapple::attribute_cells,
    byte_cells: heathdapple::byte_cells,
};

pub const REFERENCE: Side = Side {
    name: "reference",
    compile: reference::compile,
    look_up: reference::look_up,
    page: reference::page,
    order: reference::order,
    search: reference::search,
    look_up_by: reference::look_up_by,
    page_by: reference::page_by,
    windows: reference::windows,
    typed: reference::typed,
    entries: reference::entries,
    list: reference::list,
    attribute_cell: reference::attribute_cell,
    attribute_cells: reference::attribute_cells,
    byte_cells: reference::byte_cells,
};

/// There is no hashed attributes table and no hashed byte table: places by number need none. A search has no hashed
/// form: it is asked for its comparisons.
pub const HASHED: Side = Side {
    name: "hashed",
    compile: hashed::compile,
    look_up: hashed::look_up,
    page: hashed::page,
    order: hashed::order,
    look_up_by: hashed::look_up_by,
    page_by: hashed::page_by,
    windows: hashed::windows,
    typed: hashed::typed,
    entries: hashed::entries,
    list: hashed::list,
    ..REFERENCE
};

pub const SIDES: [Side; 3] = [LIBRARY, REFERENCE, HASHED];
