//! The C interface of the proved library (`include/heathdapple.h`), over slices. All unsafe code of the package is here.
//!
//! Why each call is sound: the interface asks that each pointer is valid for its length, in elements, and that what is
//! written lies apart from all else. A shared slice gives a pointer that is valid for reading as long as the call, and
//! that is never null, also where the slice is empty; an exclusive one gives a pointer for reading and writing, which by
//! its borrow overlaps nothing. The library keeps no pointer after the call, and its contracts hold for every content of
//! the slices and every number, so no call has a further condition.

#![allow(unsafe_code)]

use crate::Window;

mod c {
    use crate::Window;

    extern "C" {
        pub fn heathdapple_compile(
            edition: u32,
            set: u32,
            text: *const u8,
            text_length: usize,
            words: *mut u32,
            words_length: usize,
        ) -> u64;
        pub fn heathdapple_byte_cells(
            set: u32,
            text: *const u8,
            text_length: usize,
            cells: *mut u8,
            cells_length: usize,
        ) -> u64;
        pub fn heathdapple_look_up(words: *const u32, words_length: usize, character: u32) -> u64;
        pub fn heathdapple_page(
            words: *const u32,
            words_length: usize,
            characters: *const u32,
            characters_length: usize,
            cells: *mut u8,
            cells_length: usize,
            rules: *mut u8,
            rules_length: usize,
        ) -> u64;
        pub fn heathdapple_order(words: *const u32, words_length: usize, order: *mut u32, order_length: usize) -> u64;
        pub fn heathdapple_search(
            words: *const u32,
            words_length: usize,
            order: *const u32,
            order_length: usize,
            character: u32,
        ) -> u64;
        pub fn heathdapple_look_up_by(
            words: *const u32,
            words_length: usize,
            order: *const u32,
            order_length: usize,
            character: u32,
        ) -> u64;
        pub fn heathdapple_page_by(
            words: *const u32,
            words_length: usize,
            order: *const u32,
            order_length: usize,
            characters: *const u32,
            characters_length: usize,
            cells: *mut u8,
            cells_length: usize,
            rules: *mut u8,
            rules_length: usize,
        ) -> u64;
        pub fn heathdapple_windows(
            words: *const u32,
            words_length: usize,
            characters: *const u32,
            characters_length: usize,
            windows: *const Window,
            windows_length: usize,
            cells: *mut u8,
            cells_length: usize,
            rules: *mut u8,
            rules_length: usize,
        ) -> u64;
        pub fn heathdapple_typed(words: *const u32, words_length: usize, cell: u8) -> u64;
        pub fn heathdapple_entries(
            words: *const u32,
            words_length: usize,
            entries: *mut u32,
            entries_length: usize,
        ) -> u64;
        pub fn heathdapple_list(words: *const u32, words_length: usize, buffer: *mut u8, buffer_length: usize) -> u64;
        pub fn heathdapple_attribute_cell(text: *const u8, text_length: usize, byte: u8) -> u64;
        pub fn heathdapple_attribute_cells(
            text: *const u8,
            text_length: usize,
            cells: *mut u8,
            cells_length: usize,
        ) -> u64;
    }
}

pub fn compile(edition: u32, set: u32, text: &[u8], words: &mut [u32]) -> u64 {
    // SAFETY: `text` is read and `words` written, each within its slice; any numbers are an edition and a set to ask for.
    unsafe { c::heathdapple_compile(edition, set, text.as_ptr(), text.len(), words.as_mut_ptr(), words.len()) }
}

pub fn byte_cells(set: u32, text: &[u8], cells: &mut [u8]) -> u64 {
    // SAFETY: `text` is read and `cells` written, each within its slice; fewer than 256 cells are refused, and any number
    // is a set to ask for.
    unsafe { c::heathdapple_byte_cells(set, text.as_ptr(), text.len(), cells.as_mut_ptr(), cells.len()) }
}

pub fn look_up(words: &[u32], character: u32) -> u64 {
    // SAFETY: `words` is read within its slice; any number is a character to ask for.
    unsafe { c::heathdapple_look_up(words.as_ptr(), words.len(), character) }
}

pub fn page(words: &[u32], characters: &[u32], cells: &mut [u8], rules: &mut [u8]) -> u64 {
    // SAFETY: `words` and `characters` are read, `cells` and `rules` written, each within its slice; buffers that are
    // shorter than the page are refused.
    unsafe {
        c::heathdapple_page(
            words.as_ptr(),
            words.len(),
            characters.as_ptr(),
            characters.len(),
            cells.as_mut_ptr(),
            cells.len(),
            rules.as_mut_ptr(),
            rules.len(),
        )
    }
}

pub fn order(words: &[u32], order: &mut [u32]) -> u64 {
    // SAFETY: `words` is read and `order` written, each within its slice; an order under 1,024 words is refused.
    unsafe { c::heathdapple_order(words.as_ptr(), words.len(), order.as_mut_ptr(), order.len()) }
}

pub fn search(words: &[u32], order: &[u32], character: u32) -> u64 {
    // SAFETY: `words` and `order` are read within their slices; any words are an order to test, and any number is a
    // character to ask for.
    unsafe { c::heathdapple_search(words.as_ptr(), words.len(), order.as_ptr(), order.len(), character) }
}

pub fn look_up_by(words: &[u32], order: &[u32], character: u32) -> u64 {
    // SAFETY: as for `search`.
    unsafe { c::heathdapple_look_up_by(words.as_ptr(), words.len(), order.as_ptr(), order.len(), character) }
}

pub fn page_by(words: &[u32], order: &[u32], characters: &[u32], cells: &mut [u8], rules: &mut [u8]) -> u64 {
    // SAFETY: `words`, `order` and `characters` are read, `cells` and `rules` written, each within its slice; any words
    // are an order to test, and buffers that are shorter than the page are refused.
    unsafe {
        c::heathdapple_page_by(
            words.as_ptr(),
            words.len(),
            order.as_ptr(),
            order.len(),
            characters.as_ptr(),
            characters.len(),
            cells.as_mut_ptr(),
            cells.len(),
            rules.as_mut_ptr(),
            rules.len(),
        )
    }
}

pub fn windows(words: &[u32], characters: &[u32], windows: &[Window], cells: &mut [u8], rules: &mut [u8]) -> u64 {
    // SAFETY: `words`, `characters` and `windows` are read, `cells` and `rules` written, each within its slice; a window
    // is laid out as in the header. Windows beyond the page and buffers that do not hold all of them are refused.
    unsafe {
        c::heathdapple_windows(
            words.as_ptr(),
            words.len(),
            characters.as_ptr(),
            characters.len(),
            windows.as_ptr(),
            windows.len(),
            cells.as_mut_ptr(),
            cells.len(),
            rules.as_mut_ptr(),
            rules.len(),
        )
    }
}

pub fn typed(words: &[u32], cell: u8) -> u64 {
    // SAFETY: `words` is read within its slice.
    unsafe { c::heathdapple_typed(words.as_ptr(), words.len(), cell) }
}

pub fn entries(words: &[u32], entries: &mut [u32]) -> u64 {
    // SAFETY: `words` is read and `entries` written, each within its slice; fewer than 256 entries are refused.
    unsafe { c::heathdapple_entries(words.as_ptr(), words.len(), entries.as_mut_ptr(), entries.len()) }
}

pub fn list(words: &[u32], buffer: &mut [u8]) -> u64 {
    // SAFETY: `words` is read and `buffer` written, each within its slice; a buffer that is too short is refused.
    unsafe { c::heathdapple_list(words.as_ptr(), words.len(), buffer.as_mut_ptr(), buffer.len()) }
}

pub fn attribute_cell(text: &[u8], byte: u8) -> u64 {
    // SAFETY: `text` is read within its slice.
    unsafe { c::heathdapple_attribute_cell(text.as_ptr(), text.len(), byte) }
}

pub fn attribute_cells(text: &[u8], cells: &mut [u8]) -> u64 {
    // SAFETY: `text` is read and `cells` written, each within its slice; fewer than 256 cells are refused.
    unsafe { c::heathdapple_attribute_cells(text.as_ptr(), text.len(), cells.as_mut_ptr(), cells.len()) }
}
