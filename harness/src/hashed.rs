//! The same answers by a HashMap from character to meaning, for the benchmark. Lines, rules and pairs are the reference's.

use crate::reference::{self, Meaning, Meanings, Pairs, Refusal, Set, Shown, Window, CELLS};
use std::collections::HashMap;

struct Table {
    meanings: HashMap<u32, Meaning>,
    typed: [bool; CELLS],
}

impl Table {
    fn new() -> Self {
        Table { meanings: HashMap::new(), typed: [false; CELLS] }
    }

    fn insert(&mut self, character: u32, meaning: Meaning) {
        if let Meaning::Typed(dots) = meaning {
            self.typed[usize::from(dots)] = true;
        }
        self.meanings.insert(character, meaning);
    }
}

impl Meanings for Table {
    fn find(&self, character: u32) -> Option<Meaning> {
        self.meanings.get(&character).copied()
    }

    fn types(&self, cell: u8) -> bool {
        self.typed[usize::from(cell)]
    }
}

/// A lent table by a map, its pairs and its set.
fn check(words: &[u32]) -> Result<(Table, Pairs<'_>, Set), Refusal> {
    let mut table = Table::new();
    let (pairs, set) = reference::check_by(words, |_, character, meaning| {
        let admitted = table.find(character).is_none() && !table.loops(character, meaning);
        if admitted {
            table.insert(character, meaning);
        }
        admitted
    })?;
    Ok((table, pairs, set))
}

pub fn compile(edition: u32, set: u32, text: &[u8], words: &mut [u32]) -> Result<u32, Refusal> {
    let mut table = Table::new();
    reference::compile_by(edition, set, text, words, |line, words, reading| {
        let added = table.added(line, reading)?;
        if let Some(definition) = added {
            table.insert(definition.character, definition.meaning);
        }
        reference::put(words, reading, added);
        Ok(())
    })
}

pub fn look_up(words: &[u32], character: u32) -> Result<Shown, Refusal> {
    let (table, _, set) = check(words)?;
    table.look_up(character, set)
}

pub fn page(words: &[u32], characters: &[u32], cells: &mut [u8], rules: &mut [u8]) -> Result<(), Refusal> {
    reference::fits(characters, cells, rules)?;
    let (table, _, set) = check(words)?;
    table.fill(characters, set, cells, rules)
}

pub fn order(words: &[u32], order: &mut [u32]) -> Result<u32, Refusal> {
    reference::order_by(words, order, |words| Ok(check(words)?.1))
}

/// A lent table by a map behind the tests of its order, which the map has no use for, and its set.
fn check_with(words: &[u32], order: &[u32]) -> Result<(Table, Set), Refusal> {
    reference::ordered_by(words, order, |words| check(words).map(|(table, pairs, set)| ((table, set), pairs)))
}

pub fn look_up_by(words: &[u32], order: &[u32], character: u32) -> Result<Shown, Refusal> {
    let (table, set) = check_with(words, order)?;
    table.look_up(character, set)
}

pub fn page_by(
    words: &[u32],
    order: &[u32],
    characters: &[u32],
    cells: &mut [u8],
    rules: &mut [u8],
) -> Result<(), Refusal> {
    reference::fits(characters, cells, rules)?;
    let (table, set) = check_with(words, order)?;
    table.fill(characters, set, cells, rules)
}

pub fn windows(
    words: &[u32],
    characters: &[u32],
    windows: &[Window],
    cells: &mut [u8],
    rules: &mut [u8],
) -> Result<(), Refusal> {
    let (table, _, set) = check(words)?;
    reference::windows_fit(characters, windows, cells, rules)?;
    table.fill_windows(characters, windows, set, cells, rules)
}

pub fn typed(words: &[u32], cell: u8) -> Result<Option<u32>, Refusal> {
    let (_, Pairs(pairs), _) = check(words)?;
    let typed = 1 << 24 | u32::from(cell);
    let pair = pairs.chunks_exact(2).find(|pair| pair[1] == typed);
    Ok(pair.map(|pair| pair[0]))
}

pub fn entries(words: &[u32], entries: &mut [u32]) -> Result<(), Refusal> {
    reference::entries_by(words, entries, |words| Ok(check(words)?.1))
}

pub fn list(words: &[u32], bytes: &mut [u8]) -> Result<usize, Refusal> {
    reference::list_by(words, bytes, |words| Ok(check(words)?.1))
}
