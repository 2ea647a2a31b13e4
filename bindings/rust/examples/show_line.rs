//! Shows a line of text by a text table: for each character its number, the cell, the braille character of that cell,
//! and the rule that gave it.
//!
//! In this package's folder: `cargo run --example show_line -- ../../tables/small.ttb aαÅéæ⠉`

use heathdapple::Table;
use std::env::args_os;
use std::error::Error;
use std::ffi::OsStr;
use std::process::ExitCode;

fn show(path: &OsStr, line: &str) -> Result<(), Box<dyn Error>> {
    let table = Table::compile(&std::fs::read(path)?)?;
    let characters: Vec<u32> = line.chars().map(u32::from).collect();
    let mut cells = vec![0; characters.len()];
    let mut rules = vec![0; characters.len()];
    table.page(&characters, &mut cells, &mut rules)?;
    for ((character, cell), rule) in characters.iter().zip(cells).zip(rules) {
        let braille = char::from_u32(0x2800 + u32::from(cell)).unwrap_or_default();
        println!("U+{character:04X}  cell {cell:02X}  {braille}  rule {rule}");
    }
    Ok(())
}

fn main() -> ExitCode {
    let arguments: Vec<_> = args_os().skip(1).collect();
    let [path, line] = arguments.as_slice() else {
        eprintln!("usage: show_line TABLE LINE");
        return ExitCode::from(2);
    };
    let Some(line) = line.to_str() else {
        eprintln!("show_line: the line is not UTF-8");
        return ExitCode::from(2);
    };
    match show(path, line) {
        Ok(()) => ExitCode::SUCCESS,
        Err(error) => {
            eprintln!("{}: {error}", path.to_string_lossy());
            ExitCode::FAILURE
        }
    }
}
