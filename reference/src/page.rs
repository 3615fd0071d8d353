//! A term on a printed page (document 02): each symbol in a cell, cells in
//! lines.

use crate::mistakes::{made, Mistake};
use crate::term::{Term, Term::*};

const BLANK_CELL: &str = "    ";
/// The columns of a cell.
const CELL: usize = BLANK_CELL.len();
/// The cells of a line.
const CELLS: usize = 18;
/// The columns of a line; a line feed follows them.
const COLUMNS: usize = CELLS * CELL;

/// How long the page of so many symbols is.
pub fn page_length(symbols: usize) -> usize {
    symbols.div_ceil(CELLS) * (COLUMNS + 1)
}

/// The page of a term.
pub fn page(term: &Term) -> Vec<u8> {
    let mut cells = String::new();
    term.each_symbol(&mut |symbol| match symbol {
        Tau => write_cell("t", &mut cells),
        Var(index) if made(Mistake::HexadecimalIndex) => {
            write_cell(&format!("{index:X}"), &mut cells);
        }
        Var(index) => write_cell(&index.to_string(), &mut cells),
        App(_) => write_cell("A", &mut cells),
        Abs(_) => write_cell("T", &mut cells),
    });
    in_lines(&cells)
}

/// Writes a cell with this text at its right end.
fn write_cell(text: &str, cells: &mut String) {
    let blanks = &BLANK_CELL[text.len()..];
    let (left, right) = match made(Mistake::CellsLeftAligned) {
        false => (blanks, text),
        true => (text, blanks),
    };
    cells.push_str(left);
    cells.push_str(right);
}

/// The cells in lines, the last of them filled with blanks.
fn in_lines(cells: &str) -> Vec<u8> {
    let fewer = usize::from(made(Mistake::SeventeenCells)) * CELL;
    let mut page = Vec::new();
    for line in cells.as_bytes().chunks(COLUMNS - fewer) {
        page.extend(line);
        if !made(Mistake::LastLineNotFilled) {
            page.resize(page.len() + COLUMNS - line.len(), b' ');
        }
        page.push(b'\n');
    }
    if made(Mistake::LastLineFeedMissing) {
        page.pop();
    }
    page
}
