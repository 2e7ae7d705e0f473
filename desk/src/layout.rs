//! Columns of text, one under the other.
use std::ops::Range;
use unicode_width::UnicodeWidthStr;

/// No column is wider, however long a name in it is: such a name shifts its own line alone, and is told whole.
const WIDEST: usize = 60;

/// Rows with each column as wide as its widest cell; those of `right` stand to the right, and the last isn't padded.
pub fn aligned(rows: &[Vec<String>], right: Range<usize>) -> String {
    let columns = rows.iter().map(Vec::len).max().unwrap_or(0);
    let width = |column: usize| {
        let widest = rows.iter().filter_map(|row| row.get(column)).map(|cell| cell.width()).max();
        widest.unwrap_or(0).min(WIDEST)
    };
    let widths: Vec<usize> = (0..columns).map(width).collect();
    let line = |row: &Vec<String>| {
        let cells = row.iter().enumerate().map(|(column, cell)| padded(cell, widths[column], right.contains(&column)));
        cells.collect::<Vec<_>>().join("  ").trim_end().to_owned() + "\n"
    };
    rows.iter().map(line).collect()
}

/// A cell with blanks up to a width, as a terminal counts it: some letters are two wide, some none.
fn padded(cell: &str, width: usize, right: bool) -> String {
    let blanks = " ".repeat(width.saturating_sub(cell.width()));
    if right {
        blanks + cell
    } else {
        cell.to_owned() + &blanks
    }
}
