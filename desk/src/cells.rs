//! What every line and cell has to be, before any meaning: as wide as the header line, under a title, and a text that can be seen.
use crate::fault::{quoted, unseen, Fault};
use crate::sheet::{counted, Sheet};

/// What is asked of the cells of one column.
#[derive(Clone, Copy, Debug)]
pub enum Column {
    /// It has no title: it has no values either.
    Untitled,
    /// Passed over, whatever is in it.
    Notes,
    /// A column by its name, with the most letters that a cell of it may have.
    Known(&'static str, usize),
}

/// Looks at every cell once. The first fault of a line is told, that of its width first.
pub fn check(sheet: &Sheet, columns: &[Column]) -> Result<(), Fault> {
    for (line, cells) in &sheet.rows {
        let filled = cells.iter().enumerate().filter(|(_, cell)| !cell.is_empty());
        let beyond = filled.clone().any(|(place, _)| place >= columns.len());
        if cells.len() < columns.len() || beyond {
            return Err(Fault::at_line(&sheet.file, *line, wrong_width(columns.len(), cells.len())));
        }
        for (place, cell) in filled {
            match columns[place] {
                Column::Notes => {}
                Column::Untitled => {
                    let what = format!("column {} has a value here but no name in the header line", place + 1);
                    return Err(Fault::at_line(&sheet.file, *line, what));
                }
                Column::Known(name, most) => {
                    sound(cell, most).map_err(|what| Fault::at_cell(&sheet.file, *line, name, what))?;
                }
            }
        }
    }
    Ok(())
}

fn wrong_width(wanted: usize, found: usize) -> String {
    let verb = if wanted == 1 { "was" } else { "were" };
    let hint = if found > wanted { "; a cell with a separator in it stands in quotes" } else { "" };
    format!("{} {verb} wanted as in the header line, {found} found{hint}", counted(wanted, "cell"))
}

/// A cell is one line of text that can be seen, and no longer than a name or a list of names has to be.
fn sound(cell: &str, most: usize) -> Result<(), String> {
    if let Some(letter) = cell.chars().find(|letter| unseen(*letter)) {
        let what = match letter {
            '\n' => "a line break in it; write it on one line, or in a column called notes".to_owned(),
            '\t' => "a tab in it; write a blank".to_owned(),
            _ => format!("a letter in it that can't be seen (U+{:04X}); take it out", u32::from(letter)),
        };
        return Err(format!("the cell {} has {what}", quoted(cell)));
    }
    if cell.len() > most && cell.chars().count() > most {
        return Err(format!("{} has {} letters; at most {most} are read", quoted(cell), cell.chars().count()));
    }
    Ok(())
}
