//! CSV written: a header line and rows, as spreadsheets read it.
use crate::sheet::Dialect;
use csv::{Terminator, WriterBuilder};

/// Rows under a header line.
#[derive(Debug)]
pub struct Page {
    rows: Vec<Vec<String>>,
}

impl Page {
    pub fn new(columns: &[&str]) -> Self {
        Page { rows: vec![columns.iter().map(|column| (*column).to_owned()).collect()] }
    }

    pub fn push(&mut self, row: Vec<String>) {
        self.rows.push(row);
    }

    /// The text of it. Where numbers have a decimal comma, cells are parted by semicolons, unless another mark is told.
    pub fn text(&self, dialect: Dialect) -> String {
        let usual = if dialect.mark == ',' { b';' } else { b',' };
        let separator = dialect.separator.unwrap_or(usual);
        let lines = Terminator::Any(b'\n');
        let mut writer =
            WriterBuilder::new().delimiter(separator).flexible(true).terminator(lines).from_writer(Vec::new());
        let written = self.rows.iter().try_for_each(|row| writer.write_record(row));
        let bytes = written.map(|()| writer.into_inner().map_err(|error| error.to_string()));
        // Rows of any width go into a vector, which takes whatever is written.
        let bytes = bytes.expect("rows are written").expect("rows are handed over");
        String::from_utf8(bytes).expect("cells are text")
    }
}
