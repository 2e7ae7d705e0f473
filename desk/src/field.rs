//! The columns of a file, each under a name that tells its unit, and the cells read by them.
use crate::cells::{self, Column};
use crate::decimal::{self, NotExact};
use crate::fault::{nearest, quoted, Fault, Warnings};
use crate::names::MOST_NUMBER;
use crate::sheet::Sheet;
pub use crate::unit::Unit;
use csv::StringRecord;

/// What one number or name of a record is called, in which units it may stand, and between which limits, in whole units of the kernel.
#[derive(Debug)]
pub struct Field {
    /// The names that its column may have; the first is the one that is written.
    pub columns: &'static [(&'static str, Unit)],
    pub least: i128,
    pub most: i128,
    pub required: bool,
    /// The most letters that a cell may have.
    pub longest: usize,
}

/// The most letters of a name, or of whatever else one cell says.
pub const LONGEST_NAME: usize = 200;

impl Field {
    pub const fn text(columns: &'static [(&'static str, Unit)]) -> Self {
        Field { columns, least: 0, most: 0, required: true, longest: LONGEST_NAME }
    }

    /// Names with marks between them, as many as there are numbers for.
    pub const fn list(columns: &'static [(&'static str, Unit)]) -> Self {
        Field { longest: (MOST_NUMBER as usize + 1) * (LONGEST_NAME + 3), ..Field::text(columns) }
    }

    pub const fn number(columns: &'static [(&'static str, Unit)], most: u64) -> Self {
        Field { columns, least: 0, most: most as i128, required: true, longest: LONGEST_NAME }
    }

    pub const fn optional(self) -> Self {
        Field { required: false, ..self }
    }

    /// The name that is written.
    pub fn name(&self) -> &'static str {
        self.columns[0].0
    }
}

/// A file's header, with the field that each column is of.
#[derive(Debug)]
pub struct Heads<'a> {
    pub sheet: &'a Sheet,
    mark: char,
    found: Vec<Head>,
}

#[derive(Debug)]
struct Head {
    place: usize,
    field: &'static Field,
    column: &'static str,
    unit: Unit,
}

impl<'a> Heads<'a> {
    /// The columns in whatever order they stand. Faults: a name that no column has, a field that has two columns, one that has none, and
    /// then every line and cell that can't be read under them.
    pub fn of(sheet: &'a Sheet, mark: char, fields: &'static [&'static Field]) -> Result<Self, Fault> {
        let mut heads = Heads { sheet, mark, found: Vec::new() };
        heads.must_be_on_top(fields)?;
        let titles = sheet.header.iter().enumerate();
        let columns: Vec<Column> =
            titles.map(|(place, title)| heads.add(place, title, fields)).collect::<Result<_, _>>()?;
        if let Some(field) = fields.iter().find(|field| field.required && heads.head(field).is_none()) {
            return Err(heads.fault(format!("the column {} is missing", either(field))));
        }
        cells::check(sheet, &columns)?;
        Ok(heads)
    }

    fn add(&mut self, place: usize, title: &str, fields: &'static [&'static Field]) -> Result<Column, Fault> {
        let folded = folded(title);
        match folded.as_str() {
            _ if title.is_empty() => return Ok(Column::Untitled),
            "notes" => return Ok(Column::Notes),
            _ => {}
        }
        let Some((field, (column, unit))) = known(fields).find(|(_, (column, _))| *column == folded) else {
            let names: Vec<&str> = known(fields).map(|(_, (column, _))| *column).collect();
            return Err(self.fault(unknown(title, &folded, &names)));
        };
        if let Some(other) = self.head(field) {
            let what = match other.column == *column {
                true => format!("the column {column} stands twice"),
                false => format!("the columns {} and {column} say the same twice; keep one", other.column),
            };
            return Err(self.fault(what));
        }
        self.found.push(Head { place, field, column, unit: *unit });
        Ok(Column::Known(column, field.longest))
    }

    /// A title over the whole list isn't read: where no column is named on the first line, but some are on the next, that is said.
    fn must_be_on_top(&self, fields: &'static [&'static Field]) -> Result<(), Fault> {
        let names = |title: &str| {
            let folded = folded(title);
            known(fields).any(|(_, (column, _))| *column == folded)
        };
        let some_of = |cell: &str| cell.split([',', ';', '\t']).any(names);
        let second = self.sheet.rows.first().filter(|(_, cells)| cells.iter().take(100).any(some_of));
        match second {
            Some((line, _)) if !self.sheet.header.iter().take(100).any(|title| names(title)) => {
                Err(self
                    .fault(format!("the names of the columns stand on line {line}; take out what stands above them")))
            }
            _ => Ok(()),
        }
    }

    fn head(&self, field: &Field) -> Option<&Head> {
        self.found.iter().find(|head| std::ptr::eq(head.field, field))
    }

    pub fn has(&self, field: &Field) -> bool {
        self.head(field).is_some()
    }

    fn fault(&self, what: String) -> Fault {
        Fault::at_line(&self.sheet.file, self.sheet.header_line, what)
    }

    pub fn rows(&self) -> impl Iterator<Item = Row<'_>> {
        self.sheet.rows.iter().map(|(line, cells)| Row { heads: self, line: *line, cells })
    }
}

/// A title as names of columns are compared: small letters, `%` as a word, and one underscore for whatever else stands between words. No
/// name is as long as what is looked at.
fn folded(title: &str) -> String {
    let looked_at: String = title.chars().take(LONGEST_NAME).collect();
    let spelled = looked_at.to_lowercase().replace('%', " percent ");
    spelled
        .split(|letter: char| !letter.is_alphanumeric())
        .filter(|word| !word.is_empty())
        .collect::<Vec<_>>()
        .join("_")
}

fn either(field: &Field) -> String {
    field.columns.iter().map(|(column, _)| *column).collect::<Vec<_>>().join(" or ")
}

/// Every name that a column may have, with its field.
fn known(fields: &'static [&'static Field]) -> impl Iterator<Item = (&'static Field, &'static (&'static str, Unit))> {
    fields.iter().flat_map(|field| field.columns.iter().map(move |column| (*field, column)))
}

fn unknown(title: &str, folded: &str, names: &[&str]) -> String {
    let known = names.join(", ");
    match nearest(folded, names.iter().copied()) {
        Some(near) => format!("no column is called {}; did you mean {near}? Known are {known}, notes", quoted(title)),
        None => format!("no column is called {}; known are {known}, notes", quoted(title)),
    }
}

/// One line of a file.
#[derive(Clone, Copy, Debug)]
pub struct Row<'a> {
    heads: &'a Heads<'a>,
    pub line: u64,
    cells: &'a StringRecord,
}

impl<'a> Row<'a> {
    /// What stands in a field's column. `None` where the file has no such column, or nothing in it where it may be left out.
    pub fn cell(&self, field: &'static Field) -> Result<Option<Cell<'a>>, Fault> {
        let Some(head) = self.heads.head(field) else { return Ok(None) };
        let text = self.cells.get(head.place).unwrap_or("");
        let cell = Cell { row: *self, field, column: head.column, unit: head.unit, text };
        match (text.is_empty(), field.required) {
            (false, _) => Ok(Some(cell)),
            (true, false) => Ok(None),
            (true, true) => Err(cell.fault(format!("is empty; {}", cell.wanted()))),
        }
    }

    /// The number in a field's column, in whole units of the kernel.
    pub fn number<T: TryFrom<i128>>(&self, field: &'static Field, warnings: &mut Warnings) -> Result<Option<T>, Fault> {
        self.cell(field)?.map(|cell| cell.number(warnings)).transpose()
    }

    /// The same of a field that no file lacks.
    pub fn needed<T: TryFrom<i128>>(&self, field: &'static Field, warnings: &mut Warnings) -> Result<T, Fault> {
        self.number(field, warnings)?.ok_or_else(|| self.fault(format!("{} is missing", field.name())))
    }

    pub fn fault(&self, what: impl Into<String>) -> Fault {
        Fault::at_line(&self.heads.sheet.file, self.line, what)
    }

    /// A fault of what stands in a field's column, or is missing there.
    pub fn fault_at(&self, field: &'static Field, what: impl Into<String>) -> Fault {
        match self.heads.head(field) {
            Some(head) => Fault::at_cell(&self.heads.sheet.file, self.line, head.column, what),
            None => self.fault(what),
        }
    }
}

/// One cell, by the field that its column is of.
#[derive(Clone, Copy, Debug)]
pub struct Cell<'a> {
    row: Row<'a>,
    field: &'static Field,
    column: &'static str,
    unit: Unit,
    pub text: &'a str,
}

impl Cell<'_> {
    pub fn fault(&self, what: impl Into<String>) -> Fault {
        Fault::at_cell(&self.row.heads.sheet.file, self.row.line, self.column, what)
    }

    fn number<T: TryFrom<i128>>(&self, warnings: &mut Warnings) -> Result<T, Fault> {
        let mark = self.row.heads.mark;
        let number = decimal::parse(self.digits(), self.unit.decimals(), mark).map_err(|why| self.no_number(why))?;
        if number < self.field.least || number > self.field.most {
            return Err(self.fault(format!("{} is out of range; {}", self.text, self.wanted())));
        }
        if let Some(doubt) = self.unit.doubt(number, self.field.most, mark) {
            warnings.add(self.fault(doubt));
        }
        T::try_from(number).map_err(|_| self.fault(format!("{} is out of range; {}", self.text, self.wanted())))
    }

    /// A percentage may have its sign.
    fn digits(&self) -> &str {
        match self.unit {
            Unit::Percent => self.text.strip_suffix('%').unwrap_or(self.text).trim_end(),
            _ => self.text,
        }
    }

    fn no_number(&self, why: NotExact) -> Fault {
        let cell = quoted(self.text);
        let what = match why {
            NotExact::NoNumber => format!("{cell} is no number{}; {}", self.hint(), self.wanted()),
            NotExact::TooManyDigits => format!("{cell} is out of range; {}", self.wanted()),
            NotExact::TooManyDecimals => {
                format!("{cell} has too many decimals, and nothing is rounded{}; {}", self.share(), self.wanted())
            }
        };
        self.fault(what)
    }

    /// A share of one where a percentage was wanted: spreadsheets store 96.4 percent as 0.964.
    fn share(&self) -> String {
        let mark = self.row.heads.mark;
        let finest = Unit::Percent.decimals() + 2;
        match decimal::parse(self.digits(), finest, mark) {
            Ok(bps) if self.unit == Unit::Percent && (1..=self.field.most).contains(&bps) => {
                let percent = Unit::Percent.shown(bps, mark);
                format!(" (if {percent} percent is meant, write {percent})")
            }
            _ => String::new(),
        }
    }

    fn hint(&self) -> &'static str {
        match (self.row.heads.mark, self.unit) {
            (_, Unit::BasisPoints) if self.text.ends_with('%') => " of basis points",
            ('.', _) if self.text.contains(',') => {
                " (a decimal comma is read with --decimal-comma, a thousands mark never)"
            }
            (',', _) if self.text.contains('.') => {
                " (the decimal mark is a comma here, and a thousands mark is never read)"
            }
            (mark, Unit::Currency) if self.is_number_with_sign(mark) => {
                " (write it without its currency, whose name stands in the policy)"
            }
            _ => "",
        }
    }

    fn is_number_with_sign(&self, mark: char) -> bool {
        let digits = self.text.trim_matches(|letter: char| !letter.is_ascii_digit());
        decimal::parse(digits, self.unit.decimals(), mark).is_ok() && !self.text.ends_with(mark)
    }

    fn wanted(&self) -> String {
        self.unit.wanted(self.field.least, self.field.most, self.row.heads.mark)
    }
}
