//! What stops a command, as one line that a person can act on, and what is only warned of.
use std::borrow::Cow;
use std::fmt::{Display, Formatter, Result as Told};

/// Why a command ends without an answer.
#[derive(Clone, Debug, PartialEq, Eq)]
pub enum Trouble {
    /// What was asked can't be done with what is in the files: exit status 1.
    Refused(String),
    /// The command was called wrongly: exit status 2.
    Usage(String),
}

impl Trouble {
    pub fn status(&self) -> u8 {
        match self {
            Trouble::Refused(_) => 1,
            Trouble::Usage(_) => 2,
        }
    }
}

impl Display for Trouble {
    fn fmt(&self, f: &mut Formatter<'_>) -> Told {
        match self {
            Trouble::Refused(line) | Trouble::Usage(line) => f.write_str(line),
        }
    }
}

/// Something wrong in a file, by its place there.
#[derive(Clone, Debug, PartialEq, Eq)]
pub struct Fault {
    pub file: String,
    pub line: Option<u64>,
    pub column: Option<String>,
    pub what: String,
}

impl Fault {
    /// A fault of a file as a whole.
    pub fn of_file(file: &str, what: impl Into<String>) -> Self {
        Fault { file: file.to_owned(), line: None, column: None, what: what.into() }
    }

    pub fn at_line(file: &str, line: u64, what: impl Into<String>) -> Self {
        Fault { line: Some(line), ..Fault::of_file(file, what) }
    }

    pub fn at_cell(file: &str, line: u64, column: &str, what: impl Into<String>) -> Self {
        Fault { column: Some(column.to_owned()), ..Fault::at_line(file, line, what) }
    }
}

impl Display for Fault {
    fn fmt(&self, f: &mut Formatter<'_>) -> Told {
        write!(f, "{}", self.file)?;
        if let Some(line) = self.line {
            write!(f, ", line {line}")?;
        }
        if let Some(column) = &self.column {
            write!(f, ", column {column}")?;
        }
        write!(f, ": {}", self.what)
    }
}

impl From<Fault> for Trouble {
    fn from(fault: Fault) -> Self {
        Trouble::Refused(fault.to_string())
    }
}

/// What is doubtful but no fault. Of several in one column of a file the first is told, with how many more there are.
#[derive(Debug, Default)]
pub struct Warnings {
    told: Vec<(Fault, u64)>,
}

impl Warnings {
    pub fn add(&mut self, fault: Fault) {
        let same = |other: &Fault| other.file == fault.file && other.column.is_some() && other.column == fault.column;
        match self.told.iter_mut().find(|(other, _)| same(other)) {
            Some((_, more)) => *more += 1,
            None => self.told.push((fault, 0)),
        }
    }

    pub fn lines(&self) -> impl Iterator<Item = String> + '_ {
        self.told.iter().map(|(fault, more)| match more {
            0 => fault.to_string(),
            1 => format!("{fault} (and on 1 more line of this column)"),
            _ => format!("{fault} (and on {more} more lines of this column)"),
        })
    }
}

/// A cell as it is quoted in a fault: on one line, and cut where it is long.
pub fn quoted(cell: &str) -> String {
    const LONGEST: usize = 40;
    let cut = cell.chars().nth(LONGEST).is_some();
    let written = |letter: char| match unseen(letter) && !letter.is_control() {
        true => letter.escape_unicode().to_string(),
        false => letter.escape_debug().to_string(),
    };
    let shown: String = cell.chars().take(LONGEST).map(written).collect();
    if cut {
        format!("\"{shown}..\"")
    } else {
        format!("\"{shown}\"")
    }
}

/// Whether a letter takes no room of its own, or turns round what stands beside it: two texts that look alike may differ by it.
pub fn unseen(letter: char) -> bool {
    letter.is_control()
        || matches!(letter, '\u{ad}' | '\u{200b}'..='\u{200f}' | '\u{2028}'..='\u{202e}' | '\u{2060}'..='\u{206f}' | '\u{feff}')
}

/// A text as it is printed: what a terminal would act upon is written out, but for line ends and tabs.
pub fn visible(text: &str) -> Cow<'_, str> {
    let hidden = |letter: char| unseen(letter) && !['\n', '\t'].contains(&letter);
    if !text.contains(hidden) {
        return Cow::Borrowed(text);
    }
    let written = |letter: char| if hidden(letter) { letter.escape_unicode().to_string() } else { letter.to_string() };
    Cow::Owned(text.chars().map(written).collect())
}

/// The known word nearest to one that isn't known, where one is near. Long words are no slips of the pen, and near to nothing.
pub fn nearest<'a>(word: &str, known: impl Iterator<Item = &'a str>) -> Option<&'a str> {
    const LONGEST: usize = 60;
    let length = word.chars().take(LONGEST + 1).count();
    let far = (length / 3 + 1).min(length.saturating_sub(1));
    if length > LONGEST || far == 0 {
        return None;
    }
    let word = word.to_lowercase();
    known
        .filter(|other| other.chars().take(length + far + 1).count().abs_diff(length) <= far)
        .map(|other| (edits(&word, &other.to_lowercase()), other))
        .filter(|(distance, _)| *distance <= far)
        .min_by_key(|(distance, _)| *distance)
        .map(|(_, other)| other)
}

/// How many letters have to be put in, taken out or changed to get from one word to the other.
fn edits(from: &str, to: &str) -> usize {
    let to: Vec<char> = to.chars().collect();
    let mut row: Vec<usize> = (0..=to.len()).collect();
    for (place, letter) in from.chars().enumerate() {
        let mut corner = row[0];
        row[0] = place + 1;
        for column in 0..to.len() {
            let changed = corner + usize::from(letter != to[column]);
            corner = row[column + 1];
            row[column + 1] = changed.min(corner + 1).min(row[column] + 1);
        }
    }
    row[to.len()]
}
