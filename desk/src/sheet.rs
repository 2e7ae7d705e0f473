//! A file with a header line, as spreadsheets write them: its lines and cells, before any meaning.
use crate::fault::Fault;
use csv::{ReaderBuilder, StringRecord};
use std::fs;

/// How cells are parted and numbers written.
#[derive(Clone, Copy, Debug, PartialEq, Eq)]
pub struct Dialect {
    /// Between two cells; found from the header line where none is told.
    pub separator: Option<u8>,
    /// The decimal mark.
    pub mark: char,
}

/// The cells of a file, with the line on which each row begins.
#[derive(Debug)]
pub struct Sheet {
    pub file: String,
    pub header_line: u64,
    pub header: Vec<String>,
    pub rows: Vec<(u64, StringRecord)>,
}

const SEPARATORS: [u8; 3] = [b',', b';', b'\t'];

impl Sheet {
    /// Reads a file. A row has as many cells as the header; rows without any text are passed over.
    pub fn read(file: &str, dialect: Dialect) -> Result<Sheet, Fault> {
        let bytes = fs::read(file).map_err(|error| Fault::of_file(file, format!("can't be read: {error}")))?;
        Sheet::parse(file, &bytes, dialect)
    }

    pub fn parse(file: &str, bytes: &[u8], dialect: Dialect) -> Result<Sheet, Fault> {
        let text = plain(file, bytes)?;
        let (told, text) = told_separator(&text);
        let separator = dialect.separator.or(told).unwrap_or_else(|| likely_separator(text));
        let text = tidied(text, char::from(separator)).map_err(|line| {
            Fault::at_line(file, line, "a quote (\") is opened here and never closed; was the file cut?")
        })?;
        let mut lines = rows(file, &text, separator)?.into_iter();
        let Some((header_line, header)) = lines.next() else {
            return Err(Fault::of_file(
                file,
                "the file is empty; a header line with the names of the columns was wanted",
            ));
        };
        let header: Vec<String> = header.iter().map(str::to_owned).collect();
        Ok(Sheet { file: file.to_owned(), header_line, header, rows: lines.collect() })
    }
}

/// So many of something, in words that fit one as well.
pub fn counted(number: usize, thing: &str) -> String {
    if number == 1 {
        format!("1 {thing}")
    } else {
        format!("{number} {thing}s")
    }
}

/// The text of a file without its byte order mark, each line ended by a line feed alone, so that lines can be counted.
fn plain(file: &str, bytes: &[u8]) -> Result<String, Fault> {
    if bytes.starts_with(&[0xff, 0xfe]) || bytes.starts_with(&[0xfe, 0xff]) || every_second_is_zero(bytes) {
        return Err(Fault::of_file(file, "the text is in UTF-16; save it as CSV in UTF-8"));
    }
    let bytes = bytes.strip_prefix(&[0xef, 0xbb, 0xbf]).unwrap_or(bytes);
    let ended_alike = |text: &str| text.replace("\r\n", "\n").replace('\r', "\n");
    let text = std::str::from_utf8(bytes).map_err(|error| {
        let before = ended_alike(&String::from_utf8_lossy(&bytes[..error.valid_up_to()]));
        let line = 1 + before.matches('\n').count() as u64;
        Fault::at_line(file, line, "the text isn't in UTF-8 from here on; save it as CSV in UTF-8")
    })?;
    Ok(ended_alike(text))
}

/// UTF-16 without a mark: of the letters that titles are made of, one byte of two is 0.
fn every_second_is_zero(bytes: &[u8]) -> bool {
    let first = &bytes[..bytes.len().min(32)];
    let zeros = |odd: usize| first.iter().skip(odd).step_by(2).all(|byte| *byte == 0);
    first.len() > 1 && (zeros(0) || zeros(1))
}

/// The separator of a first line `sep=;`, as one spreadsheet writes it, and the text behind that line; the line's end stays, to be counted.
fn told_separator(text: &str) -> (Option<u8>, &str) {
    let first = text.split('\n').next().unwrap_or("");
    let bare = first.trim_matches('"');
    let told = bare.get(..4).filter(|word| word.eq_ignore_ascii_case("sep="));
    match told.map(|word| &bare.as_bytes()[word.len()..]) {
        // Other programs write the line out to the width of the list.
        Some([mark, rest @ ..]) if SEPARATORS.contains(mark) && rest.iter().all(|byte| byte == mark) => {
            (Some(*mark), &text[first.len()..])
        }
        _ => (None, text),
    }
}

/// The separator that the header line has most of, outside quotes; a comma where it has none.
fn likely_separator(text: &str) -> u8 {
    let header = text.lines().find(|line| !line.trim().is_empty()).unwrap_or("");
    let outside = header.split('"').step_by(2);
    let counts: Vec<u8> = outside.flat_map(str::bytes).filter(|byte| SEPARATORS.contains(byte)).collect();
    let count = |separator: u8| counts.iter().filter(|byte| **byte == separator).count();
    SEPARATORS.into_iter().rev().max_by_key(|separator| count(*separator)).unwrap_or(b',')
}

/// Where in a cell a letter stands.
#[derive(Clone, Copy, PartialEq)]
enum Within {
    Begin,
    Plain,
    Quotes,
    /// Behind a quote, which may be the first of two that stand for one.
    Quote,
    /// Behind the last quote and blanks.
    End,
}

/// The text without blanks around cells in quotes, as people type them; or the line of a quote that is opened and never closed. A quote
/// opens a cell only as its first letter; inside, two stand for one.
fn tidied(text: &str, separator: char) -> Result<String, u64> {
    let mut tidy = String::with_capacity(text.len());
    let (mut within, mut blanks, mut line, mut opened) = (Within::Begin, 0, 1, 1);
    for letter in text.chars() {
        let ends = letter == separator || letter == '\n';
        let next = match (within, letter) {
            (Within::Begin, '"') => {
                opened = line;
                Within::Quotes
            }
            (Within::Quotes, '"') => Within::Quote,
            (Within::Quotes, _) | (Within::Quote, '"') => Within::Quotes,
            (Within::Begin, ' ') => Within::Begin,
            (Within::Quote | Within::End, ' ') => Within::End,
            _ if ends => Within::Begin,
            _ => Within::Plain,
        };
        line += u64::from(letter == '\n');
        if letter == ' ' && matches!(next, Within::Begin | Within::End) {
            blanks += 1;
        } else {
            let around_quotes = next == Within::Quotes || (within == Within::End && ends);
            tidy.extend(std::iter::repeat(' ').take(if around_quotes { 0 } else { blanks }));
            tidy.push(letter);
            blanks = 0;
        }
        within = next;
    }
    if within == Within::Quotes {
        Err(opened)
    } else {
        Ok(tidy)
    }
}

/// The rows with any text in them, each with its line. The reader tells the byte at which it began to look, which may be before empty lines.
fn rows(file: &str, text: &str, separator: u8) -> Result<Vec<(u64, StringRecord)>, Fault> {
    let mut reader =
        ReaderBuilder::new().has_headers(false).flexible(true).delimiter(separator).from_reader(text.as_bytes());
    let (mut rows, mut line, mut counted_to) = (Vec::new(), 1, 0);
    for record in reader.records() {
        let mut record = record.map_err(|error| Fault::of_file(file, format!("can't be read: {error}")))?;
        let looked_from = record.position().map_or(counted_to, |position| position.byte() as usize);
        let empty_lines = text.as_bytes()[looked_from..].iter().take_while(|byte| **byte == b'\n').count();
        let begins = looked_from + empty_lines;
        line += text.as_bytes()[counted_to..begins].iter().filter(|byte| **byte == b'\n').count() as u64;
        counted_to = begins;
        record.trim();
        if record.iter().any(|cell| !cell.is_empty()) {
            rows.push((line, record));
        }
    }
    Ok(rows)
}
