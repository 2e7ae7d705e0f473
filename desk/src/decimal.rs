//! Exact decimals: no amount of money passes through a binary fraction.

/// One unit of currency in microunits.
pub const MICROUNITS: u64 = 1_000_000;
/// The decimals of a unit of currency.
pub const CURRENCY_DECIMALS: u32 = 6;
/// The decimals of a percentage that basis points can say.
pub const PERCENT_DECIMALS: u32 = 2;
/// More digits than any field holds, and few enough for 128 bits.
const MOST_DIGITS: usize = 30;

/// Why a cell isn't the number that was wanted.
#[derive(Clone, Copy, Debug, PartialEq, Eq)]
pub enum NotExact {
    NoNumber,
    TooManyDigits,
    TooManyDecimals,
}

/// The number in a cell, in units of its last allowed decimal: `12.5` with two decimals is 1250. Nothing is rounded: a cell with
/// more decimals is no number of this kind, whatever they are. `mark` is the decimal mark.
pub fn parse(cell: &str, decimals: u32, mark: char) -> Result<i128, NotExact> {
    let (negative, unsigned) = match cell.strip_prefix('-') {
        Some(rest) => (true, rest),
        None => (false, cell.strip_prefix('+').unwrap_or(cell)),
    };
    let (whole, fraction) = match unsigned.split_once(mark) {
        Some((_, "")) => return Err(NotExact::NoNumber),
        Some((whole, fraction)) => (whole, fraction),
        None => (unsigned, ""),
    };
    if whole.is_empty() || !(whole.bytes().chain(fraction.bytes())).all(|digit| digit.is_ascii_digit()) {
        return Err(NotExact::NoNumber);
    }
    if fraction.len() > decimals as usize {
        return Err(NotExact::TooManyDecimals);
    }
    let size = digits(whole, fraction, decimals).ok_or(NotExact::TooManyDigits)?;
    Ok(if negative { -size } else { size })
}

fn digits(whole: &str, fraction: &str, decimals: u32) -> Option<i128> {
    let whole = whole.trim_start_matches('0');
    if whole.len() > MOST_DIGITS {
        return None;
    }
    let padding = std::iter::repeat(b'0').take(decimals as usize - fraction.len());
    let all = whole.bytes().chain(fraction.bytes()).chain(padding);
    Some(all.fold(0, |number, digit| number * 10 + i128::from(digit - b'0')))
}

/// A number of units of the last decimal, written out: 1250 with two decimals is `12.5`. Zeros at the end are left out.
pub fn shown(number: i128, decimals: u32, mark: char) -> String {
    let base = 10u128.pow(decimals);
    let (whole, fraction) = (number.unsigned_abs() / base, number.unsigned_abs() % base);
    let sign = if number < 0 { "-" } else { "" };
    let fraction = format!("{fraction:0width$}", width = decimals as usize);
    let fraction = if decimals == 0 { "" } else { fraction.trim_end_matches('0') };
    if fraction.is_empty() {
        format!("{sign}{whole}")
    } else {
        format!("{sign}{whole}{mark}{fraction}")
    }
}

/// How amounts are shown: in units of currency, with its name behind where it has one.
#[derive(Clone, Debug, PartialEq, Eq)]
pub struct Money {
    pub mark: char,
    pub currency: Option<String>,
}

impl Money {
    /// Microunits in currency, without its name: 1,800 is `0.0018`.
    pub fn bare(&self, microunits: impl Into<i128>) -> String {
        shown(microunits.into(), CURRENCY_DECIMALS, self.mark)
    }

    /// The same with the currency's name: `0.0018 EUR`.
    pub fn amount(&self, microunits: impl Into<i128>) -> String {
        let bare = self.bare(microunits);
        match &self.currency {
            Some(currency) => format!("{bare} {currency}"),
            None => bare,
        }
    }
}
