//! The units of columns, and what is said of numbers in them.
use crate::decimal::{self, CURRENCY_DECIMALS, PERCENT_DECIMALS};

/// What a column's numbers count.
#[derive(Clone, Copy, Debug, PartialEq, Eq)]
pub enum Unit {
    Text,
    Whole,
    BasisPoints,
    Percent,
    Ms,
    Microunits,
    Currency,
}

impl Unit {
    /// How many decimals a cell may have; as many make up a whole unit of the kernel.
    pub fn decimals(self) -> u32 {
        match self {
            Unit::Percent => PERCENT_DECIMALS,
            Unit::Currency => CURRENCY_DECIMALS,
            _ => 0,
        }
    }

    /// A number of the kernel in this unit.
    pub fn shown(self, number: i128, mark: char) -> String {
        decimal::shown(number, self.decimals(), mark)
    }

    /// What to say of a number that looks as if another unit was meant: 100 times as much of it would still be allowed. Of most columns
    /// that is 1 to 100 basis points, or up to 1 percent.
    pub fn doubt(self, number: i128, most: i128, mark: char) -> Option<String> {
        if !(1..=most / 100).contains(&number) {
            return None;
        }
        let percent = Unit::Percent.shown(number, mark);
        match self {
            Unit::BasisPoints => Some(format!(
                "{number} basis points are {percent} percent; if {number} percent is meant, write {}",
                number * 100
            )),
            Unit::Percent => Some(format!(
                "{percent} percent are {number} basis points; if {number} percent is meant, write {number}"
            )),
            _ => None,
        }
    }

    /// What was wanted of a cell, between two limits.
    pub fn wanted(self, least: i128, most: i128, mark: char) -> String {
        let (least, most) = (self.shown(least, mark), self.shown(most, mark));
        match self {
            Unit::Text => "a text was wanted".to_owned(),
            Unit::Whole => format!("a whole number from {least} to {most} was wanted"),
            Unit::BasisPoints => format!("whole basis points from {least} to {most} were wanted, 100 for each percent"),
            Unit::Percent => format!("a percentage from {least} to {most} with at most two decimals was wanted"),
            Unit::Ms => format!("whole milliseconds from {least} to {most} were wanted"),
            Unit::Microunits => format!("whole microunits from {least} to {most} were wanted"),
            Unit::Currency => format!("an amount from {least} to {most} with at most six decimals was wanted"),
        }
    }
}
