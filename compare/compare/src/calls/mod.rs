//! A module for each exported function that takes bytes, but for those on live records: `live` has the siblings of those that read a bank, `edits`
//! those that change one; `prescribe_batch` has both batches. A new call is a module with the same parts, a line in `CALLS` below and one in the table of `answer/answer.c`.
use crate::case::{hex, Ask, Case};
use crate::judges::{Judge, Reading, TheRust};
use crate::second::bytes::{policy_of, request_of};
use crate::second::deciding::Question;
use crate::second::refusals::{self, Passed, Refusal};
use crate::second::rules::Rules;
use crate::second::slots::Listing;
use std::fmt;

pub mod ask_text;
pub mod ask_words;
pub mod check_request;
pub mod decision_margin;
pub mod edits;
pub mod explain;
pub mod find;
pub mod live;
pub mod next_eligible;
pub mod prescribe;
pub mod prescribe_batch;
pub mod prescribe_checked;
mod program;
pub mod read_request;
pub mod read_stored;
pub mod record_at;
pub mod trust;
pub mod unit_text;
pub mod utility_for_model;
pub mod validate;
pub mod what_would_win;
pub mod write_request;
pub mod write_stored;

/// Who says what is owed.
#[derive(Clone, Copy, Debug, Default, PartialEq, Eq)]
pub enum By {
    /// The Rust, told in document 01's bytes and numbers; the second reading agrees.
    #[default]
    Rust,
    /// The second reading alone: the Rust has no such call, no say in this refusal, or another answer by a rule that is named.
    Second,
    /// Both: the Rust decides and the second reading agrees, which also says what is printed of it.
    Printed,
}

/// What a call owes: the refusal, if there is one, and what it writes to the start of each thing lent. Every other byte stays.
#[derive(Clone, Debug, Default, PartialEq, Eq)]
pub struct Answer {
    pub by: By,
    pub refusal: Option<Refusal>,
    pub out: Vec<u8>,
    pub list: Vec<u8>,
    pub policy: Vec<u8>,
    pub bank: Vec<u8>,
}

impl Answer {
    /// An answer that goes to the buffer alone.
    pub fn of(out: Vec<u8>) -> Self {
        Answer { out, ..Answer::default() }
    }

    /// What is owed by a call that writes nothing of its own.
    pub fn passed(passed: Passed) -> Self {
        Answer { refusal: passed.err(), ..Answer::default() }
    }

    /// The same answer, by the second reading.
    pub fn second(self) -> Self {
        Answer { by: By::Second, ..self }
    }

    /// What the call hands back: the refusal's word, or 0.
    pub fn word(&self) -> u64 {
        self.refusal.map_or(0, Refusal::word)
    }
}

/// A refusal writes nothing.
impl From<Refusal> for Answer {
    fn from(refusal: Refusal) -> Self {
        Answer { refusal: Some(refusal), ..Answer::default() }
    }
}

impl fmt::Display for Answer {
    fn fmt(&self, f: &mut fmt::Formatter<'_>) -> fmt::Result {
        match self.refusal {
            Some(refusal) => write!(f, "{refusal:?}")?,
            None => write!(f, "answered")?,
        }
        let parts = [("out", &self.out), ("list", &self.list), ("policy", &self.policy), ("bank", &self.bank)];
        let mut written = parts.iter().filter(|(_, bytes)| !bytes.is_empty());
        written.try_for_each(|(name, bytes)| write!(f, " {name} {}", hex(bytes)))
    }
}

/// The Rust and the second reading part where no rule is named by which they may.
#[derive(Debug)]
pub struct Disagreement {
    pub rust: Answer,
    pub second: Answer,
}

impl fmt::Display for Disagreement {
    fn fmt(&self, f: &mut fmt::Formatter<'_>) -> fmt::Result {
        write!(f, "the Rust            {}\nthe second reading  {}", self.rust, self.second)
    }
}

/// One thing that an exported function takes. Bytes go as an address and a length.
#[derive(Clone, Copy, Debug, PartialEq, Eq)]
pub enum Handed {
    Policy,
    Request,
    /// A row of requests, and how many they are said to be.
    Requests,
    Count,
    Bank,
    /// A record that is offered.
    Record,
    Id,
    /// The buffer for the answer.
    Out,
    /// A list, or a bank, to be filled.
    List,
    /// A list to be read.
    Listed,
    /// A form to be read, or a program's input.
    Form,
    Place,
}

pub struct Call {
    /// The exported name, without `volankizo_`.
    pub name: &'static str,
    /// What the exported function takes, in its order.
    pub takes: &'static [Handed],
    /// Which of a bank's records it is about.
    pub listing: Listing,
    /// The fields of the form that it reads.
    pub tags: &'static [u8],
    /// Whether it may pass over the bank many times. The largest banks are then kept for a few cases.
    pub many_passes: bool,
    /// The bytes that an answer takes in its buffer.
    pub need: fn(&Ask) -> usize,
    /// The bytes that it takes in the list that is filled.
    pub list_need: fn(&Ask) -> usize,
    /// What the second reading alone says: the refusals that come before anything else, in their order.
    pub second: fn(&Ask) -> Passed,
    /// By which rules it owes its answer: those that the policy names. An input that is refused before is decided by none.
    pub rules: fn(&Ask) -> Rules,
    /// What a judge answers to an input that passed, in document 01's bytes and numbers. It is told by the second reading where no judge
    /// is asked.
    pub answer: fn(&Ask, &dyn Judge) -> Answer,
}

/// What most calls have: every record of a bank, one pass, no buffer, no form.
const PLAIN: Call = Call {
    name: "",
    takes: &[],
    listing: Listing::Every,
    tags: &[],
    many_passes: false,
    need: nothing,
    list_need: nothing,
    second: |_| Ok(()),
    rules,
    answer: |_, _| Answer::default(),
};

/// Places in `CALLS`.
pub const PRESCRIBE: usize = 0;
pub const CHECKED: usize = 1;
pub const UTILITY: usize = 2;
pub const FIND: usize = 3;
pub const CHECK: usize = 4;
pub const EXPLAIN: usize = 5;
pub const NEXT: usize = 6;
pub const VALIDATE: usize = 7;
pub const TRUST: usize = 8;
pub const WIN: usize = 9;
pub const MARGIN: usize = 10;
pub const RECORD: usize = 11;
pub const WRITE_STORED: usize = 12;
pub const READ_STORED: usize = 13;
pub const WRITE_REQUEST: usize = 14;
pub const READ_REQUEST: usize = 15;
pub const UNIT: usize = 16;
pub const ASK: usize = 17;
pub const WORDS: usize = 18;
pub const LIVE_PRESCRIBE: usize = 19;
pub const LIVE_CHECKED: usize = 20;
pub const LIVE_EXPLAIN: usize = 21;
pub const LIVE_FIND: usize = 22;
pub const LIVE_UTILITY: usize = 23;
pub const LIVE_WIN: usize = 24;
pub const LIVE_MARGIN: usize = 25;
pub const ADD: usize = 26;
pub const REPLACE: usize = 27;
pub const REMOVE: usize = 28;
pub const COMPACT: usize = 29;
pub const BATCH: usize = 30;
pub const BATCH_CHECKED: usize = 31;

pub const CALLS: [Call; 32] = [
    prescribe::CALL,
    prescribe_checked::CALL,
    utility_for_model::CALL,
    find::CALL,
    check_request::CALL,
    explain::CALL,
    next_eligible::CALL,
    validate::CALL,
    trust::CALL,
    what_would_win::CALL,
    decision_margin::CALL,
    record_at::CALL,
    write_stored::CALL,
    read_stored::CALL,
    write_request::CALL,
    read_request::CALL,
    unit_text::CALL,
    ask_text::CALL,
    ask_words::CALL,
    live::PRESCRIBE,
    live::CHECKED,
    live::EXPLAIN,
    live::FIND,
    live::UTILITY,
    live::WIN,
    live::MARGIN,
    edits::ADD,
    edits::REPLACE,
    edits::REMOVE,
    edits::COMPACT,
    prescribe_batch::CALL,
    prescribe_batch::CHECKED,
];

impl Call {
    /// The case as this call sees it.
    pub fn ask<'a>(&self, case: &'a Case) -> Ask<'a> {
        let mut ask = case.ask(self.listing, self.tags);
        ask.rules = (self.rules)(&ask);
        ask.room = case.room.bytes((self.need)(&ask));
        ask.list_room = case.list_room.bytes((self.list_need)(&ask));
        ask
    }

    /// What the second reading answers by the rules of the ask. It is made once.
    pub fn reading<'a>(&self, ask: &'a Ask) -> &'a Answer {
        ask.read.get_or_init(|| (self.answer)(ask, &Reading { passes: &ask.passes }))
    }

    /// The Rust's answer, with which the second reading agrees; or the second reading's, where the Rust has none.
    pub fn held(&self, ask: &Ask) -> Result<Answer, Disagreement> {
        let read = self.reading(ask);
        if read.by == By::Second {
            return Ok(read.clone());
        }
        let told = (self.answer)(ask, &TheRust { passes: &ask.passes });
        match told == *read {
            true => Ok(told),
            false => Err(Disagreement { rust: told, second: read.clone() }),
        }
    }

    /// The answer that the library owes, or that nobody can say.
    pub fn judged(&self, ask: &Ask) -> Result<Answer, Disagreement> {
        if let Err(refusal) = (self.second)(ask) {
            return Ok(Answer::from(refusal).second());
        }
        let owed = match ask.rules == Rules::RUST {
            true => self.held(ask)?,
            false => self.departed(ask)?,
        };
        let length = if owed.refusal.is_some() { 0 } else { (self.need)(ask) };
        assert_eq!(owed.out.len(), length, "{} answers as many bytes as it says that it needs", self.name);
        Ok(owed)
    }

    /// Where other rules hold than the Rust's: the second reading's answer, still the Rust's where it comes to the same. By the Rust's
    /// rules the two must agree all the same, so that nothing but those other rules tells them apart.
    fn departed(&self, ask: &Ask) -> Result<Answer, Disagreement> {
        let (told, read) = (self.held(&ask.by(Rules::RUST))?, self.reading(ask));
        Ok(if *read == told { told } else { read.clone().second() })
    }

    /// The same, where a disagreement ends the program.
    pub fn owed(&self, ask: &Ask) -> Answer {
        self.judged(ask).unwrap_or_else(|apart| panic!("{}:\n{apart}", self.name))
    }

    /// The same of a case.
    pub fn owed_on(&self, case: &Case) -> Answer {
        self.owed(&self.ask(case))
    }
}

/// What is decided, for a question that passed.
fn question(ask: &Ask) -> Question {
    let (policy, request) = (policy_of(ask.policy), request_of(ask.request));
    Question { policy: policy.by(ask.rules), request, records: ask.listing.records(ask.bank) }
}

/// 1, 2, and for a call about live records 34.
fn bank(ask: &Ask) -> Passed {
    refusals::listed(ask.listing, ask.bank)
}

/// Of the policy that is lent, or that the list which is read was explained by.
fn rules(ask: &Ask) -> Rules {
    refusals::policy(ask.policy).map_or(Rules::RUST, |()| Rules::of(&policy_of(ask.policy)))
}

/// For a call that has no buffer for an answer.
fn nothing(_: &Ask) -> usize {
    0
}
