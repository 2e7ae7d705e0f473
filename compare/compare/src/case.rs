//! An input on which every call can be asked.
use crate::calls::Answer;
use crate::form::{form_bytes, Damage};
use crate::second::rules::Rules;
use crate::second::slots::Listing;
use std::cell::{Cell, OnceCell};
use std::fmt;

/// How much room a buffer has, against what is needed.
#[derive(Clone, Copy, Debug, PartialEq, Eq)]
pub enum Room {
    ShortBy(usize),
    Exact,
    LongerBy(usize),
}

impl Room {
    pub fn bytes(self, need: usize) -> usize {
        match self {
            Room::ShortBy(n) => need.saturating_sub(n),
            Room::Exact => need,
            Room::LongerBy(n) => need + n,
        }
    }
}

/// The list that `next_eligible` reads: the case's own explanation, of every record or of the live ones, or any bytes.
#[derive(Clone, Debug, PartialEq, Eq)]
pub enum Listed {
    Explained(Listing),
    Bytes(Vec<u8>),
}

/// The form that is read, or the programs' input: made of the case's policy, bank and request, each as far as the call's form has it,
/// and then damaged; or any bytes.
#[derive(Clone, Debug, PartialEq, Eq)]
pub enum Formed {
    Made(Vec<Damage>),
    Bytes(Vec<u8>),
}

/// The bytes and numbers of one input. Lengths may be wrong: they are compared too.
#[derive(Clone, Debug)]
pub struct Case {
    pub policy: Vec<u8>,
    pub request: Vec<u8>,
    pub bank: Vec<u8>,
    /// The record that is offered to an edit.
    pub record: Vec<u8>,
    pub id: u32,
    /// Of the buffer for the answer.
    pub room: Room,
    /// Of the other buffer: the list that `explain` fills, or the bank that `read_stored` fills.
    pub list_room: Room,
    pub listed: Listed,
    /// The place that `record_at` reads, and at which `next_eligible` begins.
    pub place: u64,
    pub formed: Formed,
}

/// A case as one call sees it: with its own form, and the room of its own buffers in bytes.
#[derive(Clone)]
pub struct Ask<'a> {
    /// By which the library owes its answer.
    pub rules: Rules,
    /// Which of the bank's records it is about.
    pub listing: Listing,
    pub policy: &'a [u8],
    pub request: &'a [u8],
    pub bank: &'a [u8],
    pub record: &'a [u8],
    pub id: u32,
    pub room: usize,
    pub list_room: usize,
    pub listed: &'a Listed,
    pub place: u64,
    pub form: Vec<u8>,
    /// What the second reading answers, once it is known: of what is printed it says how much room is needed.
    pub read: OnceCell<Answer>,
    /// The passes that the second reading counted in its last search.
    pub passes: Cell<u64>,
}

impl Case {
    /// The case for a call that is about these records and whose form has these tags, before its rules and the rooms are known.
    pub fn ask(&self, listing: Listing, tags: &[u8]) -> Ask<'_> {
        Ask {
            rules: Rules::RUST,
            listing,
            policy: &self.policy,
            request: &self.request,
            bank: &self.bank,
            record: &self.record,
            id: self.id,
            room: 0,
            list_room: 0,
            listed: &self.listed,
            place: self.place,
            form: self.form(tags),
            read: OnceCell::new(),
            passes: Cell::new(0),
        }
    }

    fn form(&self, tags: &[u8]) -> Vec<u8> {
        match &self.formed {
            _ if tags.is_empty() => Vec::new(),
            Formed::Made(damages) => form_bytes(self, tags, damages),
            Formed::Bytes(bytes) => bytes.clone(),
        }
    }
}

impl Ask<'_> {
    /// The same by other rules.
    pub fn by(&self, rules: Rules) -> Self {
        Ask { rules, read: OnceCell::new(), ..self.clone() }
    }
}

/// The case whole, in hexadecimal, so that it can be asked again anywhere.
impl fmt::Display for Case {
    fn fmt(&self, f: &mut fmt::Formatter<'_>) -> fmt::Result {
        writeln!(f, "policy  ({} bytes) {}", self.policy.len(), hex(&self.policy))?;
        writeln!(f, "request ({} bytes) {}", self.request.len(), hex(&self.request))?;
        writeln!(f, "bank    ({} bytes) {}", self.bank.len(), hex(&self.bank))?;
        writeln!(f, "record  ({} bytes) {}", self.record.len(), hex(&self.record))?;
        match &self.listed {
            Listed::Explained(Listing::Every) => writeln!(f, "list    the explanation of these")?,
            Listed::Explained(Listing::Live) => writeln!(f, "list    the explanation of the live ones")?,
            Listed::Bytes(list) => writeln!(f, "list    ({} bytes) {}", list.len(), hex(list))?,
        }
        match &self.formed {
            Formed::Made(damages) => writeln!(f, "form    made of these, then {damages:?}")?,
            Formed::Bytes(form) => writeln!(f, "form    ({} bytes) {}", form.len(), hex(form))?,
        }
        write!(f, "id {}, place {}, room {:?}, room of the list {:?}", self.id, self.place, self.room, self.list_room)
    }
}

pub fn hex(bytes: &[u8]) -> String {
    bytes.iter().map(|b| format!("{b:02x}")).collect()
}
