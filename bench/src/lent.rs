//! A case lent to an exported function: each slice as an address and a length, in the order that the comparison has for the call.
use crate::library::ADDRESSES;
use compare::calls::{Answer, Call, Handed, CALLS};
use compare::case::{Case, Listed};
use compare::second::bytes::REQUEST_BYTES;
use compare::second::rules::Rules;
use compare::second::slots::Listing;

/// Bytes that begin at a multiple of 64, since a copy takes more or fewer instructions by where it begins.
struct Buffer {
    room: Vec<u8>,
    start: usize,
    length: usize,
}

impl Buffer {
    fn of(bytes: &[u8]) -> Self {
        let mut room = vec![0; bytes.len() + 63];
        let start = room.as_ptr().align_offset(64);
        room[start..][..bytes.len()].copy_from_slice(bytes);
        Buffer { room, start, length: bytes.len() }
    }

    fn slice(&mut self) -> [usize; 2] {
        [self.room[self.start..].as_mut_ptr() as usize, self.length]
    }

    fn bytes(&self) -> &[u8] {
        &self.room[self.start..][..self.length]
    }
}

/// The version takes nothing and writes nothing, so that the comparison has no such call.
const VERSION_CALL: Call = Call {
    name: "version",
    takes: &[],
    listing: Listing::Every,
    tags: &[],
    many_passes: false,
    need: |_| 0,
    list_need: |_| 0,
    second: |_| Ok(()),
    rules: |_| Rules::RUST,
    answer: |_, _| Answer::default(),
};
/// Its place behind those of the comparison.
pub const VERSION: usize = CALLS.len();

/// The exported call at a place of the comparison's, or the version.
pub fn call_at(place: usize) -> &'static Call {
    if place == VERSION {
        &VERSION_CALL
    } else {
        &CALLS[place]
    }
}

/// The most arguments that a function takes.
pub const ARGUMENTS: usize = 10;

/// More than any answer takes, but for a form, which has the bank in it.
const OUT_BYTES: usize = 4096;
/// An entry of an explanation.
const ENTRY_BYTES: usize = 72;

/// What a call is handed, in buffers of its own.
pub struct Lent {
    policy: Buffer,
    request: Buffer,
    bank: Buffer,
    record: Buffer,
    list: Buffer,
    form: Buffer,
    out: Buffer,
    id: u32,
    place: u64,
}

impl Lent {
    /// A case as a call takes it, with more room for its answer than it needs. A batch takes as many requests as the case's request has bytes for.
    pub fn of(call: &Call, case: &Case) -> Self {
        let records = case.bank.len() / compare::second::bytes::RECORD_BYTES;
        let list = match &case.listed {
            Listed::Bytes(bytes) => bytes.clone(),
            Listed::Explained(_) => vec![0; ENTRY_BYTES * records],
        };
        Lent {
            policy: Buffer::of(&case.policy),
            request: Buffer::of(&case.request),
            bank: Buffer::of(&case.bank),
            record: Buffer::of(&case.record),
            list: Buffer::of(&list),
            form: Buffer::of(&case.ask(call.listing, call.tags).form),
            out: Buffer::of(&vec![0; OUT_BYTES + case.bank.len()]),
            id: case.id,
            place: case.place,
        }
    }

    /// The function's arguments, and zeros after them.
    pub fn arguments(&mut self, call: &Call) -> [usize; ARGUMENTS] {
        let mut all = Vec::new();
        for taken in call.takes {
            match taken {
                Handed::Policy => all.extend(self.policy.slice()),
                Handed::Request | Handed::Requests => all.extend(self.request.slice()),
                Handed::Count => all.push(self.request.length / REQUEST_BYTES),
                Handed::Bank => all.extend(self.bank.slice()),
                Handed::Record => all.extend(self.record.slice()),
                Handed::Out => all.extend(self.out.slice()),
                Handed::List | Handed::Listed => all.extend(self.list.slice()),
                Handed::Form => all.extend(self.form.slice()),
                Handed::Id => all.push(self.id as usize),
                Handed::Place => all.push(self.place as usize),
            }
        }
        all.resize(ARGUMENTS, 0);
        all.try_into().expect("no function takes more")
    }

    pub fn out(&self) -> &[u8] {
        self.out.bytes()
    }

    pub fn list(&self) -> &[u8] {
        self.list.bytes()
    }

    pub fn bank(&self) -> &[u8] {
        self.bank.bytes()
    }

    pub fn policy(&self) -> &[u8] {
        self.policy.bytes()
    }
}

/// Where the exported function of a call is.
pub fn address(call: &Call) -> usize {
    let name = format!("volankizo_{}", call.name);
    let (_, address) = ADDRESSES.iter().find(|(known, _)| *known == name).expect("the library has every call");
    address()
}
