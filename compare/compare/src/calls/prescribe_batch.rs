//! `prescribe_batch` and `prescribe_batch_checked`: a row of requests. The row is made of the case, as many requests as the id says: its request, and
//! after it others that have bytes of the record which is offered. The count is theirs, unless the place is one that says another.
use super::{bank, Answer, Call, Handed, PLAIN};
use crate::case::Ask;
use crate::judges::Judge;
use crate::second::bytes::{decision_bytes, policy_of, request_of, DECISION_BYTES, REQUEST_BYTES};
use crate::second::deciding::Question;
use crate::second::refusals::{self, Passed, Refusal};

pub const CALL: Call = Call {
    name: "prescribe_batch",
    takes: &[Handed::Policy, Handed::Requests, Handed::Count, Handed::Bank, Handed::Out],
    need,
    second,
    answer: |ask, judge| Answer::of(decided(ask, judge)),
    ..PLAIN
};

/// The same, then 3 of the first request that a judge refuses, with its place.
pub const CHECKED: Call = Call { name: "prescribe_batch_checked", answer: checked, ..CALL };

/// The most requests of a row.
const MOST: u32 = 4;
/// A place that leaves this over, divided by 16, is the count that is told.
const TOLD: u64 = 15;

fn many(ask: &Ask) -> usize {
    (ask.id % (MOST + 1)) as usize
}

/// The requests' bytes.
pub fn row(ask: &Ask) -> Vec<u8> {
    (0..many(ask)).flat_map(|place| request(ask, place)).collect()
}

/// How many requests they are said to be.
pub fn count(ask: &Ask) -> u64 {
    if ask.place % 16 == TOLD {
        return ask.place;
    }
    many(ask) as u64
}

/// The request at a place of the row: the case's with its budget, its risk and confidence, or its sequence taken from the record.
fn request(ask: &Ask, place: usize) -> Vec<u8> {
    let (at, from, width) = [(0, 0, 0), (28, 31, 4), (36, 6, 4), (0, 0, 8)][place];
    let mut request = ask.request.to_vec();
    for (byte, other) in request.iter_mut().skip(at).zip(ask.record.iter().skip(from).take(width)) {
        *byte = *other;
    }
    request
}

fn need(ask: &Ask) -> usize {
    many(ask) * DECISION_BYTES
}

/// 22 of the policy, of the requests or of their count, 23, 1, 2, 4.
fn second(ask: &Ask) -> Passed {
    refusals::policy_and_requests(ask.policy, &row(ask), count(ask))?;
    bank(ask)?;
    refusals::room(ask.room, need(ask))
}

fn questions(ask: &Ask) -> Vec<Question> {
    let policy = policy_of(ask.policy).by(ask.rules);
    let over = |bytes: &[u8]| Question { policy, request: request_of(bytes), records: ask.listing.records(ask.bank) };
    row(ask).chunks(REQUEST_BYTES).map(over).collect()
}

fn decided(ask: &Ask, judge: &dyn Judge) -> Vec<u8> {
    questions(ask).iter().flat_map(|question| decision_bytes(&judge.decision(question).0)).collect()
}

fn checked(ask: &Ask, judge: &dyn Judge) -> Answer {
    for (place, question) in questions(ask).iter().enumerate() {
        if let Err(refusal) = judge.request_limits(&question.request) {
            return Refusal { id_or_place: place as u32, ..refusal }.into();
        }
    }
    Answer::of(decided(ask, judge))
}
