//! `next_eligible`: the place of the first eligible record of an explanation, from a place on.
use super::{bank, question, Answer, Call, Handed, PLAIN};
use crate::case::{Ask, Listed};
use crate::judges::Judge;
use crate::second::deciding::{explain, Question};
use crate::second::explanation::{explanation_bytes, next_eligible, NEXT_BYTES};
use crate::second::refusals::{self, Passed};

pub const CALL: Call =
    Call { name: "next_eligible", takes: &[Handed::Listed, Handed::Place, Handed::Out], need, second, answer, ..PLAIN };

fn need(_: &Ask) -> usize {
    NEXT_BYTES
}

/// 4.
fn second(ask: &Ask) -> Passed {
    refusals::room(ask.room, NEXT_BYTES)
}

/// Of an explanation each judge says which records are eligible; of any other bytes the second reading does.
fn answer(ask: &Ask, judge: &dyn Judge) -> Answer {
    let of = |next: u64| Answer::of(next.to_le_bytes().to_vec());
    match explained(ask) {
        Some(question) => of(judge.next_eligible(&question, ask.place)),
        None => of(next_eligible(&list_to_read(ask), ask.place)).second(),
    }
}

/// What is explained, where that is the list and there is one: of a question that would be refused there is none.
fn explained(ask: &Ask) -> Option<Question> {
    let Listed::Explained(listing) = *ask.listed else {
        return None;
    };
    let ask = Ask { listing, ..ask.clone() };
    let sound = refusals::policy_and_request(ask.policy, ask.request).is_ok() && bank(&ask).is_ok();
    sound.then(|| question(&ask))
}

pub fn list_to_read(ask: &Ask) -> Vec<u8> {
    match ask.listed {
        Listed::Bytes(list) => list.clone(),
        Listed::Explained(_) => explained(ask).map_or(Vec::new(), |question| explanation_bytes(&explain(&question))),
    }
}
