//! What a batch owes for a row of requests, by what the comparison says of each of them: the comparison's own rows have four requests at most.
use compare::calls::{self, Answer, CALLS};
use compare::case::Case;
use compare::second::bytes::{DECISION_BYTES, REQUEST_BYTES};
use compare::second::refusals::Refusal;

/// The case with the request at a place of its row alone.
fn alone(case: &Case, place: usize) -> Case {
    Case { request: case.request[REQUEST_BYTES * place..][..REQUEST_BYTES].to_vec(), ..case.clone() }
}

/// Of a checked batch the refusal of the first request that `check_request` refuses, with its place; else each decision, without its counts.
pub fn owed(batch: usize, case: &Case) -> Answer {
    let row: Vec<Case> = (0..case.request.len() / REQUEST_BYTES).map(|place| alone(case, place)).collect();
    let refused = |(place, one): (usize, &Case)| -> Option<Refusal> {
        let refusal = CALLS[calls::CHECK].owed_on(one).refusal?;
        Some(Refusal { id_or_place: place as u32, ..refusal })
    };
    if batch == calls::BATCH_CHECKED {
        if let Some(refusal) = row.iter().enumerate().find_map(refused) {
            return refusal.into();
        }
    }
    let decided = |one: &Case| CALLS[calls::PRESCRIBE].owed_on(one).out[..DECISION_BYTES].to_vec();
    Answer { out: row.iter().flat_map(decided).collect(), ..Answer::default() }
}
