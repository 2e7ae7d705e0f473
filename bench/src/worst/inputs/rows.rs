//! Rows of requests over one bank.
use super::*;

/// The requests of a row.
const MANY: usize = 10;

/// The case with its request so many times.
fn row(case: Case, requests: usize) -> Case {
    Case { request: case.request.repeat(requests), ..case }
}

pub fn ten_second_by_id(n: usize) -> Case {
    row(second_by_id(n), MANY)
}

pub fn one_second_by_id(n: usize) -> Case {
    row(second_by_id(n), 1)
}

pub fn ten_first_by_id(n: usize) -> Case {
    row(first_by_id(n), MANY)
}

pub fn ten_no_utility(n: usize) -> Case {
    row(no_utility(n), MANY)
}

pub fn ten_within_64_bits(n: usize) -> Case {
    row(within_64_bits(n), MANY)
}

/// The last request's minimum quality is above 10,000, so that a checked row is refused once all were looked at.
pub fn ten_last_refused(n: usize) -> Case {
    let mut case = ten_second_by_id(n);
    let last = REQUEST_BYTES * (MANY - 1);
    case.request[last + QUALITY_AT..][..2].copy_from_slice(&10_001u16.to_le_bytes());
    case
}
