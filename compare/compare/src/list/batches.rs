//! Kinds 31 and 32: rows of requests. They stand after all others.
use super::{add, fits, Entry, SEED};
use crate::calls::{BATCH, BATCH_CHECKED};
use crate::case::{Case, Room};
use crate::generate::example::{example, with_request};
use crate::generate::roundings::once;
use crate::generate::{random_case, small_size, Draw, Policies};

const BATCHES: [usize; 2] = [BATCH, BATCH_CHECKED];

pub fn entries(list: &mut Vec<Entry>) {
    for call in BATCHES {
        worked(list, call);
        faults(list, call);
        random(list, call);
    }
}

/// The example's request, none of it and up to four, by either rounding; one that is stopped; one above a limit, first and later in the row.
fn worked(list: &mut Vec<Entry>, call: usize) {
    (0..5).for_each(|many| add(list, call, example().case(many)));
    add(list, call, once(example().case(3)));
    add(list, call, with_request(|q| q.risk_bps = 9_000).case(2));
    add(list, call, with_request(|q| q.confidence_bps = 10_001).case(2));
    let record = [&[0; 6][..], &20_000u16.to_le_bytes(), &[0; 39]].concat();
    add(list, call, Case { record, ..example().case(3) });
}

/// Each refusal with those that come after it: 22 by the count, by the bytes and by the policy, 23, 1, 4.
fn faults(list: &mut Vec<Entry>, call: usize) {
    let case = with_request(|q| q.risk_bps = 10_001).case(2);
    let short = Case { bank: case.bank[1..].to_vec(), room: Room::ShortBy(1), ..case };
    let policy = |bytes: usize| [&short.policy[..30], &[2, 0]].concat()[..bytes].to_vec();
    for place in [15, u64::MAX, (1 << 32) + 15, (1 << 63) + 15] {
        add(list, call, Case { policy: policy(31), place, ..short.clone() });
    }
    add(list, call, Case { policy: policy(31), request: short.request[1..].to_vec(), ..short.clone() });
    add(list, call, Case { policy: policy(32), ..short.clone() });
    add(list, call, Case { policy: policy(31), ..short.clone() });
    add(list, call, short.clone());
    add(list, call, Case { bank: example().case(2).bank, ..short });
    add(list, call, Case { room: Room::LongerBy(3), ..example().case(4) });
}

/// The first so many random cases that have a row and fit an entry.
fn random(list: &mut Vec<Entry>, call: usize) {
    let draw = |number: u64| Draw { seed: SEED + call as u64, number, policies: Policies::Both };
    let cases = (0..).map(|at| random_case(draw(at), small_size)).filter(|case| case.id % 5 != 0 && fits(call, case));
    cases.take(6).for_each(|case| add(list, call, case));
}
