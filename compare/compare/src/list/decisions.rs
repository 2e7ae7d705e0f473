//! Kinds 1 to 5: decisions, utilities, places, and the request's limits.
use super::{add, whole, Entry, SEED};
use crate::calls::{CALLS, CHECK, CHECKED, FIND, PRESCRIBE, UTILITY};
use crate::case::{Case, Room};
use crate::generate::court::{good, rejected, REASONS};
use crate::generate::example::{example, rows, with_request};
use crate::generate::spaces::{counted, gate_case, rank_case, request_limits, tied_case, ties, STEPS};
use crate::generate::{random_case, small_size, Draw, Policies};
use crate::second::refusals::{Refusal, NO_UTILITY};

pub fn entries(list: &mut Vec<Entry>) {
    worked(list);
    lengths(list);
    small_spaces(list);
    for (call, number) in [(PRESCRIBE, 36), (CHECKED, 32), (UTILITY, 48), (FIND, 20), (CHECK, 8)] {
        random(list, call, number);
    }
}

/// Document 01's worked rows: (A), (D), (E), (F) twice, (G) to (K).
fn worked(list: &mut Vec<Entry>) {
    rows().iter().for_each(|setting| add(list, PRESCRIBE, setting.case(1)));
    let example = example();
    add(list, CHECKED, example.case(1));
    for id in 0..=3 {
        add(list, UTILITY, example.case(id));
        add(list, FIND, example.case(id));
    }
}

/// A bank, a policy, a request and a buffer whose length is wrong by a byte, also where the request is wrong too: they come first.
fn lengths(list: &mut Vec<Entry>) {
    for setting in [example(), with_request(|q| q.risk_bps = 10_001)] {
        let case = setting.case(2);
        for call in [PRESCRIBE, CHECKED, UTILITY, FIND] {
            add(list, call, Case { bank: case.bank[1..].to_vec(), ..case.clone() });
            add(list, call, Case { bank: [&case.bank[..], &[0]].concat(), ..case.clone() });
            add(list, call, Case { room: Room::ShortBy(1), ..case.clone() });
        }
    }
    let case = example().case(2);
    for call in [PRESCRIBE, CHECKED, UTILITY, CHECK] {
        add(list, call, Case { request: case.request[1..].to_vec(), room: Room::LongerBy(3), ..case.clone() });
    }
    add(list, PRESCRIBE, Case { policy: case.policy[1..].to_vec(), ..case.clone() });
    add(list, PRESCRIBE, Case { room: Room::LongerBy(3), ..case });
}

fn small_spaces(list: &mut Vec<Entry>) {
    gates(list);
    counts(list);
    ranks(list);
    limits(list);
}

/// One gate failing, and two, of which the first counts; each way of being priced; each stop.
fn gates(list: &mut Vec<Entry>) {
    for first in 0..8 {
        for second in 0..=first {
            add(list, PRESCRIBE, gate_case(1 << first | 1 << second, good(), 0));
        }
    }
    for priced in [good(), rejected(7), rejected(8)] {
        add(list, PRESCRIBE, gate_case(0, priced, 0));
    }
    for stop in 1..4 {
        add(list, PRESCRIBE, gate_case(0, good(), stop));
    }
}

/// Each two reasons with the same count; then counts of 1, 2 and 3 for each three neighbours.
fn counts(list: &mut Vec<Entry>) {
    for first in 0..REASONS {
        for second in 0..first {
            add(list, PRESCRIBE, tied_case(1 << first | 1 << second, 1, 0, 0));
        }
    }
    for turn in 0..REASONS {
        let mut counts = [1, 2, 3, 0, 0, 0, 0, 0, 0];
        counts.rotate_right(turn);
        add(list, PRESCRIBE, counted(counts.into_iter(), 1));
    }
}

/// Equal utilities: the cost decides, or with equal costs the quality, the id, the place.
fn ranks(list: &mut Vec<Entry>) {
    for second in 0..STEPS {
        if ties(second, 1) {
            add(list, PRESCRIBE, rank_case(second, 0));
        }
        for third in (0..=second).filter(|third| ties(second, 2) && ties(*third, 2)) {
            add(list, PRESCRIBE, rank_case(second, third));
        }
    }
}

/// The request's three limits below, at and above 10,000.
fn limits(list: &mut Vec<Entry>) {
    let mut at = 0;
    request_limits(&mut |case| {
        if at % 4 == 3 {
            add(list, CHECKED, case.clone());
        }
        add(list, CHECK, case);
        at += 1;
    });
}

/// The first so many random cases whose policy and request have their lengths. Of those without a utility
/// to tell every third is kept, since most ids have none.
fn random(list: &mut Vec<Entry>, call: usize, number: usize) {
    let draw = |number: u64| Draw { seed: SEED + call as u64, number, policies: Policies::Apart };
    let cases = (0..).map(|at| (at, random_case(draw(at), small_size)));
    let kept = cases
        .filter(|(_, case)| whole(case))
        .map(|(at, case)| (at, Case { room: Room::Exact, ..case }))
        .filter(|(at, case)| at % 3 == 0 || CALLS[call].owed_on(case) != Refusal::of(NO_UTILITY).into());
    kept.take(number).for_each(|(_, case)| add(list, call, case));
}
