//! Searches, for a call and for a printed text: levers with boundaries at the end of the longest ways.
use super::*;

/// The quality and ceiling of the chosen record, and the quality of the others by which searches end where more of their passes are of the longer
/// kind: the highest that there are, and the highest that may serve.
const HIGHEST: (u16, u16) = (u16::MAX, 32_767);
const SOUND: (u16, u16) = (10_000, 3_000);

/// The last record is chosen, and loses by each of its four levers somewhere in the widest range that a record of `most` quality and ceiling has.
fn chosen(n: usize, ids: Ids, (most, others): (u16, u16)) -> Setting {
    let mut setting = alike(n, ids);
    setting.policy = policy(4_000_000_000);
    setting.models.iter_mut().for_each(|m| m.quality_bps = others);
    let last = setting.models.last_mut().expect("there is a record");
    last.quality_bps = most;
    last.risk_ceiling_bps = most;
    last.p95_latency_ms = 0;
    last.output_cost_microunits_per_million_tokens = 20_501_000_000_000_000;
    setting
}

/// The last record is outranked, and wins by its quality, its latency or its price alone, with the widest ranges.
fn outranked(n: usize, ids: Ids) -> Setting {
    let mut setting = alike(n, ids);
    setting.policy = policy(30_000);
    let last = setting.models.last_mut().expect("there is a record");
    last.quality_bps = 2;
    last.p95_latency_ms = u32::MAX;
    last.output_cost_microunits_per_million_tokens = 130_000_000_000_000;
    setting
}

pub fn four_levers(n: usize) -> Case {
    about_last(chosen(n, Ids::LowestThenDescending, HIGHEST))
}

pub fn four_levers_by_10_000(n: usize) -> Case {
    about_last(chosen(n, Ids::LowestThenDescending, SOUND))
}

pub fn four_levers_without_allowance(n: usize) -> Case {
    shortened(four_levers(n), POLICY_BYTES)
}

pub fn three_levers(n: usize) -> Case {
    about_last(outranked(n, Ids::LowestThenDescending))
}

pub fn three_levers_without_allowance(n: usize) -> Case {
    shortened(three_levers(n), POLICY_BYTES)
}

/// The ceiling alone is searched to its end: the record stands at no other gate, but below the request's risk.
pub fn ceiling_alone(n: usize) -> Case {
    let mut setting = outranked(n, Ids::LowestThenDescending);
    setting.request.risk_bps = 2;
    let last = setting.models.last_mut().expect("there is a record");
    *last = KernelModel { quality_bps: 2, risk_ceiling_bps: 1, ..model(last.model_id) };
    about_last(setting)
}

pub fn switched_off(n: usize) -> Case {
    let mut setting = outranked(n, Ids::LowestThenDescending);
    setting.models.last_mut().expect("there is a record").enabled = 0;
    about_last(setting)
}

/// The chosen record stays chosen by its latency, its price and its ceiling, so that the bank is decided once.
pub fn quality_alone(n: usize) -> Case {
    let mut setting = alike(n, Ids::LowestThenDescending);
    setting.policy = policy(0);
    setting.request.risk_bps = 0;
    setting.models.last_mut().expect("there is a record").quality_bps = u16::MAX;
    about_last(setting)
}

pub fn four_levers_lowest_last(n: usize) -> Case {
    about_last(chosen(n, Ids::LowestLast, SOUND))
}

pub fn four_levers_in_order(n: usize) -> Case {
    about_last(chosen(n, Ids::Ascending, SOUND))
}

pub fn four_levers_descending(n: usize) -> Case {
    about_last(chosen(n, Ids::Descending, SOUND))
}

pub fn three_levers_lowest_last(n: usize) -> Case {
    about_last(outranked(n, Ids::LowestLast))
}

pub fn three_levers_descending(n: usize) -> Case {
    about_last(outranked(n, Ids::Descending))
}

pub fn three_levers_in_order(n: usize) -> Case {
    about_last(outranked(n, Ids::Ascending))
}

/// Every lookup goes far: the requested model is nowhere, the one asked about stands last, and the chosen one before it.
pub fn three_levers_chosen_late(n: usize) -> Case {
    about_last(outranked(n, Ids::LowestLate))
}

/// The same for a model that costs more than the request has: what it lacks is told in other words, and no rank.
pub fn three_levers_over_budget(n: usize) -> Case {
    let mut setting = outranked(n, Ids::LowestLate);
    setting.request.budget_limit_microunits = 100_000_000_000_000;
    about_last(setting)
}

/// The requested model is the first that is listed, so that it is found at once.
pub fn three_levers_requested_first(n: usize) -> Case {
    let mut setting = outranked(n, Ids::LowestLate);
    setting.request.requested_model_id = setting.models[0].model_id;
    about_last(setting)
}
