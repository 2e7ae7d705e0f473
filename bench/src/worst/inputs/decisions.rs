//! Decisions and explanations: which record takes longest to be judged and ranked.
use super::*;

pub fn second_by_id(n: usize) -> Case {
    about_last(alike(n, Ids::LowestThenDescending))
}

pub fn first_by_id(n: usize) -> Case {
    about_last(alike(n, Ids::Descending))
}

pub fn behind_by_id(n: usize) -> Case {
    about_last(alike(n, Ids::Ascending))
}

pub fn behind_by_place(n: usize) -> Case {
    about_last(alike(n, Ids::All(9)))
}

/// Each is cheaper than the one before, so that it is the first by its utility.
pub fn first_by_utility(n: usize) -> Case {
    let mut setting = alike(n, Ids::Ascending);
    for (at, model) in setting.models.iter_mut().enumerate() {
        model.output_cost_microunits_per_million_tokens += 10 * (n - at) as u64;
    }
    about_last(setting)
}

pub fn no_utility(n: usize) -> Case {
    let mut setting = alike(n, Ids::Ascending);
    setting.models.iter_mut().for_each(|m| m.output_cost_microunits_per_million_tokens = u64::MAX);
    about_last(setting)
}

pub fn over_budget(n: usize) -> Case {
    let mut setting = alike(n, Ids::Ascending);
    setting.request.budget_limit_microunits = 1;
    about_last(setting)
}

pub fn last_gate(n: usize) -> Case {
    let mut setting = alike(n, Ids::Ascending);
    setting.models.iter_mut().for_each(|m| m.risk_ceiling_bps = 0);
    about_last(setting)
}

pub fn rounds_once(n: usize) -> Case {
    let mut setting = alike(n, Ids::LowestThenDescending);
    setting.policy.rounding = Rounding::Once;
    about_last(setting)
}

pub fn without_allowance(n: usize) -> Case {
    shortened(second_by_id(n), POLICY_BYTES)
}

/// No latency reaches the allowance, so that nothing is taken off.
pub fn below_allowance(n: usize) -> Case {
    let mut setting = alike(n, Ids::LowestThenDescending);
    setting.models.iter_mut().for_each(|m| m.p95_latency_ms = ALLOWANCE - 1);
    about_last(setting)
}

/// Fewer gates have anything to ask.
pub fn asks_nothing(n: usize) -> Case {
    let mut setting = alike(n, Ids::LowestThenDescending);
    setting.request.max_p95_latency_ms = 0;
    setting.request.required_capabilities = 0;
    setting.request.required_region_mask = 0;
    about_last(setting)
}

pub fn within_64_bits(n: usize) -> Case {
    let mut setting = alike(n, Ids::LowestThenDescending);
    setting.request.business_value_microunits = 1 << 33;
    setting.models.iter_mut().for_each(|m| {
        m.quality_bps = 10_000;
        m.input_cost_microunits_per_million_tokens = 1;
        m.output_cost_microunits_per_million_tokens = 1;
    });
    about_last(setting)
}

/// Digits of a quotient that are mostly ones, so that the long division subtracts more often.
pub fn other_digits(n: usize) -> Case {
    let mut setting = alike(n, Ids::LowestThenDescending);
    setting.request.business_value_microunits = i64::MAX;
    setting.request.confidence_bps = 9_999;
    setting.models.iter_mut().for_each(|m| {
        m.quality_bps = 65_535;
        m.input_cost_microunits_per_million_tokens = (1 << 60) - 1;
        m.output_cost_microunits_per_million_tokens = (1 << 61) - 1;
    });
    about_last(setting)
}

/// Both prices take the long way by themselves.
pub fn both_prices_long(n: usize) -> Case {
    let mut setting = alike(n, Ids::LowestThenDescending);
    setting.models.iter_mut().for_each(|m| m.input_cost_microunits_per_million_tokens = LONG_PRICE);
    about_last(setting)
}

pub fn id_nowhere(n: usize) -> Case {
    Case { id: u32::MAX, ..second_by_id(n) }
}

fn list(n: usize, eligible: impl Fn(usize) -> bool) -> Case {
    let mut bytes = vec![0; ENTRY_BYTES * n];
    (0..n).filter(|at| eligible(*at)).for_each(|at| bytes[ENTRY_BYTES * at + VERDICT_AT] = ELIGIBLE);
    Case { listed: Listed::Bytes(bytes), ..second_by_id(1) }
}

pub fn none_eligible(n: usize) -> Case {
    list(n, |_| false)
}

pub fn last_eligible(n: usize) -> Case {
    list(n, |at| at + 1 == n)
}
