//! Settings with one field moved to a limit that decides something for one of their records: at the limit, or a step beside it.
//! What a record costs and earns is asked of the second reading, by the rules that the setting's policy names.
use super::edges::{beside, change_model};
use super::random::Random;
use super::Setting;
use crate::second::deciding::{decide, explain, Question, Verdict};
use crate::second::price::Terms;
use oracle::kernel::KernelInput;

pub fn change(r: &mut Random, setting: &mut Setting) {
    let Some(at) = setting.any_place(r) else {
        return;
    };
    match r.below(18) {
        0..=1 => budget(r, setting, at),
        2..=3 => utility(r, setting, at),
        4 => stop(r, setting),
        5..=6 => model_limits(r, setting, at),
        7 => capabilities(r, setting, at),
        8 => providers(r, setting, at),
        9 => regions(r, setting, at),
        10 => requested(setting),
        11..=12 => products(r, setting, at),
        _ => copy(r, setting, at),
    }
}

/// The terms of one record, had the budget no limit: none where a gate or the request's own limits stop it.
fn terms(setting: &Setting, at: usize) -> Option<Terms> {
    let request = KernelInput { budget_limit_microunits: u64::MAX, ..setting.request };
    let alone = Question::over(setting.policy, request, vec![setting.models[at]]);
    match explain(&alone).first()?.verdict {
        Verdict::Eligible(terms) | Verdict::NonPositive(terms) => Some(terms),
        _ => None,
    }
}

/// The budget at the record's exact cost, or one below or above.
fn budget(r: &mut Random, setting: &mut Setting, at: usize) {
    if let Some(terms) = terms(setting, at) {
        let cost = terms.cost;
        setting.request.budget_limit_microunits = r.pick(&[cost, cost.saturating_sub(1), cost.saturating_add(1)]);
    }
}

/// The record's utility at 0, or one below or above: with a penalty of 1 the delay takes the rest away, a unit a millisecond that isn't free.
fn utility(r: &mut Random, setting: &mut Setting, at: usize) {
    setting.policy.latency_penalty_microunits_per_ms = 1;
    let Some(terms) = terms(setting, at) else {
        return;
    };
    let excess = terms.utility - r.pick(&[0, 0, 1, -1]);
    let model = &mut setting.models[at];
    let from = model.p95_latency_ms.max(setting.policy.latency_allowance_ms);
    if let Ok(latency) = u32::try_from(i64::from(from).saturating_add(excess)) {
        model.p95_latency_ms = latency;
    }
}

/// Risk around the hard limit, or confidence around the minimum.
fn stop(r: &mut Random, setting: &mut Setting) {
    if r.one_in(2) {
        setting.request.risk_bps = beside(r, setting.policy.hard_risk_limit_bps);
    } else {
        setting.request.confidence_bps = beside(r, setting.policy.minimum_confidence_bps);
    }
}

/// Risk around the record's ceiling, minimum quality around its quality, the latency limit around its latency.
fn model_limits(r: &mut Random, setting: &mut Setting, at: usize) {
    let model = setting.models[at];
    let latency = model.p95_latency_ms;
    match r.below(3) {
        0 => setting.request.risk_bps = beside(r, model.risk_ceiling_bps),
        1 => setting.request.minimum_quality_bps = beside(r, model.quality_bps),
        _ => setting.request.max_p95_latency_ms = r.pick(&[latency, latency.saturating_sub(1), 0]),
    }
}

/// Just what the record has, or one bit more.
fn capabilities(r: &mut Random, setting: &mut Setting, at: usize) {
    let bit = 1 << r.below(64);
    let more = r.pick(&[0, bit]);
    setting.request.required_capabilities = setting.models[at].capabilities | more;
}

/// The record's provider alone, all but it, its neighbours; a provider above 63 has no bit.
fn providers(r: &mut Random, setting: &mut Setting, at: usize) {
    let bit = 1_u64.checked_shl(u32::from(setting.models[at].provider_id)).unwrap_or(0);
    setting.request.allowed_provider_mask = r.pick(&[bit, !bit, bit << 1, bit >> 1]);
}

/// Regions that the record shares in part, or not at all; all of them; none asked for. A record of no region fails where any is.
fn regions(r: &mut Random, setting: &mut Setting, at: usize) {
    if r.one_in(4) {
        setting.models[at].region_mask = 0;
    }
    let region = setting.models[at].region_mask;
    let part = region & r.draw();
    setting.request.required_region_mask = r.pick(&[region, !region, part, u64::MAX, 0]);
}

/// The request asks for the very model that is chosen.
fn requested(setting: &mut Setting) {
    setting.request.requested_model_id = decide(&setting.question()).0.model_id;
}

/// A product beside 2^32, 2^48, 2^63 or 2^64, where code may go over to another way of computing. No answer may show it.
fn products(r: &mut Random, setting: &mut Setting, at: usize) {
    let (request, model) = (&mut setting.request, &mut setting.models[at]);
    let (confidence, quality) = (u64::from(request.confidence_bps), u64::from(model.quality_bps));
    let (tokens, latency) = (u64::from(request.input_tokens), u64::from(model.p95_latency_ms));
    match r.below(4) {
        0 => model.input_cost_microunits_per_million_tokens = edge_over(r, tokens),
        1 => setting.policy.latency_penalty_microunits_per_ms = edge_over(r, latency),
        2 => request.business_value_microunits = edge_over(r, confidence) as i64,
        _ => request.business_value_microunits = edge_over(r, confidence * quality) as i64,
    }
}

/// What brings a product with this factor to an edge, or one step beside.
fn edge_over(r: &mut Random, factor: u64) -> u64 {
    let edge = 1_u128 << r.pick(&[32, 48, 63, 64]);
    let other = u64::try_from(edge / u128::from(factor.max(1))).unwrap_or(u64::MAX);
    r.pick(&[other.saturating_sub(1), other, other.saturating_add(1)])
}

/// The record once more over another one, as it is or with one field changed: a tie in some of the keys.
fn copy(r: &mut Random, setting: &mut Setting, at: usize) {
    let mut copy = setting.models[at];
    let (latency, price) = (copy.p95_latency_ms, copy.input_cost_microunits_per_million_tokens);
    let to = r.place(setting.models.len());
    match r.below(7) {
        0 => {}
        1 => copy.model_id = copy.model_id.wrapping_add(1),
        2 => copy.model_id = copy.model_id.wrapping_sub(1),
        3 => copy.quality_bps = beside(r, copy.quality_bps),
        4 => copy.p95_latency_ms = r.pick(&[latency.saturating_sub(1), latency.saturating_add(1)]),
        5 => {
            copy.input_cost_microunits_per_million_tokens = r.pick(&[price.saturating_sub(1), price.saturating_add(1)])
        }
        _ => change_model(r, &mut copy, &[setting.request.minimum_quality_bps, setting.request.risk_bps]),
    }
    setting.models[to] = copy;
}
