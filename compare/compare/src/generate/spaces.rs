//! Small spaces, each in full: every combination of a few settings where a rule turns.
use super::court::{court, good, over, rejected, REASONS};
use super::edges::VALUES;
use super::random::Random;
use super::{Setting, Visit};
use crate::case::{Case, Room};
use oracle::kernel::{KernelModel, ALL_PROVIDERS};

/// Every space but those of large banks.
pub fn each(visit: Visit) {
    gates(visit);
    stops(visit);
    masks(visit);
    switches(visit);
    tied_counts(visit);
    different_counts(visit);
    ranks(visit);
    repeats(visit);
    costs(visit);
    terms(visit);
    request_limits(visit);
    refusals(visit);
}

/// One record: each of the eight gates failing or not, each way of being priced, each stop.
pub fn gates(visit: Visit) {
    for failing in 0..256_u32 {
        for priced in [good(), rejected(7), rejected(8)] {
            for stop in 0..4 {
                visit(gate_case(failing, priced, stop));
            }
        }
    }
}

/// Gates 5 and 6 both look at the provider: 5 fails by its number, 6 by the mask.
pub fn gate_case(failing: u32, priced: KernelModel, stop: u32) -> Case {
    let mut setting = over(vec![priced]);
    setting.request.allowed_provider_mask = ALL_PROVIDERS;
    let (policy, request, model) = (&mut setting.policy, &mut setting.request, &mut setting.models[0]);
    for gate in (1..=8).filter(|gate| failing >> (gate - 1) & 1 == 1) {
        match gate {
            1 => model.enabled = 0,
            2 => model.quality_bps = 4_999,
            3 => model.p95_latency_ms = 1_001,
            4 => model.capabilities = 0b110,
            5 => model.provider_id = 64,
            6 => request.allowed_provider_mask = !(1 << 3),
            7 => model.region_mask = 0b10,
            _ => model.risk_ceiling_bps = 999,
        }
    }
    if stop & 1 == 1 {
        policy.hard_risk_limit_bps = request.risk_bps;
    }
    if stop & 2 == 2 {
        policy.minimum_confidence_bps = request.confidence_bps + 1;
    }
    setting.case(1)
}

/// Risk around the hard limit with confidence around the minimum, for limits anywhere.
fn stops(visit: Visit) {
    for hard in [0, 1, 9_000, 10_000, 65_535] {
        for minimum in [0, 1, 2_000, 10_000, 65_535] {
            for (risk, confidence) in pairs(&around(hard), &around(minimum)) {
                let mut setting = over(vec![KernelModel { risk_ceiling_bps: u16::MAX, ..good() }]);
                setting.policy.hard_risk_limit_bps = hard;
                setting.policy.minimum_confidence_bps = minimum;
                setting.request.risk_bps = risk;
                setting.request.confidence_bps = confidence;
                visit(setting.case(1));
            }
        }
    }
}

pub fn around(number: u16) -> [u16; 3] {
    [number.saturating_sub(1), number, number.saturating_add(1)]
}

pub fn pairs<A: Copy, B: Copy>(first: &[A], second: &[B]) -> Vec<(A, B)> {
    first.iter().flat_map(|a| second.iter().map(|b| (*a, *b))).collect()
}

/// Each switch, each provider around the last, masks with one bit, all but one, all and none, regions shared or not.
fn masks(visit: Visit) {
    for (enabled, provider) in pairs(&[0, 1, 2, 255], &[0, 1, 62, 63, 64, 65, 127, 128, 65_535]) {
        let bit = 1_u64 << (provider % 64);
        for (allowed, (required, region)) in
            pairs(&[0, bit, !bit, ALL_PROVIDERS], &pairs(&[0, 1, u64::MAX, 1 << 63], &[0, 1, 2, 1 << 63, u64::MAX]))
        {
            let model = KernelModel { enabled, provider_id: provider, region_mask: region, ..good() };
            let mut setting = over(vec![model]);
            setting.request.allowed_provider_mask = allowed;
            setting.request.required_region_mask = required;
            visit(setting.case(1));
        }
    }
}

/// Every number that a switch can have: only 0 is off.
fn switches(visit: Visit) {
    for enabled in 0..=u8::MAX {
        visit(over(vec![KernelModel { enabled, ..good() }]).case(1));
    }
}

/// Every set of reasons that share the largest count: alone, above the others, and beside an eligible record.
fn tied_counts(visit: Visit) {
    for tied in 0..1 << REASONS {
        for (most, least, eligible) in [(1, 0, 0), (2, 1, 0), (1, 0, 1)] {
            visit(tied_case(tied, most, least, eligible));
        }
    }
}

pub fn tied_case(tied: usize, most: usize, least: usize, eligible: usize) -> Case {
    let count = |reason: usize| if tied >> reason & 1 == 1 { most } else { least };
    counted((0..REASONS).map(count), eligible)
}

/// A bank with so many records for each reason.
pub fn counted(counts: impl Iterator<Item = usize>, eligible: usize) -> Case {
    let mut models = vec![good(); eligible];
    for (reason, count) in counts.enumerate() {
        models.extend(vec![rejected(reason); count]);
    }
    over(models).case(1)
}

/// Nine counts that all differ, so that each is seen in its own place.
fn different_counts(visit: Visit) {
    let mut r = Random::new(9);
    for eligible in [0, 1] {
        for least in [0, 1] {
            for _ in 0..100 {
                let order = r.order(REASONS);
                visit(counted(order.into_iter().map(|n| n + least), eligible));
            }
        }
    }
}

/// Three records, the second and third above, equal to or below the first in each of utility, cost, quality and id: every way in
/// which the keys can agree.
fn ranks(visit: Visit) {
    for second in 0..STEPS {
        for third in 0..STEPS {
            visit(rank_case(second, third));
        }
    }
}

/// Three steps in each of four keys.
pub const STEPS: usize = 81;

pub fn rank_case(second: usize, third: usize) -> Case {
    let models = [STEPS / 2, second, third].map(stepped).to_vec();
    Setting { models, ..court() }.case(10)
}

/// Whether these steps leave the first so many keys as they are.
pub fn ties(steps: usize, keys: u32) -> bool {
    let kept = 3_usize.pow(keys);
    steps % kept == STEPS / 2 % kept
}

/// A record that differs from `good` by a step down, none or a step up in each key; the delay makes up for the others.
fn stepped(steps: usize) -> KernelModel {
    let step = |key: u32| (steps / 3_usize.pow(key) % 3) as i64 - 1;
    let (utility, cost, quality, id) = (step(0), step(1), step(2), step(3));
    KernelModel {
        model_id: (10 + id) as u32,
        quality_bps: (8_000 + quality) as u16,
        input_cost_microunits_per_million_tokens: (100 + cost) as u64,
        p95_latency_ms: (100 + quality - cost - utility) as u32,
        ..good()
    }
}

/// Three records of two ids, each good or rejected: the first listed one with an id is meant, even where a later one would do.
fn repeats(visit: Visit) {
    let records = pairs(&[1, 2], &[good(), rejected(0), rejected(7)]);
    let records: Vec<KernelModel> =
        records.into_iter().map(|(model_id, model)| KernelModel { model_id, ..model }).collect();
    for (first, (second, third)) in pairs(&records, &pairs(&records, &records)) {
        for id in 1..=3 {
            visit(Setting { models: vec![first, second, third], ..court() }.case(id));
        }
    }
}

/// Tokens and prices at their edges, where each part is rounded up and the sum is held; a budget at the limit and one below.
pub fn costs(visit: Visit) {
    let tokens = [0, 1, 999_999, 1_000_000, 1_000_001, u32::MAX];
    let prices = [0, 1, (1 << 32) - 1, (1 << 32) + 1, (1 << 63) - 1, u64::MAX];
    for (input_tokens, output_tokens) in pairs(&tokens, &tokens) {
        for (input, output) in pairs(&prices, &prices) {
            for budget in [u64::MAX, u64::MAX - 1] {
                let mut setting = richest(KernelModel {
                    input_cost_microunits_per_million_tokens: input,
                    output_cost_microunits_per_million_tokens: output,
                    ..good()
                });
                setting.request.input_tokens = input_tokens;
                setting.request.output_tokens = output_tokens;
                setting.request.budget_limit_microunits = budget;
                visit(setting.case(1));
            }
        }
    }
}

/// The largest quality term that there is, so that no cost makes the record lose.
pub fn richest(model: KernelModel) -> Setting {
    let mut setting = over(vec![KernelModel { quality_bps: u16::MAX, risk_ceiling_bps: u16::MAX, ..model }]);
    setting.policy.hard_risk_limit_bps = u16::MAX;
    setting.policy.minimum_confidence_bps = 0;
    setting.request.business_value_microunits = i64::MAX;
    setting.request.confidence_bps = u16::MAX;
    setting.request.budget_limit_microunits = u64::MAX;
    setting.request.max_p95_latency_ms = 0;
    setting
}

/// The three terms at their edges.
pub fn terms(visit: Visit) {
    let bps = [0, 1, 10_000, 65_535];
    let delays = [(0, 0), (1, 1), (1 << 32, u32::MAX), (u64::MAX, u32::MAX), (u64::MAX, 1), (u64::MAX, 0)];
    for (value, (confidence, quality)) in pairs(&VALUES, &pairs(&bps, &bps)) {
        for ((risk, multiplier), (penalty, latency)) in pairs(&pairs(&[0, 1, 65_534], &bps), &delays) {
            let mut setting = richest(KernelModel { p95_latency_ms: latency, ..good() });
            setting.models[0].quality_bps = quality;
            setting.policy.risk_penalty_multiplier_bps = multiplier;
            setting.policy.latency_penalty_microunits_per_ms = penalty;
            setting.request.business_value_microunits = value;
            setting.request.confidence_bps = confidence;
            setting.request.minimum_quality_bps = 0;
            setting.request.risk_bps = risk;
            visit(setting.case(1));
        }
    }
}

/// Risk, confidence and minimum quality below, at and above 10,000.
pub fn request_limits(visit: Visit) {
    let numbers = [9_999, 10_000, 10_001, 65_535];
    for (risk, (confidence, quality)) in pairs(&numbers, &pairs(&numbers, &numbers)) {
        let mut setting = over(vec![good()]);
        setting.request.risk_bps = risk;
        setting.request.confidence_bps = confidence;
        setting.request.minimum_quality_bps = quality;
        visit(setting.case(1));
    }
}

/// Every fault with every other: wrong lengths, too little room, request limits, an id that is nowhere.
fn refusals(visit: Visit) {
    let rooms = [Room::ShortBy(usize::MAX), Room::ShortBy(1), Room::Exact, Room::LongerBy(1), Room::LongerBy(40)];
    let lengths = pairs(&[0, 29, 30, 31, 70], &[0, 30, 69, 70, 71]);
    for ((policy, request), bank) in pairs(&lengths, &[0, 1, 46, 47, 48, 93, 94, 95]) {
        for (room, (risk, id)) in pairs(&rooms, &pairs(&[1_000, 10_001], &[1, 2])) {
            let mut setting = over(vec![good(), rejected(0), good()]);
            setting.request.risk_bps = risk;
            let mut case = setting.case(id);
            case.policy.resize(policy, 0);
            case.request.resize(request, 0);
            case.bank.truncate(bank);
            case.room = room;
            visit(case);
        }
    }
}
