//! Cases for `what_would_win` and `decision_margin`: banks in which a lever moved far enough changes the choice.
use super::court::{good, over, rejected, REASONS};
use super::example::{example, example_models};
use super::large::MOST;
use super::random::Random;
use super::spaces::{around, pairs};
use super::{aimed, base, damage, edges, room, Draw, Setting, Visit};
use crate::case::Case;
use crate::second::deciding::decide;
use oracle::kernel::{KernelModel, ALL_PROVIDERS};

pub fn each(visit: Visit) {
    switches(visit);
    stops(visit);
    ranges(visit);
    extremes(visit);
    reasons(visit);
    repeats(visit);
    steps(visit);
    longest(visit);
    sizes(visit);
}

/// The example with its two models in either order, each switched off or on by any number; ids that are listed and not, 0 included.
fn switches(visit: Visit) {
    let enabled = [0, 1, 2, 255];
    for (turned, (first, second)) in pairs(&[false, true], &pairs(&enabled, &enabled)) {
        for (ids, asked) in pairs(&[[1, 2], [0, 1], [1, 0]], &[0, 1, 2, 3]) {
            let mut setting = example();
            for (model, (enabled, id)) in setting.models.iter_mut().zip([(first, ids[0]), (second, ids[1])]) {
                model.enabled = enabled;
                model.model_id = id;
            }
            if turned {
                setting.models.reverse();
            }
            visit(setting.case(asked));
        }
    }
}

/// Stopped by risk or confidence, or just not; an id that isn't listed is refused all the same, and one that is off needs no pass.
fn stops(visit: Visit) {
    for (risk, confidence) in pairs(&around(9_000), &around(2_000)) {
        for (off, asked) in pairs(&[false, true], &[0, 1, 2, 3]) {
            let mut setting = example();
            setting.request.risk_bps = risk;
            setting.request.confidence_bps = confidence;
            for model in &mut setting.models {
                model.risk_ceiling_bps = 10_000;
                model.enabled = u8::from(!off);
            }
            visit(setting.case(asked));
        }
    }
}

/// One model's quality and ceiling below, at and above 10,000 and around the request's own limits; it stands first or second.
fn ranges(visit: Visit) {
    let qualities = [0, 4_999, 5_000, 7_999, 8_000, 9_000, 9_999, 10_000, 10_001, 65_535];
    let ceilings = [0, 999, 1_000, 5_000, 9_999, 10_000, 10_001, 65_535];
    for (place, (quality, ceiling)) in pairs(&[0, 1], &pairs(&qualities, &ceilings)) {
        for (price, latency) in pairs(&[100_000, 3_000_000], &[0, 100, 700]) {
            let mut setting = example();
            let model = &mut setting.models[place];
            model.quality_bps = quality;
            model.risk_ceiling_bps = ceiling;
            model.p95_latency_ms = latency;
            model.input_cost_microunits_per_million_tokens = price;
            visit(setting.case(place as u32 + 1));
        }
    }
}

/// Prices to 2^64 - 1 and delays to 2^32 - 1, charged little, much or not at all, for few tokens and many, with a budget and without.
fn extremes(visit: Visit) {
    let prices = [0, 1, 5_000_000, u64::MAX / 1_000, u64::MAX];
    let latencies = [0, 1, 300, u32::MAX - 1, u32::MAX];
    for (price, latency) in pairs(&prices, &latencies) {
        for (penalty, tokens) in pairs(&[0, 1, 10, u64::MAX], &[0, 1, 100, u32::MAX]) {
            for (budget, limit) in pairs(&[0, 5_000, u64::MAX], &[0, 200]) {
                let mut setting = example();
                setting.policy.latency_penalty_microunits_per_ms = penalty;
                setting.request.input_tokens = tokens;
                setting.request.budget_limit_microunits = budget;
                setting.request.max_p95_latency_ms = limit;
                setting.models[1].input_cost_microunits_per_million_tokens = price;
                setting.models[1].p95_latency_ms = latency;
                visit(setting.case(2));
            }
        }
    }
}

/// A model that is rejected for each reason by a single step: alone, beside a good one, and beside one rejected for another.
fn reasons(visit: Visit) {
    for reason in 0..REASONS {
        visit(over(vec![rejected(reason)]).case(1));
        for other in 0..REASONS {
            visit(over(vec![rejected(reason), rejected(other)]).case(1));
            visit(over(vec![rejected(reason), good(), rejected(other)]).case(1));
            visit(over(vec![good(), rejected(other), rejected(reason)]).case(3));
        }
    }
}

/// Three records of two ids, each good, better, worse, off or rejected: the first listed one with an id is varied, whichever is chosen.
fn repeats(visit: Visit) {
    let better = KernelModel { quality_bps: 8_500, ..good() };
    let worse = KernelModel { p95_latency_ms: 900, ..good() };
    let records = pairs(&[0, 7], &[good(), better, worse, rejected(0), rejected(1), rejected(7)]);
    let records: Vec<KernelModel> =
        records.into_iter().map(|(model_id, model)| KernelModel { model_id, ..model }).collect();
    for (first, (second, third)) in pairs(&records, &pairs(&records, &records)) {
        let setting = Setting { models: vec![first, second, third], ..over(vec![]) };
        visit(setting.case(0));
        visit(setting.case(7));
    }
}

/// Two models that differ by a step or none in quality, delay and price: a lever's boundary is today's value or beside it.
fn steps(visit: Visit) {
    for (quality, (latency, price)) in pairs(&around(8_000), &pairs(&[99, 100, 101], &[99, 100, 101])) {
        for (id, ceiling) in pairs(&[1, 5], &around(1_000)) {
            let mut setting = over(vec![good(), good(), good()]);
            let model = &mut setting.models[1];
            model.model_id = 3;
            model.quality_bps = quality;
            model.p95_latency_ms = latency;
            model.input_cost_microunits_per_million_tokens = price;
            model.risk_ceiling_bps = ceiling;
            setting.models[0].model_id = 4 - id.min(3);
            setting.models.truncate(2 + usize::from(id == 5));
            visit(setting.case(3));
        }
    }
}

/// Two models that differ by a little in delay alone, with their levers far from the other end: the longest searches.
fn longest(visit: Visit) {
    for (quality, behind) in pairs(&[1, 2, 5_000, 9_999, 10_000, 65_535], &[0, 1, 3, 100, 101]) {
        let mut setting = over(vec![good(), good()]);
        setting.request.business_value_microunits = i64::MAX >> 3;
        setting.request.risk_bps = 0;
        setting.request.minimum_quality_bps = 0;
        setting.request.max_p95_latency_ms = 0;
        for model in &mut setting.models {
            model.quality_bps = quality;
            model.p95_latency_ms = u32::MAX - 101;
        }
        setting.models[1].p95_latency_ms += behind;
        visit(setting.case(2));
    }
}

/// The sizes that are asked of every call, but for the largest.
fn sizes(visit: Visit) {
    let mut r = Random::new(900);
    for records in [0, 1, 2, 22] {
        (0..100).for_each(|_| visit(contested(&mut r, records)));
    }
    (0..20).for_each(|_| visit(contested(&mut r, 900)));
    (0..5).for_each(|_| visit(contested(&mut r, 1_394)));
    visit(over(vec![good(); MOST + 1]).case(1));
}

/// Few searches, since each is some hundred passes over 65,535 records.
pub fn largest(visit: Visit) {
    let mut r = Random::new(65_535);
    visit(contested(&mut r, MOST));
    visit(over(vec![good(); MOST]).case(MOST as u32));
}

/// A bank in which several are near each other, asked of one that isn't chosen.
fn contested(r: &mut Random, records: usize) -> Case {
    let setting = contest(r, records);
    let id = id_to_ask_for(r, &setting);
    setting.case(id)
}

/// The example with every number varied.
pub fn contest(r: &mut Random, records: usize) -> Setting {
    let mut setting = example();
    setting.policy.latency_penalty_microunits_per_ms = r.pick(&[0, 1, 10, 10, 10, 30]);
    setting.policy.risk_penalty_multiplier_bps = r.pick(&[0, 5_000, 10_000, 10_000, 20_000]);
    let request = &mut setting.request;
    request.input_tokens = r.between(10, 400) as u32;
    request.output_tokens = r.between(10, 400) as u32;
    request.business_value_microunits = r.between(6_000, 30_000) as i64;
    request.budget_limit_microunits = r.pick(&[1_000, 5_000, 5_000, 100_000, u64::MAX]);
    request.risk_bps = r.between(0, 2_500) as u16;
    request.confidence_bps = r.between(6_000, 10_000) as u16;
    request.minimum_quality_bps = r.pick(&[0, 5_000, 5_000, 7_500]);
    request.max_p95_latency_ms = r.pick(&[0, 0, 0, 150, 250]);
    request.allowed_provider_mask = r.pick(&[ALL_PROVIDERS, ALL_PROVIDERS, ALL_PROVIDERS, 0b1]);
    setting.models = (0..records).map(|at| contender(r, at)).collect();
    setting
}

fn contender(r: &mut Random, at: usize) -> KernelModel {
    let models = example_models();
    KernelModel {
        model_id: at as u32 + 1,
        quality_bps: r.between(6_500, 9_990) as u16,
        risk_ceiling_bps: if r.one_in(4) { r.between(0, 2_500) } else { r.between(1_000, 9_000) } as u16,
        p95_latency_ms: r.between(0, 220) as u32,
        enabled: if r.one_in(9) { edges::enabled(r) } else { 1 },
        input_cost_microunits_per_million_tokens: r.between(100_000, 6_000_000),
        output_cost_microunits_per_million_tokens: r.between(100_000, 16_000_000),
        ..models[r.place(models.len())]
    }
}

/// Mostly a listed id that isn't the chosen one: the others need no search.
pub fn id_to_ask_for(r: &mut Random, setting: &Setting) -> u32 {
    let chosen = decide(&setting.question()).0.model_id;
    let others: Vec<u32> = setting.models.iter().map(|model| model.model_id).filter(|id| *id != chosen).collect();
    match others.is_empty() || r.one_in(8) {
        true => edges::id(r, &setting.models),
        false => r.pick(&others),
    }
}

/// A contest, or now and then any other setting, with a few numbers moved.
pub fn random(draw: Draw) -> Case {
    let mut r = draw.source(0x5ea2c4);
    let records = r.pick(&[1, 2, 2, 2, 3, 3, 3, 4, 5, 6, 8, 22]);
    let mut setting = if r.one_in(5) { base::setting(&mut r, records) } else { contest(&mut r, records) };
    draw.name(&mut setting);
    for _ in 0..r.pick(&[0, 0, 1, 1, 2, 3]) {
        let at = r.place(records);
        match r.below(4) {
            0 => edges::change(&mut r, &mut setting),
            1 => aimed::change(&mut r, &mut setting),
            _ => twist(&mut r, &mut setting, at),
        }
    }
    let mut case = draw.case(&setting, id_to_ask_for(&mut r, &setting));
    if r.one_in(8) {
        case.room = room(&mut r);
        damage(&mut r, &mut case);
    }
    case
}

/// One number of one record goes where a range ends or begins.
pub fn twist(r: &mut Random, setting: &mut Setting, at: usize) {
    let other = setting.models[r.place(setting.models.len())].model_id;
    let model = &mut setting.models[at];
    let ends = [0, 1, 9_999, 10_000, 10_000, 10_001, 65_535];
    match r.below(9) {
        0 => model.quality_bps = r.pick(&ends),
        1 => model.risk_ceiling_bps = r.pick(&ends),
        2 => model.p95_latency_ms = r.pick(&[0, 1, u32::MAX - 1, u32::MAX]),
        3 => model.input_cost_microunits_per_million_tokens = r.pick(&[0, 1, u64::MAX - 1, u64::MAX]),
        4 => model.output_cost_microunits_per_million_tokens = r.pick(&[0, 1, u64::MAX - 1, u64::MAX]),
        5 => model.enabled = edges::enabled(r),
        6 => model.model_id = other,
        7 => model.model_id = 0,
        _ => setting.request.risk_bps = edges::beside(r, model.risk_ceiling_bps),
    }
}
