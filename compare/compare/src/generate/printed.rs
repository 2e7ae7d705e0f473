//! Cases for what the programs print: inputs that pass their tests, and each fault with each other one.
use super::catalogues::{make_sound, sound, FAULTS};
use super::court::{good, over};
use super::example::{example, rows, with_models};
use super::lists::mixed;
use super::random::Random;
use super::searches::{contest, id_to_ask_for, twist};
use super::spaces::{pairs, request_limits, tied_case};
use super::{aimed, base, edges, room, Draw, Setting, Visit};
use crate::case::{Case, Formed, Room};
use crate::form::Damage;
use oracle::kernel::KernelInput;

pub fn each(visit: Visit) {
    worked(visit);
    faults(visit);
    tests_in_order(visit);
    request_limits(visit);
    rooms(visit);
    switches(visit);
    reasons(visit);
    widest(visit);
    sizes(visit);
}

/// The worked rows, asked about each model and about none.
fn worked(visit: Visit) {
    for setting in rows() {
        (0..=3).for_each(|id| visit(setting.case(id)));
    }
}

/// Each fault of a catalogue, alone and with each other one.
fn faults(visit: Visit) {
    for ((first, at), (second, beside)) in pairs(&pairs(&FAULTS, &[0, 2]), &pairs(&FAULTS, &[0, 1])) {
        let mut setting = sound(&[30, 20, 10]);
        first(&mut setting, at);
        second(&mut setting, beside);
        visit(setting.case(20));
    }
}

/// The tests meet: a damaged form, too many models, a fault of the catalogue, one of the request, an id that isn't listed.
fn tests_in_order(visit: Visit) {
    for faults in 0..32_u32 {
        let has = |fault: u32| faults >> fault & 1 == 1;
        let mut setting = over(vec![good(); if has(1) { 901 } else { 3 }]);
        if has(2) {
            setting.models[2].provider_id = 64;
        }
        if has(3) {
            setting.request.confidence_bps = 10_001;
        }
        let mut case = setting.case(if has(4) { 0 } else { 2 });
        if has(0) {
            case.formed = Formed::Made(vec![Damage::Tail(1, 3)]);
        }
        visit(case);
    }
}

/// Every room up to a few bytes more than is needed.
fn rooms(visit: Visit) {
    let refused = with_models(|models| models.clear());
    for setting in [example(), refused] {
        for short in 0..=250 {
            visit(Case { room: Room::ShortBy(short), ..setting.case(1) });
        }
        for more in [1, 2, 3, 1_000] {
            visit(Case { room: Room::LongerBy(more), ..setting.case(1) });
        }
    }
}

/// The example with its models switched off or on by any number, and stopped or not: each sentence that there is.
fn switches(visit: Visit) {
    let enabled = [0, 1, 2, 255];
    for ((first, second), (risk, id)) in pairs(&pairs(&enabled, &enabled), &pairs(&[1_000, 8_001, 9_000], &[0, 1, 2])) {
        let mut setting = example();
        setting.models[0].enabled = first;
        setting.models[1].enabled = second;
        setting.models[1].model_id = if risk == 1_000 { 2 } else { 0 };
        setting.request.risk_bps = risk;
        visit(setting.case(id));
    }
}

/// Every set of reasons that share the largest count, so that every count is printed.
fn reasons(visit: Visit) {
    (0..512).for_each(|tied| visit(tied_case(tied, 2, 1, 0)));
}

/// Numbers of as many digits as there can be.
fn widest(visit: Visit) {
    for (id, tokens) in pairs(&[1, u32::MAX], &[0, 1, u32::MAX]) {
        for (price, value) in pairs(&[0, 1, u64::MAX], &[i64::MIN, 0, i64::MAX]) {
            let mut setting = example();
            setting.policy.policy_epoch = u64::MAX;
            setting.policy.catalog_epoch = u64::MAX;
            setting.policy.latency_penalty_microunits_per_ms = 0;
            setting.request = KernelInput {
                request_sequence: u64::MAX,
                requested_model_id: id,
                input_tokens: tokens,
                business_value_microunits: value,
                budget_limit_microunits: u64::MAX,
                ..setting.request
            };
            for (model, at) in setting.models.iter_mut().zip(0..) {
                model.model_id = u32::MAX - at;
                model.quality_bps = 10_000;
                model.p95_latency_ms = 1_000_000_000 + at;
                model.input_cost_microunits_per_million_tokens = price;
            }
            visit(setting.case(u32::MAX));
            visit(setting.case(u32::MAX - 1));
        }
    }
}

/// The sizes that the program takes, and one more.
fn sizes(visit: Visit) {
    for records in [0, 1, 2, 22, 900, 901, 1_394] {
        for stop in 0..=2 {
            visit(mixed(records, stop).case(records as u32));
            visit(mixed(records, stop).case(1));
        }
    }
}

/// A setting that passes the program's tests, but for what is moved then; of a contest or of any other kind.
pub fn random(draw: Draw) -> Case {
    let mut r = draw.source(0x9214);
    let records = if r.one_in(500) { r.pick(&[900, 901]) } else { r.pick(&[1, 1, 2, 2, 2, 3, 3, 4, 5, 8, 22]) };
    let mut setting = passing(draw, &mut r, records);
    for _ in 0..r.pick(&[0, 0, 0, 1, 1, 2]) {
        // A fault may have left no model.
        let Some(at) = setting.any_place(&mut r) else {
            break;
        };
        match r.below(5) {
            0 => edges::change(&mut r, &mut setting),
            1 => aimed::change(&mut r, &mut setting),
            2 => r.pick(&FAULTS)(&mut setting, at),
            _ => twist(&mut r, &mut setting, at),
        }
    }
    let mut case = draw.case(&setting, id_to_ask_for(&mut r, &setting));
    if r.one_in(6) {
        case.room = room(&mut r);
    }
    case
}

fn passing(draw: Draw, r: &mut Random, records: usize) -> Setting {
    let contested = !r.one_in(3);
    let mut setting = if contested { contest(r, records) } else { base::setting(r, records) };
    draw.name(&mut setting);
    if contested {
        return setting;
    }
    make_sound(r, &mut setting);
    let (request, models) = (&mut setting.request, &mut setting.models);
    request.risk_bps %= 10_001;
    request.confidence_bps %= 10_001;
    request.minimum_quality_bps %= 10_001;
    let on = r.place(models.len().max(1));
    if let Some(model) = models.get_mut(on) {
        model.enabled = 1;
    }
    setting
}
