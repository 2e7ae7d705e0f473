//! Kinds 17 to 19: what the unit's program prints, and the question from the desk in lines and in words.
use super::{add, random, Entry};
use crate::calls::{ASK, UNIT, WORDS};
use crate::case::{Case, Room};
use crate::form::Damage;
use crate::generate::catalogues::{sound, FAULTS};
use crate::generate::example::{example, rows, with_models, with_request};
use crate::generate::forms::damaged;
use crate::generate::lists::mixed;
use crate::generate::printed as generated;
use oracle::kernel::{KernelInput, KernelModel};

pub fn entries(list: &mut Vec<Entry>) {
    worked(list);
    faults(list);
    sentences(list);
    rooms(list);
    for (call, number) in [(UNIT, 14), (ASK, 12), (WORDS, 18)] {
        random(list, call, number, generated::random);
    }
    // As many models as the program takes: one answer, since each entry is 42,000 bytes.
    add(list, UNIT, mixed(900, 0).case(1));
}

/// The worked rows, and for the desk each model and none.
fn worked(list: &mut Vec<Entry>) {
    rows().iter().for_each(|setting| add(list, UNIT, setting.case(1)));
    for setting in [&rows()[0], &rows()[1], &rows()[9]] {
        for id in 0..=2 {
            add(list, ASK, setting.case(id));
            add(list, WORDS, setting.case(id));
        }
    }
}

/// Damaged input, a faulty catalogue, a request above its limits, alone and together: the first counts.
fn faults(list: &mut Vec<Entry>) {
    let damages = [Damage::Keep(0), Damage::Keep(2), Damage::ShortBy(1), Damage::Tail(1, 0), Damage::Tag(2, 1)];
    let lengths =
        [Damage::Length(0, 1), Damage::Length(1, 1), Damage::Length(2, -1), Damage::Without(2), Damage::Twice(2)];
    for damage in damages.into_iter().chain(lengths) {
        add(list, UNIT, damaged(&[damage]));
        add(list, ASK, damaged(&[damage]));
    }
    for fault in FAULTS {
        let mut setting = sound(&[30, 20, 10]);
        setting.request.minimum_quality_bps = 10_001;
        fault(&mut setting, 1);
        add(list, UNIT, setting.case(20));
        setting.request.minimum_quality_bps = 5_000;
        add(list, WORDS, setting.case(20));
    }
}

/// Each sentence: why a model stands as it does, the key by which it is outranked, the request that stops or is refused, the levers.
fn sentences(list: &mut Vec<Entry>) {
    standings(list);
    let alike: [fn(&mut Vec<KernelModel>); 3] = [
        // utility, then cost, then quality are level with the other model's
        |models| models[1].quality_bps = 7_000,
        |models| models[0] = KernelModel { model_id: 1, quality_bps: 7_900, p95_latency_ms: 40, ..models[1] },
        |models| models[0] = KernelModel { model_id: 3, ..models[1] },
    ];
    for change in alike {
        (1..=3).for_each(|id| add(list, WORDS, with_models(change).case(id)));
    }
    let changes: [fn(&mut KernelInput); 9] = [
        |request| request.confidence_bps = 1_999,
        |request| request.allowed_provider_mask = 2,
        |request| request.required_region_mask = 2,
        |request| request.budget_limit_microunits = 299,
        |request| request.max_p95_latency_ms = 60,
        |request| request.requested_model_id = 9,
        |request| request.risk_bps = 10_001,
        |request| request.confidence_bps = 10_002,
        |request| request.minimum_quality_bps = u16::MAX,
    ];
    changes.into_iter().for_each(|change| add(list, WORDS, with_request(change).case(1)));
}

/// Switched off with hope and without, chosen, nothing to be done, each lever.
fn standings(list: &mut Vec<Entry>) {
    let changes: [fn(&mut Vec<KernelModel>); 6] = [
        |models| models[1].enabled = 0,
        |models| models[0].enabled = 0,
        |models| models[0].capabilities = 0,
        |models| models[0].quality_bps = 4_999,
        |models| models[0].risk_ceiling_bps = 999,
        |models| models[0].p95_latency_ms = 2_000,
    ];
    for change in changes {
        for id in 1..=2 {
            add(list, ASK, with_models(change).case(id));
            add(list, WORDS, with_models(change).case(id));
        }
    }
}

fn rooms(list: &mut Vec<Entry>) {
    for call in [UNIT, ASK, WORDS] {
        for room in [Room::ShortBy(1), Room::ShortBy(usize::MAX), Room::LongerBy(9)] {
            add(list, call, Case { room, ..example().case(1) });
        }
    }
}
