//! Kinds 10 and 11: what would win, and the margin.
use super::{add, random, Entry};
use crate::calls::{MARGIN, WIN};
use crate::case::Case;
use crate::generate::court::{good, over, rejected, REASONS};
use crate::generate::example::{example, rows, with_models, with_request};
use crate::generate::searches;
use crate::generate::Setting;
use oracle::kernel::KernelModel;

pub fn entries(list: &mut Vec<Entry>) {
    asked_ids(list);
    switched_off(list);
    for call in [WIN, MARGIN] {
        rows().iter().for_each(|setting| add(list, call, setting.case(1)));
        ranges(&mut |setting| add(list, call, setting.case(2)));
        repeats(&mut |setting| add(list, call, setting.case(7)));
        lengths(list, call);
    }
    reasons(list);
    random(list, WIN, 20, searches::random);
    random(list, MARGIN, 18, searches::random);
}

/// The example's ids and others: 1 is row (B), 2 is chosen already. An id that isn't listed is 5 even where the request is stopped.
fn asked_ids(list: &mut Vec<Entry>) {
    for setting in [example(), with_request(|q| q.risk_bps = 9_000), with_request(|q| q.confidence_bps = 1_999)] {
        [0, 2, 3].into_iter().for_each(|id| add(list, WIN, setting.case(id)));
    }
    // A rejection selects no id, 0 included.
    let zero = with_models(|models| models[0].model_id = 0);
    add(list, WIN, zero.case(0));
    let mut rejected = zero.clone();
    rejected.request.business_value_microunits = -1;
    add(list, WIN, rejected.case(0));
    let mut chosen = zero;
    chosen.models[0].quality_bps = 10_000;
    chosen.models[0].input_cost_microunits_per_million_tokens = 0;
    add(list, WIN, chosen.case(0));
    add(list, MARGIN, chosen.case(0));
}

/// A model that is off: where switching it on does and does not select it, also with a later one of its id that is on, and where the
/// request is stopped. Any number but 0 is on.
fn switched_off(list: &mut Vec<Entry>) {
    add(list, WIN, with_models(|models| models[0].enabled = 0).case(1));
    add(list, WIN, with_models(|models| models[1].enabled = 0).case(2));
    add(list, WIN, with_models(|models| models.iter_mut().for_each(|m| m.enabled = 0)).case(1));
    let mut stopped = with_models(|models| models[1].enabled = 0);
    stopped.request.risk_bps = 9_000;
    add(list, WIN, stopped.case(2));
    let models = [(7, 0), (1, 1), (7, 1)].map(|(model_id, enabled)| KernelModel { model_id, enabled, ..good() });
    add(list, WIN, Setting { models: models.to_vec(), ..over(vec![]) }.case(7));
    for enabled in [2, 255] {
        let mut setting = example();
        setting.models.iter_mut().for_each(|model| model.enabled = enabled);
        add(list, WIN, setting.case(1));
        add(list, MARGIN, setting.case(1));
    }
}

/// Model 2's quality and ceiling at 10,000 and beyond, where it is chosen and where it is not; prices and a delay at their ends.
fn ranges(visit: &mut dyn FnMut(&Setting)) {
    for bps in [9_999, 10_000, 10_001, 65_535] {
        for budget in [5_000, 299] {
            let mut setting = with_request(|q| q.minimum_quality_bps = 0);
            setting.request.budget_limit_microunits = budget;
            setting.models[1].quality_bps = bps;
            setting.models[1].risk_ceiling_bps = bps;
            visit(&setting);
        }
    }
    let mut dear = example();
    dear.models[1].input_cost_microunits_per_million_tokens = u64::MAX;
    dear.models[1].output_cost_microunits_per_million_tokens = u64::MAX;
    visit(&dear);
    dear.request.budget_limit_microunits = u64::MAX;
    dear.request.input_tokens = u32::MAX;
    visit(&dear);
    let mut slow = example();
    slow.models[1].p95_latency_ms = u32::MAX;
    visit(&slow);
    slow.policy.latency_penalty_microunits_per_ms = 0;
    visit(&slow);
    let mut free = example();
    free.models.iter_mut().for_each(|model| model.input_cost_microunits_per_million_tokens = 0);
    free.models[1].output_cost_microunits_per_million_tokens = 0;
    visit(&free);
}

/// The first listed record with an id is varied, whichever of them is chosen.
fn repeats(visit: &mut dyn FnMut(&Setting)) {
    let better = KernelModel { quality_bps: 8_500, ..good() };
    for [first, second, third] in [
        [rejected(1), good(), rejected(4)],
        [good(), better, rejected(4)],
        [better, good(), good()],
        [rejected(0), good(), better],
        [rejected(7), rejected(7), good()],
    ] {
        let ids = [(first, 7), (second, 7), (third, 1)];
        let models = ids.map(|(model, model_id)| KernelModel { model_id, ..model }).to_vec();
        visit(&Setting { models, ..over(vec![]) });
    }
}

/// A model that misses by one step, for each reason, beside a good one; and alone where some lever can make up for it.
fn reasons(list: &mut Vec<Entry>) {
    for reason in [1, 2, 3, 7, 8] {
        add(list, WIN, over(vec![rejected(reason)]).case(1));
    }
    for reason in 0..REASONS {
        let better = KernelModel { quality_bps: 9_900, ..rejected(reason) };
        add(list, WIN, over(vec![good(), better]).case(2));
    }
}

/// A bank whose length is wrong by a byte.
fn lengths(list: &mut Vec<Entry>, call: usize) {
    let case = example().case(1);
    add(list, call, Case { bank: case.bank[1..].to_vec(), ..case.clone() });
    add(list, call, Case { bank: [&case.bank[..], &[0]].concat(), ..case });
}
