//! Models, policies, requests and names written as the files that they are read from, in the same columns.
use crate::csv_out::Page;
use crate::decimal::{shown, CURRENCY_DECIMALS};
use crate::field::Field;
use crate::models::{self, ModelList, NamedModel};
use crate::names::{list, Names, Register};
use crate::{legend, policy, requests};
use volankizo::{KernelInput, PolicySnapshot, Rounding};

/// An amount in currency.
fn currency(microunits: impl Into<i128>, mark: char) -> String {
    shown(microunits.into(), CURRENCY_DECIMALS, mark)
}

fn headed(fields: &[&Field]) -> Page {
    Page::new(&fields.iter().map(|field| field.name()).collect::<Vec<_>>())
}

pub fn models(list: &ModelList, mark: char) -> Page {
    let mut page = headed(&models::FIELDS);
    list.models.iter().for_each(|named| page.push(model(named, &list.names, mark)));
    page
}

fn model(named: &NamedModel, names: &Names, mark: char) -> Vec<String> {
    let model = &named.model;
    vec![
        named.name.clone(),
        model.model_id.to_string(),
        names.providers.name(model.provider_id),
        model.quality_bps.to_string(),
        model.risk_ceiling_bps.to_string(),
        if model.enabled == 0 { "no" } else { "yes" }.to_owned(),
        model.p95_latency_ms.to_string(),
        list(model.capabilities, &names.capabilities),
        list(model.region_mask, &names.regions),
        currency(model.input_cost_microunits_per_million_tokens, mark),
        currency(model.output_cost_microunits_per_million_tokens, mark),
    ]
}

/// A policy; no form holds what its currency is called, so that cell stays empty. One without an allowance has no column for it, as its form has no field.
pub fn policy(policy: &PolicySnapshot, mark: char) -> Page {
    let allowance = policy::allowance(policy);
    let mut page = headed(&policy::FIELDS[..policy::FIELDS.len() - usize::from(allowance.is_none())]);
    let mut cells = vec![
        policy.hard_risk_limit_bps.to_string(),
        policy.minimum_confidence_bps.to_string(),
        policy.risk_penalty_multiplier_bps.to_string(),
        currency(policy.latency_penalty_microunits_per_ms, mark),
        match policy.rounding {
            Rounding::Apart => "apart",
            Rounding::Once => "once",
        }
        .to_owned(),
        String::new(),
        policy.policy_epoch.to_string(),
        policy.catalog_epoch.to_string(),
    ];
    cells.extend(allowance.map(|free| free.to_string()));
    page.push(cells);
    page
}

/// Requests; a requested model is named where its name is known.
pub fn requests(inputs: &[KernelInput], models: &ModelList, mark: char) -> Page {
    let mut page = headed(&requests::FIELDS);
    inputs.iter().for_each(|input| page.push(request(input, models, mark)));
    page
}

fn request(input: &KernelInput, models: &ModelList, mark: char) -> Vec<String> {
    let names = &models.names;
    vec![
        input.request_sequence.to_string(),
        requested(input.requested_model_id, models),
        input.input_tokens.to_string(),
        input.output_tokens.to_string(),
        currency(input.business_value_microunits, mark),
        currency(input.budget_limit_microunits, mark),
        input.risk_bps.to_string(),
        input.confidence_bps.to_string(),
        input.minimum_quality_bps.to_string(),
        input.max_p95_latency_ms.to_string(),
        list(input.required_capabilities, &names.capabilities),
        list(input.allowed_provider_mask, &names.providers),
        list(input.required_region_mask, &names.regions),
    ]
}

fn requested(id: u32, models: &ModelList) -> String {
    let listed = models.with_id(id).map(|named| named.name.clone());
    let told = || models.names.models.get(&id).cloned();
    match id {
        0 => "none".to_owned(),
        _ => listed.or_else(told).unwrap_or_else(|| id.to_string()),
    }
}

/// Which number each name stands for: the models of the list, then those that were told and are listed no more.
pub fn names(models: &ModelList) -> Page {
    let mut page = headed(&legend::FIELDS);
    let Names { models: told, providers, capabilities, regions, .. } = &models.names;
    let listed = models.models.iter().map(|named| (named.model.model_id, &named.name));
    let gone = told.iter().map(|(id, name)| (*id, name)).filter(|(id, _)| models.with_id(*id).is_none());
    for (id, name) in listed.chain(gone) {
        page.push(vec!["model".to_owned(), id.to_string(), name.clone()]);
    }
    for (kind, register) in [("provider", providers), ("capability", capabilities), ("region", regions)] {
        push_register(&mut page, kind, register);
    }
    page
}

fn push_register(page: &mut Page, kind: &str, register: &Register) {
    for (number, name) in register.names() {
        page.push(vec![kind.to_owned(), number.to_string(), name.to_owned()]);
    }
}
