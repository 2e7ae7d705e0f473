//! Picks a model for one request: the worked example, from its numbers to its answers. Given a path, it also writes there the input
//! that the program `unit` reads.
//!
//!     cargo run --offline --example pick -- ../../target/pick.input
use std::error::Error;
use std::path::Path;
use std::process::exit;
use volankizo::{
    what_would_win, write_request, write_stored, Bank, CandidateVerdict, Counterfactual, KernelInput, KernelModel,
    PolicySnapshot, Rounding, ALL_PROVIDERS,
};

const POLICY: PolicySnapshot = PolicySnapshot {
    policy_epoch: 7,
    catalog_epoch: 3,
    hard_risk_limit_bps: 9_000,
    minimum_confidence_bps: 2_000,
    risk_penalty_multiplier_bps: 10_000,
    latency_penalty_microunits_per_ms: 10,
    rounding: Rounding::Apart,
    latency_allowance_ms: 0,
};

const FIRST: KernelModel = KernelModel {
    model_id: 1,
    provider_id: 0,
    quality_bps: 9_000,
    risk_ceiling_bps: 8_000,
    enabled: 1,
    p95_latency_ms: 100,
    capabilities: 3,
    region_mask: 1,
    input_cost_microunits_per_million_tokens: 3_000_000,
    output_cost_microunits_per_million_tokens: 15_000_000,
};

const SECOND: KernelModel = KernelModel {
    model_id: 2,
    provider_id: 1,
    quality_bps: 8_000,
    p95_latency_ms: 50,
    capabilities: 1,
    input_cost_microunits_per_million_tokens: 1_000_000,
    output_cost_microunits_per_million_tokens: 2_000_000,
    ..FIRST
};

const REQUEST: KernelInput = KernelInput {
    request_sequence: 42,
    requested_model_id: 1,
    input_tokens: 100,
    output_tokens: 100,
    business_value_microunits: 10_000,
    budget_limit_microunits: 5_000,
    risk_bps: 1_000,
    confidence_bps: 10_000,
    minimum_quality_bps: 5_000,
    max_p95_latency_ms: 0,
    required_capabilities: 1,
    allowed_provider_mask: ALL_PROVIDERS,
    required_region_mask: 0,
};

fn main() {
    if let Err(why) = pick() {
        eprintln!("pick: {why}");
        exit(1);
    }
}

fn pick() -> Result<(), Box<dyn Error>> {
    // In any order: trusting puts the bank in the order of the ids, and refuses what may not serve.
    let mut bank = Bank::from_models(&[SECOND, FIRST]);
    POLICY.trust(&mut bank)?;

    let decision = POLICY.prescribe_checked(&bank, REQUEST)?;
    println!(
        "request {}: action {}, reason {}, model {} at place {}, cost {}, utility {}; next best model {}, utility {}",
        decision.request_sequence,
        decision.action.number(),
        decision.reason.number(),
        decision.selected_model_id,
        decision.selected_model_index,
        decision.estimated_cost_microunits,
        decision.expected_utility_microunits,
        decision.counterfactual_model_id,
        decision.counterfactual_utility_microunits
    );

    for entry in POLICY.explain(&bank, REQUEST)?.candidates {
        println!("model {} at place {}: {}", entry.model_id, entry.model_index, sentence(entry.verdict));
    }

    show(&what_would_win(&POLICY, &bank, REQUEST, 1)?);
    // The same under a policy that adds what input and output cost before it rounds up.
    println!("with the cost rounded up once, in place of input and output apart:");
    show(&what_would_win(&PolicySnapshot { rounding: Rounding::Once, ..POLICY }, &bank, REQUEST, 1)?);
    // And under one by which the first 200 ms of each latency are free.
    println!("with 200 ms of each latency free:");
    show(&what_would_win(&PolicySnapshot { latency_allowance_ms: 200, ..POLICY }, &bank, REQUEST, 1)?);

    if let Some(path) = std::env::args_os().nth(1) {
        let mut input = write_stored(&POLICY, &bank)?;
        input.extend(write_request(REQUEST)?);
        std::fs::write(&path, &input).map_err(|why| format!("{}: {why}", Path::new(&path).display()))?;
        println!("wrote {} bytes for unit", input.len());
    }
    Ok(())
}

fn show(answer: &Counterfactual) {
    let (id, levers, passes) = (answer.model_id, answer.levers.len(), answer.passes);
    println!("model {id} would win by {levers} of its levers alone ({passes} passes)");
    for lever in &answer.levers {
        print!("lever {} at {} instead of {}", lever.lever.number(), lever.boundary, lever.current);
        match lever.cost_at_boundary_microunits {
            Some(cost) => println!(", cost {cost}"),
            None => println!(),
        }
    }
}

fn sentence(verdict: CandidateVerdict) -> String {
    match verdict {
        CandidateVerdict::Rejected { gate, measured, limit } => {
            format!("stopped by gate {}: measured {measured}, limit {limit}", gate.number())
        }
        CandidateVerdict::OverBudget { cost_microunits, limit_microunits } => {
            format!("over budget: cost {cost_microunits}, budget {limit_microunits}")
        }
        CandidateVerdict::NonPositiveUtility(terms) => format!("not worth it: utility {}", terms.utility),
        CandidateVerdict::Eligible(terms) => format!(
            "eligible: quality {} - risk {} - cost {} - latency {} = utility {}",
            terms.quality_adjusted, terms.risk_penalty, terms.cost_microunits, terms.latency_penalty, terms.utility
        ),
    }
}
