//! Swaps models between two sentences: a bank of four slots is edited where it stands, decided before and after, compacted and stored. Given a
//! path, it also writes there the input that the program `unit` reads.
//!
//!     cargo run --offline --example swap -- ../../target/swap.input
use std::error::Error;
use std::path::Path;
use std::process::exit;
use volankizo::layout::RECORD_BYTES;
use volankizo::{
    live, write_request, write_stored, KernelDecision, KernelInput, KernelModel, PolicySnapshot, Refusal, Rounding,
    ALL_PROVIDERS,
};

const SLOTS: usize = 4;

const POLICY: PolicySnapshot = PolicySnapshot {
    policy_epoch: 7,
    // Every edit raises it.
    catalog_epoch: 0,
    hard_risk_limit_bps: 9_000,
    minimum_confidence_bps: 2_000,
    risk_penalty_multiplier_bps: 10_000,
    latency_penalty_microunits_per_ms: 10,
    rounding: Rounding::Apart,
    latency_allowance_ms: 0,
};

const SENTENCE: KernelInput = KernelInput {
    request_sequence: 42,
    requested_model_id: 1,
    input_tokens: 100,
    output_tokens: 100,
    business_value_microunits: 10_000,
    budget_limit_microunits: 5_000,
    risk_bps: 1_000,
    confidence_bps: 10_000,
    minimum_quality_bps: 5_000,
    max_p95_latency_ms: 0,
    required_capabilities: 1,
    allowed_provider_mask: ALL_PROVIDERS,
    required_region_mask: 0,
};

const fn model(id: u32, quality: u16, latency: u32, input_price: u64, output_price: u64) -> KernelModel {
    KernelModel {
        model_id: id,
        provider_id: 0,
        quality_bps: quality,
        risk_ceiling_bps: 8_000,
        enabled: 1,
        p95_latency_ms: latency,
        capabilities: 1,
        region_mask: 1,
        input_cost_microunits_per_million_tokens: input_price,
        output_cost_microunits_per_million_tokens: output_price,
    }
}

/// What a unit holds. A bank has as many slots as it has room for records; those that are all 0 are free.
struct Unit {
    policy: PolicySnapshot,
    bank: [u8; SLOTS * RECORD_BYTES],
}

impl Unit {
    fn add(&mut self, model: KernelModel) -> Result<(), Refusal> {
        let slot = live::add(&mut self.policy, &mut self.bank, model)?;
        self.show("added", model.model_id, slot);
        Ok(())
    }

    fn replace(&mut self, model: KernelModel) -> Result<(), Refusal> {
        let slot = live::replace(&mut self.policy, &mut self.bank, model)?;
        self.show("replaced", model.model_id, slot);
        Ok(())
    }

    /// Withdrawn: the slot is free for the next model that is added.
    fn remove(&mut self, id: u32) -> Result<(), Refusal> {
        let slot = live::remove(&mut self.policy, &mut self.bank, id)?;
        self.show("removed", id, slot);
        Ok(())
    }

    fn show(&self, edited: &str, id: u32, slot: u16) {
        println!("{edited} model {id}: slot {slot}, catalogue epoch {}", self.policy.catalog_epoch);
    }

    /// Decides over the live models alone.
    fn decide(&self, sentence: KernelInput) -> Result<KernelDecision, Refusal> {
        let decision = live::prescribe(&self.policy, &self.bank, sentence)?;
        println!(
            "sentence {}: model {} at slot {}, cost {}, utility {}; next best model {}; {} evaluated, catalogue epoch {}",
            decision.request_sequence,
            decision.selected_model_id,
            decision.selected_model_index,
            decision.estimated_cost_microunits,
            decision.expected_utility_microunits,
            decision.counterfactual_model_id,
            decision.evaluated_models,
            decision.catalog_epoch
        );
        Ok(decision)
    }

    /// Closes the gaps, and tells how many bytes the live records take: they stand first then.
    fn compact(&mut self) -> Result<usize, Refusal> {
        let live = live::compact(&mut self.policy, &mut self.bank)?;
        println!("compacted: {live} of {SLOTS} slots are live, catalogue epoch {}", self.policy.catalog_epoch);
        Ok(usize::from(live) * RECORD_BYTES)
    }
}

fn main() {
    if let Err(why) = swap() {
        eprintln!("swap: {why}");
        exit(1);
    }
}

fn swap() -> Result<(), Box<dyn Error>> {
    let mut unit = Unit { policy: POLICY, bank: [0; SLOTS * RECORD_BYTES] };
    unit.add(model(1, 9_000, 100, 3_000_000, 15_000_000))?;
    unit.add(model(2, 8_000, 50, 1_000_000, 2_000_000))?;
    unit.add(model(3, 8_500, 60, 2_000_000, 6_000_000))?;
    unit.decide(SENTENCE)?;

    // Between two sentences: 1 and 2 are withdrawn, 4 is new, 3 has another price.
    unit.remove(1)?;
    unit.remove(2)?;
    unit.add(model(4, 9_200, 80, 3_000_000, 10_000_000))?;
    unit.replace(model(3, 8_500, 60, 1_000_000, 4_000_000))?;
    let next = KernelInput { request_sequence: 43, ..SENTENCE };
    let before = unit.decide(next)?;

    let live_bytes = unit.compact()?;
    let after = unit.decide(next)?;
    let KernelDecision { selected_model_index, catalog_epoch, .. } = before;
    if (KernelDecision { selected_model_index, catalog_epoch, ..after }) != before {
        return Err("the compaction moved more than place and epoch".into());
    }
    println!("only place and catalogue epoch moved");

    // Edits look at ids alone, so what is to serve is validated. The free slots stay out: they would be models with id 0 to `unit`.
    let live = &unit.bank[..live_bytes];
    unit.policy.validate(live)?;
    let mut input = write_stored(&unit.policy, live)?;
    println!("stored form of the live records: {} bytes", input.len());
    if let Some(path) = std::env::args_os().nth(1) {
        input.extend(write_request(next)?);
        std::fs::write(&path, &input).map_err(|why| format!("{}: {why}", Path::new(&path).display()))?;
        println!("wrote {} bytes for unit", input.len());
    }
    Ok(())
}
