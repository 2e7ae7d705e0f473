//! The file of requests: a line each.
use crate::fault::{Fault, Warnings};
use crate::field::{Field, Heads, Row, Unit};
use crate::models::ModelList;
use crate::names::{self, Register};
use crate::sheet::{Dialect, Sheet};
use std::collections::HashMap;
use volankizo::{KernelInput, ALL_PROVIDERS, MAX_BPS};

static SEQUENCE: Field = Field::number(&[("sequence", Unit::Whole)], u64::MAX).optional();
static REQUESTED: Field = Field::text(&[("requested_model", Unit::Text)]).optional();
static INPUT_TOKENS: Field = Field::number(&[("input_tokens", Unit::Whole)], u32::MAX as u64);
static OUTPUT_TOKENS: Field = Field::number(&[("output_tokens", Unit::Whole)], u32::MAX as u64);
static VALUE: Field = Field {
    least: i64::MIN as i128,
    ..Field::number(&[("value_currency", Unit::Currency), ("value_microunits", Unit::Microunits)], i64::MAX as u64)
};
static BUDGET: Field =
    Field::number(&[("budget_currency", Unit::Currency), ("budget_microunits", Unit::Microunits)], u64::MAX);
static RISK: Field = Field::number(&[("risk_bps", Unit::BasisPoints), ("risk_percent", Unit::Percent)], MAX_BPS as u64);
static CONFIDENCE: Field =
    Field::number(&[("confidence_bps", Unit::BasisPoints), ("confidence_percent", Unit::Percent)], MAX_BPS as u64);
static MINIMUM_QUALITY: Field = Field::number(
    &[("minimum_quality_bps", Unit::BasisPoints), ("minimum_quality_percent", Unit::Percent)],
    MAX_BPS as u64,
);
static LATENCY_LIMIT: Field = Field::number(&[("latency_limit_ms", Unit::Ms)], u32::MAX as u64).optional();
static CAPABILITIES: Field = Field::list(&[("required_capabilities", Unit::Text)]).optional();
static PROVIDERS: Field = Field::list(&[("allowed_providers", Unit::Text)]).optional();
static REGIONS: Field = Field::list(&[("required_regions", Unit::Text)]).optional();
pub static FIELDS: [&Field; 13] = [
    &SEQUENCE,
    &REQUESTED,
    &INPUT_TOKENS,
    &OUTPUT_TOKENS,
    &VALUE,
    &BUDGET,
    &RISK,
    &CONFIDENCE,
    &MINIMUM_QUALITY,
    &LATENCY_LIMIT,
    &CAPABILITIES,
    &PROVIDERS,
    &REGIONS,
];

/// A request, and the line of the file that it stands on.
#[derive(Clone, Copy, Debug, PartialEq, Eq)]
pub struct NamedRequest {
    pub line: u64,
    pub input: KernelInput,
}

/// Requests in the order of their file, each sequence number once.
#[derive(Clone, Debug)]
pub struct RequestList {
    pub file: String,
    pub requests: Vec<NamedRequest>,
}

impl RequestList {
    /// Reads a file of requests, which may name what the list of models has.
    pub fn read(file: &str, dialect: Dialect, models: &ModelList, warnings: &mut Warnings) -> Result<Self, Fault> {
        let sheet = Sheet::read(file, dialect)?;
        let heads = Heads::of(&sheet, dialect.mark, &FIELDS)?;
        let (mut requests, mut met) = (Vec::new(), HashMap::new());
        for row in heads.rows() {
            let input = taken(&row, models, requests.len(), warnings)?;
            if let Some(line) = met.insert(input.request_sequence, row.line) {
                let what = format!("the sequence number {} is that of line {line}", input.request_sequence);
                return Err(row.fault_at(&SEQUENCE, what));
            }
            requests.push(NamedRequest { line: row.line, input });
        }
        match requests.is_empty() {
            true => Err(Fault::of_file(file, "there is no request under the header line; at least one was wanted")),
            false => Ok(RequestList { file: file.to_owned(), requests }),
        }
    }

    pub fn with_sequence(&self, sequence: u64) -> Option<&NamedRequest> {
        self.requests.iter().find(|request| request.input.request_sequence == sequence)
    }
}

/// A line without a sequence number gets that of its place, from 1 on.
fn taken(row: &Row, models: &ModelList, before: usize, warnings: &mut Warnings) -> Result<KernelInput, Fault> {
    let names = &models.names;
    Ok(KernelInput {
        request_sequence: row.number(&SEQUENCE, warnings)?.unwrap_or(before as u64 + 1),
        requested_model_id: requested(row, models)?,
        input_tokens: row.needed(&INPUT_TOKENS, warnings)?,
        output_tokens: row.needed(&OUTPUT_TOKENS, warnings)?,
        business_value_microunits: row.needed(&VALUE, warnings)?,
        budget_limit_microunits: row.needed(&BUDGET, warnings)?,
        risk_bps: row.needed(&RISK, warnings)?,
        confidence_bps: row.needed(&CONFIDENCE, warnings)?,
        minimum_quality_bps: row.needed(&MINIMUM_QUALITY, warnings)?,
        max_p95_latency_ms: row.number(&LATENCY_LIMIT, warnings)?.unwrap_or(0),
        required_capabilities: mask(row, &CAPABILITIES, &names.capabilities, 0)?,
        allowed_provider_mask: mask(row, &PROVIDERS, &names.providers, ALL_PROVIDERS)?,
        required_region_mask: mask(row, &REGIONS, &names.regions, 0)?,
    })
}

/// The requested model by name or id; an id, and a name in the file of names, may be that of no listed model, and 0 requests none.
fn requested(row: &Row, models: &ModelList) -> Result<u32, Fault> {
    let Some(cell) = row.cell(&REQUESTED)? else { return Ok(0) };
    if names::is_none(cell.text) {
        return Ok(0);
    }
    match (models.place_of(cell.text), cell.text.parse()) {
        (Some(place), _) => Ok(models.models[place].model.model_id),
        (None, Ok(id)) => Ok(id),
        (None, Err(_)) => models.told_id(cell.text).ok_or_else(|| cell.fault(models.unknown(cell.text))),
    }
}

fn mask(row: &Row, field: &'static Field, register: &Register, without: u64) -> Result<u64, Fault> {
    let Some(cell) = row.cell(field)? else { return Ok(without) };
    names::mask(cell.text, |word| register.known(word)).map_err(|what| cell.fault(what))
}
