//! The file of a policy: a header line and one line of numbers.
use crate::fault::{quoted, Fault, Warnings};
use crate::field::{Field, Heads, Row, Unit};
use crate::sheet::{Dialect, Sheet};
use volankizo::{PolicySnapshot, Rounding, MAX_BPS, MAX_RISK_PENALTY_MULTIPLIER_BPS};

static HARD_LIMIT: Field = Field::number(
    &[("hard_risk_limit_bps", Unit::BasisPoints), ("hard_risk_limit_percent", Unit::Percent)],
    MAX_BPS as u64,
);
static CONFIDENCE: Field = Field::number(
    &[("minimum_confidence_bps", Unit::BasisPoints), ("minimum_confidence_percent", Unit::Percent)],
    MAX_BPS as u64,
);
static MULTIPLIER: Field = Field::number(
    &[("risk_multiplier_bps", Unit::BasisPoints), ("risk_multiplier_percent", Unit::Percent)],
    MAX_RISK_PENALTY_MULTIPLIER_BPS as u64,
);
static LATENCY_PENALTY: Field = Field::number(
    &[("latency_penalty_per_ms", Unit::Currency), ("latency_penalty_microunits_per_ms", Unit::Microunits)],
    u64::MAX,
);
static ROUNDING: Field = Field::text(&[("rounding", Unit::Text)]).optional();
static CURRENCY: Field = Field::text(&[("currency", Unit::Text)]).optional();
static POLICY_EPOCH: Field = Field::number(&[("policy_epoch", Unit::Whole)], u64::MAX).optional();
static CATALOGUE_EPOCH: Field = Field::number(&[("catalogue_epoch", Unit::Whole)], u64::MAX).optional();
static LATENCY_ALLOWANCE: Field = Field::number(&[("latency_allowance_ms", Unit::Ms)], u32::MAX as u64).optional();
/// The allowance stands last: only a policy that has one is written with its column.
pub static FIELDS: [&Field; 9] = [
    &HARD_LIMIT,
    &CONFIDENCE,
    &MULTIPLIER,
    &LATENCY_PENALTY,
    &ROUNDING,
    &CURRENCY,
    &POLICY_EPOCH,
    &CATALOGUE_EPOCH,
    &LATENCY_ALLOWANCE,
];

/// A policy, and what its money is called.
#[derive(Clone, Debug, PartialEq, Eq)]
pub struct NamedPolicy {
    pub policy: PolicySnapshot,
    pub currency: Option<String>,
}

impl NamedPolicy {
    pub fn read(file: &str, dialect: Dialect, warnings: &mut Warnings) -> Result<Self, Fault> {
        let sheet = Sheet::read(file, dialect)?;
        let heads = Heads::of(&sheet, dialect.mark, &FIELDS)?;
        let mut rows = heads.rows();
        let Some(row) = rows.next() else {
            return Err(Fault::of_file(
                file,
                "there is no line under the header line; one with the policy's numbers was wanted",
            ));
        };
        match rows.next() {
            Some(second) => Err(second.fault("is a second policy; one line under the header line was wanted")),
            None => taken(&row, warnings),
        }
    }
}

/// How many of a latency's milliseconds are free, where a policy has an allowance.
pub fn allowance(policy: &PolicySnapshot) -> Option<u32> {
    Some(policy.latency_allowance_ms).filter(|free| *free != 0)
}

fn taken(row: &Row, warnings: &mut Warnings) -> Result<NamedPolicy, Fault> {
    let policy = PolicySnapshot {
        policy_epoch: row.number(&POLICY_EPOCH, warnings)?.unwrap_or(0),
        catalog_epoch: row.number(&CATALOGUE_EPOCH, warnings)?.unwrap_or(0),
        hard_risk_limit_bps: row.needed(&HARD_LIMIT, warnings)?,
        minimum_confidence_bps: row.needed(&CONFIDENCE, warnings)?,
        risk_penalty_multiplier_bps: row.needed(&MULTIPLIER, warnings)?,
        latency_penalty_microunits_per_ms: row.needed(&LATENCY_PENALTY, warnings)?,
        rounding: rounding(row)?,
        latency_allowance_ms: row.number(&LATENCY_ALLOWANCE, warnings)?.unwrap_or(0),
    };
    Ok(NamedPolicy { policy, currency: row.cell(&CURRENCY)?.map(|cell| cell.text.to_owned()) })
}

fn rounding(row: &Row) -> Result<Rounding, Fault> {
    let Some(cell) = row.cell(&ROUNDING)? else { return Ok(Rounding::Apart) };
    match cell.text.to_lowercase().as_str() {
        "apart" => Ok(Rounding::Apart),
        "once" => Ok(Rounding::Once),
        _ => Err(cell.fault(format!("{} is no way to round; apart or once was wanted", quoted(cell.text)))),
    }
}
