//! Why a call is refused.
use crate::layout::broken;
use std::error::Error;
use std::fmt::{Display, Formatter, Result as Told};

/// A refusal: a case for each number, with that number's values.
#[derive(Clone, Copy, Debug, PartialEq, Eq, Hash)]
pub enum Refusal {
    /// 1: the bank's length is no multiple of 47.
    UnevenBank,
    /// 2: the bank has more than 65,535 records.
    CatalogTooLarge,
    /// 3: the risk (field 1), confidence (2) or minimum quality (3) of a request is above 10,000; of a batch, at this place.
    InputOutOfRange { field: u8, value: u16, place: u32 },
    /// 4: a list or buffer is too short for the answer.
    NoRoom,
    /// 5: the id isn't listed; of a live call or an edit, no live record has it.
    UnknownModel,
    /// 6: the decision is a rejection.
    NothingSelected,
    /// 7: the request is stopped, the id isn't listed, or its first listed record isn't eligible.
    NotEligible,
    /// 8: the place is beyond the bank.
    BeyondBank,
    /// 10: the hard risk limit (field 4) or minimum confidence (5) is above 10,000, or the multiplier (6) above 50,000.
    PolicyOutOfRange { field: u8, value: u16 },
    /// 11: the bank has no record.
    EmptyCatalog,
    /// 12: an earlier record has the id; of a model to add, a live record has it.
    DuplicateModelId { model_id: u32 },
    /// 13: the provider is above 63.
    InvalidProviderId { model_id: u32, provider_id: u16 },
    /// 14: the quality (field 7) or ceiling (8) is above 10,000.
    ModelOutOfRange { field: u8, model_id: u32, value: u16 },
    /// 15: no record is switched on.
    NoEnabledModels,
    /// 16: some id is 0; of an edit, the one that is added, replaced or removed.
    ReservedModelId,
    /// 17: enabled is above 1.
    InvalidEnabledFlag { model_id: u32, value: u8 },
    /// 18: more than 1,394 models for one stored form.
    TooManyToStore,
    /// 20: a form ends inside a field.
    CutShort,
    /// 21: a field or a byte that isn't due, or one that is due and missing.
    WrongTag,
    /// 22: a length that the field, the policy, the request or the offered record doesn't have; of a batch, 2^32 requests or more.
    WrongLength,
    /// 23: a policy that rounds neither apart (0) nor once (1); in a form, a field of tag 4 whose body isn't 1.
    UnknownRounding,
    /// 25: in a form, a field of tag 5 whose allowance is 0.
    ZeroAllowance,
    /// 27: the catalogue epoch is at its largest, so that no edit can raise it.
    EpochSpent,
    /// 28: no slot is free for the model to add.
    NoFreeSlot,
    /// 34: a slot has id 0 and another byte set.
    SlotNotClear,
}

impl Refusal {
    /// What a word that a call of [`ffi`](crate::ffi) hands back tells: 0 that it answered, anything else why it didn't. `None` where
    /// its number is none that a call hands back.
    pub fn read(word: u64) -> Option<Result<(), Refusal>> {
        if word == 0 {
            return Some(Ok(()));
        }
        let (number, field, value, id) = (word as u8, (word >> 8) as u8, (word >> 16) as u16, (word >> 32) as u32);
        Some(Err(match number {
            1 => Refusal::UnevenBank,
            2 => Refusal::CatalogTooLarge,
            3 => Refusal::InputOutOfRange { field, value, place: id },
            4 => Refusal::NoRoom,
            5 => Refusal::UnknownModel,
            6 => Refusal::NothingSelected,
            7 => Refusal::NotEligible,
            8 => Refusal::BeyondBank,
            10 => Refusal::PolicyOutOfRange { field, value },
            11 => Refusal::EmptyCatalog,
            12 => Refusal::DuplicateModelId { model_id: id },
            13 => Refusal::InvalidProviderId { model_id: id, provider_id: value },
            14 => Refusal::ModelOutOfRange { field, model_id: id, value },
            15 => Refusal::NoEnabledModels,
            16 => Refusal::ReservedModelId,
            17 => Refusal::InvalidEnabledFlag { model_id: id, value: value as u8 },
            18 => Refusal::TooManyToStore,
            20 => Refusal::CutShort,
            21 => Refusal::WrongTag,
            22 => Refusal::WrongLength,
            23 => Refusal::UnknownRounding,
            25 => Refusal::ZeroAllowance,
            27 => Refusal::EpochSpent,
            28 => Refusal::NoFreeSlot,
            34 => Refusal::SlotNotClear,
            _ => return None,
        }))
    }

    /// The same of a word that a call has just handed back.
    pub(crate) fn told(word: u64) -> Result<(), Refusal> {
        Refusal::read(word).unwrap_or_else(|| broken("a refusal that has no number"))
    }

    /// Its number, as in `include/volankizo.h`.
    pub const fn number(self) -> u8 {
        match self {
            Refusal::UnevenBank => 1,
            Refusal::CatalogTooLarge => 2,
            Refusal::InputOutOfRange { .. } => 3,
            Refusal::NoRoom => 4,
            Refusal::UnknownModel => 5,
            Refusal::NothingSelected => 6,
            Refusal::NotEligible => 7,
            Refusal::BeyondBank => 8,
            Refusal::PolicyOutOfRange { .. } => 10,
            Refusal::EmptyCatalog => 11,
            Refusal::DuplicateModelId { .. } => 12,
            Refusal::InvalidProviderId { .. } => 13,
            Refusal::ModelOutOfRange { .. } => 14,
            Refusal::NoEnabledModels => 15,
            Refusal::ReservedModelId => 16,
            Refusal::InvalidEnabledFlag { .. } => 17,
            Refusal::TooManyToStore => 18,
            Refusal::CutShort => 20,
            Refusal::WrongTag => 21,
            Refusal::WrongLength => 22,
            Refusal::UnknownRounding => 23,
            Refusal::ZeroAllowance => 25,
            Refusal::EpochSpent => 27,
            Refusal::NoFreeSlot => 28,
            Refusal::SlotNotClear => 34,
        }
    }
}

impl Display for Refusal {
    fn fmt(&self, f: &mut Formatter<'_>) -> Told {
        write!(f, "refused {}: ", self.number())?;
        match self {
            Refusal::UnevenBank => write!(f, "the bank's length is no multiple of 47"),
            Refusal::CatalogTooLarge => write!(f, "the bank has more than 65,535 models"),
            Refusal::InputOutOfRange { field, value, .. } => write!(f, "the request's {} is {value}", named(*field)),
            Refusal::NoRoom => write!(f, "a buffer is too short for the answer"),
            Refusal::UnknownModel => write!(f, "the model isn't listed"),
            Refusal::NothingSelected => write!(f, "no model is selected"),
            Refusal::NotEligible => write!(f, "the model isn't listed or isn't eligible"),
            Refusal::BeyondBank => write!(f, "the place is beyond the bank"),
            Refusal::PolicyOutOfRange { field, value } => write!(f, "the policy's {} is {value}", named(*field)),
            Refusal::EmptyCatalog => write!(f, "the bank has no model"),
            Refusal::DuplicateModelId { model_id } => write!(f, "model {model_id} is listed already"),
            Refusal::InvalidProviderId { model_id, provider_id } => {
                write!(f, "model {model_id} has provider {provider_id}")
            }
            Refusal::ModelOutOfRange { field, model_id, value } => {
                write!(f, "the {} of model {model_id} is {value}", named(*field))
            }
            Refusal::NoEnabledModels => write!(f, "no model is switched on"),
            Refusal::ReservedModelId => write!(f, "id 0 is no model's"),
            Refusal::InvalidEnabledFlag { model_id, value } => write!(f, "enabled is {value} for model {model_id}"),
            Refusal::TooManyToStore => write!(f, "more than 1,394 models for a stored form"),
            Refusal::CutShort => write!(f, "the form ends inside a field"),
            Refusal::WrongTag => write!(f, "a field or a byte of the form isn't due, or is missing"),
            Refusal::WrongLength => write!(f, "a length is not that of its field"),
            Refusal::UnknownRounding => write!(f, "the policy rounds in a way that has no name"),
            Refusal::ZeroAllowance => write!(f, "the form says an allowance of 0"),
            Refusal::EpochSpent => write!(f, "the catalogue epoch can't be raised"),
            Refusal::NoFreeSlot => write!(f, "no slot of the bank is free"),
            Refusal::SlotNotClear => write!(f, "a slot with id 0 has another byte set"),
        }
    }
}

impl Error for Refusal {}

/// The name of a field that a refusal numbers.
fn named(field: u8) -> &'static str {
    match field {
        1 => "risk_bps",
        2 => "confidence_bps",
        3 => "minimum_quality_bps",
        4 => "hard_risk_limit_bps",
        5 => "minimum_confidence_bps",
        6 => "risk_penalty_multiplier_bps",
        7 => "quality_bps",
        8 => "risk_ceiling_bps",
        _ => "field",
    }
}
