//! The library's refusals in words, with the model's name and the value that was refused.
use crate::fault::Trouble;
use crate::models::{ModelList, UNIT_MODELS};
use volankizo::{
    Refusal, MAX_BPS, MAX_CATALOG_MODELS, MAX_PROVIDER_ID, MAX_RISK_PENALTY_MULTIPLIER_BPS, MAX_STORED_MODELS,
};

/// The number by which the programs refuse a list that is too long for them; no call of the library tells it.
pub const TOO_MANY_FOR_THE_UNIT: u8 = 19;

/// A refusal as a line: its number, and what is wrong in words.
pub fn in_words(refusal: Refusal, models: &ModelList) -> Trouble {
    Trouble::Refused(format!("refused {}: {}", refusal.number(), sentence(refusal, models)))
}

/// The line for a list that the programs would refuse.
pub fn too_many_for_the_unit(models: usize) -> Trouble {
    let what = format!("the unit and ask take {UNIT_MODELS} models, and these are {models}");
    Trouble::Refused(format!("refused {TOO_MANY_FOR_THE_UNIT}: {what}"))
}

fn sentence(refusal: Refusal, models: &ModelList) -> String {
    let name = |id: u32| models.name_of(id);
    match refusal {
        Refusal::UnevenBank => "the models' bytes are no multiple of 47".to_owned(),
        Refusal::CatalogTooLarge => format!("the list has more than {MAX_CATALOG_MODELS} models"),
        Refusal::InputOutOfRange { field, value, .. } => {
            format!("the request's {} is {value} basis points; at most {MAX_BPS} are allowed", named(field))
        }
        Refusal::NoRoom => "a buffer is too short for the answer".to_owned(),
        Refusal::UnknownModel => "the model isn't listed".to_owned(),
        Refusal::NothingSelected => "no model is chosen".to_owned(),
        Refusal::NotEligible => "the model isn't listed or isn't eligible".to_owned(),
        Refusal::BeyondBank => "the place is beyond the list".to_owned(),
        Refusal::PolicyOutOfRange { field, value } => {
            let most = if field == 6 { MAX_RISK_PENALTY_MULTIPLIER_BPS } else { MAX_BPS };
            format!("the policy's {} is {value} basis points; at most {most} are allowed", named(field))
        }
        Refusal::EmptyCatalog => "no model is listed".to_owned(),
        Refusal::DuplicateModelId { model_id } => {
            format!("{} is listed more than once", name(model_id))
        }
        Refusal::InvalidProviderId { model_id, provider_id } => {
            format!("{} has provider {provider_id}; providers go from 0 to {MAX_PROVIDER_ID}", name(model_id))
        }
        Refusal::ModelOutOfRange { field, model_id, value } => {
            format!("{} has a {} of {value} basis points; at most {MAX_BPS} are allowed", name(model_id), named(field))
        }
        Refusal::NoEnabledModels => "every model is switched off".to_owned(),
        Refusal::ReservedModelId => "a model has id 0; ids begin with 1".to_owned(),
        Refusal::InvalidEnabledFlag { model_id, value } => {
            format!("{} has {value} where 1 for switched on or 0 for off was wanted", name(model_id))
        }
        Refusal::TooManyToStore => {
            format!("a stored form takes {MAX_STORED_MODELS} models, and these are {}", models.models.len())
        }
        Refusal::CutShort => "the file ends within a field; was it cut?".to_owned(),
        Refusal::WrongTag => {
            "a field isn't due where it stands, or one is missing, or something stands after the last".to_owned()
        }
        Refusal::WrongLength => "a field has a length that isn't its own".to_owned(),
        Refusal::UnknownRounding => "the policy rounds neither apart nor once".to_owned(),
        Refusal::ZeroAllowance => {
            "the policy's latency allowance is 0; a policy that has none has no field for it".to_owned()
        }
        Refusal::EpochSpent => "the catalogue epoch can't be raised".to_owned(),
        Refusal::NoFreeSlot => "no slot is free".to_owned(),
        Refusal::SlotNotClear => "a free slot has a byte set".to_owned(),
    }
}

/// The fields that refusals number.
fn named(field: u8) -> &'static str {
    match field {
        1 => "risk",
        2 => "confidence",
        3 => "minimum quality",
        4 => "hard risk limit",
        5 => "minimum confidence",
        6 => "risk multiplier",
        7 => "quality",
        8 => "risk ceiling",
        _ => "number",
    }
}
