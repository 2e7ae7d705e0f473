//! The three files of a question, read together.
use crate::cli::{Files, Writing};
use crate::decimal::Money;
use crate::fault::{Fault, Trouble, Warnings};
use crate::legend;
use crate::models::{ModelList, UNIT_MODELS};
use crate::names::Names;
use crate::policy::NamedPolicy;
use crate::refusal::in_words;
use crate::requests::{NamedRequest, RequestList};
use volankizo::Bank;

/// Everything that a question is asked of: read, checked and accepted by the library.
#[derive(Debug)]
pub struct Desk {
    pub models: ModelList,
    pub policy: NamedPolicy,
    pub requests: RequestList,
    /// The models in the kernel's bytes; a model's place in it is its place in `models.models`.
    pub bank: Bank,
    /// How amounts are shown.
    pub money: Money,
}

impl Desk {
    /// Reads models, policy and requests. A list that is longer than the unit takes is warned of.
    pub fn open(files: &Files, warnings: &mut Warnings) -> Result<Desk, Trouble> {
        let dialect = files.writing.dialect();
        let (models, policy) = catalogue(files, warnings)?;
        let requests = RequestList::read(&files.requests, dialect, &models, warnings)?;
        let (bank, money) = (models.bank(), Money { mark: dialect.mark, currency: policy.currency.clone() });
        Ok(Desk { models, policy, requests, bank, money })
    }

    /// The request with a sequence number, or the only one where none is told.
    pub fn request(&self, sequence: Option<u64>) -> Result<NamedRequest, Trouble> {
        only_or_told(&self.requests, sequence)
    }
}

/// The request of a list with a sequence number, or its only one where none is told.
pub fn only_or_told(list: &RequestList, sequence: Option<u64>) -> Result<NamedRequest, Trouble> {
    match (sequence, list.requests.as_slice()) {
        (Some(sequence), _) => {
            let found = list.with_sequence(sequence).copied();
            found.ok_or_else(|| {
                Trouble::Refused(format!("{} has no request with the sequence number {sequence}", list.file))
            })
        }
        (None, [only]) => Ok(*only),
        (None, several) => {
            let (file, count) = (&list.file, several.len());
            let first = several.first().map_or(1, |request| request.input.request_sequence);
            let what = format!("{file} has {count} requests: tell one by its sequence number, as --request {first}");
            Err(Trouble::Usage(what))
        }
    }
}

/// Models and policy alone, validated.
pub fn catalogue(files: &Files, warnings: &mut Warnings) -> Result<(ModelList, NamedPolicy), Trouble> {
    named_catalogue(files, told_names(&files.writing, warnings)?, warnings)
}

/// The same with names that are told already.
pub fn named_catalogue(
    files: &Files,
    names: Names,
    warnings: &mut Warnings,
) -> Result<(ModelList, NamedPolicy), Trouble> {
    let dialect = files.writing.dialect();
    let models = ModelList::read(&files.models, dialect, names, warnings)?;
    let policy = NamedPolicy::read(&files.policy, dialect, warnings)?;
    policy.policy.validate(&models.bank()).map_err(|refusal| in_words(refusal, &models))?;
    if models.models.len() > UNIT_MODELS {
        let what = format!(
            "the unit takes {UNIT_MODELS} models, and these are {}; it would refuse them with 19",
            models.models.len()
        );
        warnings.add(Fault::of_file(&files.models, what));
    }
    Ok((models, policy))
}

/// The names that are told beforehand, where a file of them is named.
pub fn told_names(writing: &Writing, warnings: &mut Warnings) -> Result<Names, Fault> {
    match &writing.names {
        Some(file) => legend::read(file, writing.dialect(), warnings),
        None => Ok(Names::default()),
    }
}
