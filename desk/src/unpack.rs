//! `desk unpack`: stored forms, request forms and inputs of the programs back as files of a spreadsheet.
use crate::cli::Writing;
use crate::fault::{Fault, Trouble, Warnings};
use crate::models::ModelList;
use crate::open::told_names;
use crate::output;
use crate::pages;
use crate::refusal::in_words;
use clap::ArgGroup;
use std::fs;
use volankizo::layout::REQUEST_FORM_BYTES;
use volankizo::{check_request, read_request, read_stored, Bank, KernelInput, PolicySnapshot, Refusal};

/// A stored form, request forms or an input of the programs to CSV files
#[derive(clap::Args, Debug)]
#[command(group(ArgGroup::new("written").required(true).multiple(true).args(["models_out", "policy_out", "requests_out"])))]
pub struct Arguments {
    /// A stored form, request forms one after the other, or a stored form with request forms after it
    #[arg(value_name = "FILE")]
    pub form: String,
    /// Write the models
    #[arg(long, value_name = "FILE")]
    pub models_out: Option<String>,
    /// Write the policy
    #[arg(long, value_name = "FILE")]
    pub policy_out: Option<String>,
    /// Write the requests
    #[arg(long, value_name = "FILE")]
    pub requests_out: Option<String>,
    #[command(flatten)]
    pub writing: Writing,
}

/// What a file of bytes holds.
struct Forms {
    stored: Option<(PolicySnapshot, Bank)>,
    requests: Vec<KernelInput>,
}

pub fn run(arguments: &Arguments, warnings: &mut Warnings) -> Result<String, Trouble> {
    let names = told_names(&arguments.writing, warnings)?;
    let bytes = fs::read(&arguments.form)
        .map_err(|error| Fault::of_file(&arguments.form, format!("can't be read: {error}")))?;
    let unnamed = ModelList::of_bank(&arguments.form, &[], names.clone());
    let forms = Forms::read(&bytes).map_err(|refusal| in_file(arguments, refusal, &unnamed))?;
    let models = match &forms.stored {
        Some((_, bank)) => bank.models().map_err(|refusal| in_file(arguments, refusal, &unnamed))?,
        None => Vec::new(),
    };
    let list = ModelList::of_bank(&arguments.form, &models, names);
    forms.check().map_err(|refusal| in_file(arguments, refusal, &list))?;
    let read: Vec<&str> = [arguments.form.as_str()].into_iter().chain(arguments.writing.names.as_deref()).collect();
    output::write_beside(&read, &written(arguments, &forms, &list)?)?;
    Ok(String::new())
}

/// A refusal of bytes, with the file that they stand in.
fn in_file(arguments: &Arguments, refusal: Refusal, list: &ModelList) -> Trouble {
    Fault::of_file(&arguments.form, in_words(refusal, list).to_string()).into()
}

impl Forms {
    fn read(bytes: &[u8]) -> Result<Forms, Refusal> {
        let (stored, requests) = bytes.split_at(first_request(bytes));
        let stored = match (stored.is_empty(), requests.is_empty()) {
            (true, false) => None,
            _ => Some(read_stored(stored)?),
        };
        let requests = requests.chunks(REQUEST_FORM_BYTES).map(read_request).collect::<Result<_, _>>()?;
        Ok(Forms { stored, requests })
    }

    /// What may not serve isn't written either: it would be refused where it is read again.
    fn check(&self) -> Result<(), Refusal> {
        if let Some((policy, bank)) = &self.stored {
            policy.trust(&mut bank.clone())?;
        }
        self.requests.iter().try_for_each(|input| check_request(*input))
    }
}

/// Where the first field of tag 3 begins, by the lengths of the fields before it; the end where there is none.
fn first_request(bytes: &[u8]) -> usize {
    const REQUEST: u8 = 3;
    let mut at = 0;
    while let Some([tag, low, high]) = bytes.get(at..at + 3) {
        if *tag == REQUEST {
            return at;
        }
        at += 3 + usize::from(u16::from_le_bytes([*low, *high]));
    }
    bytes.len()
}

fn written<'a>(arguments: &'a Arguments, forms: &Forms, list: &ModelList) -> Result<Vec<(&'a str, Vec<u8>)>, Trouble> {
    let dialect = arguments.writing.dialect();
    let mut written = Vec::new();
    if let Some(file) = &arguments.models_out {
        stored(arguments, forms)?;
        written.push((file.as_str(), pages::models(list, dialect.mark).text(dialect).into_bytes()));
    }
    if let Some(file) = &arguments.policy_out {
        written.push((file, pages::policy(stored(arguments, forms)?, dialect.mark).text(dialect).into_bytes()));
    }
    if let Some(file) = &arguments.requests_out {
        if forms.requests.is_empty() {
            return Err(Fault::of_file(
                &arguments.form,
                "there is no request in it, so that --requests-out has nothing to write",
            )
            .into());
        }
        written.push((file, pages::requests(&forms.requests, list, dialect.mark).text(dialect).into_bytes()));
    }
    Ok(written)
}

fn stored<'a>(arguments: &Arguments, forms: &'a Forms) -> Result<&'a PolicySnapshot, Trouble> {
    let missing = || {
        Fault::of_file(
            &arguments.form,
            "there is no policy with models in it, only requests; --requests-out writes these",
        )
    };
    Ok(forms.stored.as_ref().map(|(policy, _)| policy).ok_or_else(missing)?)
}
