//! `desk pack`: files of a spreadsheet as the bytes that the unit and the library take.
use crate::cli::Files;
use crate::fault::{Fault, Trouble, Warnings};
use crate::models::{ModelList, UNIT_MODELS};
use crate::open::{named_catalogue, only_or_told, told_names};
use crate::output;
use crate::pages;
use crate::refusal::{in_words, too_many_for_the_unit};
use crate::requests::RequestList;
use clap::ArgGroup;
use volankizo::{write_request, write_stored, KernelInput};

/// CSV files to the stored form, the request form, or the input of the programs unit and ask
#[derive(clap::Args, Debug)]
#[command(group(ArgGroup::new("written").required(true).multiple(true).args(["stored", "request_forms", "input", "names_out"])))]
pub struct Arguments {
    #[command(flatten)]
    pub files: Files,
    /// Only the request with this sequence number; needed for --input where the file has several
    #[arg(long, value_name = "SEQUENCE")]
    pub request: Option<u64>,
    /// Write the stored form of policy and models
    #[arg(long, value_name = "FILE")]
    pub stored: Option<String>,
    /// Write the request form of each request, 73 bytes, one after the other
    #[arg(long, value_name = "FILE")]
    pub request_forms: Option<String>,
    /// Write what unit and ask read: the stored form, and the form of one request after it
    #[arg(long, value_name = "FILE")]
    pub input: Option<String>,
    /// Write the file of names: which number each name got; beside --names, new names get numbers that are free
    #[arg(long, value_name = "FILE")]
    pub names_out: Option<String>,
}

pub fn run(arguments: &Arguments, warnings: &mut Warnings) -> Result<String, Trouble> {
    let names = told_names(&arguments.files.writing, warnings)?;
    let names = if arguments.names_out.is_some() { names.growing() } else { names };
    let (models, policy) = named_catalogue(&arguments.files, names, warnings)?;
    let refused = |refusal| in_words(refusal, &models);
    let requests = requests(arguments, &models, warnings)?;
    let mut written: Vec<(&str, Vec<u8>)> = Vec::new();
    if let Some(file) = &arguments.stored {
        written.push((file, write_stored(&policy.policy, &models.bank()).map_err(refused)?));
    }
    if let Some(file) = &arguments.request_forms {
        written.push((file, forms(&requests).map_err(refused)?));
    }
    if let Some(file) = &arguments.input {
        if models.models.len() > UNIT_MODELS {
            return Err(too_many_for_the_unit(models.models.len()));
        }
        let stored = write_stored(&policy.policy, &models.bank()).map_err(refused)?;
        written.push((file, [stored, forms(&requests).map_err(refused)?].concat()));
    }
    match &arguments.names_out {
        Some(file) => written.push((file, pages::names(&models).text(arguments.files.writing.dialect()).into_bytes())),
        None => warn_of_made_up(&models, warnings),
    }
    output::write_beside(&arguments.files.read(), &written)?;
    Ok(String::new())
}

/// The requests that are asked for, and of an input just one; none are read where no output has any.
fn requests(arguments: &Arguments, models: &ModelList, warnings: &mut Warnings) -> Result<Vec<KernelInput>, Trouble> {
    if arguments.request_forms.is_none() && arguments.input.is_none() {
        return Ok(Vec::new());
    }
    let files = &arguments.files;
    let list = RequestList::read(&files.requests, files.writing.dialect(), models, warnings)?;
    match arguments.request.is_some() || arguments.input.is_some() {
        true => Ok(vec![only_or_told(&list, arguments.request)?.input]),
        false => Ok(list.requests.iter().map(|request| request.input).collect()),
    }
}

fn forms(requests: &[KernelInput]) -> Result<Vec<u8>, volankizo::Refusal> {
    let forms: Result<Vec<_>, _> = requests.iter().map(|input| write_request(*input)).collect();
    Ok(forms?.concat())
}

/// Numbers by the order of lines change when lines do, and bytes that were written before keep the old ones.
fn warn_of_made_up(models: &ModelList, warnings: &mut Warnings) {
    let names = &models.names;
    let registers = [&names.providers, &names.capabilities, &names.regions];
    if models.ids_made_up || registers.iter().any(|register| register.made_up()) {
        let what = "names got their numbers by the order of lines; keep them with --names-out FILE and tell them next time with --names FILE";
        warnings.add(Fault::of_file(&models.file, what));
    }
}
