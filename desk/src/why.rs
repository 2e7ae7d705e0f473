//! `desk why`: why a model isn't chosen for a request, and what would make it the choice.
use crate::asked::lever;
use crate::cli::Files;
use crate::fault::{Trouble, Warnings};
use crate::open::Desk;
use crate::speech::Speech;
use volankizo::{Explanation, KernelInput, Lever};

/// Why one model isn't chosen for one request, and what would make it the choice
#[derive(clap::Args, Debug)]
pub struct Arguments {
    /// The model, by its name or its id
    #[arg(value_name = "MODEL")]
    pub model: String,
    #[command(flatten)]
    pub files: Files,
    /// The request, by its sequence number; needed where the file has several
    #[arg(long, value_name = "SEQUENCE")]
    pub request: Option<u64>,
    /// Ids and microunits, word for word as the program ask prints them
    #[arg(long)]
    pub numbers: bool,
}

pub fn run(arguments: &Arguments, warnings: &mut Warnings) -> Result<String, Trouble> {
    let desk = Desk::open(&arguments.files, warnings)?;
    let request = desk.request(arguments.request)?;
    let unlisted = || Trouble::Refused(format!("refused 5: {}", desk.models.unknown(&arguments.model)));
    let place = desk.models.place_of(&arguments.model).ok_or_else(unlisted)?;
    let speech = Speech { desk: &desk, numbers: arguments.numbers };
    let lines = sentences(&speech, request.input, place)?;
    Ok(lines.into_iter().map(|line| line + "\n").collect())
}

/// The sentences about the model at a place of the list.
pub fn sentences(speech: &Speech, input: KernelInput, place: usize) -> Result<Vec<String>, Trouble> {
    let explanation = speech.desk.explain(input)?;
    let mut lines = vec![speech.choice(&input, &explanation.decision)];
    lines.extend(speech.unlisted(&input));
    lines.extend(about(speech, input, &explanation, place)?);
    Ok(lines)
}

fn about(speech: &Speech, input: KernelInput, told: &Explanation, place: usize) -> Result<Vec<String>, Trouble> {
    let desk = speech.desk;
    if desk.chosen(&told.decision) == Some(place) {
        let already = format!("{} is chosen already.", speech.subject(place));
        return Ok(vec![already, unsearched("the model is chosen already")]);
    }
    let Some(entry) = told.candidates.get(place) else {
        return Ok(vec!["No change to a model would help.".to_owned(), unsearched("the request is stopped")]);
    };
    let levers = desk.levers_to_win(input, &told.decision, place)?;
    let standing = speech.standing(place, &entry.verdict, &told.decision);
    if desk.models.models[place].model.enabled == 0 {
        return Ok(vec![
            standing,
            unsearched("the model is switched off"),
            switched_on(lever(&levers, Lever::Enabled).is_some()),
        ]);
    }
    let mut lines = vec![standing, speech.price(place, &levers)];
    lines.extend(speech.other_levers(&levers));
    Ok(lines)
}

fn unsearched(since: &str) -> String {
    format!("Price alone: not searched, since {since}.")
}

fn switched_on(chosen: bool) -> String {
    let how = if chosen { "would" } else { "would still not" };
    format!("Switched on, it {how} be chosen.")
}
