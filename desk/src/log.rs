//! `desk log`: how often a model or a provider lost in many requests, to whom, why, and the price cut that would have won.
use crate::asked::scaled_price;
use crate::cli::Files;
use crate::csv_out::Page;
use crate::decimal::shown;
use crate::fate::{Cut, Falls, Fate, Loss, Subject};
use crate::fault::{Trouble, Warnings};
use crate::layout::aligned;
use crate::open::Desk;
use crate::output;
use crate::progress;
use std::collections::BTreeMap;
use volankizo::{KernelDecision, PPM};

/// Many requests: how often a model or a provider lost, to whom, why, and the price cut that would have won
///
/// Every request of the file is decided. Of those that were lost it is told who was chosen, why the model was not, and the smallest fall of
/// both of its prices that would have won half and nine tenths of them, all else as it is. Without a model and a provider there is a line
/// for each model. Requests that are stopped by the policy's limits count apart: nobody wins or loses them.
#[derive(clap::Args, Debug)]
pub struct Arguments {
    /// The model, by its name or its id
    #[arg(value_name = "MODEL", conflicts_with = "provider")]
    pub model: Option<String>,
    /// All models of this provider, whose prices are cut alike
    #[arg(long, value_name = "NAME")]
    pub provider: Option<String>,
    #[command(flatten)]
    pub files: Files,
    /// Write a line for each request (of all models: for each model) as CSV to this file; - is standard output, in place of the text
    #[arg(long, value_name = "FILE")]
    pub csv: Option<String>,
}

/// The most lines of a count in the text.
const MOST_LINES: usize = 20;
/// The shares of lost requests that cuts are told for, in tenths.
const SHARES: [(&str, usize); 2] = [("Half", 5), ("Nine tenths", 9)];

pub fn run(arguments: &Arguments, warnings: &mut Warnings) -> Result<String, Trouble> {
    let desk = Desk::open(&arguments.files, warnings)?;
    let (text, page) = match (&arguments.model, &arguments.provider) {
        (Some(word), _) => {
            let unlisted = || Trouble::Refused(format!("refused 5: {}", desk.models.unknown(word)));
            let place = desk.models.place_of(word).ok_or_else(unlisted)?;
            one(&desk, &desk.models.models[place].name, vec![place])?
        }
        (None, Some(word)) => one(&desk, word, of_provider(&desk, word)?)?,
        (None, None) => all(&desk)?,
    };
    let page = || page.text(arguments.files.writing.dialect());
    match arguments.csv.as_deref() {
        None => Ok(text),
        Some("-") => Ok(page()),
        Some(file) => {
            output::write_beside(&arguments.files.read(), &[(file, page().into_bytes())])?;
            Ok(text)
        }
    }
}

/// The places of a provider's models.
fn of_provider(desk: &Desk, word: &str) -> Result<Vec<usize>, Trouble> {
    let number = desk.models.names.providers.known(word).map_err(Trouble::Refused)?;
    let models = desk.models.models.iter().enumerate();
    let places: Vec<usize> =
        models.filter(|(_, named)| named.model.provider_id == u16::from(number)).map(|(place, _)| place).collect();
    match places.is_empty() {
        true => Err(Trouble::Refused(format!("no model of {} has the provider {word}", desk.models.file))),
        false => Ok(places),
    }
}

/// The text and the page about one model or one provider.
fn one(desk: &Desk, name: &str, places: Vec<usize>) -> Result<(String, Page), Trouble> {
    let subject = Subject::new(desk, places);
    let bar = progress::bar(desk.requests.requests.len(), "requests");
    let fates = desk.requests.requests.iter().map(|request| {
        bar.inc(1);
        subject.fate(desk, request.input, &desk.decide(request.input)?)
    });
    let fates = fates.collect::<Result<Vec<Fate>, Trouble>>()?;
    bar.finish_and_clear();
    Ok((summary(desk, name, &subject, &fates), requests_page(desk, &fates)))
}

fn losses(fates: &[Fate]) -> impl Iterator<Item = &Loss> {
    fates.iter().filter_map(|fate| match fate {
        Fate::Lost(loss) => Some(loss),
        _ => None,
    })
}

fn count(fates: &[Fate], wanted: fn(&Fate) -> bool) -> usize {
    fates.iter().filter(|fate| wanted(fate)).count()
}

fn won(fate: &Fate) -> bool {
    matches!(fate, Fate::Won(_))
}

fn stopped(fate: &Fate) -> bool {
    matches!(fate, Fate::Stopped)
}

fn summary(desk: &Desk, name: &str, subject: &Subject, fates: &[Fate]) -> String {
    let falls = Falls::of(losses(fates));
    let mut text = format!(
        "{}, {} of them stopped before any model was looked at.\n{name}: chosen {}, lost {}.\n",
        counted(desk),
        count(fates, stopped),
        times(count(fates, won)),
        times(falls.lost)
    );
    if falls.lost == 0 {
        return text + "No request was lost, so no cut is told.\n";
    }
    let to = tally(losses(fates).map(|loss| loser_to(desk, loss)));
    text += &format!("\nLost to\n{}", ordered(to.into_iter().map(|((_, name), count)| (name, count)).collect()));
    let why = tally(losses(fates).map(|loss| loss.why));
    let furthest = if subject.places.len() > 1 { ", of its models the one that came furthest" } else { "" };
    text += &format!(
        "\nWhy{furthest}\n{}",
        ordered(why.into_iter().map(|(why, count)| (why.words().to_owned(), count)).collect())
    );
    text + &cuts(desk, subject, &falls) + &prices_of_many(desk, subject, &falls)
}

fn counted(desk: &Desk) -> String {
    let (file, requests) = (&desk.requests.file, desk.requests.requests.len());
    format!("{requests} {} of {file}", if requests == 1 { "request" } else { "requests" })
}

fn times(count: usize) -> String {
    format!("{count} {}", if count == 1 { "time" } else { "times" })
}

/// To whom a request was lost; nothing chosen stands behind all names, even one that is called so.
fn loser_to(desk: &Desk, loss: &Loss) -> (bool, String) {
    let name = |place: usize| desk.models.models[place].name.clone();
    (loss.to.is_none(), loss.to.map_or_else(|| "nothing chosen".to_owned(), name))
}

/// How often each is met, in their own order.
fn tally<T: Ord>(met: impl Iterator<Item = T>) -> Vec<(T, usize)> {
    let mut counts = BTreeMap::new();
    met.for_each(|one| *counts.entry(one).or_insert(0) += 1);
    counts.into_iter().collect()
}

/// Counts as lines, the highest first; the same counts stay in their order. Of many the last are one line.
fn ordered(mut counts: Vec<(String, usize)>) -> String {
    counts.sort_by_key(|(_, count)| std::cmp::Reverse(*count));
    if counts.len() > MOST_LINES + 1 {
        let rest = counts.split_off(MOST_LINES);
        counts.push((format!("{} others", rest.len()), rest.iter().map(|(_, count)| count).sum()));
    }
    let rows: Vec<Vec<String>> =
        counts.into_iter().map(|(what, count)| vec![String::new(), count.to_string(), what]).collect();
    aligned(&rows, 1..2)
}

/// The cut for each share, and where a share can't be won, the one for all that can.
fn cuts(desk: &Desk, subject: &Subject, falls: &Falls) -> String {
    let Some(last) = falls.last() else {
        return "\nPrice alone: no cut, not even to 0, would have won any of them.\n".to_owned();
    };
    let mut text = "\nBoth prices cut, all else as it is\n".to_owned();
    for (share, cut) in SHARES.map(|(share, tenths)| (share, falls.cut(tenths))) {
        let told = cut.ppm.map_or_else(|| "no cut wins so many.".to_owned(), |ppm| fall(desk, subject, falls, ppm));
        text += &format!("  {share} of the lost, {} of {}: {told}\n", cut.needed, falls.lost);
    }
    if SHARES.iter().any(|(_, tenths)| falls.cut(*tenths).ppm.is_none()) {
        let (most, lost) = (falls.most(), falls.lost);
        text += &format!("  The most that can be won, {most} of {lost}: {}\n", fall(desk, subject, falls, last));
    }
    text
}

fn fall(desk: &Desk, subject: &Subject, falls: &Falls, ppm: u64) -> String {
    let mark = desk.money.mark;
    let prices = match subject.places.as_slice() {
        [place] => prices(desk, *place, ppm),
        _ => String::new(),
    };
    format!(
        "by {} percent; to the millionth, by {} percent{prices}, which wins {}.",
        rounded_up(ppm, mark),
        percent(ppm, mark),
        falls.won_by(ppm)
    )
}

fn prices(desk: &Desk, place: usize, ppm: u64) -> String {
    let [input, output] = both_prices(desk, place);
    let (at_input, at_output) = (scaled_price(input, PPM - ppm), scaled_price(output, PPM - ppm));
    let [input, output, at_input, at_output] = [input, output, at_input, at_output].map(|price| desk.money.bare(price));
    format!(", from {input} and {output} per million tokens in and out to {at_input} and {at_output}")
}

fn both_prices(desk: &Desk, place: usize) -> [u64; 2] {
    let model = &desk.models.models[place].model;
    [model.input_cost_microunits_per_million_tokens, model.output_cost_microunits_per_million_tokens]
}

/// Of several models, a table of their prices, today's and at the cut of each share that can be won.
fn prices_of_many(desk: &Desk, subject: &Subject, falls: &Falls) -> String {
    let cuts = SHARES.map(|(share, tenths)| falls.cut(tenths).ppm.map(|ppm| (share.to_lowercase(), ppm)));
    let cuts: Vec<(String, u64)> = cuts.into_iter().flatten().collect();
    if subject.places.len() == 1 || cuts.is_empty() {
        return String::new();
    }
    let mut heading = ["model", "input price", "output price"].map(str::to_owned).to_vec();
    heading.extend(cuts.iter().flat_map(|(share, _)| [format!("for {share}: input"), "output".to_owned()]));
    let mut rows = vec![heading];
    for place in &subject.places {
        let scales = std::iter::once(PPM).chain(cuts.iter().map(|(_, ppm)| PPM - ppm));
        let today = both_prices(desk, *place);
        let cells = scales.flat_map(|scale| today.map(|price| desk.money.bare(scaled_price(price, scale))));
        rows.push(std::iter::once(desk.models.models[*place].name.clone()).chain(cells).collect());
    }
    format!("\n{}", aligned(&rows, 1..rows[0].len()))
}

/// Millionths as a percentage with one decimal, rounded up.
fn rounded_up(ppm: u64, mark: char) -> String {
    let tenths = ppm.div_ceil(1_000);
    format!("{}{mark}{}", tenths / 10, tenths % 10)
}

/// Millionths as a percentage with all of its decimals.
fn percent(ppm: u64, mark: char) -> String {
    format!("{}{mark}{:04}", ppm / 10_000, ppm % 10_000)
}

const REQUEST_COLUMNS: [&str; 6] =
    ["sequence", "outcome", "chosen", "why", "price_fall_percent", "model_that_would_win"];

fn requests_page(desk: &Desk, fates: &[Fate]) -> Page {
    let mut page = Page::new(&REQUEST_COLUMNS);
    for (request, fate) in desk.requests.requests.iter().zip(fates) {
        let name = |place: usize| desk.models.models[place].name.clone();
        let [outcome, chosen, why, fall, winner] = match fate {
            Fate::Stopped => ["stopped".to_owned(), String::new(), String::new(), String::new(), String::new()],
            Fate::Won(place) => ["won".to_owned(), name(*place), String::new(), String::new(), String::new()],
            Fate::Lost(loss) => [
                "lost".to_owned(),
                loss.to.map_or(String::new(), name),
                loss.why.words().to_owned(),
                loss.fall.map_or(String::new(), |fall| shown(fall.ppm.into(), 4, desk.money.mark)),
                loss.fall.map_or(String::new(), |fall| name(fall.place)),
            ],
        };
        page.push(vec![request.input.request_sequence.to_string(), outcome, chosen, why, fall, winner]);
    }
    page
}

const MODEL_COLUMNS: [&str; 5] =
    ["name", "chosen", "lost", "half_at_price_fall_percent", "nine_tenths_at_price_fall_percent"];
const MODEL_HEADINGS: [&str; 5] = ["model", "chosen", "lost", "half", "nine tenths"];

/// The text and the page about every model.
fn all(desk: &Desk) -> Result<(String, Page), Trouble> {
    let requests = &desk.requests.requests;
    let decisions: Vec<KernelDecision> =
        requests.iter().map(|request| desk.decide(request.input)).collect::<Result<_, _>>()?;
    let bar = progress::bar(requests.len() * desk.models.models.len(), "requests and models");
    let (mut page, mut rows) = (Page::new(&MODEL_COLUMNS), vec![MODEL_HEADINGS.map(str::to_owned).to_vec()]);
    for (place, named) in desk.models.models.iter().enumerate() {
        let subject = Subject::new(desk, vec![place]);
        let fates = requests.iter().zip(&decisions).map(|(request, decision)| {
            bar.inc(1);
            subject.fate(desk, request.input, decision)
        });
        let fates = fates.collect::<Result<Vec<Fate>, Trouble>>()?;
        let falls = Falls::of(losses(&fates));
        let counts = [named.name.clone(), count(&fates, won).to_string(), falls.lost.to_string()];
        let cuts = SHARES.map(|(_, tenths)| falls.cut(tenths));
        rows.push(counts.iter().cloned().chain(cuts.map(|cut| short(cut, desk.money.mark))).collect());
        let exact = |cut: Cut| cut.ppm.map_or(String::new(), |ppm| shown(ppm.into(), 4, desk.money.mark));
        page.push(counts.iter().cloned().chain(cuts.map(exact)).collect());
    }
    bar.finish_and_clear();
    let stopped = decisions.iter().filter(|decision| decision.reason.stops_request()).count();
    let head = format!("{}, {stopped} of them stopped before any model was looked at.\n", counted(desk));
    Ok((format!("{head}\n{}\n{EXPLAINED}", aligned(&rows, 1..5)), page))
}

const EXPLAINED: &str = "\
Half, nine tenths: the cut of both prices of the model, all else as it is, that would have won so many of the lost requests; a dash: no cut would.
";

fn short(cut: Cut, mark: char) -> String {
    cut.ppm.map_or_else(|| "-".to_owned(), |ppm| format!("-{}%", rounded_up(ppm, mark)))
}
