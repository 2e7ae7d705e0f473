//! `desk plot`: utility against price for the models that matter in one request, as a picture.
//!
//! Every utility is the library's, asked about the model alone with its prices scaled; nothing between two samples is computed but the
//! straight line that is drawn.
use crate::asked::scaled_price;
use crate::cli::Files;
use crate::fate::Why;
use crate::fault::{Trouble, Warnings};
use crate::open::Desk;
use crate::output;
use crate::picture::{self, Curve, Point};
use crate::refusal::in_words;
use crate::speech::Speech;
use crate::table::{lines, rank, Line, Wins};
use volankizo::{Bank, Explanation, KernelInput, KernelModel, Refusal, PPM};

/// A picture (SVG) of utility against price for the models that matter in one request, with the boundaries marked
///
/// A line for each model shows its utility with both of its prices at 0 to 120 percent of today's, wherever it is eligible; a dot marks
/// the highest price at which it would be the choice, all else as it is. Shown are the chosen model, the second best and those that are
/// named; where none is named, the three best and the nearest to winning, six in all.
#[derive(clap::Args, Debug)]
pub struct Arguments {
    /// The models to show beside the chosen one and the second best, by name or id
    #[arg(value_name = "MODEL")]
    pub shown: Vec<String>,
    #[command(flatten)]
    pub files: Files,
    /// The request, by its sequence number; needed where the file has several
    #[arg(long, value_name = "SEQUENCE")]
    pub request: Option<u64>,
    /// The file to write; - is standard output
    #[arg(long, short, value_name = "FILE")]
    pub output: String,
}

/// The highest price that is shown, in millionths of today's, and the distance of two samples.
pub const MOST_SCALE: u64 = 1_200_000;
const STEP: usize = 10_000;
/// More lines can't be told apart.
const MOST_NAMED: usize = 20;
/// How many models are shown where none is named, and how many of them are the best.
const UNNAMED: usize = 6;
const BEST: usize = 3;

pub fn run(arguments: &Arguments, warnings: &mut Warnings) -> Result<String, Trouble> {
    let desk = Desk::open(&arguments.files, warnings)?;
    let input = desk.request(arguments.request)?.input;
    let named = named(&desk, &arguments.shown)?;
    let told = desk.explain(input)?;
    let speech = Speech { desk: &desk, numbers: false };
    if told.decision.reason.stops_request() {
        return Err(Trouble::Refused(format!("there is no picture. {}", speech.choice(&input, &told.decision))));
    }
    let curves = curves(&desk, input, &told, &named)?;
    if curves.iter().all(|curve| curve.points.is_empty()) {
        let what = format!("there is no picture of request {}: ", input.request_sequence);
        return Err(Trouble::Refused(what + "no model that would be shown is eligible at any price"));
    }
    let svg = picture::draw(&desk, &input, &told.decision, &curves).map_err(Trouble::Refused)?;
    if arguments.output == "-" {
        return Ok(svg);
    }
    output::write_beside(&arguments.files.read(), &[(&arguments.output, svg.into_bytes())])?;
    Ok(String::new())
}

fn named(desk: &Desk, words: &[String]) -> Result<Vec<usize>, Trouble> {
    if words.len() > MOST_NAMED {
        return Err(Trouble::Usage(format!("{} models are named; a picture shows at most {MOST_NAMED}", words.len())));
    }
    let unlisted = |word: &str| Trouble::Refused(format!("refused 5: {}", desk.models.unknown(word)));
    words.iter().map(|word| desk.models.place_of(word).ok_or_else(|| unlisted(word))).collect()
}

/// What is drawn of the models to show.
pub fn curves(desk: &Desk, input: KernelInput, told: &Explanation, named: &[usize]) -> Result<Vec<Curve>, Trouble> {
    let shown = shown_models(desk, input, told, named)?;
    shown.iter().map(|line| curve(desk, input, told, line)).collect()
}

/// The models to show, the best first; those that are named stand behind in the order in which they are.
fn shown_models(desk: &Desk, input: KernelInput, told: &Explanation, named: &[usize]) -> Result<Vec<Line>, Trouble> {
    let mut ranked = lines(desk, input, told)?;
    ranked.sort_by_key(|line| rank(desk, line));
    let eligible = ranked.iter().filter(|line| ["chosen", "outranked"].contains(&line.verdict));
    let best = eligible.take(if named.is_empty() { BEST } else { 2 }).map(|line| line.place);
    let nearest = if named.is_empty() { nearest(&ranked) } else { named.to_vec() };
    let mut places: Vec<usize> = Vec::new();
    for place in best.chain(nearest) {
        if !places.contains(&place) && (!named.is_empty() || places.len() < UNNAMED) {
            places.push(place);
        }
    }
    let line = |place: usize| ranked.iter().find(|line| line.place == place).cloned();
    Ok(places.into_iter().filter_map(line).collect())
}

/// The models that some price would make the choice, the highest such price first.
fn nearest(lines: &[Line]) -> Vec<usize> {
    let mut near: Vec<(u64, usize)> = Vec::new();
    near.extend(lines.iter().filter_map(|line| match line.price {
        Wins::At(scale) if line.verdict != "chosen" => Some((scale, line.place)),
        _ => None,
    }));
    near.sort_by_key(|(scale, _)| std::cmp::Reverse(*scale));
    near.into_iter().map(|(_, place)| place).collect()
}

fn curve(desk: &Desk, input: KernelInput, told: &Explanation, line: &Line) -> Result<Curve, Trouble> {
    let named = &desk.models.models[line.place];
    let boundary = match line.price {
        Wins::At(scale) if scale <= MOST_SCALE => point(desk, input, &named.model, scale)?,
        _ => None,
    };
    let mut points = Vec::new();
    for scale in (0..=MOST_SCALE).step_by(STEP) {
        points.extend(point(desk, input, &named.model, scale)?);
    }
    points.extend(boundary);
    points.sort_by_key(|point| point.scale);
    let why = Why::of(desk, line.place, &told.candidates[line.place].verdict, &told.decision);
    Ok(Curve {
        name: named.name.clone(),
        chosen: line.verdict == "chosen",
        today: line.utility.map_or_else(|| why.words().to_owned(), |utility| desk.money.bare(utility)),
        note: note(line, desk.money.mark),
        boundary,
        points,
    })
}

/// A model's utility at a price scale, where it is eligible there.
fn point(desk: &Desk, input: KernelInput, model: &KernelModel, scale: u64) -> Result<Option<Point>, Trouble> {
    let scaled = KernelModel {
        input_cost_microunits_per_million_tokens: scaled_price(model.input_cost_microunits_per_million_tokens, scale),
        output_cost_microunits_per_million_tokens: scaled_price(model.output_cost_microunits_per_million_tokens, scale),
        ..*model
    };
    match desk.policy.policy.utility_for_model(&Bank::from_models(&[scaled]), input, model.model_id) {
        Ok(utility) => Ok(Some(Point { scale, utility })),
        Err(Refusal::NotEligible) => Ok(None),
        Err(refusal) => Err(in_words(refusal, &desk.models)),
    }
}

/// Where the model wins, in a few words. A price is rounded down, so that what is told suffices.
fn note(line: &Line, mark: char) -> String {
    match (line.verdict, line.price) {
        ("chosen", Wins::At(scale)) => format!("chosen, up to {}", percent(scale, mark)),
        ("chosen", Wins::Searched) => "chosen, up to 1000 times".to_owned(),
        ("chosen", _) => "chosen, at any price".to_owned(),
        (_, Wins::At(scale)) => format!("wins at {} or less", percent(scale, mark)),
        _ => "no price would do".to_owned(),
    }
}

/// A price scale in percent of today's with one decimal, rounded down.
pub fn percent(scale: u64, mark: char) -> String {
    let tenths = scale / (PPM / 1_000);
    format!("{}{mark}{} %", tenths / 10, tenths % 10)
}
