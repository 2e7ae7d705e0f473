//! `desk table`: every model of a list for one request.
use crate::asked::{lever, scaled_price};
use crate::cli::Files;
use crate::csv_out::Page;
use crate::fault::{Trouble, Warnings};
use crate::layout::aligned;
use crate::open::Desk;
use crate::output;
use crate::policy::allowance;
use crate::speech::Speech;
use volankizo::{
    CandidateVerdict, Explanation, KernelInput, KernelModel, Lever, Requirement, MAX_PRICE_SCALE_PPM, PPM,
};

/// Every model for one request: verdict, cost, utility, and the price, quality and latency at which it would win
#[derive(clap::Args, Debug)]
#[command(after_help = VERDICTS_HELP)]
pub struct Arguments {
    #[command(flatten)]
    pub files: Files,
    /// The request, by its sequence number; needed where the file has several
    #[arg(long, value_name = "SEQUENCE")]
    pub request: Option<u64>,
    /// The chosen model first, then the other eligible ones as they are ranked, then the rest
    #[arg(long)]
    pub best_first: bool,
    /// Write the table as CSV to this file; - is standard output
    #[arg(long, value_name = "FILE")]
    pub csv: Option<String>,
}

const VERDICTS_HELP: &str = "\
Verdicts in the CSV: chosen; outranked by the chosen one; rejected by a test, as of quality or region; budget, over it; utility, not above 0;
off, switched off; stopped, as the request is. A price is searched up to 1000 times today's, in steps of a millionth of it.";

/// One model of the table. Where it would win is the last setting of a lever that makes or keeps it the choice, all else as it is today.
#[derive(Clone, Debug, PartialEq, Eq)]
pub struct Line {
    pub place: usize,
    /// One word: chosen, outranked, rejected, budget, utility, off or stopped.
    pub verdict: &'static str,
    /// Why, in words.
    pub reason: String,
    pub cost: Option<u64>,
    pub utility: Option<i64>,
    /// In millionths of today's.
    pub price: Wins,
    pub quality: Wins,
    pub latency: Wins,
}

/// Where a lever makes or keeps a model the choice.
#[derive(Clone, Copy, Debug, PartialEq, Eq)]
pub enum Wins {
    Never,
    At(u64),
    /// At every price up to 1,000 times today's, the highest that the library looks at.
    Searched,
    /// Wherever in its range it stands.
    Always,
}

pub fn run(arguments: &Arguments, warnings: &mut Warnings) -> Result<String, Trouble> {
    let desk = Desk::open(&arguments.files, warnings)?;
    let request = desk.request(arguments.request)?;
    let told = desk.explain(request.input)?;
    let mut lines = lines(&desk, request.input, &told)?;
    if arguments.best_first {
        lines.sort_by_key(|line| rank(&desk, line));
    }
    match arguments.csv.as_deref() {
        None => Ok(text(&desk, &request.input, &told, &lines)),
        Some("-") => Ok(page(&desk, &lines).text(arguments.files.writing.dialect())),
        Some(file) => {
            let table = page(&desk, &lines).text(arguments.files.writing.dialect());
            output::write_beside(&arguments.files.read(), &[(file, table.into_bytes())])?;
            Ok(String::new())
        }
    }
}

/// A line for each model, in the order of the list.
pub fn lines(desk: &Desk, input: KernelInput, told: &Explanation) -> Result<Vec<Line>, Trouble> {
    let speech = Speech { desk, numbers: false };
    (0..desk.models.models.len()).map(|place| line(&speech, input, told, place)).collect()
}

fn line(speech: &Speech, input: KernelInput, told: &Explanation, place: usize) -> Result<Line, Trouble> {
    let Some(entry) = told.candidates.get(place) else { return Ok(stopped(place)) };
    let (cost, utility) = amounts(&entry.verdict);
    let chosen = speech.desk.chosen(&told.decision) == Some(place);
    let (levers, unlisted) = match chosen {
        true => (speech.desk.margin(input)?.levers, Wins::Always),
        false => (speech.desk.levers_to_win(input, &told.decision, place)?, Wins::Never),
    };
    let wins = |wanted: Lever| lever(&levers, wanted).map_or(unlisted, |found| Wins::At(found.boundary));
    let (verdict, reason) = match chosen {
        true => ("chosen", "chosen".to_owned()),
        false => (word(&entry.verdict), reason(speech, place, told, &levers)),
    };
    let price = match wins(Lever::PriceScalePpm) {
        Wins::Always if has_price(&speech.desk.models.models[place].model) => Wins::Searched,
        price => price,
    };
    let (quality, latency) = (wins(Lever::QualityBps), wins(Lever::P95LatencyMs));
    Ok(Line { place, verdict, reason, cost, utility, price, quality, latency })
}

/// Prices of 0 stay 0, by whatever they are multiplied.
fn has_price(model: &KernelModel) -> bool {
    model.input_cost_microunits_per_million_tokens != 0 || model.output_cost_microunits_per_million_tokens != 0
}

fn stopped(place: usize) -> Line {
    let never = Wins::Never;
    let reason = "not looked at: the request is stopped".to_owned();
    Line { place, verdict: "stopped", reason, cost: None, utility: None, price: never, quality: never, latency: never }
}

/// What the library tells of a model's cost and utility; of one that fails a gate it computes neither.
fn amounts(verdict: &CandidateVerdict) -> (Option<u64>, Option<i64>) {
    match verdict {
        CandidateVerdict::Rejected { .. } => (None, None),
        CandidateVerdict::OverBudget { cost_microunits, .. } => (Some(*cost_microunits), None),
        CandidateVerdict::NonPositiveUtility(terms) | CandidateVerdict::Eligible(terms) => {
            (Some(terms.cost_microunits), Some(terms.utility))
        }
    }
}

fn word(verdict: &CandidateVerdict) -> &'static str {
    match verdict {
        CandidateVerdict::Rejected { gate: volankizo::GateKind::Disabled, .. } => "off",
        CandidateVerdict::Rejected { .. } => "rejected",
        CandidateVerdict::OverBudget { .. } => "budget",
        CandidateVerdict::NonPositiveUtility(_) => "utility",
        CandidateVerdict::Eligible(_) => "outranked",
    }
}

/// Why a model isn't chosen; of one that is off, also whether that is all.
fn reason(speech: &Speech, place: usize, told: &Explanation, levers: &[Requirement]) -> String {
    let why = speech.verdict(place, &told.candidates[place].verdict, &told.decision);
    match (speech.desk.models.models[place].model.enabled, lever(levers, Lever::Enabled)) {
        (0, Some(_)) => format!("{why}; switched on, it would be chosen"),
        (0, None) => format!("{why}; switched on, it would still not be chosen"),
        _ => why,
    }
}

/// The order of the ranking: the keys of the kernel, and behind all eligible models the others as they are listed.
pub fn rank(desk: &Desk, line: &Line) -> (u8, i128, u64, i32, u32) {
    let model = &desk.models.models[line.place].model;
    match (line.verdict, line.cost, line.utility) {
        ("chosen" | "outranked", Some(cost), Some(utility)) => {
            (0, -i128::from(utility), cost, -i32::from(model.quality_bps), model.model_id)
        }
        _ => (1, 0, 0, 0, line.place as u32),
    }
}

const HEADINGS: [&str; 9] =
    ["model", "cost", "utility", "price", "input price", "output price", "quality", "latency", "verdict"];

fn text(desk: &Desk, input: &KernelInput, told: &Explanation, lines: &[Line]) -> String {
    let speech = Speech { desk, numbers: false };
    let mut rows = vec![HEADINGS.map(str::to_owned).to_vec()];
    rows.extend(lines.iter().map(|line| shown(desk, line)));
    let unlisted = speech.unlisted(input).map_or(String::new(), |line| line + "\n");
    format!(
        "Request {} of {}.\n{}\n{unlisted}\n{}\n{EXPLAINED}{}",
        input.request_sequence,
        desk.requests.file,
        speech.choice(input, &told.decision),
        aligned(&rows, 1..8),
        free(desk)
    )
}

const EXPLAINED: &str = "\
Price to latency: where the model would be the choice, or stays it, by that change alone: a change of both prices alike (beside it the prices
then, searched in steps of a millionth of today's, in currency per million tokens), a quality of so many basis points or more, a latency of so
many ms or less. A dash: nowhere; any: everywhere; to 1000x: up to 1000 times today's prices, beyond which nothing is searched.
";

/// What a policy with an allowance leaves free; of any other nothing is said.
fn free(desk: &Desk) -> String {
    let told = |free: u32| {
        format!("A latency is told in full. Its first {free} ms are free: only those above them are charged, but a request's limit counts all.\n")
    };
    allowance(&desk.policy.policy).map_or(String::new(), told)
}

fn shown(desk: &Desk, line: &Line) -> Vec<String> {
    let money = &desk.money;
    let dash = || "-".to_owned();
    let (input, output) = prices(desk, line);
    let setting = |wins: Wins| match wins {
        Wins::Never => dash(),
        Wins::At(boundary) => boundary.to_string(),
        Wins::Searched | Wins::Always => "any".to_owned(),
    };
    vec![
        desk.models.models[line.place].name.clone(),
        line.cost.map_or_else(dash, |cost| money.bare(cost)),
        line.utility.map_or_else(dash, |utility| money.bare(utility)),
        change(line.price, money.mark),
        input.map_or_else(|| setting(line.price), |price| money.bare(price)),
        output.map_or_else(|| setting(line.price), |price| money.bare(price)),
        setting(line.quality),
        setting(line.latency),
        line.reason.clone(),
    ]
}

/// The last scale of both prices, of those that are searched, at which the model would win; none where it wins at none or at all.
fn scale(line: &Line) -> Option<u64> {
    match line.price {
        Wins::At(scale) => Some(scale),
        Wins::Searched => Some(MAX_PRICE_SCALE_PPM),
        Wins::Never | Wins::Always => None,
    }
}

/// Both prices there.
fn prices(desk: &Desk, line: &Line) -> (Option<u64>, Option<u64>) {
    let model = &desk.models.models[line.place].model;
    let at = |price: u64| scale(line).map(|scale| scaled_price(price, scale));
    (at(model.input_cost_microunits_per_million_tokens), at(model.output_cost_microunits_per_million_tokens))
}

/// A change of price in percent at one decimal, rounded so that what is told suffices: a fall up, a rise down.
fn change(wins: Wins, mark: char) -> String {
    let percent = |tenths: u64| format!("{}{mark}{}%", tenths / 10, tenths % 10);
    match wins {
        Wins::Never => "-".to_owned(),
        Wins::Always => "any".to_owned(),
        Wins::Searched => format!("to {}x", MAX_PRICE_SCALE_PPM / PPM),
        Wins::At(PPM) => percent(0),
        Wins::At(scale) if scale > PPM => format!("+{}", percent((scale - PPM) / 1_000)),
        Wins::At(scale) => format!("-{}", percent((PPM - scale).div_ceil(1_000))),
    }
}

const COLUMNS: [&str; 12] = [
    "name",
    "id",
    "provider",
    "verdict",
    "reason",
    "cost_currency",
    "utility_currency",
    "wins_at_price_percent_of_today",
    "wins_at_input_price_per_million",
    "wins_at_output_price_per_million",
    "wins_at_quality_bps",
    "wins_at_latency_ms",
];

/// The last column, of a policy with an allowance alone: that allowance, the same in every line.
const ALLOWANCE_COLUMN: &str = "latency_allowance_ms";

fn page(desk: &Desk, lines: &[Line]) -> Page {
    let allowance = allowance(&desk.policy.policy);
    let columns: Vec<&str> = COLUMNS.into_iter().chain(allowance.map(|_| ALLOWANCE_COLUMN)).collect();
    let mut page = Page::new(&columns);
    for line in lines {
        page.push(record(desk, line).into_iter().chain(allowance.map(|free| free.to_string())).collect());
    }
    page
}

/// The cells of a line: empty where it wins nowhere or the library tells no number, `any` where it wins everywhere. 100,000 percent is the
/// end of the search.
fn record(desk: &Desk, line: &Line) -> Vec<String> {
    let named = &desk.models.models[line.place];
    let money = &desk.money;
    let (input, output) = prices(desk, line);
    let setting = |wins: Wins| match wins {
        Wins::Never => String::new(),
        Wins::At(boundary) => boundary.to_string(),
        Wins::Searched | Wins::Always => "any".to_owned(),
    };
    let price = |price: Option<u64>| price.map_or_else(|| setting(line.price), |price| money.bare(price));
    let percent = |scale: u64| crate::decimal::shown(scale.into(), 4, money.mark);
    vec![
        named.name.clone(),
        named.model.model_id.to_string(),
        desk.models.names.providers.name(named.model.provider_id),
        line.verdict.to_owned(),
        line.reason.clone(),
        line.cost.map_or(String::new(), |cost| money.bare(cost)),
        line.utility.map_or(String::new(), |utility| money.bare(utility)),
        scale(line).map_or_else(|| setting(line.price), percent),
        price(input),
        price(output),
        setting(line.quality),
        setting(line.latency),
    ]
}
