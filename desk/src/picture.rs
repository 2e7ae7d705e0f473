//! The picture of a request: lines of utility against price, as SVG.
//!
//! From above: the title; the prices at which models win, as flags over their dots, so that none covers a line or another flag; the plot; a
//! legend with a row for each model.
use crate::canvas::{
    cut, line, round_step, ticks, write, Axis, Drawn, Frame, Look, Sheet, FRAME, LARGE, LETTER, SMALL,
};
use crate::open::Desk;
use crate::plot::{percent, MOST_SCALE};
use crate::speech::Speech;
use plotters::prelude::*;
use plotters::style::text_anchor::HPos;
use volankizo::{KernelDecision, KernelInput, PPM};

/// A model's utility, in microunits, at a price in millionths of today's.
#[derive(Clone, Copy, Debug, PartialEq, Eq)]
pub struct Point {
    pub scale: u64,
    pub utility: i64,
}

/// What is drawn and said of one model.
#[derive(Clone, Debug, PartialEq, Eq)]
pub struct Curve {
    pub name: String,
    pub chosen: bool,
    /// Its utility today, or why it has none.
    pub today: String,
    /// Where it wins.
    pub note: String,
    /// The highest price at which it wins, where the picture shows it.
    pub boundary: Option<Point>,
    /// Where it is eligible, from price 0 on.
    pub points: Vec<Point>,
}

const WIDTH: i32 = 1000;
const MARGIN: i32 = 24;
const HEAD: i32 = 70;
const PLOT_HEIGHT: i32 = 420;
const AXIS_HEIGHT: i32 = 66;
/// Room for a flag beside the plot.
const RIGHT: i32 = 64;
const FLAG_WIDTH: i32 = 62;
const FLAG_HEIGHT: i32 = 17;
const ROW_HEIGHT: i32 = 22;
const RULE_HEIGHT: i32 = 6;
const MOST_MARKS: u64 = 9;
/// Where the legend's columns begin: line, name, utility today, where it wins.
const COLUMNS: [i32; 4] = [MARGIN, 84, 430, 730];
const SAMPLE: i32 = 46;
const NAME_WIDTH: i32 = 336;
const TODAY_WIDTH: i32 = 290;
const TEXT_WIDTH: i32 = WIDTH - 2 * MARGIN;

const CHOSEN: Look = Look { colour: BLACK, width: 3, dashes: &[] };
const LEVEL: Look = Look { dashes: &[8, 6], ..FRAME };
const COLOURS: [RGBColor; 7] = [
    RGBColor(0, 95, 175),
    RGBColor(205, 75, 0),
    RGBColor(0, 145, 100),
    RGBColor(165, 45, 135),
    RGBColor(70, 170, 230),
    RGBColor(130, 85, 50),
    RGBColor(225, 155, 0),
];
/// Four patterns and seven colours make 28 looks, each unlike its neighbours in both.
const DASHES: [&[u32]; 4] = [&[], &[18, 8], &[6, 6], &[16, 6, 5, 6]];

/// The picture as SVG, the same bytes each time.
pub fn draw(desk: &Desk, input: &KernelInput, decision: &KernelDecision, curves: &[Curve]) -> Result<String, String> {
    let mut svg = String::new();
    let picture = Picture::of(desk, input, decision, curves);
    let size = (WIDTH as u32, picture.height() as u32);
    let drawn = picture.draw(&SVGBackend::with_string(&mut svg, size).into_drawing_area());
    drawn.map_err(|error| format!("the picture can't be drawn: {error}"))?;
    Ok(svg)
}

struct Picture<'a> {
    desk: &'a Desk,
    input: &'a KernelInput,
    decision: &'a KernelDecision,
    curves: &'a [Curve],
    looks: Vec<Look>,
    flags: Vec<Flag>,
    frame: Frame,
}

/// A price at which a model wins, written over its dot in one of several rows; row 0 is next to the plot.
#[derive(Clone, Copy, Debug)]
struct Flag {
    point: Point,
    look: Look,
    row: i32,
}

impl<'a> Picture<'a> {
    fn of(desk: &'a Desk, input: &'a KernelInput, decision: &'a KernelDecision, curves: &'a [Curve]) -> Self {
        let (low, high) = reach(decision, curves);
        let step = round_step(high.abs_diff(low), MOST_MARKS);
        let widest = ticks(low, high, step.into()).map(|tick| desk.money.bare(tick).len()).max().unwrap_or(0);
        let (left, right) = (MARGIN + 24 + LETTER * widest as i32, WIDTH - RIGHT);
        let mut frame = Frame { left, right, top: HEAD, bottom: HEAD + PLOT_HEIGHT, across: MOST_SCALE, low, high };
        let looks = looks(curves);
        let flags = flags(curves, &looks, &frame);
        let strip = FLAG_HEIGHT * flags.iter().map(|flag| flag.row + 1).max().unwrap_or(0);
        (frame.top, frame.bottom) = (frame.top + strip, frame.bottom + strip);
        Picture { desk, input, decision, curves, looks, flags, frame }
    }

    fn height(&self) -> i32 {
        // Under the plot: its axis, the legend's heading, the models, and the level.
        self.frame.bottom + AXIS_HEIGHT + RULE_HEIGHT + ROW_HEIGHT * (self.curves.len() as i32 + 2)
    }

    fn draw(&self, sheet: &Sheet) -> Drawn {
        sheet.fill(&WHITE)?;
        self.head(sheet)?;
        self.axes(sheet)?;
        let frame = &self.frame;
        if let Some(level) = level(self.decision) {
            line(sheet, &[frame.at(0, level), frame.at(MOST_SCALE, level)], LEVEL)?;
        }
        line(sheet, &[frame.at(PPM, frame.low), frame.at(PPM, frame.high)], FRAME)?;
        for (curve, look) in self.curves.iter().zip(&self.looks) {
            let points: Vec<(u64, i64)> = curve.points.iter().map(|point| (point.scale, point.utility)).collect();
            line(sheet, &frame.path(&points), *look)?;
        }
        self.flags.iter().try_for_each(|flag| self.flag(sheet, flag))?;
        self.legend(sheet)?;
        Ok(sheet.present()?)
    }

    fn head(&self, sheet: &Sheet) -> Drawn {
        let title =
            format!("Utility against price: request {} of {}", self.input.request_sequence, self.desk.requests.file);
        let choice = Speech { desk: self.desk, numbers: false }.choice(self.input, self.decision);
        write(sheet, &cut(&title, LARGE, TEXT_WIDTH), (MARGIN, 24), LARGE, HPos::Left)?;
        write(sheet, &cut(&choice, SMALL, TEXT_WIDTH), (MARGIN, 48), SMALL, HPos::Left)
    }

    fn axes(&self, sheet: &Sheet) -> Drawn {
        let today =
            |scale: u64| if scale == PPM { "100 % (today)".to_owned() } else { format!("{} %", scale / 10_000) };
        let x = Axis { title: "price, in percent of today's".to_owned(), step: PPM / 5, label: &today };
        let amount = |utility: i64| self.desk.money.bare(utility);
        let step = round_step(self.frame.high.abs_diff(self.frame.low), MOST_MARKS);
        let y =
            Axis { title: cut(&format!("utility, in {}", self.currency()), SMALL, PLOT_HEIGHT), step, label: &amount };
        self.frame.axes(sheet, &x, &y)
    }

    fn currency(&self) -> &str {
        self.desk.money.currency.as_deref().unwrap_or("units of currency")
    }

    /// A dot where the model wins, and its price above the plot.
    fn flag(&self, sheet: &Sheet, flag: &Flag) -> Drawn {
        let dot = self.frame.at(flag.point.scale, flag.point.utility);
        let height = self.frame.top - FLAG_HEIGHT * flag.row - FLAG_HEIGHT / 2;
        line(sheet, &[dot, (dot.0, height - 5)], Look { width: 1, dashes: &[], ..flag.look })?;
        sheet.draw(&Circle::new(dot, 5, flag.look.colour.filled()))?;
        write(sheet, &percent(flag.point.scale, self.desk.money.mark), (dot.0 + 4, height), SMALL, HPos::Left)
    }

    fn legend(&self, sheet: &Sheet) -> Drawn {
        let mut height = self.frame.bottom + AXIS_HEIGHT;
        let row = |height: i32, cells: [&str; 3]| {
            COLUMNS[1..].iter().zip(cells).try_for_each(|(x, cell)| write(sheet, cell, (*x, height), SMALL, HPos::Left))
        };
        let today = cut(&format!("utility today, in {}", self.currency()), SMALL, TODAY_WIDTH);
        row(height, ["model", &today, "price, in percent of today's"])?;
        line(sheet, &[(MARGIN, height + 12), (WIDTH - MARGIN, height + 12)], FRAME)?;
        height += RULE_HEIGHT;
        for (curve, look) in self.curves.iter().zip(&self.looks) {
            height += ROW_HEIGHT;
            if !curve.points.is_empty() {
                line(sheet, &[(COLUMNS[0], height), (COLUMNS[0] + SAMPLE, height)], *look)?;
            }
            row(height, [&cut(&curve.name, SMALL, NAME_WIDTH), &curve.today, &curve.note])?;
        }
        height += ROW_HEIGHT;
        let Some(level) = level(self.decision) else {
            return row(height, ["to beat: nothing, since no model is chosen", "any above 0 wins", ""]);
        };
        line(sheet, &[(COLUMNS[0], height), (COLUMNS[0] + SAMPLE, height)], LEVEL)?;
        row(height, ["to beat: the chosen model's utility today", &self.desk.money.bare(level), ""])
    }
}

/// The utility to beat: the chosen model's today.
fn level(decision: &KernelDecision) -> Option<i64> {
    decision.is_executable().then_some(decision.expected_utility_microunits)
}

/// The looks of the curves: the chosen one's is its own.
fn looks(curves: &[Curve]) -> Vec<Look> {
    let mut others = (0..).map(|place: usize| Look {
        colour: COLOURS[place % COLOURS.len()],
        width: 2,
        dashes: DASHES[place % DASHES.len()],
    });
    curves.iter().map(|curve| if curve.chosen { CHOSEN } else { others.next().unwrap_or(CHOSEN) }).collect()
}

/// The lowest and the highest utility of the plot, with some room.
fn reach(decision: &KernelDecision, curves: &[Curve]) -> (i64, i64) {
    let drawn = || curves.iter().flat_map(|curve| &curve.points).map(|point| point.utility).chain(level(decision));
    let (low, high) = (drawn().min().unwrap_or(0), drawn().max().unwrap_or(0));
    let room = if low == high { high / 10 } else { (high - low) / 20 }.max(1);
    // No utility that is drawn is below 0.
    ((low - room).max(0), high.saturating_add(room))
}

/// The flags of all dots. The line from a dot upwards passes the rows below its flag, so a flag stands in a higher row than all to its right
/// whose lines would cross it.
fn flags(curves: &[Curve], looks: &[Look], frame: &Frame) -> Vec<Flag> {
    let dots = curves.iter().zip(looks).filter_map(|(curve, look)| Some((curve.boundary?, *look)));
    let mut flags: Vec<Flag> = dots.map(|(point, look)| Flag { point, look, row: 0 }).collect();
    flags.sort_by_key(|flag| flag.point.scale);
    for place in (0..flags.len()).rev() {
        let end = frame.x(flags[place].point.scale) + FLAG_WIDTH;
        let crossed = flags[place + 1..].iter().filter(|other| frame.x(other.point.scale) < end);
        flags[place].row = crossed.map(|other| other.row + 1).max().unwrap_or(0);
    }
    flags
}
