//! Lines, words and axes on a sheet of SVG. All positions are whole pixels; what they stand for is whole numbers too.
use plotters::coord::Shift;
use plotters::prelude::*;
use plotters::style::text_anchor::{HPos, Pos, VPos};
use std::error::Error;

pub type Pixel = (i32, i32);
pub type Sheet<'a> = DrawingArea<SVGBackend<'a>, Shift>;
pub type Drawn = Result<(), Box<dyn Error>>;

/// The size of a text; the backend makes letters smaller by a quarter.
pub const SMALL: i32 = 16;
pub const LARGE: i32 = 21;
/// About the width of a letter of the small size.
pub const LETTER: i32 = 8;
const GRID: RGBColor = RGBColor(225, 225, 225);

/// How a line looks: pixels of its dashes are drawn and left out in turn.
#[derive(Clone, Copy, Debug)]
pub struct Look {
    pub colour: RGBColor,
    pub width: u32,
    pub dashes: &'static [u32],
}

pub const FRAME: Look = Look { colour: RGBColor(90, 90, 90), width: 1, dashes: &[] };

/// Writes a text on one line, its middle at the height of the pixel.
pub fn write(sheet: &Sheet, text: &str, at: Pixel, size: i32, side: HPos) -> Drawn {
    let style = ("sans-serif", size).into_text_style(sheet).pos(Pos::new(side, VPos::Center));
    Ok(sheet.draw(&Text::new(sound(text), at, style))?)
}

/// Writes a text upwards.
fn write_upwards(sheet: &Sheet, text: &str, at: Pixel) -> Drawn {
    let style = ("sans-serif", SMALL).into_text_style(sheet).transform(FontTransform::Rotate270);
    Ok(sheet.draw(&Text::new(sound(text), at, style.pos(Pos::new(HPos::Center, VPos::Center))))?)
}

/// A text without what XML has no way to write.
fn sound(text: &str) -> String {
    let unsound = |letter: char| letter.is_control() || matches!(letter, '\u{fffe}' | '\u{ffff}');
    text.chars().map(|letter| if unsound(letter) { char::REPLACEMENT_CHARACTER } else { letter }).collect()
}

/// A text that is no wider than so many pixels, as far as can be told without its font.
pub fn cut(text: &str, size: i32, pixels: i32) -> String {
    let room = pixels * SMALL / size;
    if text.chars().map(width).sum::<i32>() <= room {
        return text.to_owned();
    }
    let mut taken = 2 * width('.');
    let begin = text.chars().take_while(|letter| {
        taken += width(*letter);
        taken <= room
    });
    begin.collect::<String>() + ".."
}

/// The pixels that a letter of the small size takes in a wide font, rounded up.
fn width(letter: char) -> i32 {
    match letter {
        ' ' | '.' | ',' | ':' | 'i' | 'j' | 'l' | 'I' | '\'' | '|' => 5,
        'm' | 'w' | 'M' | 'W' | '@' | '%' => 13,
        '\u{1100}'.. => 14,
        _ if letter.is_uppercase() => 10,
        _ => LETTER,
    }
}

/// Draws a path in its look.
pub fn line(sheet: &Sheet, path: &[Pixel], look: Look) -> Drawn {
    for dash in dashes(path, look.dashes).into_iter().filter(|dash| dash.len() > 1) {
        sheet.draw(&PathElement::new(dash, look.colour.stroke_width(look.width)))?;
    }
    Ok(())
}

/// A path cut into dashes, by its length; whole where there is no pattern.
fn dashes(path: &[Pixel], pattern: &'static [u32]) -> Vec<Vec<Pixel>> {
    let (Some(first), Some(dash)) = (path.first(), pattern.first()) else {
        return vec![path.to_vec()];
    };
    let mut pen = Pen { pattern, turn: 0, left: f64::from(*dash), drawn: vec![vec![*first]] };
    path.windows(2).for_each(|step| pen.walk(step[0], step[1]));
    pen.drawn
}

/// A pen that is down and up in turn.
struct Pen {
    pattern: &'static [u32],
    turn: usize,
    /// The pixels to the next turn.
    left: f64,
    drawn: Vec<Vec<Pixel>>,
}

impl Pen {
    fn walk(&mut self, from: Pixel, to: Pixel) {
        let (right, down) = (f64::from(to.0 - from.0), f64::from(to.1 - from.1));
        let (length, mut gone) = (right.hypot(down), 0.0);
        while length - gone > self.left {
            gone += self.left;
            let share = gone / length;
            self.turn_at((from.0 + (right * share).round() as i32, from.1 + (down * share).round() as i32));
        }
        self.left -= length - gone;
        self.reach(to);
    }

    fn turn_at(&mut self, here: Pixel) {
        self.reach(here);
        self.turn += 1;
        self.left = f64::from(self.pattern[self.turn % self.pattern.len()]);
        if self.is_down() {
            self.drawn.push(vec![here]);
        }
    }

    fn reach(&mut self, here: Pixel) {
        let down = self.is_down();
        self.drawn.last_mut().filter(|_| down).into_iter().for_each(|dash| dash.push(here));
    }

    fn is_down(&self) -> bool {
        self.turn % 2 == 0
    }
}

/// A plot's place on the sheet, and the numbers at its edges.
#[derive(Clone, Debug)]
pub struct Frame {
    pub left: i32,
    pub right: i32,
    pub top: i32,
    pub bottom: i32,
    /// To the right, from 0.
    pub across: u64,
    /// Upwards.
    pub low: i64,
    pub high: i64,
}

impl Frame {
    pub fn at(&self, x: u64, y: i64) -> Pixel {
        (self.x(x), self.y(y))
    }

    pub fn x(&self, x: u64) -> i32 {
        self.left + part(x.into(), self.across.into(), self.right - self.left)
    }

    fn y(&self, y: i64) -> i32 {
        let (low, high) = (i128::from(self.low), i128::from(self.high));
        self.bottom - part(i128::from(y) - low, high - low, self.bottom - self.top)
    }

    /// The pixels of a line through points, without those that a straight line passes within a pixel: rounded, they would make it shake.
    pub fn path(&self, points: &[(u64, i64)]) -> Vec<Pixel> {
        let mut kept: Vec<usize> = points.first().map_or(Vec::new(), |_| vec![0]);
        for end in 1..points.len() {
            let begin = kept[kept.len() - 1];
            if (begin + 1..end).any(|between| !self.passes(points[begin], points[between], points[end])) {
                kept.push(end - 1);
            }
        }
        kept.extend((points.len() > 1).then(|| points.len() - 1));
        kept.into_iter().map(|place| self.at(points[place].0, points[place].1)).collect()
    }

    /// Whether the line from one point to another passes a third within a pixel.
    fn passes(&self, from: (u64, i64), by: (u64, i64), to: (u64, i64)) -> bool {
        let [from, by, to] = [from, by, to].map(|(x, y)| (x as f64, y as f64));
        let straight = from.1 + (to.1 - from.1) * (by.0 - from.0) / (to.0 - from.0).max(1.0);
        (straight - by.1).abs() * f64::from(self.bottom - self.top) <= self.high as f64 - self.low as f64
    }

    /// Draws a grid with its numbers, the frame, and what the axes are.
    pub fn axes(&self, sheet: &Sheet, x: &Axis<'_, u64>, y: &Axis<'_, i64>) -> Drawn {
        let grid = Look { colour: GRID, ..FRAME };
        for tick in ticks(0, self.across as i64, x.step.into()) {
            let across = self.x(tick as u64);
            line(sheet, &[(across, self.top), (across, self.bottom)], grid)?;
            write(sheet, &(x.label)(tick as u64), (across, self.bottom + 14), SMALL, HPos::Center)?;
        }
        for tick in ticks(self.low, self.high, y.step.into()) {
            let up = self.y(tick);
            line(sheet, &[(self.left, up), (self.right, up)], grid)?;
            write(sheet, &(y.label)(tick), (self.left - 8, up), SMALL, HPos::Right)?;
        }
        let [first, second] = [(self.left, self.top), (self.right, self.bottom)];
        sheet.draw(&Rectangle::new([first, second], FRAME.colour))?;
        write(sheet, &x.title, ((self.left + self.right) / 2, self.bottom + 38), SMALL, HPos::Center)?;
        write_upwards(sheet, &y.title, (20, (self.top + self.bottom) / 2))
    }
}

/// One axis: what it shows, the distance of its marks, and what they are called.
pub struct Axis<'a, T> {
    pub title: String,
    pub step: T,
    pub label: &'a dyn Fn(T) -> String,
}

/// So many pixels of a length as the part is of a whole, to the nearest.
fn part(part: i128, whole: i128, pixels: i32) -> i32 {
    let nearest = (part * i128::from(pixels) * 2 + whole).div_euclid(whole * 2);
    nearest as i32
}

/// The multiples of a step from one number to another.
pub fn ticks(low: i64, high: i64, step: i128) -> impl Iterator<Item = i64> {
    let (low, high) = (i128::from(low), i128::from(high));
    let first = low.div_euclid(step) + i128::from(low.rem_euclid(step) != 0);
    (first..=high.div_euclid(step)).map(move |times| (times * step) as i64)
}

/// A step of 1, 2 or 5 and zeros that leaves at most so many marks on a way.
pub fn round_step(way: u64, most: u64) -> i64 {
    let steps = (0..19).flat_map(|zeros| [1, 2, 5].map(|digit| digit * 10i64.saturating_pow(zeros)));
    let mut steps = steps.filter(|step| way / step.unsigned_abs() < most);
    steps.next().unwrap_or(i64::MAX)
}
