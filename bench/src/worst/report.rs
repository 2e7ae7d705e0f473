//! The tables of docs/WORST-CASES.md: the worst input of each call with its instructions and how they grow, and the rivals that lost.
use super::{Worst, ANY, PARTS, UNIT, WORST};
use crate::counts::totals;
use std::collections::HashMap;
use std::fs;

/// The instructions of a call of nothing: its return.
const OF_NOTHING: f64 = 1.0;

/// Instructions by call, input and number of records, from the first of the call to its return.
pub struct Totals(HashMap<(String, String, usize), f64>);

impl Totals {
    /// From the lines of `count` and what callgrind wrote beside them. The first is a run of nothing.
    pub fn read(lines: &str, parts: &str) -> Self {
        let text = fs::read_to_string(lines).unwrap_or_else(|e| panic!("{lines}: {e}"));
        let totals = totals(parts);
        assert_eq!(totals.len(), text.lines().count(), "callgrind wrote a part for each run");
        let driver = totals[0] - OF_NOTHING;
        let mut all = HashMap::new();
        for (line, total) in text.lines().zip(&totals) {
            let fields: Vec<&str> = line.split('\t').collect();
            let size = fields[2].parse().expect("a line ends with its records");
            all.insert((fields[0].to_string(), fields[1].to_string(), size), total - driver);
        }
        Totals(all)
    }

    fn of(&self, worst: &Worst, input: usize, size: usize) -> Option<f64> {
        self.0.get(&(worst.call().name.to_string(), worst.inputs[input].0.to_string(), size)).copied()
    }
}

/// How instructions grow: so many, and so many for each record, and for each pair of a record with each.
struct Law {
    once: f64,
    each: f64,
    square: f64,
}

impl Law {
    /// Through the counts at a quarter, half and all of the unit's records.
    fn through(counts: [f64; 3]) -> Self {
        let [x0, x1, x2] = [PARTS[0] as f64, PARTS[1] as f64, UNIT as f64];
        let [y0, y1, y2] = counts;
        let (first, second) = ((y1 - y0) / (x1 - x0), (y2 - y1) / (x2 - x1));
        let square = (second - first) / (x2 - x0);
        // Below this it is no growth of its own: copies take a few more or fewer by where they begin.
        let square = if square.abs() < 0.001 { 0.0 } else { square };
        let each = second - square * (x1 + x2);
        Law { once: y2 - each * x2 - square * x2 * x2, each, square }
    }

    fn at(&self, records: usize) -> f64 {
        let n = records as f64;
        self.once + self.each * n + self.square * n * n
    }

    fn words(&self) -> String {
        let linear = format!("{} + {} n", grouped(self.once), decimals(self.each));
        if self.square == 0.0 {
            linear
        } else {
            format!("{linear} + {} n²", decimals(self.square))
        }
    }
}

/// A whole number with a comma after each three digits.
fn grouped(number: f64) -> String {
    let digits = format!("{:.0}", number.abs());
    let mut text = String::new();
    for (at, digit) in digits.chars().enumerate() {
        if at > 0 && (digits.len() - at).is_multiple_of(3) {
            text.push(',');
        }
        text.push(digit);
    }
    if number < -0.5 {
        format!("-{text}")
    } else {
        text
    }
}

fn decimals(number: f64) -> String {
    let text = format!("{number:.3}");
    let (whole, part) = text.split_once('.').expect("it has decimals");
    let part = part.trim_end_matches('0');
    let whole = grouped(whole.parse().expect("a number"));
    if part.is_empty() {
        whole
    } else {
        format!("{whole}.{part}")
    }
}

/// Both tables. Hands back which calls take more than `record` (docs/WORST-CASES.md) has for them.
pub fn print(totals: &Totals, record: &str) -> Vec<String> {
    let recorded = recorded(record);
    let rows: Vec<Row> =
        WORST.iter().filter(|w| totals.of(w, 0, UNIT.min(w.most)).is_some()).map(|w| Row::of(w, totals)).collect();
    assert!(!rows.is_empty(), "no call begins so");
    println!("| Call | Input | 900 records | Most records | Instructions there | Growth |");
    println!("|---|---|---|---|---|---|");
    rows.iter().for_each(|row| println!("{}", row.line()));
    println!(
        "\n| Call | Rival | 900 records | Of the worst | Most records | Of the worst |\n|---|---|---|---|---|---|"
    );
    rows.iter().for_each(Row::rivals);
    rows.iter().flat_map(|row| row.above(recorded.get(row.worst.call().name))).collect()
}

/// What one input takes.
struct Taken {
    name: &'static str,
    unit: f64,
    /// With the most records, where they are more than the unit's, and whether that was counted.
    most: Option<(f64, bool)>,
    law: Option<Law>,
}

impl Taken {
    fn of(worst: &Worst, input: usize, totals: &Totals) -> Self {
        let at = |size: usize| totals.of(worst, input, size);
        let unit = at(UNIT.min(worst.most)).expect("every input was counted");
        let law = (worst.most != ANY)
            .then(|| Law::through([PARTS[0], PARTS[1], UNIT].map(|size| at(size).expect("it was counted"))));
        let there = |law: &Law| at(worst.most).map_or((law.at(worst.most), false), |count| (count, true));
        let most = law.as_ref().filter(|_| worst.most > UNIT).map(there);
        Taken { name: worst.inputs[input].0, unit, most, law }
    }

    fn most(&self) -> f64 {
        self.most.map_or(self.unit, |(count, _)| count)
    }
}

/// The line of one call: of all its inputs, which one takes longest with the unit's records and which with the most.
struct Row {
    worst: &'static Worst,
    inputs: Vec<Taken>,
    unit: usize,
    most: usize,
}

/// The first of those that none is above.
fn highest(numbers: impl Iterator<Item = f64>) -> usize {
    let numbers: Vec<f64> = numbers.collect();
    (0..numbers.len()).find(|at| numbers.iter().all(|n| *n <= numbers[*at])).expect("there is an input")
}

impl Row {
    fn of(worst: &'static Worst, totals: &Totals) -> Self {
        let inputs: Vec<Taken> = (0..worst.inputs.len()).map(|input| Taken::of(worst, input, totals)).collect();
        let (unit, most) = (highest(inputs.iter().map(|i| i.unit)), highest(inputs.iter().map(Taken::most)));
        Row { worst, inputs, unit, most }
    }

    fn line(&self) -> String {
        let (unit, most) = (&self.inputs[self.unit], &self.inputs[self.most]);
        let input = if self.unit == self.most {
            unit.name.to_string()
        } else {
            format!("{}; with the most records {}", unit.name, most.name)
        };
        let (records, there) = match most.most {
            Some((count, true)) => (grouped(self.worst.most as f64), grouped(count)),
            Some((count, false)) => (grouped(self.worst.most as f64), format!("about {}", grouped(count))),
            None => (String::new(), String::new()),
        };
        let growth = most.law.as_ref().map_or("none".to_string(), Law::words);
        let name = self.worst.call().name;
        format!(
            "| `volankizo_{name}` | {input} | {} | {records} | {there} | {growth}{} |",
            grouped(unit.unit),
            self.apart()
        )
    }

    /// How far the law is from the count with the most records, where it is by a thousandth or more.
    fn apart(&self) -> String {
        let taken = &self.inputs[self.most];
        let (Some(law), Some((count, true))) = (&taken.law, taken.most) else {
            return String::new();
        };
        let percent = 100.0 * (law.at(self.worst.most) / count - 1.0);
        if percent.abs() < 0.1 {
            String::new()
        } else {
            format!(" ({percent:+.1}%)")
        }
    }

    fn rivals(&self) {
        let (unit, most) = (self.inputs[self.unit].unit, self.inputs[self.most].most());
        let lost = self.inputs.iter().enumerate().filter(|(at, _)| *at != self.unit && *at != self.most);
        for (_, rival) in lost {
            let share = |count: f64, of: f64| format!("{} | {:.1}%", grouped(count), 100.0 * count / of);
            let there = rival.most.map_or(" | ".to_string(), |(count, _)| share(count, most));
            println!(
                "| `volankizo_{}` | {} | {} | {there} |",
                self.worst.call().name,
                rival.name,
                share(rival.unit, unit)
            );
        }
    }

    /// Where more was counted than is recorded, or nothing is.
    fn above(&self, recorded: Option<&(f64, Option<f64>)>) -> Vec<String> {
        let name = self.worst.call().name;
        let Some((unit, most)) = recorded else {
            return vec![format!("{name}: nothing is recorded")];
        };
        let more =
            |now: f64, then: f64| (now > then).then(|| format!("{name}: {}, recorded {}", grouped(now), grouped(then)));
        let there = match (self.inputs[self.most].most, most) {
            (Some((now, true)), Some(then)) => more(now, *then),
            (Some((_, true)), None) => Some(format!("{name}: nothing is recorded for the most records")),
            _ => None,
        };
        more(self.inputs[self.unit].unit, *unit).into_iter().chain(there).collect()
    }
}

/// The instructions that a file has in lines of the first table, by call: with the unit's records and with the most.
fn recorded(file: &str) -> HashMap<String, (f64, Option<f64>)> {
    let text = fs::read_to_string(file).unwrap_or_default();
    let number = |cell: &str| cell.trim().replace(',', "").parse().ok();
    let mut found = HashMap::new();
    for line in text.lines() {
        let cells: Vec<&str> = line.split('|').collect();
        let name = cells.get(1).and_then(|cell| cell.trim().strip_prefix("`volankizo_")?.strip_suffix('`'));
        if let (Some(name), 8) = (name, cells.len()) {
            found.insert(name.to_string(), (number(cells[3]).expect("a count"), number(cells[5])));
        }
    }
    found
}
