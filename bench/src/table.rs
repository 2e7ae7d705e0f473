//! The tables of docs/SPEED.md. One of times and instructions: the times are of several runs, each linked at another place, the
//! instructions of one, since they are the same in all. And one of instructions alone, beside those that docs/SPEED.md has.
use crate::clock::median;
use crate::counts::Counts;
use crate::rows::SIDES;
use std::collections::HashMap;
use std::fs;

/// The numbers that the outputs have for one row: a list for each column, empty where a side isn't there. First the sides, then all but ours once
/// more for the ratios.
type Columns = [Vec<f64>; 2 * SIDES - 1];

const HEAD: &str =
    "Call | Models | Mix | Ours, ns | Rust, ns | Ratio | Lowest, highest | Ours, instr. | Rust, instr. | \
                    Plain, ns | Ratio | Plain, instr.";
/// Where `HEAD` has the instructions of ours.
const OURS: usize = 7;

/// A line for each row: its name, then for ours and the Rust's the nanoseconds a model, the ratio with its range over the places, and the
/// instructions a model; then the same of the other counterpart, where there is one.
pub fn print(counts: &Counts, files: &[String]) {
    let rows = times(files);
    head(HEAD);
    for name in &counts.order {
        let columns = rows.get(name).unwrap_or_else(|| panic!("no time for the row {name}"));
        line(name, columns, &counts.of[name]);
    }
    assert_eq!(rows.len(), counts.order.len(), "every row that was timed was counted");
}

fn head(names: &str) {
    println!("| {names} |");
    println!("|{}", "---|".repeat(cells(names)));
}

fn cells(line: &str) -> usize {
    line.split('|').count()
}

fn times(files: &[String]) -> HashMap<String, Columns> {
    let mut rows: HashMap<String, Columns> = HashMap::new();
    for file in files {
        let text = fs::read_to_string(file).unwrap_or_else(|e| panic!("{file}: {e}"));
        for line in text.lines() {
            let fields: Vec<&str> = line.split('\t').collect();
            let columns = rows.entry(fields[..3].join(" | ")).or_default();
            assert_eq!(fields.len(), 3 + columns.len(), "a line has a field for each column");
            for (column, field) in columns.iter_mut().zip(&fields[3..]).filter(|(_, field)| **field != "-") {
                column.push(field.parse().expect("a line has numbers from its fourth field on"));
            }
        }
    }
    rows
}

fn line(name: &str, columns: &Columns, counts: &[Option<f64>; SIDES]) {
    let at = |column: usize| match &columns[column][..] {
        [] => String::new(),
        numbers => format!("{:.2}", median(numbers)),
    };
    let count = |side: usize| counts[side].map_or(String::new(), |count| format!("{count:.2}"));
    let ratios = &columns[SIDES];
    let least = ratios.iter().copied().fold(f64::INFINITY, f64::min);
    let most = ratios.iter().copied().fold(0.0, f64::max);
    let range = if ratios.is_empty() { String::new() } else { format!("{least:.2}, {most:.2}") };
    print!("| {name} | {} | {} | {} | {range} ", at(0), at(1), at(SIDES));
    println!("| {} | {} | {} | {} | {} |", count(0), count(1), at(2), at(SIDES + 1), count(2));
}

/// A line for each row with the instructions a model, and those that `file` (docs/SPEED.md) has for ours. Hands back how many rows have
/// more now, or none recorded.
pub fn hold(counts: &Counts, file: &str) -> usize {
    let recorded = recorded(file);
    let mut above = 0;
    head("Call | Models | Mix | Ours, instr. | Recorded | Change | Rust, instr.");
    for name in &counts.order {
        let [ours, rust, _] = counts.of[name];
        let ours = ours.expect("every row has ours");
        let rust = rust.map_or(String::new(), |rust| format!("{rust:.2}"));
        let before = recorded.get(name);
        let change = before.map_or("none | ".to_string(), |b| format!("{b:.2} | {:+.2}%", 100.0 * (ours / b - 1.0)));
        println!("| {name} | {ours:.2} | {change} | {rust} |");
        above += usize::from(before.is_none_or(|before| ours > *before));
    }
    above
}

/// The instructions of ours from a file that has the lines of `print` among others.
fn recorded(file: &str) -> HashMap<String, f64> {
    let text = fs::read_to_string(file).unwrap_or_else(|e| panic!("{file}: {e}"));
    let mut counts = HashMap::new();
    // Two more than the names, before the first bar and after the last.
    for line in text.lines().filter(|line| cells(line) == cells(HEAD) + 2) {
        let cells: Vec<&str> = line.split('|').map(str::trim).collect();
        if let Ok(count) = cells[1 + OURS].parse() {
            counts.insert(cells[1..4].join(" | "), count);
        }
    }
    counts
}
