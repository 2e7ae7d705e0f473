//! Instructions of one run of each side of each row, which valgrind's callgrind counts. The count is the same in every run and whatever else
//! the machine does, so it tells a change of the code that a time would leave in doubt.
use crate::clock::Side;
use crate::rows::{self, Checked, SIDES};
use std::collections::HashMap;
use std::fs;
use std::hint::black_box;

/// One run of a side. Callgrind is told this name: it counts from here to the return, and then writes what it counted as a part of its file.
#[no_mangle]
#[inline(never)]
pub fn bench_counted(side: &mut Side) {
    side();
    black_box(side);
}

/// Runs each side of the rows once and prints a line for it: the row's name, how many models the run went over, and which side it is.
pub fn once(only: &str) {
    rows::each(only, Checked::No, &mut |mut row| {
        for (at, side) in row.sides.iter_mut().enumerate() {
            if let Some(side) = side {
                bench_counted(side);
                println!("{}\t{}\t{}\t{}\t{at}", row.call, row.records, row.mix, row.models);
            }
        }
    });
}

/// The rows in their order, and for each the instructions a model of its sides, to two decimals as docs/SPEED.md has them.
pub struct Counts {
    pub order: Vec<String>,
    pub of: HashMap<String, [Option<f64>; SIDES]>,
}

/// From the lines of `once` and what callgrind wrote beside them.
pub fn read(lines: &str, parts: &str) -> Counts {
    let text = fs::read_to_string(lines).unwrap_or_else(|e| panic!("{lines}: {e}"));
    let totals = totals(parts);
    assert!(!text.is_empty(), "no row's call begins so");
    assert_eq!(totals.len(), text.lines().count(), "callgrind wrote a part for each run of a side");
    let mut counts = Counts { order: Vec::new(), of: HashMap::new() };
    for (line, total) in text.lines().zip(totals) {
        let fields: Vec<&str> = line.split('\t').collect();
        let name = fields[..3].join(" | ");
        let models: f64 = fields[3].parse().expect("the number of models");
        let side: usize = fields[4].parse().expect("a line ends with the number of its side");
        if !counts.of.contains_key(&name) {
            counts.order.push(name.clone());
        }
        counts.of.entry(name).or_default()[side] = Some((100.0 * total / models).round() / 100.0);
    }
    counts
}

/// What each part that was written after a run of a side sums up to. The part that callgrind writes at the program's end is none of them.
pub fn totals(parts: &str) -> Vec<f64> {
    let text = fs::read_to_string(parts).unwrap_or_else(|e| panic!("{parts}: {e}"));
    let mut after_a_run = false;
    let mut totals = Vec::new();
    for line in text.lines() {
        if let Some(trigger) = line.strip_prefix("desc: Trigger: ") {
            after_a_run = trigger.starts_with("--dump-after=");
        }
        if let Some(total) = line.strip_prefix("totals: ").filter(|_| after_a_run) {
            totals.push(total.trim().parse().expect("callgrind's total is a number"));
        }
    }
    totals
}
