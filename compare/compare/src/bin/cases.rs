//! `cases OUT`: writes the fixed list (see `list`) to OUT, and prints what is in it.
use compare::calls::{By, CALLS};
use compare::figures::{Figures, Table};
use compare::list::{entries, SEED};
use std::process::ExitCode;
use std::{env, fs};

fn main() -> ExitCode {
    let arguments: Vec<String> = env::args().skip(1).collect();
    let [out] = &arguments[..] else {
        eprintln!("usage: cases OUT");
        return ExitCode::from(2);
    };
    let list = entries();
    let mut bytes = Vec::new();
    let mut figures = Figures::default();
    let mut tellers = Vec::new();
    for entry in &list {
        entry.write(&mut bytes);
        let owed = entry.owed();
        figures.note(entry.call, &entry.case, &owed);
        tellers.push(owed.by);
    }
    if let Err(error) = fs::write(out, &bytes) {
        eprintln!("cases: {out}: {error}");
        return ExitCode::FAILURE;
    }
    print!("{}", Table(&[("the list", &figures)]));
    for (call, asked) in figures.asked.iter().enumerate() {
        let refused: u64 = figures.refused.range((call, 0)..=(call, u8::MAX)).map(|(_, times)| times).sum();
        println!("kind {} {}: {asked} cases, {refused} refused", call + 1, CALLS[call].name);
    }
    let by = |teller: By| tellers.iter().filter(|by| **by == teller).count();
    println!("by the Rust {}, by the second reading {}, by both {}", by(By::Rust), by(By::Second), by(By::Printed));
    println!("{out}: {} cases, {} bytes, seed {SEED}", list.len(), bytes.len());
    ExitCode::SUCCESS
}
