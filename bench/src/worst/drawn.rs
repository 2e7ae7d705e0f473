//! Inputs that nobody thought of: random cases of the comparison, and the longest inputs with a few bytes changed. None of them should take longer than
//! the longest input that is listed, but for what a search takes to end at another boundary.
use super::{address, run_on, Worst, FEW, WORST};
use crate::counts::totals;
use compare::case::{Case, Formed};
use compare::generate::random::Random;
use compare::generate::{random_case, Draw, Policies};
use std::collections::HashMap;
use std::fs;

/// How many are drawn for each call.
const DRAWS: u64 = 1_000;
const SEED: u64 = 0x10_06e57;
/// A pass that wins and one that doesn't differ by an instruction or two, so a search by its boundary differs by some tens in half a million.
const ALLOWED: f64 = 1.0001;

/// Under callgrind: of each call its listed inputs with few records, then what is drawn. A line for each.
pub fn count(only: &str) {
    for worst in WORST.iter().filter(|w| w.call().name.starts_with(only)) {
        let shown = |kind: &str, number: u64, case: &Case| {
            run_on(address(worst.call()), worst.call(), case);
            println!("{}\t{kind}\t{number}", worst.call().name);
        };
        worst.inputs.iter().zip(0..).for_each(|((_, make), at)| shown("listed", at, &make(FEW.min(worst.most))));
        (0..DRAWS).for_each(|number| shown("drawn", number, &drawn(worst, number)));
    }
}

fn drawn(worst: &Worst, number: u64) -> Case {
    match number % 2 {
        0 => random_case(Draw::of(Policies::Both, SEED, number), |_| FEW),
        _ => changed(worst, &mut Random::for_case(SEED, number)),
    }
}

/// One of the listed inputs with up to four bytes changed, one of them perhaps in every record.
fn changed(worst: &Worst, r: &mut Random) -> Case {
    let (_, make) = worst.inputs[r.place(worst.inputs.len())];
    let mut case = make(FEW.min(worst.most));
    for _ in 0..r.between(1, 4) {
        let byte = [r.below(256) as u8, 0, 1, u8::MAX][r.place(4)];
        match r.below(4) {
            0 => change(&mut case.policy, r, byte),
            1 => change(&mut case.request, r, byte),
            2 => change(&mut case.bank, r, byte),
            _ => change_each(&mut case.bank, r, byte),
        }
    }
    case.formed = Formed::Made(Vec::new());
    case
}

fn change(bytes: &mut [u8], r: &mut Random, byte: u8) {
    let at = r.place(bytes.len());
    bytes[at] = byte;
}

/// The same byte of every record but perhaps the last one, and none of its id.
fn change_each(bank: &mut [u8], r: &mut Random, byte: u8) {
    let (at, left) = (4 + r.place(43), r.place(2));
    let records = bank.len() / 47 - left.min(bank.len() / 47);
    bank.chunks_exact_mut(47).take(records).for_each(|record| record[at] = byte);
}

/// A line for each call: the longest that is listed, with few records, and the longest that was drawn. Hands back where the second is longer
/// by more than is allowed.
pub fn print(lines: &str, parts: &str) -> Vec<String> {
    let text = fs::read_to_string(lines).unwrap_or_else(|e| panic!("{lines}: {e}"));
    let totals = totals(parts);
    assert_eq!(totals.len(), text.lines().count(), "callgrind wrote a part for each run");
    let mut longest: HashMap<&str, (f64, &str)> = HashMap::new();
    for (line, total) in text.lines().zip(totals) {
        let (kind, number) = line.rsplit_once('\t').expect("a line ends with a number");
        let most = longest.entry(kind).or_insert((total, number));
        if total > most.0 {
            *most = (total, number);
        }
    }
    println!("| Call | Longest listed | Longest drawn |\n|---|---|---|");
    let mut wrong = Vec::new();
    for name in WORST.iter().map(|w| w.call().name) {
        let of = |kind: &str| longest.get(format!("{name}\t{kind}").as_str());
        if let (Some((listed, _)), Some((drawn, number))) = (of("listed"), of("drawn")) {
            println!("| `volankizo_{name}` | {listed} | {drawn} |");
            wrong.extend(
                (*drawn > ALLOWED * listed)
                    .then(|| format!("{name}: draw {number} takes {drawn}, and the longest listed {listed}")),
            );
        }
    }
    wrong
}

/// A draw as it was made, to be looked at.
pub fn tell(call: &str, number: u64) {
    let worst = WORST.iter().find(|w| w.call().name == call).expect("a call by its name");
    println!("{}", drawn(worst, number));
}
