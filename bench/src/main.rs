//! Times the static library and the Rust that is ported on the same banks and requests, and has their instructions counted.
//! `bench rows ROUNDS [CALL]` prints a line of times for each row. `bench once [CALL]`, under valgrind's callgrind, runs each side of each
//! row once and prints a line for it. Of these lines (LINES) and of what callgrind wrote (PARTS), `bench table LINES PARTS TIMES..` makes
//! the table of times and instructions, and `bench hold LINES PARTS RECORD` holds the instructions against a recorded table: it ends with 1
//! where a row has more. `bench stack` tells how much stack each call takes.
//! `bench longest [CALL [whole]]`, under callgrind, runs the longest inputs of each call once, `bench worst LINES PARTS RECORD` tells their instructions
//! and holds them against a recorded table, `bench seconds [CALL]` times them, `bench owed` holds their answers against those owed, and `bench passes` tells
//! how far their searches went. `bench drawn [CALL]`, under callgrind, runs what is drawn beside them, `bench beside LINES PARTS` holds that against them, and
//! `bench draw CALL NUMBER` tells one of these cases.
mod clock;
mod counts;
mod lent;
mod library;
mod live;
mod mixes;
mod rows;
mod stack;
mod table;
mod worst;

use clock::{median, Side};
use rows::{Checked, Row};
use std::hint::black_box;
use std::process::exit;

// The same code is up to a sixth faster or slower by where the linker puts it against the processor's blocks of 64 bytes. With this
// before it, all that follows moves.
std::arch::global_asm!(
    ".pushsection .text.bench_pad,\"ax\",@progbits",
    ".balign 16",
    ".globl bench_pad",
    "bench_pad:",
    concat!(".fill ", env!("PAD"), ", 1, 0x90"),
    ".popsection"
);

extern "C" {
    static bench_pad: u8;
}

fn main() {
    black_box(&raw const bench_pad);
    let words: Vec<String> = std::env::args().skip(1).collect();
    let only = |at: usize| words.get(at).map_or("", String::as_str);
    match words.first().map(String::as_str) {
        Some("rows") if words.len() > 1 => {
            let rounds = words[1].parse().expect("ROUNDS is a number");
            rows::each(only(2), Checked::Yes, &mut |row| show(row, rounds));
        }
        Some("once") => counts::once(only(1)),
        Some("table") if words.len() > 3 => table::print(&counts::read(&words[1], &words[2]), &words[3..]),
        Some("hold") if words.len() == 4 => hold(&words),
        Some("stack") => stack::print(),
        Some("longest") => worst::count(only(1), only(2) == "whole"),
        Some("worst") if words.len() == 4 => told(&worst::print(&worst::Totals::read(&words[1], &words[2]), &words[3])),
        Some("drawn") => worst::drawn::count(only(1)),
        Some("beside") if words.len() == 3 => told(&worst::drawn::print(&words[1], &words[2])),
        Some("draw") if words.len() == 3 => worst::drawn::tell(&words[1], words[2].parse().expect("a draw's number")),
        Some("owed") => worst::check(),
        Some("seconds") => worst::times(only(1)),
        Some("passes") => worst::passes(),
        _ => panic!("usage: bench rows, once, table, hold, stack, longest, worst, drawn, beside, draw, owed, seconds or passes, as the first lines of main.rs tell"),
    }
}

/// Ends with 1 where anything is wrong.
fn told(wrong: &[String]) {
    wrong.iter().for_each(|line| eprintln!("{line}"));
    if !wrong.is_empty() {
        exit(1);
    }
}

fn hold(words: &[String]) {
    let above = table::hold(&counts::read(&words[1], &words[2]), &words[3]);
    if above > 0 {
        eprintln!("{above} rows have more instructions than {} has for them, or none there", words[3]);
        exit(1);
    }
}

/// One line: the call, the models, the mix, then for each side the median of its nanoseconds a model, then for each side but ours the
/// median of the rounds' ratios. A side that isn't there has a dash.
fn show(row: Row, rounds: usize) {
    let there = row.sides.each_ref().map(Option::is_some);
    let mut sides: Vec<Side> = row.sides.into_iter().flatten().collect();
    let mut timed = clock::rounds(&mut sides, rounds).into_iter();
    let times = there.map(|is| is.then(|| timed.next().expect("a list of times for each side")));
    let mut line = format!("{}\t{}\t{}", row.call, row.records, row.mix);
    let cell = |number: Option<String>| number.map_or("\t-".to_string(), |number| format!("\t{number}"));
    for side in &times {
        line += &cell(side.as_ref().map(|side| format!("{:.3}", median(side) / row.models)));
    }
    let ours = times[0].as_ref().expect("every row has ours");
    let ratio = |side: &Vec<f64>| median(&ours.iter().zip(side).map(|(ours, other)| ours / other).collect::<Vec<_>>());
    for side in &times[1..] {
        line += &cell(side.as_ref().map(|side| format!("{:.4}", ratio(side))));
    }
    println!("{line}");
}
