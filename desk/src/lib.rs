//! The desk: price lists and requests from a spreadsheet, asked of the proved kernel.
//!
//! [`open::Desk`] reads and checks the files of a question; each command is a module with its `Arguments` and a function `run`, which
//! hands back what is to be printed. Every decision, verdict and boundary is the library's; nothing is decided here.
#![forbid(unsafe_code)]

pub mod asked;
pub mod canvas;
pub mod cells;
pub mod cli;
pub mod csv_out;
pub mod decimal;
pub mod draft;
pub mod fate;
pub mod fault;
pub mod field;
pub mod layout;
pub mod legend;
pub mod log;
pub mod models;
pub mod names;
pub mod open;
pub mod output;
pub mod pack;
pub mod pages;
pub mod picture;
pub mod plot;
pub mod policy;
pub mod progress;
pub mod refusal;
pub mod requests;
pub mod sheet;
pub mod speech;
pub mod table;
pub mod target;
pub mod unit;
pub mod unpack;
pub mod why;

use cli::{Cli, Command};
use fault::{Trouble, Warnings};

/// Runs a command and prints what it tells; the exit status.
pub fn run(cli: &Cli) -> u8 {
    let mut warnings = Warnings::default();
    let told = answer(&cli.command, &mut warnings);
    warnings.lines().for_each(|line| output::complain(&format!("warning: {line}")));
    match told.and_then(|text| output::print(&text)) {
        Ok(()) => 0,
        Err(trouble) => {
            output::complain(&trouble.to_string());
            trouble.status()
        }
    }
}

fn answer(command: &Command, warnings: &mut Warnings) -> Result<String, Trouble> {
    match command {
        Command::Log(arguments) => log::run(arguments, warnings),
        Command::Pack(arguments) => pack::run(arguments, warnings),
        Command::Plot(arguments) => plot::run(arguments, warnings),
        Command::Table(arguments) => table::run(arguments, warnings),
        Command::Unpack(arguments) => unpack::run(arguments, warnings),
        Command::Why(arguments) => why::run(arguments, warnings),
    }
}
