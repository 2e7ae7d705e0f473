//! The program: its arguments in, its exit status out.
use clap::Parser;
use std::process::ExitCode;

fn main() -> ExitCode {
    desk::run(&desk::cli::Cli::parse()).into()
}
