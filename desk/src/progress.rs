//! A bar for long work, on standard error and only where somebody sees it.
use indicatif::{ProgressBar, ProgressStyle};
use std::io::{self, IsTerminal};

/// Work of fewer steps is over before a bar can be read.
const LONG: usize = 2_000;

/// A bar for so many steps, named by what is counted; one that nobody sees where the work is short or standard error is no terminal.
pub fn bar(steps: usize, counted: &str) -> ProgressBar {
    if steps <= LONG || !io::stderr().is_terminal() {
        return ProgressBar::hidden();
    }
    let style = ProgressStyle::with_template("{bar:40} {pos} of {len} {msg}, {eta} left").expect("a sound template");
    ProgressBar::new(steps as u64).with_style(style).with_message(counted.to_owned())
}
