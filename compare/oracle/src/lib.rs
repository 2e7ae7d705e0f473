//! The Rust that is ported, unchanged: `kernel` and `counterfactual`.
#![allow(clippy::all, rustdoc::all, unexpected_cfgs)]
include!(concat!(env!("OUT_DIR"), "/modules.rs"));
