//! A stand-in for the crate of this name: the derive alone, enough to build the Rust unchanged.
pub use thiserror_derive::Error;
