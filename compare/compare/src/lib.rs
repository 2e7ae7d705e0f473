//! The comparison of this port with the Rust.
//!
//! - `calls`: a module for each exported function: what it takes, and what a judge answers.
//! - `judges`: the two of them, the Rust and the second reading.
//! - `case`: an input on which every call can be asked. `form`: the forms that are made of one, and what can be wrong with them.
//! - `library`: how the library is asked. `versus`: its answer against the one that is owed.
//! - `second`: a second reading of document 01: what the Rust doesn't have, and its own way to what it has.
//! - `generate`: the inputs. `figures`: what those inputs reach. `list`: the fixed list that is replayed with no Rust at hand.
pub mod calls;
pub mod case;
pub mod figures;
pub mod form;
pub mod generate;
pub mod judges;
pub mod library;
pub mod list;
pub mod second;
pub mod versus;
