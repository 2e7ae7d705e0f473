//! A second reading of document 01, and of document 02 where it has landed (a policy may round once and may have an allowance, a bank may be edited),
//! apart from the port and from the Rust: of the Rust it has the types of a record and of a request, and nothing else.
//!
//! It decides, explains and searches by itself (`gates`, `price`, `deciding`, `search`), by the `rules` that a policy names, which may be other
//! than the Rust's, over any list of records with their places: all of a bank's, or its live ones (`slots`), which `edits` change. What the Rust
//! doesn't have is here alone: the bytes of policy, request, record and answer, the refusal numbers and their order, the order of a trusted bank, the
//! edits, the number of passes, the stored form and the request form, and what the programs print (the desk's sentences, which the document hasn't,
//! from the port's rule for them).
pub mod boundaries;
pub mod bytes;
pub mod catalogue;
pub mod deciding;
pub mod edits;
pub mod explanation;
pub mod forms;
pub mod gates;
pub mod price;
pub mod printed;
pub mod refusals;
pub mod rules;
pub mod search;
pub mod slots;
pub mod words;
