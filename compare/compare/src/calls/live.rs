//! The calls that read the live records of a bank. Each is its sibling on every record, with 34 after 2 and the slot as place.
use super::{decision_margin, explain, find, prescribe, prescribe_checked, utility_for_model, what_would_win, Call};
use crate::second::slots::Listing::Live;

pub const PRESCRIBE: Call = Call { name: "live_prescribe", listing: Live, ..prescribe::CALL };
pub const CHECKED: Call = Call { name: "live_prescribe_checked", listing: Live, ..prescribe_checked::CALL };
pub const EXPLAIN: Call = Call { name: "live_explain", listing: Live, ..explain::CALL };
pub const FIND: Call = Call { name: "live_find", listing: Live, ..find::CALL };
pub const UTILITY: Call = Call { name: "live_utility_for_model", listing: Live, ..utility_for_model::CALL };
pub const WIN: Call = Call { name: "live_what_would_win", listing: Live, ..what_would_win::CALL };
pub const MARGIN: Call = Call { name: "live_decision_margin", listing: Live, ..decision_margin::CALL };
