//! Which call is asked on which inputs.
use super::{inputs, Make, Worst, ANY, UNIT, VERSION};
use compare::calls;

const MOST: usize = 65_535;
const MOST_STORED: usize = 1_394;

const DECIDED: &[(&str, Make)] = &[
    ("every record eligible by three long divisions, each second by its id", inputs::second_by_id),
    ("the same, each first by its id", inputs::first_by_id),
    ("the same, each behind by its id", inputs::behind_by_id),
    ("the same, each behind by its place", inputs::behind_by_place),
    ("the same, each first by its utility", inputs::first_by_utility),
    ("the same with quotients of many ones", inputs::other_digits),
    ("the same with both prices from 2^40 on", inputs::both_prices_long),
    ("the same where the request asks for nothing", inputs::asks_nothing),
    ("three long divisions and no utility", inputs::no_utility),
    ("two long divisions and over budget", inputs::over_budget),
    ("rejected at the last gate", inputs::last_gate),
    ("the same without an allowance", inputs::without_allowance),
    ("the same with every latency below the allowance", inputs::below_allowance),
    ("every record eligible, rounded once", inputs::rounds_once),
    ("every record eligible within 64 bits", inputs::within_64_bits),
];

const LIVE_DECIDED: &[(&str, Make)] = &[
    ("no slot free, every record eligible by three long divisions, each second by its id", inputs::second_by_id),
    ("the same with the first slot free", inputs::first_free),
    ("the same with every second slot free", inputs::every_second_free),
    ("no slot free, each first by its id", inputs::first_by_id),
    ("no slot free, without an allowance", inputs::without_allowance),
    ("no slot free, three long divisions and no utility", inputs::no_utility),
    ("every slot free", inputs::all_free),
];

const LISTED: &[(&str, Make)] = &[
    ("every record eligible by three long divisions, each second by its id", inputs::second_by_id),
    ("the same, each first by its id", inputs::first_by_id),
    ("the same with quotients of many ones", inputs::other_digits),
    ("the same with both prices from 2^40 on", inputs::both_prices_long),
    ("the same without an allowance", inputs::without_allowance),
    ("the same with every latency below the allowance", inputs::below_allowance),
    ("three long divisions and no utility", inputs::no_utility),
    ("two long divisions and over budget", inputs::over_budget),
    ("rejected at the last gate", inputs::last_gate),
];

const WON: &[(&str, Make)] = &[
    ("the last record, outranked: quality, latency and price searched to their ends", inputs::three_levers),
    ("the same without an allowance", inputs::three_levers_without_allowance),
    ("the last record, below the risk: its ceiling searched to its end", inputs::ceiling_alone),
    ("the last record, switched off", inputs::switched_off),
    ("the last record, which is behind by its id alone", inputs::second_by_id),
    ("an id that isn't listed", inputs::id_nowhere),
];

const MARGIN: &[(&str, Make)] = &[
    ("the last record chosen: four levers searched to their ends from 65,535", inputs::four_levers),
    ("the same from 10,000", inputs::four_levers_by_10_000),
    ("the same without an allowance", inputs::four_levers_without_allowance),
    ("the last record chosen: only its quality has a boundary", inputs::quality_alone),
    ("the first record chosen by its id", inputs::second_by_id),
];

const PRINTED: &[(&str, Make)] = &[
    ("ids that fall, the last record outranked: three levers searched to their ends", inputs::three_levers),
    ("the same with ids that rise but for the last", inputs::three_levers_lowest_last),
    ("the same with ids that fall from the first on", inputs::three_levers_descending),
    ("the same with ids in order", inputs::three_levers_in_order),
    ("an id that isn't listed", inputs::id_nowhere),
];

const SAID: &[(&str, Make)] = &[
    (
        "ids that fall, the last record outranked, the one before it chosen, the requested one nowhere: three levers searched to their ends",
        inputs::three_levers_chosen_late,
    ),
    ("the same where the last record is over budget", inputs::three_levers_over_budget),
    ("the same with the requested model listed first", inputs::three_levers_requested_first),
    ("the same with the chosen model listed first", inputs::three_levers),
    ("the same with ids that fall from the first on", inputs::three_levers_descending),
    ("the same with ids that rise but for the last", inputs::three_levers_lowest_last),
    ("the same with ids in order", inputs::three_levers_in_order),
    ("an id that isn't listed", inputs::id_nowhere),
];

const BATCHED: &[(&str, Make)] = &[
    ("ten requests, every record eligible by three long divisions, each second by its id", inputs::ten_second_by_id),
    ("the same, each first by its id", inputs::ten_first_by_id),
    ("ten requests, three long divisions and no utility", inputs::ten_no_utility),
    ("ten requests, every record eligible within 64 bits", inputs::ten_within_64_bits),
    ("the same, of which the last asks for a quality above 10,000", inputs::ten_last_refused),
    ("one request", inputs::one_second_by_id),
];

const SOUGHT: &[(&str, Make)] = &[
    ("the last record, all others free", inputs::all_but_last_free),
    ("the last record, no slot free", inputs::second_by_id),
    ("an id that isn't listed, every slot free", inputs::id_nowhere_all_free),
    ("the last slot not clear, all others free", inputs::last_not_clear),
];

const EDITED: &[(&str, Make)] = &[
    ("the last record, all others free", inputs::edit_last_others_free),
    ("the last record, no slot free", inputs::edit_last_none_free),
    ("an id that isn't listed, every slot free", inputs::edit_nowhere_all_free),
    ("an id that isn't listed, every slot free, the catalogue epoch at its largest", inputs::epoch_spent_all_free),
    ("the last slot not clear, all others free", inputs::last_not_clear),
];

/// In the order of the header.
pub const WORST: [Worst; 33] = [
    Worst { call: VERSION, most: ANY, inputs: &[("nothing", inputs::request_sound)] },
    Worst { call: calls::PRESCRIBE, most: MOST, inputs: DECIDED },
    Worst { call: calls::CHECKED, most: MOST, inputs: DECIDED },
    Worst { call: calls::BATCH, most: MOST, inputs: BATCHED },
    Worst { call: calls::BATCH_CHECKED, most: MOST, inputs: BATCHED },
    Worst {
        call: calls::UTILITY,
        most: MOST,
        inputs: &[
            ("the last record, by three long divisions", inputs::second_by_id),
            ("the same without a utility", inputs::no_utility),
            ("an id that isn't listed", inputs::id_nowhere),
        ],
    },
    Worst {
        call: calls::FIND,
        most: MOST,
        inputs: &[("an id that isn't listed", inputs::id_nowhere), ("the last record", inputs::second_by_id)],
    },
    Worst {
        call: calls::CHECK,
        most: ANY,
        inputs: &[
            ("a quality above 10,000", inputs::request_quality),
            ("a risk above 10,000", inputs::request_risk),
            ("a sound request", inputs::request_sound),
        ],
    },
    Worst { call: calls::EXPLAIN, most: MOST, inputs: LISTED },
    Worst {
        call: calls::NEXT,
        most: MOST,
        inputs: &[("no entry eligible", inputs::none_eligible), ("the last entry eligible", inputs::last_eligible)],
    },
    Worst {
        call: calls::VALIDATE,
        most: MOST,
        inputs: &[
            ("ids that rise but for the last, every model off", inputs::lowest_last_all_off),
            ("the same with the last model on", inputs::lowest_last_only_on),
            ("ids that fall, every model off", inputs::reversed_all_off),
            ("ids that fall, every model on", inputs::reversed),
            ("shuffled ids, every model off", inputs::shuffled),
            ("ids in order, the last one twice", inputs::in_order_last_repeats),
            ("ids in order, the first one at the end again", inputs::last_repeats_first),
            ("ids in order, every model off", inputs::in_order_all_off),
        ],
    },
    Worst {
        call: calls::TRUST,
        most: MOST,
        inputs: &[
            ("ids that fall, the highest one twice", inputs::reversed_highest_twice),
            ("ids that fall, the lowest one twice", inputs::reversed_lowest_twice),
            ("ids that fall, every model off", inputs::reversed_all_off),
            ("ids that fall, every model on", inputs::reversed),
            ("ids that rise but for the last, every model off", inputs::lowest_last_all_off),
            ("shuffled ids, every model off", inputs::shuffled),
            ("ids in order, the last one twice", inputs::in_order_last_repeats),
            ("ids in order, every model off", inputs::in_order_all_off),
        ],
    },
    Worst { call: calls::WIN, most: MOST, inputs: WON },
    Worst { call: calls::MARGIN, most: MOST, inputs: MARGIN },
    Worst {
        call: calls::RECORD,
        most: ANY,
        inputs: &[("a record that is there", inputs::place_last), ("a place beyond the bank", inputs::place_beyond)],
    },
    Worst {
        call: calls::WRITE_STORED,
        most: MOST_STORED,
        inputs: &[
            ("a policy that rounds once and has an allowance", inputs::stored_once),
            ("a policy that rounds apart and has an allowance", inputs::second_by_id),
            ("a policy that rounds once", inputs::stored_once_in_31),
            ("a policy of 30 bytes", inputs::without_allowance),
            ("a policy of 31 bytes that rounds apart", inputs::stored_apart_in_31),
        ],
    },
    Worst {
        call: calls::READ_STORED,
        most: MOST_STORED,
        inputs: &[
            ("a policy that rounds once and has an allowance", inputs::stored_once),
            ("a policy that rounds apart and has an allowance", inputs::second_by_id),
            ("a policy that rounds once", inputs::stored_once_in_31),
            ("a policy that rounds apart", inputs::without_allowance),
        ],
    },
    Worst { call: calls::WRITE_REQUEST, most: ANY, inputs: &[("any request", inputs::request_sound)] },
    Worst { call: calls::READ_REQUEST, most: ANY, inputs: &[("any request", inputs::request_sound)] },
    Worst {
        call: calls::UNIT,
        most: UNIT,
        inputs: &[
            (
                "ids that fall, the last record chosen: four levers searched to their ends",
                inputs::four_levers_by_10_000,
            ),
            ("the same with ids that rise but for the last", inputs::four_levers_lowest_last),
            ("the same with ids that fall from the first on", inputs::four_levers_descending),
            ("the same with ids in order", inputs::four_levers_in_order),
            ("every model off", inputs::lowest_last_all_off),
        ],
    },
    Worst { call: calls::ASK, most: UNIT, inputs: PRINTED },
    Worst { call: calls::WORDS, most: UNIT, inputs: SAID },
    Worst { call: calls::LIVE_PRESCRIBE, most: MOST, inputs: LIVE_DECIDED },
    Worst { call: calls::LIVE_CHECKED, most: MOST, inputs: LIVE_DECIDED },
    Worst { call: calls::LIVE_EXPLAIN, most: MOST, inputs: LIVE_DECIDED },
    Worst { call: calls::LIVE_FIND, most: MOST, inputs: SOUGHT },
    Worst { call: calls::LIVE_UTILITY, most: MOST, inputs: SOUGHT },
    Worst {
        call: calls::LIVE_WIN,
        most: MOST,
        inputs: &[
            ("no slot free, the last record outranked: three levers searched to their ends", inputs::three_levers),
            ("the same with the first slot free", inputs::three_levers_first_free),
            ("no slot free, the last record below the risk", inputs::ceiling_alone),
        ],
    },
    Worst {
        call: calls::LIVE_MARGIN,
        most: MOST,
        inputs: &[
            ("no slot free, the last record chosen: four levers searched to their ends", inputs::four_levers),
            ("the same with the first slot free", inputs::four_levers_first_free),
        ],
    },
    Worst {
        call: calls::ADD,
        most: MOST,
        inputs: &[
            ("a new id, every slot free", inputs::add_all_free),
            ("a new id, every slot free, the catalogue epoch at its largest", inputs::epoch_spent_all_free),
            ("a new id, every second slot free", inputs::add_every_second_free),
            ("a new id, the last slot free", inputs::add_last_free),
            ("a new id, no slot free", inputs::add_no_room),
            ("the id of the last record, all others free", inputs::edit_last_others_free),
            ("the last slot not clear, all others free", inputs::last_not_clear),
        ],
    },
    Worst { call: calls::REPLACE, most: MOST, inputs: EDITED },
    Worst { call: calls::REMOVE, most: MOST, inputs: EDITED },
    Worst {
        call: calls::COMPACT,
        most: MOST,
        inputs: &[
            ("the first slot free", inputs::first_free),
            ("every second slot free", inputs::every_second_free),
            ("the first half free", inputs::first_half_free),
            ("all slots but the last free", inputs::all_but_last_free),
            ("every slot free", inputs::all_free),
            ("no slot free", inputs::second_by_id),
        ],
    },
];
