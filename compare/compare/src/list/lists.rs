//! Kinds 6 and 7: explanations, and the next eligible record of a list.
use super::{add, random, Entry};
use crate::calls::{EXPLAIN, NEXT};
use crate::case::{Case, Room};
use crate::generate::court::{good, rejected};
use crate::generate::example::{example, rows, with_models, with_request};
use crate::generate::lists::{self, mixed, of_bytes, with_verdicts, FAR};
use crate::generate::spaces::gate_case;

pub fn entries(list: &mut Vec<Entry>) {
    explanations(list);
    rooms(list);
    random(list, EXPLAIN, 12, lists::random);
    next(list);
    random(list, NEXT, 12, lists::random);
}

/// The worked rows, each gate failing, each way of being priced, and regions that are all asked for of a model with none.
fn explanations(list: &mut Vec<Entry>) {
    rows().iter().for_each(|setting| add(list, EXPLAIN, setting.case(1)));
    (0..8).for_each(|gate| add(list, EXPLAIN, gate_case(1 << gate, good(), 0)));
    for priced in [good(), rejected(7), rejected(8)] {
        add(list, EXPLAIN, gate_case(0, priced, 0));
    }
    let mut nowhere = with_request(|q| q.required_region_mask = u64::MAX);
    nowhere.models[0].region_mask = 0;
    add(list, EXPLAIN, nowhere.case(1));
    add(list, EXPLAIN, mixed(8, 0).case(1));
}

/// Lists that are empty, too short, longer; a stopped request needs none. A bank whose length is wrong by a byte.
fn rooms(list: &mut Vec<Entry>) {
    for stop in 0..3 {
        for list_room in [Room::ShortBy(usize::MAX), Room::ShortBy(72), Room::ShortBy(1), Room::LongerBy(30)] {
            add(list, EXPLAIN, Case { list_room, ..mixed(3, stop).case(1) });
        }
    }
    let case = example().case(1);
    add(list, EXPLAIN, Case { bank: case.bank[1..].to_vec(), ..case.clone() });
    let longer = [&case.bank[..], &[0]].concat();
    add(list, EXPLAIN, Case { bank: longer, list_room: Room::ShortBy(1), ..case });
}

/// The example's explanation from each place on; verdicts beside an eligible one's; a list cut short; places far off.
fn next(list: &mut Vec<Entry>) {
    for place in 0..=3 {
        add(list, NEXT, Case { place, ..example().case(1) });
        add(list, NEXT, Case { place, ..with_models(|models| models[0].enabled = 0).case(1) });
        add(list, NEXT, of_bytes(with_verdicts(&[3, 4, 5, 4], 0), place));
    }
    add(list, NEXT, of_bytes(Vec::new(), 0));
    add(list, NEXT, of_bytes(with_verdicts(&[0, 1, 2, 3, 5, 255], 4), 0));
    add(list, NEXT, of_bytes(vec![4; 71], 0));
    add(list, NEXT, of_bytes(vec![4; 72 + 71], 1));
    for place in FAR.into_iter().step_by(2) {
        add(list, NEXT, of_bytes(with_verdicts(&[4, 4], 0), place));
    }
}
