//! Kinds 12 to 16: a record's place in the bank, the stored form and the request form.
use super::{add, Entry};
use crate::calls::{READ_REQUEST, READ_STORED, RECORD, WRITE_REQUEST, WRITE_STORED};
use crate::case::{Case, Formed, Room};
use crate::form::Damage;
use crate::generate::example::example;
use crate::generate::forms::{damaged, random as random_form};
use crate::generate::lists::mixed;
use crate::generate::places::FAR;
use crate::generate::spaces::pairs;

pub fn entries(list: &mut Vec<Entry>) {
    records(list);
    written(list);
    read(list);
    super::random(list, READ_STORED, 14, random_form);
    super::random(list, READ_REQUEST, 12, random_form);
}

/// Every place of the example and those after it, far ones, wrong lengths, no room.
fn records(list: &mut Vec<Entry>) {
    for place in (0..=3).chain(FAR) {
        add(list, RECORD, Case { place, ..example().case(1) });
    }
    for bytes in [0, 46, 47, 48, 93] {
        let mut case = example().case(1);
        case.bank.truncate(bytes);
        add(list, RECORD, case.clone());
        add(list, RECORD, Case { place: 1, room: Room::ShortBy(1), ..case });
    }
}

/// Banks of none to three models; too little room and too much; each part of a wrong length.
fn written(list: &mut Vec<Entry>) {
    for records in 0..=3 {
        for room in [Room::Exact, Room::ShortBy(1), Room::LongerBy(5)] {
            add(list, WRITE_STORED, Case { room, ..mixed(records, 0).case(1) });
        }
    }
    let case = example().case(1);
    for (policy, bank, request) in [(29, 94, 69), (31, 93, 71), (30, 93, 0), (30, 48, 70)] {
        let mut case = Case { room: Room::ShortBy(1), ..case.clone() };
        case.policy.resize(policy, 0);
        case.bank.truncate(bank);
        case.request.resize(request, 0);
        add(list, WRITE_STORED, case.clone());
        add(list, WRITE_REQUEST, case);
    }
    for room in [Room::Exact, Room::ShortBy(73), Room::LongerBy(2)] {
        add(list, WRITE_REQUEST, Case { room, ..case.clone() });
    }
}

/// Whole forms with each room; then each damage.
fn read(list: &mut Vec<Entry>) {
    let rooms = [Room::Exact, Room::ShortBy(1), Room::LongerBy(4)];
    for (room, list_room) in pairs(&rooms, &rooms) {
        add(list, READ_STORED, Case { room, list_room, ..example().case(1) });
    }
    rooms.into_iter().for_each(|room| add(list, READ_REQUEST, Case { room, ..example().case(1) }));
    for damage in DAMAGES {
        add(list, READ_STORED, damaged(&[damage]));
    }
    for damage in DAMAGES.into_iter().step_by(2) {
        add(list, READ_REQUEST, damaged(&[damage]));
    }
    for damages in [[Damage::Length(0, 1), Damage::Keep(20)], [Damage::Tag(1, 9), Damage::Length(1, 1)]] {
        add(list, READ_STORED, damaged(&damages));
    }
    add(list, READ_STORED, Case { formed: Formed::Bytes(vec![9, 0, 0]), ..example().case(1) });
}

const DAMAGES: [Damage; 28] = [
    Damage::Keep(0),
    Damage::Keep(1),
    Damage::Keep(3),
    Damage::Keep(2),
    Damage::Keep(33),
    Damage::Keep(34),
    Damage::Keep(36),
    Damage::Keep(35),
    Damage::ShortBy(1),
    Damage::Tail(1, 0),
    Damage::Tag(0, 2),
    Damage::Tail(3, 2),
    Damage::Tag(0, 0),
    Damage::Tag(1, 1),
    Damage::Length(0, 1),
    Damage::Length(1, 1),
    Damage::Length(0, -1),
    Damage::Length(1, -1),
    Damage::Length(1, 47),
    Damage::Length(1, -47),
    Damage::Body(0, 1),
    Damage::Body(1, -47),
    Damage::Says(0, 65_535),
    Damage::Says(1, 65_518),
    Damage::Without(0),
    Damage::Swapped(0, 1),
    Damage::Twice(0),
    Damage::Twice(1),
];
