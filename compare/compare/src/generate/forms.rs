//! Cases for the stored form, the request form and the programs' input: whole ones of every size, and damaged ones; of a policy that rounds
//! apart, of one that rounds once, whose forms have a field more, of one with an allowance, whose forms have another, and of one with both.
use super::court::{good, over, rejected};
use super::example::example;
use super::large::MOST;
use super::lists::{self, mixed};
use super::random::Random;
use super::spaces::pairs;
use super::{printed, random_case, room, small_size, Draw, Policies, Setting, Visit};
use crate::case::{Case, Formed, Room};
use crate::form::Damage;
use crate::second::bytes::{bank_bytes, policy_bytes, request_bytes, RECORD_BYTES};
use crate::second::rules::Rounding;

const HEADER: usize = 3;

/// The example with a policy that rounds so and has this allowance; where the fields of the programs' input begin, and where it ends.
#[derive(Clone, Copy)]
pub struct Example {
    rounding: Rounding,
    allowance: u32,
    starts: &'static [usize],
    end: usize,
}

const APART: Example = Example { rounding: Rounding::Apart, allowance: 0, starts: &[0, 33, 130], end: 203 };
pub const ONCE: Example = Example { rounding: Rounding::Once, allowance: 0, starts: &[0, 33, 130, 134], end: 207 };
pub const ALLOWING: Example =
    Example { rounding: Rounding::Apart, allowance: 200, starts: &[0, 33, 130, 137], end: 210 };
pub const BOTH: Example =
    Example { rounding: Rounding::Once, allowance: 200, starts: &[0, 33, 130, 134, 141], end: 214 };

pub fn each(visit: Visit) {
    damages_of(APART, visit);
    orders(visit);
}

pub fn each_once(visit: Visit) {
    damages_of(ONCE, visit);
    rounding_fields(visit);
}

pub fn each_allowing(visit: Visit) {
    damages_of(ALLOWING, visit);
    damages_of(BOTH, visit);
    orders_allowing(visit);
    allowance_fields(visit);
}

fn damages_of(whole: Example, visit: Visit) {
    cuts(whole, visit);
    headers(whole, visit);
    lengths(whole, visit);
    tails(whole, visit);
    two_at_once(whole, visit);
    rooms(whole, visit);
    both_rooms(whole, visit);
}

impl Example {
    fn setting(self) -> Setting {
        let mut setting = example();
        self.name(&mut setting);
        setting
    }

    /// Has the setting's policy round so, with this allowance.
    fn name(self, setting: &mut Setting) {
        setting.policy.rounding = self.rounding;
        setting.policy.latency_allowance_ms = self.allowance;
    }

    /// Where the field that says the allowance stands among the others, where there is one.
    fn allowance_at(self) -> Option<usize> {
        (self.allowance != 0).then_some(self.starts.len() - 2)
    }

    /// The example, whose form is damaged so.
    pub fn damaged(self, damages: &[Damage]) -> Case {
        Case { formed: Formed::Made(damages.to_vec()), ..self.setting().case(1) }
    }
}

/// The example of a policy that rounds apart, whose form is damaged so.
pub fn damaged(damages: &[Damage]) -> Case {
    APART.damaged(damages)
}

/// Every form cut everywhere, also with no record and with three.
fn cuts(whole: Example, visit: Visit) {
    for records in [0, 1, 2, 3] {
        let case = Setting { models: mixed(records, 0).models, ..whole.setting() }.case(1);
        for keep in 0..=108 + (records + 1) * RECORD_BYTES {
            visit(Case { formed: Formed::Made(vec![Damage::Keep(keep)]), ..case.clone() });
        }
    }
}

/// Every byte of every header with every value; and every other byte changed, which no test looks at but those of the fields that say how to
/// round, and an allowance.
fn headers(whole: Example, visit: Visit) {
    for start in whole.starts {
        for (at, byte) in pairs(&[0, 1, 2], &(0..=u8::MAX).collect::<Vec<_>>()) {
            visit(whole.damaged(&[Damage::Byte(start + at, byte)]));
        }
    }
    for (at, byte) in pairs(&(0..whole.end).collect::<Vec<_>>(), &[0, 1, 255]) {
        visit(whole.damaged(&[Damage::Byte(at, byte)]));
    }
}

/// The lengths that some field has, those beside them, and those at the end of what two bytes can say. 65,518 is 1,394 models.
const LENGTHS: [u16; 24] = [
    0, 1, 29, 30, 31, 46, 47, 48, 69, 70, 71, 93, 94, 95, 100, 140, 141, 142, 65_471, 65_517, 65_518, 65_519, 65_534,
    65_535,
];

/// Lengths that are off: the body stays as it is, or has as many bytes as they say.
fn lengths(whole: Example, visit: Visit) {
    for field in 0..whole.starts.len() {
        for more in [-256, -94, -48, -47, -46, -2, -1, 1, 2, 46, 47, 48, 94, 256] {
            visit(whole.damaged(&[Damage::Length(field, more)]));
            visit(whole.damaged(&[Damage::Body(field, more)]));
        }
        for length in LENGTHS {
            visit(whole.damaged(&[Damage::Says(field, length)]));
            visit(whole.damaged(&[Damage::Says(field, length), Damage::Tail(200, 0)]));
        }
    }
}

/// Up to four fields in every order, each the policy, the models, the request, the one that says how to round, or one of a tag that there is
/// not: missing, repeated and out of place. And any of them before, between and after the four of a policy that rounds once.
fn orders(visit: Visit) {
    let parts = [policy(), models(), request(), rounding(), vec![9, 0, 0]];
    let mut of = |fields: Vec<&Vec<u8>>| {
        let form = fields.into_iter().flatten().copied().collect();
        visit(Case { formed: Formed::Bytes(form), ..example().case(1) });
    };
    for count in 0..=4 {
        for order in 0..parts.len().pow(count) {
            of((0..count).map(|at| &parts[order / parts.len().pow(at) % parts.len()]).collect());
        }
    }
    for (at, part) in pairs(&[0, 1, 2, 3, 4], &[0, 1, 2, 3, 4]) {
        let mut fields = vec![&parts[0], &parts[1], &parts[3], &parts[2]];
        fields.insert(at, &parts[part]);
        of(fields);
    }
}

/// Up to five fields in every order, of which one or more say an allowance; and any field before, between and after the five of a policy that has one
/// and rounds once.
fn orders_allowing(visit: Visit) {
    let parts = [policy(), models(), request(), rounding(), allowance(), vec![9, 0, 0]];
    let (saying, whole) = (4, [0, 1, 3, 4, 2]);
    let mut of = |fields: Vec<usize>| {
        let form = fields.into_iter().flat_map(|part| parts[part].clone()).collect();
        visit(Case { formed: Formed::Bytes(form), ..example().case(1) });
    };
    for count in 1..=5 {
        for order in 0..parts.len().pow(count) {
            let fields: Vec<usize> = (0..count).map(|at| order / parts.len().pow(at) % parts.len()).collect();
            if fields.contains(&saying) {
                of(fields);
            }
        }
    }
    for (at, part) in pairs(&[0, 1, 2, 3, 4, 5], &[0, 1, 2, 3, 4, 5]) {
        let mut fields = whole.to_vec();
        fields.insert(at, part);
        of(fields);
    }
}

/// After the models, and after a field that says how to round, with a request and without: every byte at each place of an allowance, alone and
/// beside others; every length of the field up to a few bytes, whole and cut; and every few bytes that may begin it.
fn allowance_fields(visit: Visit) {
    let stored = [policy(), models()].concat();
    let mut each = |after: &[u8]| {
        for (rounding, request) in pairs(&[false, true], &[false, true]) {
            let rounding = if rounding { self::rounding() } else { Vec::new() };
            let request = if request { self::request() } else { Vec::new() };
            let form = [&stored[..], &rounding, after, &request].concat();
            visit(Case { formed: Formed::Bytes(form), ..example().case(1) });
        }
    };
    for (at, byte) in pairs(&[0, 1, 2, 3], &(0..=u8::MAX).collect::<Vec<_>>()) {
        let mut body = [0; 4];
        body[at] = byte;
        each(&field(5, body.to_vec()));
    }
    for ((first, second), (third, fourth)) in pairs(&pairs(&[0, 1, 255], &[0, 255]), &pairs(&[0, 255], &[0, 128])) {
        each(&field(5, vec![first, second, third, fourth]));
    }
    for (length, there) in pairs(&[0, 1, 2, 3, 4, 5, 6, 8, 256, 260, 1_024], &[0, 1, 2, 3, 4, 5, 6, 8, 260]) {
        for body in [0, 1] {
            each(&[&[5][..], &(length as u16).to_le_bytes(), &vec![body; there]].concat());
        }
    }
    for (second, (third, fourth)) in pairs(&FEW, &pairs(&FEW, &[0, 1, 4, 5])) {
        each(&[5]);
        each(&[5, second]);
        each(&[5, second, third]);
        each(&[5, second, third, fourth]);
    }
}

/// After the models, and then with a request and without: every body of the field that says how to round; every length of it up to a few
/// bytes, whole and cut; and every few bytes that may begin it.
fn rounding_fields(visit: Visit) {
    let stored = [policy(), models()].concat();
    let mut both = |after: &[u8]| {
        for request in [Vec::new(), request()] {
            let form = [&stored[..], after, &request].concat();
            visit(Case { formed: Formed::Bytes(form), ..example().case(1) });
        }
    };
    (0..=u8::MAX).for_each(|body| both(&[4, 1, 0, body]));
    for (length, there) in pairs(&[0, 1, 2, 3, 255, 256, 257], &[0, 1, 2, 3, 257]) {
        for body in [0, 1] {
            both(&[&[4][..], &(length as u16).to_le_bytes(), &vec![body; there]].concat());
        }
    }
    for (first, (second, third)) in pairs(&FEW, &pairs(&FEW, &FEW)) {
        both(&[first]);
        both(&[first, second]);
        both(&[first, second, third]);
    }
}

/// Bytes with which a field may begin or go on.
const FEW: [u8; 7] = [0, 1, 2, 3, 4, 5, 255];

fn field(tag: u8, body: Vec<u8>) -> Vec<u8> {
    [vec![tag], (body.len() as u16).to_le_bytes().to_vec(), body].concat()
}

fn policy() -> Vec<u8> {
    field(1, policy_bytes(&example().policy))
}

fn models() -> Vec<u8> {
    field(2, bank_bytes(&example().models))
}

fn request() -> Vec<u8> {
    field(3, request_bytes(&example().request))
}

fn rounding() -> Vec<u8> {
    field(4, vec![1])
}

fn allowance() -> Vec<u8> {
    field(5, vec![200, 0, 0, 0])
}

/// Bytes after the end: few, a header, a whole field.
fn tails(whole: Example, visit: Visit) {
    for (more, byte) in pairs(&[1, 2, 3, 4, 33, 47, 73, 100_000], &[0, 1, 2, 3, 4, 9, 255]) {
        visit(whole.damaged(&[Damage::Tail(more, byte)]));
    }
    (0..=u8::MAX).for_each(|tag| visit(whole.damaged(&[Damage::Added(tag)])));
}

/// One of each kind, in each field.
fn damages(whole: Example) -> Vec<Damage> {
    let fields = whole.starts.len();
    let mut all = vec![
        Damage::Added(3),
        Damage::Keep(0),
        Damage::Keep(2),
        Damage::Keep(34),
        Damage::ShortBy(1),
        Damage::ShortBy(71),
        Damage::Tail(1, 0),
        Damage::Tail(3, 2),
        Damage::Tail(1, 4),
        Damage::Rounding(1, 1),
        Damage::Rounding(2, 1),
        Damage::Rounding(2, 0),
        Damage::Rounding(4, 1),
    ];
    if whole.rounding == Rounding::Once {
        all.extend([Damage::Filled(2, 0), Damage::Filled(2, 2)]);
    }
    if let Some(at) = whole.allowance_at() {
        all.extend([Damage::Filled(at, 0), Damage::Filled(at, 255), Damage::Body(at, -4), Damage::Body(at, -1)]);
        all.extend([Damage::Tail(1, 5), Damage::Allowance(1, 1), Damage::Allowance(at, 0), Damage::Allowance(at, 7)]);
        all.extend([Damage::Allowance(at + 1, 7), Damage::Allowance(5, 7), Damage::Rounding(at + 1, 1)]);
    }
    for field in 0..fields {
        all.extend([
            Damage::Tag(field, 0),
            Damage::Tag(field, 2),
            Damage::Length(field, 1),
            Damage::Length(field, -1),
            Damage::Length(field, 47),
            Damage::Body(field, 1),
            Damage::Body(field, -47),
            Damage::Says(field, u16::MAX),
            Damage::Without(field),
            Damage::Twice(field),
            Damage::Swapped(field, (field + 1) % fields),
        ]);
    }
    all
}

/// Each two of them, of which the first that is met counts.
fn two_at_once(whole: Example, visit: Visit) {
    let damages = damages(whole);
    for (first, second) in pairs(&damages, &damages) {
        visit(whole.damaged(&[first, second]));
    }
}

/// Every room of the answer and of the bank, from none to a few bytes more than is needed; what was written has room to spare or lacks a
/// byte.
fn rooms(whole: Example, visit: Visit) {
    for records in [0, 1, 2] {
        let case = Setting { models: mixed(records, 0).models, ..whole.setting() }.case(1);
        for short in 0..=45 + records * RECORD_BYTES {
            visit(Case { room: Room::ShortBy(short), ..case.clone() });
            visit(Case { list_room: Room::ShortBy(short), ..case.clone() });
        }
        for more in 1..=3 {
            visit(Case { room: Room::LongerBy(more), list_room: Room::LongerBy(4 - more), ..case.clone() });
        }
    }
}

/// Each room with each other, and with a form that is refused: 4 is told last.
fn both_rooms(whole: Example, visit: Visit) {
    let rooms = [Room::ShortBy(usize::MAX), Room::ShortBy(1), Room::Exact, Room::LongerBy(5)];
    for (room, list_room) in pairs(&rooms, &rooms) {
        for damage in [vec![], vec![Damage::ShortBy(1)], vec![Damage::Tail(1, 0)], vec![Damage::Length(0, 1)]] {
            visit(Case { room, list_room, ..whole.damaged(&damage) });
        }
        let mut case = Case { room, list_room, ..whole.setting().case(1) };
        let policy = case.policy.clone();
        case.policy.truncate(29);
        case.bank.pop();
        case.request.push(0);
        visit(case.clone());
        case.policy = policy;
        visit(case.clone());
        case.request.pop();
        visit(case);
    }
}

/// As many models as the program takes, as can be stored, as a bank may have, and one more; with too little room, and damaged at the end.
pub fn sizes(visit: Visit) {
    sizes_of(APART, &[0, 1, 2, 22, 900, 901, 1_393, 1_394, 1_395, MOST, MOST + 1], visit);
}

pub fn sizes_once(visit: Visit) {
    sizes_of(ONCE, &[0, 1, 2, 22, 900, 901, 1_393, 1_394, 1_395], visit);
}

pub fn sizes_allowing(visit: Visit) {
    for whole in [ALLOWING, BOTH] {
        sizes_of(whole, &[0, 1, 2, 22, 900, 901, 1_393, 1_394, 1_395], visit);
    }
}

fn sizes_of(whole: Example, sizes: &[usize], visit: Visit) {
    for records in sizes.iter().copied() {
        let models = (0..records).map(|at| if at % 3 == 0 { good() } else { rejected(at % 9) }).collect();
        let mut setting = over(models);
        whole.name(&mut setting);
        let case = setting.case(2);
        for room in [Room::Exact, Room::ShortBy(1), Room::LongerBy(7)] {
            visit(Case { room, list_room: room, ..case.clone() });
        }
        for damage in [Damage::ShortBy(1), Damage::Tail(1, 0), Damage::Length(1, 47), Damage::Length(1, 1)] {
            visit(Case { formed: Formed::Made(vec![damage]), ..case.clone() });
        }
        let mut longer = case;
        longer.bank.push(0);
        visit(longer);
    }
}

/// A case that often passes, with its form whole or damaged once or more.
pub fn random(draw: Draw) -> Case {
    let mut r = draw.source(0xf024);
    let mut case = match r.below(3) {
        0 => random_case(draw.beside(0xf025), small_size),
        _ => printed::random(draw.beside(0xf026)),
    };
    let damages = (0..r.pick(&[0, 1, 1, 1, 2, 2, 3])).map(|_| damage(draw.policies, &mut r)).collect();
    case.formed = Formed::Made(damages);
    case.room = room(&mut r);
    case.list_room = lists::room(&mut r);
    case
}

/// Any damage, near the places where a form of few records has something.
fn damage(policies: Policies, r: &mut Random) -> Damage {
    // Where no policy says what a field could, there is none that says it, and no damage of one.
    let (starts, kinds, tags) = match policies {
        Policies::Apart => (APART.starts, 12, 7),
        Policies::Both => (ONCE.starts, 15, 7),
        Policies::Allowing => (BOTH.starts, 20, 9),
    };
    let (field, byte) = (r.place(starts.len()), r.draw() as u8);
    let tag = r.pick(&[0, 1, 2, 3, 4, 9, 255, 5, 5][..tags]);
    let more = r.pick(&[-94, -48, -47, -46, -3, -2, -1, 1, 2, 3, 46, 47, 48, 256]);
    let length = r.draw() as u16;
    match r.below(kinds) {
        0 => Damage::Tag(field, tag),
        1 => Damage::Length(field, more),
        2 => Damage::Says(field, length),
        3 => Damage::Body(field, more),
        4 => Damage::Without(field),
        5 => Damage::Twice(field),
        6 => Damage::Swapped(field, r.place(starts.len())),
        7 => Damage::Added(tag),
        8 => Damage::Keep(r.place(300)),
        9 => Damage::ShortBy(1 + r.place(120)),
        10 => Damage::Byte(starts[field] + r.place(HEADER), byte),
        11 => Damage::Tail(1 + r.place(80), tag),
        12 => Damage::Filled(2, r.pick(&[0, 1, 2, 255])),
        13..=14 => Damage::Rounding(r.pick(&[0, 1, 2, 2, 2, 3, 4]), r.pick(&[1, 1, 1, 0, 2, 255])),
        15..=16 => Damage::Filled(r.pick(&[2, 3]), r.pick(&[0, 0, 1, 255])),
        _ => Damage::Allowance(r.pick(&[0, 1, 2, 2, 2, 3, 3, 3, 4]), r.pick(&[0, 0, 1, 200, 1 << 24, u32::MAX])),
    }
}
