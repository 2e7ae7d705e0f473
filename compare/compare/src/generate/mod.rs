//! The inputs: small spaces in full (`spaces`), then random ones, each a plausible setting (`base`) with a few fields moved to an
//! edge of their range (`edges`) or to a limit that decides something (`aimed`). Explanations, catalogues, searches, forms, what is
//! printed and the reading of a record have spaces and random cases of their own (`lists`, `catalogues`, `searches`, `forms`, `printed`,
//! `places`), and so have banks with free slots (`live`) and what changes them (`edits`). Policies that round once have spaces of their own too
//! (`roundings`), and so have those with an allowance (`allowances`); and each random set is drawn three times, with policies that all round apart,
//! with policies of both kinds, and with an allowance.
pub mod aimed;
pub mod allowances;
pub mod base;
pub mod catalogues;
pub mod court;
pub mod edges;
pub mod edits;
pub mod example;
pub mod forms;
pub mod large;
pub mod lists;
pub mod live;
pub mod places;
pub mod printed;
pub mod random;
pub mod roundings;
pub mod searches;
pub mod spaces;

use crate::calls::{
    ADD, ASK, BATCH, BATCH_CHECKED, CALLS, CHECK, CHECKED, COMPACT, EXPLAIN, FIND, LIVE_CHECKED, LIVE_EXPLAIN,
    LIVE_FIND, LIVE_MARGIN, LIVE_PRESCRIBE, LIVE_UTILITY, LIVE_WIN, MARGIN, NEXT, PRESCRIBE, READ_REQUEST, READ_STORED,
    RECORD, REMOVE, REPLACE, TRUST, UNIT, UTILITY, VALIDATE, WIN, WORDS, WRITE_REQUEST, WRITE_STORED,
};
use crate::case::{Case, Formed, Listed, Room};
use crate::second::bytes::{bank_bytes, policy_bytes, request_bytes, Policy, RECORD_BYTES};
use crate::second::deciding::{explain, Question, Verdict};
use crate::second::slots::Listing;
use oracle::kernel::{KernelInput, KernelModel, PolicySnapshot};
use random::Random;
use std::fmt;

/// Takes the cases one by one, since the largest of them shouldn't all be held at once.
pub type Visit<'a> = &'a mut dyn FnMut(Case);

/// The calls that are asked on the cases of a set.
pub enum Asked {
    Every,
    These(&'static [usize]),
}

/// Cases in full.
pub struct Space {
    pub name: &'static str,
    pub asked: Asked,
    /// Whether a short run leaves it out.
    pub long: bool,
    pub each: fn(Visit),
}

/// Random cases by seed and number, `share` for each hundred decisions that are wanted.
pub struct Draws {
    pub name: &'static str,
    pub asked: Asked,
    pub share: u64,
    pub case: fn(Draw) -> Case,
}

impl Draws {
    /// How many are asked with such policies, where so many decisions are wanted.
    pub fn count(&self, policies: Policies, decisions: u64) -> u64 {
        let apart = (decisions * self.share).div_ceil(100);
        match policies {
            Policies::Apart => apart,
            Policies::Both | Policies::Allowing => apart.div_ceil(2),
        }
    }
}

/// What a random case is drawn by: it depends on nothing else.
#[derive(Clone, Copy)]
pub struct Draw {
    pub seed: u64,
    pub number: u64,
    pub policies: Policies,
}

/// What the policies name that are drawn.
#[derive(Clone, Copy, PartialEq, Eq)]
pub enum Policies {
    /// Nothing: they round apart. Nothing is drawn to say so: the cases are those from before a policy could say anything else, number by number.
    Apart,
    /// That they round apart or once, and tokens and prices moved to where that shows.
    Both,
    /// Mostly an allowance, with latencies where that shows; and some that they round once.
    Allowing,
}

impl Policies {
    pub const EACH: [Policies; 3] = [Policies::Apart, Policies::Both, Policies::Allowing];
}

impl fmt::Display for Policies {
    fn fmt(&self, f: &mut fmt::Formatter<'_>) -> fmt::Result {
        f.write_str(match self {
            Policies::Apart => "rounding apart",
            Policies::Both => "rounding either way",
            Policies::Allowing => "with an allowance",
        })
    }
}

impl Draw {
    /// The draw of a number. Where policies name more it is one beside, so that no case that rounds apart is asked twice.
    pub fn of(policies: Policies, seed: u64, number: u64) -> Self {
        let draw = Draw { seed, number, policies };
        match policies {
            Policies::Apart => draw,
            Policies::Both => draw.beside(0xb074),
            Policies::Allowing => draw.beside(0xa110),
        }
    }

    /// Other cases than these, so that none is asked twice.
    fn beside(self, salt: u64) -> Self {
        Draw { seed: self.seed.wrapping_add(salt), ..self }
    }

    fn source(self, salt: u64) -> Random {
        Random::for_case(self.seed.wrapping_add(salt), self.number)
    }

    /// Has the setting's policy name what such policies do. It draws from a source of its own.
    fn name(self, setting: &mut Setting) {
        match self.policies {
            Policies::Apart => {}
            Policies::Both => roundings::round(&mut self.source(0x4024d), setting),
            Policies::Allowing => allowances::allow(&mut self.source(0xa1103), setting),
        }
    }

    /// The setting as a case, its policy lent in as many bytes as say it, or in more.
    fn case(self, setting: &Setting, id: u32) -> Case {
        let mut case = setting.case(id);
        match self.policies {
            Policies::Apart => {}
            Policies::Both => roundings::lend(&mut self.source(0x4024e), &mut case.policy),
            Policies::Allowing => allowances::lend(&mut self.source(0xa1104), &mut case.policy),
        }
        case
    }
}

/// The calls of one pass at most, which are asked most often.
const DECISIONS: Asked = Asked::These(&[PRESCRIBE, CHECKED, UTILITY, FIND, CHECK, EXPLAIN, NEXT, RECORD]);
const COSTS: Asked = Asked::These(&[PRESCRIBE, CHECKED, UTILITY, EXPLAIN, NEXT, BATCH, BATCH_CHECKED]);
const LISTS: Asked = Asked::These(&[EXPLAIN, NEXT]);
const CATALOGUES: Asked = Asked::These(&[VALIDATE, TRUST]);
const SEARCHES: Asked = Asked::These(&[WIN, MARGIN]);
const FORMS: Asked = Asked::These(&[WRITE_STORED, READ_STORED, WRITE_REQUEST, READ_REQUEST, UNIT, ASK, WORDS]);
const PRINTED: Asked = Asked::These(&[UNIT, ASK, WORDS]);
const EDITS: Asked = Asked::These(&[ADD, REPLACE, REMOVE, COMPACT]);
/// The calls on live records, and those on every record of the same banks, where a free slot is a model that is off.
const LIVE: Asked = Asked::These(&[
    LIVE_PRESCRIBE,
    LIVE_CHECKED,
    LIVE_EXPLAIN,
    LIVE_FIND,
    LIVE_UTILITY,
    LIVE_WIN,
    LIVE_MARGIN,
    NEXT,
    PRESCRIBE,
    CHECKED,
    EXPLAIN,
    FIND,
    UTILITY,
    WIN,
    MARGIN,
    VALIDATE,
    TRUST,
    WRITE_STORED,
]);
const LIVE_DECISIONS: Asked = Asked::These(&[
    LIVE_PRESCRIBE,
    LIVE_CHECKED,
    LIVE_EXPLAIN,
    LIVE_FIND,
    LIVE_UTILITY,
    NEXT,
    PRESCRIBE,
    UTILITY,
    FIND,
    EXPLAIN,
]);
const LIVE_SEARCHES: Asked = Asked::These(&[LIVE_WIN, LIVE_MARGIN]);

const fn space(name: &'static str, asked: Asked, each: fn(Visit)) -> Space {
    Space { name, asked, long: false, each }
}

const fn long(name: &'static str, asked: Asked, each: fn(Visit)) -> Space {
    Space { name, asked, long: true, each }
}

pub const SPACES: [Space; 36] = [
    space("decisions", Asked::Every, spaces::each),
    space("banks of every size", Asked::Every, large::each),
    space("lists", LISTS, lists::each),
    space("catalogues", CATALOGUES, catalogues::each),
    space("large catalogues", CATALOGUES, catalogues::largest),
    space("searches", SEARCHES, searches::each),
    space("places", Asked::These(&[RECORD]), places::each),
    space("forms", FORMS, forms::each),
    space("forms of every size", FORMS, forms::sizes),
    space("printed", PRINTED, printed::each),
    space("roundings", COSTS, roundings::each),
    space("policies that say how to round", Asked::Every, roundings::policies),
    space("searches, rounding once", SEARCHES, roundings::searches),
    space("forms, rounding once", FORMS, forms::each_once),
    space("printed, rounding once", PRINTED, roundings::printed),
    space("allowances", COSTS, allowances::each),
    space("policies that say an allowance", Asked::Every, allowances::policies),
    space("searches, with an allowance", SEARCHES, allowances::searches),
    space("forms, with an allowance", FORMS, forms::each_allowing),
    space("printed, with an allowance", PRINTED, allowances::printed),
    space("live banks", LIVE, live::each),
    space("live banks, with an allowance", LIVE, allowances::live),
    space("large live banks", LIVE_DECISIONS, live::largest),
    space("edits", EDITS, edits::each),
    space("edits of large banks", EDITS, edits::large),
    long("searches printed", PRINTED, searches::each),
    long("a falling catalogue", Asked::These(&[VALIDATE]), catalogues::falling),
    long("turned catalogues", Asked::These(&[TRUST]), catalogues::turned),
    long("searches over large banks", SEARCHES, searches::largest),
    long("decisions, rounding once", DECISIONS, roundings::decisions),
    long("banks of every size, rounding once", Asked::Every, roundings::large),
    long("forms of every size, rounding once", FORMS, forms::sizes_once),
    long("decisions, with an allowance", DECISIONS, allowances::decisions),
    long("banks of every size, with an allowance", Asked::Every, allowances::large),
    long("forms of every size, with an allowance", FORMS, forms::sizes_allowing),
    long("searches over large live banks", LIVE_SEARCHES, live::largest_searches),
];

pub const DRAWS: [Draws; 10] = [
    Draws { name: "random decisions", asked: DECISIONS, share: 100, case: any_case },
    Draws { name: "random", asked: Asked::Every, share: 20, case: of_every_call },
    Draws { name: "random lists", asked: LISTS, share: 10, case: lists::random },
    Draws { name: "random catalogues", asked: CATALOGUES, share: 10, case: catalogues::random },
    Draws { name: "random searches", asked: SEARCHES, share: 15, case: searches::random },
    Draws { name: "random forms", asked: FORMS, share: 20, case: forms::random },
    Draws { name: "random printed", asked: PRINTED, share: 15, case: printed::random },
    Draws { name: "random live banks", asked: LIVE, share: 20, case: live::random },
    Draws { name: "random edits", asked: EDITS, share: 50, case: edits::random },
    Draws { name: "random edited banks", asked: LIVE, share: 10, case: edits::standing },
];

/// Where every call is asked, those of many passes are asked up to the unit's 900 records; sets of their own have larger banks.
const MANY_PASSES: usize = 900 * RECORD_BYTES;

impl Asked {
    /// Whether a call is asked on a case of this set.
    pub fn asks(&self, call: usize, case: &Case) -> bool {
        match self {
            Asked::Every => !CALLS[call].many_passes || case.bank.len() <= MANY_PASSES,
            Asked::These(calls) => calls.contains(&call),
        }
    }
}

/// A policy, a request and models, before they are bytes.
#[derive(Clone)]
pub struct Setting {
    pub policy: Policy,
    pub request: KernelInput,
    pub models: Vec<KernelModel>,
}

impl Setting {
    pub fn snapshot(&self) -> PolicySnapshot {
        self.policy.with(self.models.clone())
    }

    pub fn question(&self) -> Question {
        Question::over(self.policy, self.request, self.models.clone())
    }

    /// The setting's bytes, with a buffer that just fits.
    pub fn case(&self, id: u32) -> Case {
        Case {
            policy: policy_bytes(&self.policy),
            request: request_bytes(&self.request),
            bank: bank_bytes(&self.models),
            record: self.models.first().map_or(Vec::new(), |model| bank_bytes(&[*model])),
            id,
            room: Room::Exact,
            list_room: Room::Exact,
            listed: Listed::Explained(Listing::Every),
            place: 0,
            formed: Formed::Made(Vec::new()),
        }
    }

    /// A place in the bank, where it has any.
    pub fn any_place(&self, r: &mut Random) -> Option<usize> {
        (!self.models.is_empty()).then(|| r.place(self.models.len()))
    }
}

/// The random case of a draw.
pub fn random_case(draw: Draw, size: fn(&mut Random) -> usize) -> Case {
    let mut r = draw.source(0);
    let records = size(&mut r);
    let setting = random_setting(draw, &mut r, records);
    let mut case = draw.case(&setting, id_to_ask_for(&mut r, &setting));
    case.room = room(&mut r);
    damage(&mut r, &mut case);
    case.list_room = lists::room(&mut r);
    case.place = lists::place(&mut r, setting.models.len() as u64);
    case
}

fn any_case(draw: Draw) -> Case {
    random_case(draw, any_size)
}

fn of_every_call(draw: Draw) -> Case {
    random_case(draw.beside(0xe4e27), any_size)
}

fn random_setting(draw: Draw, r: &mut Random, records: usize) -> Setting {
    let mut setting = base::setting(r, records);
    draw.name(&mut setting);
    for _ in 0..r.pick(&[0, 1, 1, 1, 2, 2, 3]) {
        if r.one_in(3) {
            edges::change(r, &mut setting);
        } else {
            aimed::change(r, &mut setting);
        }
    }
    setting
}

/// Half of the time the id of an eligible record, since any other has no utility to tell.
fn id_to_ask_for(r: &mut Random, setting: &Setting) -> u32 {
    let any = edges::id(r, &setting.models);
    if r.one_in(2) {
        return any;
    }
    let explained = explain(&setting.question());
    let eligible: Vec<u32> =
        explained.iter().filter(|it| matches!(it.verdict, Verdict::Eligible(_))).map(|it| it.id).collect();
    eligible.get(r.place(eligible.len().max(1))).copied().unwrap_or(any)
}

/// Mostly few records, since those are quick and every rule shows on them; now and then the unit's 900, as many as can be stored, the
/// largest banks, and one more than each.
pub fn any_size(r: &mut Random) -> usize {
    match r.below(40_000) {
        0 => 65_535,
        1 => 65_536,
        2..=9 => 1_394,
        10..=15 => 1_395,
        16..=20 => 901,
        21..=160 => 900,
        _ => r.pick(&[0, 1, 1, 2, 2, 2, 3, 3, 3, 3, 5, 5, 5, 5, 5, 22, 22, 22, 22, 22]),
    }
}

/// Few enough for the fixed list.
pub fn small_size(r: &mut Random) -> usize {
    r.pick(&[0, 1, 1, 2, 2, 3, 3, 3, 4, 5, 5, 6, 8])
}

fn room(r: &mut Random) -> Room {
    match r.below(32) {
        0..=1 => Room::ShortBy(1),
        2 => Room::ShortBy(r.between(1, 90) as usize),
        3..=17 => Room::Exact,
        _ => Room::LongerBy(r.between(1, 40) as usize),
    }
}

/// Now and then a length that is wrong by a byte, each for itself, so that faults meet; or policy and request in each other's place.
fn damage(r: &mut Random, case: &mut Case) {
    for (part, seldom) in [(&mut case.bank, 16), (&mut case.policy, 32), (&mut case.request, 32)] {
        match r.below(2 * seldom) {
            0 => drop(part.pop()),
            1 => part.push(r.draw() as u8),
            _ => {}
        }
    }
    if r.one_in(256) {
        std::mem::swap(&mut case.policy, &mut case.request);
    }
}
