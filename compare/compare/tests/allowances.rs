//! Milliseconds that are free: the worked rows of `crates/rules/proofs/AllowanceRows.antt`, and those on decisions and boundaries of
//! `crates/rows/proofs/AllowanceRows.antt`, by their names and in their order, to which the second reading comes by itself; what is written, read and
//! printed; and that an answer departs from the Rust's where a term does, and nowhere else.
use compare::calls::{
    Answer, By, ADD, ASK, BATCH, CALLS, COMPACT, EXPLAIN, LIVE_MARGIN, LIVE_PRESCRIBE, LIVE_WIN, MARGIN, NEXT,
    PRESCRIBE, READ_STORED, REMOVE, REPLACE, UNIT, UTILITY, VALIDATE, WIN, WORDS, WRITE_STORED,
};
use compare::case::{Case, Formed, Room};
use compare::generate::allowances::{allowed, race};
use compare::generate::example::{example, with_request};
use compare::generate::roundings::once;
use compare::generate::{Draw, Policies, Setting, DRAWS, SPACES};
use compare::second::bytes::{long_policy_bytes, models_of, policy_of, request_of, POLICY_BYTES};
use compare::second::deciding::{is_stopped, Question};
use compare::second::forms::{input_of, stored_of};
use compare::second::gates::first_failed;
use compare::second::price::terms;
use compare::second::rules::Rounding;

const MOST: u32 = u32::MAX;

/// The example with an allowance; the first model with so many milliseconds, and so much charged for one.
fn setting(allowance: u32, latency: u32, penalty: u64) -> Setting {
    let mut setting = example();
    setting.policy.latency_allowance_ms = allowance;
    setting.policy.latency_penalty_microunits_per_ms = penalty;
    setting.models[0].p95_latency_ms = latency;
    setting
}

// ---- the term

/// The latency term of the example's first model.
fn term(allowance: u32, latency: u32, penalty: u64) -> u128 {
    let setting = setting(allowance, latency, penalty);
    terms(&setting.policy, &setting.request, &setting.models[0], 0).latency
}

#[test]
fn the_term_at_its_edges() {
    let of = |allowance: u32| move |latency: u32| term(allowance, latency, 10);
    assert_eq!([199, 200, 201].map(of(200)), [0, 0, 10], "199, 200 and 201 ms, 200 of them free");
    assert_eq!(term(200, 0, 10), 0, "no millisecond, 200 free");
    let none = [allowed(example().case(1), 0), once_apart(), example().case(1)].map(|case| {
        let late = setting(0, 200, 10).models[0];
        terms(&policy_of(&case.policy), &example().request, &late, 0).latency
    });
    assert_eq!(none, [2_000; 3], "an allowance of 0 is none");
    assert_eq!([0, 1, 2].map(of(1)), [0, 0, 10], "an allowance of 1");
    let each = [1, 256, 65_536, 16_777_216].map(|allowance| term(allowance, 1 << 25, 10));
    assert_eq!(each, [335_544_310, 335_541_760, 334_888_960, 167_772_160], "each of its four bytes");
    assert_eq!([0, MOST - 1, MOST].map(of(MOST)), [0; 3], "the largest allowance: every latency is free");
    assert_eq!(term(MOST - 1, MOST, 10), 10, "the largest allowance but one");
    let largest = [200, 201].map(|latency| term(200, latency, u64::MAX));
    assert_eq!(largest, [0, u64::MAX.into()], "the largest penalty, at the allowance and one above");
    let (most, penalty) = (u128::from(MOST), u128::from(u64::MAX));
    let terms = [0, 1, MOST - 1].map(|allowance| term(allowance, MOST, u64::MAX));
    assert_eq!(terms, [most * penalty, (most - 1) * penalty, penalty], "the largest penalty and the largest latency");
    assert_eq!([0, 200].map(|allowance| term(allowance, 300, 0)), [0, 0], "no penalty");
}

/// The example, whose policy says in a byte that it rounds apart.
fn once_apart() -> Case {
    let case = example().case(1);
    Case { policy: [&case.policy[..], &[0]].concat(), ..case }
}

// ---- the gate

#[test]
fn the_gate_compares_the_full_figure() {
    let case = with_request(|q| q.max_p95_latency_ms = 99).case(1);
    let told =
        [0, 1, 200].map(|allowance| CALLS[EXPLAIN].owed_on(&allowed(case.clone(), allowance)).list[..40].to_vec());
    let wide = |number: u128| number.to_le_bytes();
    let first = [&[1, 0, 0, 0, 0, 0, 1, 3][..], &wide(100), &wide(99)].concat();
    assert_eq!(told, [first.clone(), first.clone(), first], "100 ms, a limit of 99, whatever is free");
}

// ---- what follows the term

/// The example under a policy with this allowance, and under one that rounds once too.
fn under(allowance: u32) -> Case {
    allowed(example().case(1), allowance)
}

fn under_once(allowance: u32) -> Case {
    allowed(once(example().case(1)), allowance)
}

/// The example's models, the first with another quality and so late, where the policy charges so much and has this allowance.
fn one(quality: u16, latency: u32, allowance: u32, penalty: u64) -> Setting {
    let mut setting = setting(allowance, latency, penalty);
    setting.models[0].quality_bps = quality;
    setting
}

/// The same with a request's latency limit.
fn within(limit: u32, setting: Setting) -> Setting {
    let mut limited = setting;
    limited.request.max_p95_latency_ms = limit;
    limited
}

fn numbers(bytes: &[u8], widths: &[usize]) -> Vec<i128> {
    let mut at = 0;
    let number = |width: &usize| {
        let mut wide = [0; 16];
        wide[..*width].copy_from_slice(&bytes[at..at + width]);
        at += width;
        i128::from_le_bytes(wide)
    };
    widths.iter().map(number).collect()
}

/// The action, the model, its cost and utility, the other's id and utility, and how many were eligible.
fn decided(case: &Case) -> [i128; 7] {
    let told = numbers(&CALLS[PRESCRIBE].owed_on(case).out, &[8, 1, 2, 4, 2, 8, 8, 4, 8, 2, 2]);
    [told[1], told[3], told[5], told[6], told[7], told[8], told[10]]
}

/// Model 2 chosen from the example's two.
fn second(utility: i128, other: i128) -> [i128; 7] {
    [2, 2, 300, utility, 1, other, 2]
}

const SECOND_ALONE: [i128; 7] = [2, 2, 300, 6_700, 0, 0, 1];

#[test]
fn decisions() {
    assert_eq!(decided(&under(49)), second(6_690, 5_690), "49 ms free, one below model 2's latency");
    assert_eq!(decided(&under(50)), second(6_700, 5_700), "50, at it");
    assert_eq!(decided(&under(51)), second(6_700, 5_710), "51, one above it");
    let about = [99, 100, 101].map(|allowance| decided(&under(allowance)));
    assert_eq!(about, [second(6_700, 6_190), second(6_700, 6_200), second(6_700, 6_200)], "99, 100 and 101");
    assert_eq!([200, MOST].map(|allowance| decided(&under(allowance))), [second(6_700, 6_200); 2], "200, the largest");
    assert_eq!(decided(&under(0)), second(6_200, 5_200), "none, said in 35 bytes");
    assert_eq!(decided(&under_once(200)), second(6_700, 6_200), "200, rounding once");
    assert_eq!(decided(&one(9_501, 100, 99, 10).case(1)), second(6_700, 6_691), "a millisecond decides: 99 free");
    let first = [1, 1, 1_800, 6_701, 2, 6_700, 2];
    assert_eq!(decided(&one(9_501, 100, 100, 10).case(1)), first, "and 100 free");
    let alone = |latency: u32, allowance: u32, penalty: u64, value: i64| {
        let mut setting = setting(allowance, latency, penalty);
        setting.models.truncate(1);
        setting.request.business_value_microunits = value;
        decided(&setting.case(1))
    };
    let (dear, none) = (u64::MAX, [3, 0, 0, 0, 0, 0, 0]);
    assert_eq!(alone(100, 100, dear, 10_000), [1, 1, 1_800, 6_200, 0, 0, 1], "the largest penalty, at the allowance");
    assert_eq!(alone(101, 100, dear, 10_000), none, "and one above it");
    assert_eq!(alone(100, 100, 1, 2_252), [1, 1, 1_800, 1, 0, 0, 1], "a utility of 1 at the allowance");
    assert_eq!(alone(100, 99, 1, 2_252), none, "and of 0 one above it");
    let limited = |limit: u32| decided(&within(limit, setting(200, 100, 10)).case(1));
    assert_eq!(limited(99), SECOND_ALONE, "a limit of 99: model 1 is too slow, though 200 ms are free");
    assert_eq!(limited(49), none, "a limit of 49: both are");
    assert_eq!(limited(100), second(6_700, 6_200), "a limit of 100: neither is");
}

/// The passes of a search, and each lever: its number, today's value, the boundary, and the cost where one is carried.
fn bounded(call: usize, case: &Case) -> (u64, Vec<[u64; 4]>) {
    let out = CALLS[call].owed_on(case).out;
    let number = |at: usize| u64::from_le_bytes(out[at..at + 8].try_into().expect("8 bytes"));
    let room = |at: usize| [u64::from(out[at]), number(at + 1), number(at + 9), number(at + 18)];
    (number(71), (0..usize::from(out[70])).map(|lever| room(79 + 26 * lever)).collect())
}

#[test]
fn what_would_win() {
    let win = |setting: Setting| bounded(WIN, &setting.case(1));
    let latency = |today: u64, bound: u64| vec![[2, today, bound, 0]];
    let at = win(one(9_501, 300, 60, 10));
    assert_eq!(at, (13, latency(300, 60)), "model 1 would win at the allowance, and not one above it");
    assert_eq!(win(one(9_501, 300, 0, 10)), (14, latency(300, 50)), "with none free, at 50");
    assert_eq!(win(one(9_600, 300, 60, 10)), (14, latency(300, 69)), "above the allowance: at 69, 9 of them charged");
    assert_eq!(win(one(9_501, 300, 60, u64::MAX)), (13, latency(300, 60)), "with the largest penalty");
    let free = win(one(9_500, 300, 300, 10));
    let levers = vec![[1, 9_500, 9_501, 0], [3, 1_000_000, 999_333, 1_799]];
    assert_eq!(free, (35, levers), "no latency wins where all of them are free");
    assert_eq!(win(one(9_500, 300, 0, 10)), (14, latency(300, 49)), "where with none free one of 49 does");
    assert_eq!(win(one(9_500, 300, 60, 10)), (5, vec![]), "nor where model 2 gains as much from it");
    let price = |scale: u64, cost: u64| [3, 1_000_000, scale, cost];
    assert_eq!(bounded(WIN, &under(49)), (26, vec![price(443_333, 798)]), "(B) with 49 free: both gain as much");
    let quality = [1, 9_000, 9_501, 0];
    assert_eq!(bounded(WIN, &under(200)), (36, vec![quality, price(721_333, 1_299)]), "(B) with 200 free");
    assert_eq!(bounded(WIN, &under_once(200)), (36, vec![quality, price(721_666, 1_299)]), "(B) with 200 free, once");
    let limited = |allowance: u32| win(within(99, one(9_501, 100, allowance, 10)));
    assert_eq!(limited(200), (12, latency(100, 99)), "a limit of 99, and more is free: at the limit");
    assert_eq!(limited(98), (12, latency(100, 98)), "a limit of 99, and less is free: at the allowance");
    assert_eq!(win(one(9_501, 100, 100, 10)), (1, vec![]), "chosen already, by what is free");
    let off = |allowance: u32| {
        let mut setting = one(9_501, 100, allowance, 10);
        setting.models[0].enabled = 0;
        win(setting)
    };
    assert_eq!(off(100), (2, vec![[5, 0, 1, 0]]), "switched off: it would win with 100 free");
    assert_eq!(off(99), (2, vec![]), "and not with 99");
}

/// The margin of model 2.
#[test]
fn margins() {
    let kept = |quality: u64, latency: u64, scale: u64, cost: u64, passes: u64| {
        let levers = [[1, 8_000, quality, 0], [2, 50, latency, 0], [3, 1_000_000, scale, cost], [4, 8_000, 1_000, 0]];
        (passes, levers.to_vec())
    };
    let margin = |setting: Setting| bounded(MARGIN, &setting.case(1));
    let example = |allowance: u32| margin(setting(allowance, 100, 10));
    let dear = |allowance: u32| margin(setting(allowance, 100, u64::MAX));
    assert_eq!(example(49), kept(7_000, 150, 4_330_000, 1_299, 95), "(C) with 49 free: both gain as much");
    assert_eq!(example(60), kept(7_100, 150, 4_000_000, 1_200, 96), "(C) with 60 free, from below it to above it");
    assert_eq!(example(200), kept(7_500, 250, 2_665_000, 800, 95), "(C) with 200 free");
    assert_eq!(bounded(MARGIN, &under_once(200)), kept(7_500, 250, 2_666_666, 800, 95), "(C) with 200 free, once");
    let at = margin(one(9_500, 100, 120, 10));
    assert_eq!(at, kept(8_000, 120, 1_000_000, 300, 94), "at the allowance, and not one above it");
    assert_eq!(dear(100), kept(7_500, 100, 2_665_000, 800, 95), "with the largest penalty, at the allowance");
    let last = kept(7_500, u64::from(MOST) - 1, 2_665_000, 800, 95);
    assert_eq!(dear(MOST - 1), last, "and at the largest allowance but one");
    let levers = vec![[1, 8_000, 7_500, 0], [3, 1_000_000, 2_665_000, 800], [4, 8_000, 1_000, 0]];
    assert_eq!(dear(MOST), (62, levers.clone()), "the largest allowance: the far end wins, and there is no lever");
    assert_eq!(example(MOST - 1), (62, levers), "the same where the far end is charged little");
    let limited = |allowance: u32, limit: u32| margin(within(limit, setting(allowance, 100, 10)));
    let gate = kept(5_000, 99, 16_665_000, 5_000, 95);
    assert_eq!(limited(200, 99), gate, "a limit of 99: as far as that, though no term is charged there");
    assert_eq!(limited(MOST, 99), gate, "whatever is free");
    let between = kept(7_500, 160, 2_665_000, 800, 95);
    assert_eq!(limited(120, 160), between, "a limit between the allowance and what the term would bear");
}

// ---- tag 5

/// Fields after the example's policy and bank: why a stored form of them is refused.
fn stored_with(after: &[u8]) -> u8 {
    let form = [&stored(&example().case(1)), after].concat();
    stored_of(&form).map_or_else(|refusal| refusal.number, |_| 0)
}

fn stored(case: &Case) -> Vec<u8> {
    CALLS[WRITE_STORED].owed_on(case).out
}

fn tag_five(allowance: u32) -> Vec<u8> {
    [&[5, 4, 0][..], &allowance.to_le_bytes()].concat()
}

#[test]
fn the_order_in_which_tag_5_is_refused() {
    assert_eq!(stored_with(&[5, 4, 0, 200, 0, 0, 0]), 0, "a body of 200");
    assert_eq!(stored_with(&[5, 4, 0, 0, 0, 0, 1]), 0, "a body whose fourth byte alone isn't 0");
    assert_eq!(stored_with(&tag_five(MOST)), 0, "the largest body");
    assert_eq!(stored_with(&tag_five(0)), 25, "a body of 0: 25");
    assert_eq!(stored_with(&[5, 3, 0, 0, 0, 0]), 22, "another length and a body of 0: 22, before 25");
    assert_eq!(stored_with(&[5, 5, 0, 0]), 22, "another length, and cut: 22, before 20");
    assert_eq!(stored_with(&[5, 4, 0, 0, 0, 0]), 20, "a cut body of zeros: 20, before 25");
    let both = |rounding: u8, after: &[u8]| stored_with(&[&[4, 1, 0, rounding], after].concat());
    assert_eq!(both(2, &tag_five(0)), 23, "tag 4 with another body, then tag 5 with 0: 23, before 25");
    assert_eq!(both(1, &tag_five(0)), 25, "tag 4, then tag 5 with 0: 25");
    assert_eq!(stored_with(&[&tag_five(200)[..], &[4, 1, 0, 1]].concat()), 21, "tag 5 before tag 4: 21");
}

// ---- a policy's bytes, and its one stored form

/// With which number a call refuses the example's policy with these bytes after its numbers.
fn refused(after: &[u8]) -> u64 {
    let case = example().case(1);
    let policy = [&case.policy[..], after].concat();
    CALLS[VALIDATE].owed_on(&Case { policy, ..case }).word()
}

#[test]
fn a_policys_bytes() {
    let sound: [&[u8]; 6] = [&[], &[0], &[1], &[0, 0, 0, 0, 0], &[1, 0, 0, 0, 0], &[1, 255, 255, 255, 255]];
    assert_eq!(sound.map(refused), [0; 6], "30, 31 and 35 bytes; an allowance of 0 over the boundary is none");
    let lengths = [2, 3, 4, 6, 9].map(|more| refused(&vec![2; more]));
    assert_eq!(lengths, [22; 5], "32, 33, 34, 36 and 39 bytes: 22, before 23");
    assert_eq!([refused(&[2, 0, 0, 0, 0]), refused(&[255, 200, 0, 0, 0])], [23; 2], "35 bytes with another rounding");
    let handed = [&example().case(1).policy[..], &[1, 200, 0, 0, 0]].concat();
    assert_eq!(long_policy_bytes(&policy_of(&handed)), handed, "handed back: 35 bytes");
}

#[test]
fn each_policy_has_one_stored_form() {
    let whole = stored(&example().case(1));
    let (rounding, allowance) = ([4, 1, 0, 1], tag_five(200));
    assert_eq!(stored(&allowed(example().case(1), 0)), whole, "no field for an allowance of 0");
    assert_eq!(stored(&allowed(example().case(1), 200)), [&whole[..], &allowance].concat());
    let both = allowed(once(example().case(1)), 200);
    assert_eq!(stored(&both), [&whole[..], &rounding, &allowance].concat());
    assert_eq!(stored(&both).len(), 94 + 36 + 4 + 7);
    let read = CALLS[READ_STORED].owed_on(&both);
    assert_eq!((read.out.len(), &read.out[..35], &read.out[35..]), (43, &both.policy[..], &94_u64.to_le_bytes()[..]));
    assert_eq!(read.list, both.bank);
    let short = CALLS[READ_STORED].owed_on(&Case { room: Room::ShortBy(1), ..both });
    assert_eq!(short.word(), 4);
}

#[test]
fn the_longest_input() {
    let mut setting = example();
    setting.policy.latency_allowance_ms = 200;
    setting.policy.rounding = Rounding::Once;
    setting.models = vec![setting.models[0]; 1_394];
    let (form, request) = (stored(&setting.case(1)), [&[3, 70, 0], &setting.case(1).request[..]].concat());
    let input = [form, request].concat();
    assert_eq!(input.len(), 65_638, "one byte less than a program reads");
    assert_eq!(input_of(&input).err().map(|refusal| refusal.number), Some(19));
}

// ---- the example, with 200 ms free

/// The example with 200 ms free: both models are within them, so the first is ahead no longer by its 50 ms less.
fn free() -> Case {
    allowed(example().case(1), 200)
}

fn printed(call: usize, case: &Case) -> String {
    String::from_utf8(CALLS[call].owed_on(case).out[8..].to_vec()).expect("text")
}

/// 6,200 earns 6,700 and 5,200 earns 6,200: nothing is taken for 50 ms and for 100.
#[test]
fn the_example_is_printed() {
    let lines = "decision 42 2 2 2 1 300 6700 1 6200 2 2 7 3\nrejected 0 0 0 0 0 0 0 0 0\nlever 1 8000 7500 -\n\
                 lever 2 50 250 -\nlever 3 1000000 2665000 800\nlever 4 8000 1000 -\n";
    assert_eq!(printed(UNIT, &free()), lines);
    let lines =
        "decision 42 2 2 2 1 300 6700 1 6200 2 2 7 3\nlever 1 9000 9501 -\nlever 3 1000000 721333 1299\npasses 36\n";
    assert_eq!(printed(ASK, &free()), lines);
    let words = printed(WORDS, &free());
    assert!(
        words.contains("Model 1 is outranked by model 2: its utility of 6200 microunits is below 6700.\n"),
        "{words}"
    );
    assert!(!words.contains("Latency alone"), "the latency is free already: {words}");
    let zero = Case { formed: Formed::Bytes([stored(&example().case(1)), tag_five(0)].concat()), ..example().case(1) };
    assert_eq!(printed(WORDS, &zero), "refused 25\nThe input's latency allowance, under tag 5, is 0.\n");
    assert_eq!([UNIT, ASK].map(|call| printed(call, &zero)), ["refused 25\n"; 2]);
}

/// The calls over live records and a row of requests follow it, and edits keep it.
#[test]
fn live_calls_and_batches_follow_it() {
    let live = [(PRESCRIBE, LIVE_PRESCRIBE), (WIN, LIVE_WIN), (MARGIN, LIVE_MARGIN)];
    for (call, live) in live {
        assert_eq!(CALLS[live].owed_on(&free()), CALLS[call].owed_on(&free()));
        assert_ne!(CALLS[live].owed_on(&free()).out, CALLS[live].owed_on(&example().case(1)).out);
    }
    let one = Case { id: 1, ..free() };
    assert_eq!(CALLS[BATCH].owed_on(&one).out[..65], CALLS[PRESCRIBE].owed_on(&one).out[..65]);
    for call in [ADD, REPLACE, REMOVE, COMPACT] {
        let mut case = free();
        case.bank.extend([0; 47]);
        case.record[0] = if call == ADD { 9 } else { 1 };
        let edited = CALLS[call].owed_on(&case);
        let raised = [&case.policy[..8], &4_u64.to_le_bytes(), &case.policy[16..]].concat();
        assert_eq!((edited.refusal, edited.policy), (None, raised), "{}", CALLS[call].name);
    }
}

/// The margin's latency lever stops where the milliseconds above the allowance are too many, and never where all are free.
#[test]
fn the_latency_lever_moves_the_full_figure() {
    let levers = |allowance: u32| {
        let owed = CALLS[MARGIN].owed_on(&race(allowance, (100, 100), 1, 0).case(1)).out;
        let rooms = owed[79..].chunks(26).filter(|room| room[0] == 2);
        rooms.map(|room| u64::from_le_bytes(room[9..17].try_into().expect("8 bytes"))).collect::<Vec<_>>()
    };
    assert_eq!(levers(0), [101], "the first is ahead by a microunit, a millisecond");
    assert_eq!(levers(100), [101]);
    assert_eq!(levers(150), [151], "from 100 ms on, 50 are free");
    assert_eq!(levers(MOST), [0; 0], "no latency loses the choice");
}

// ---- where an answer departs from the Rust's

/// The call's answer without an allowance and with one.
fn both(call: usize, case: &Case, allowance: u32) -> [Answer; 2] {
    [case.clone(), allowed(case.clone(), allowance)].map(|case| CALLS[call].owed_on(&case))
}

/// The smallest allowance: each of the two models is charged for a millisecond less.
#[test]
fn one_millisecond_that_is_free() {
    assert_eq!([0, 1].map(|allowance| decided(&under(allowance))), [second(6_200, 5_200), second(6_210, 5_210)]);
}

/// A record that is worth nothing where its milliseconds are charged, and the first eligible one.
#[test]
fn a_list_that_is_read_was_explained_by_the_same_rule() {
    let mut alone = setting(0, 100, 1);
    alone.models.truncate(1);
    alone.request.business_value_microunits = 2_252;
    let next = both(NEXT, &alone.case(1), 100).map(|answer| answer.out);
    assert_eq!(next, [u64::MAX.to_le_bytes(), 0_u64.to_le_bytes()].map(|place| place.to_vec()));
}

/// Whether an explanation shows a latency term that an allowance lowers.
fn shows_another_term(case: &Case) -> bool {
    let (policy, request, models) = (policy_of(&case.policy), request_of(&case.request), models_of(&case.bank));
    let priced = |model: &&_| first_failed(model, &request).is_none();
    let lowered = policy.latency_penalty_microunits_per_ms > 0;
    let question = Question::over(policy, request, models.clone());
    lowered && !is_stopped(&question) && models.iter().filter(priced).any(|model| model.p95_latency_ms > 0)
}

#[test]
fn answers_depart_where_a_term_does_and_only_there() {
    let (mut departed, mut stayed) = (0, 0);
    let mut check = |case: &Case| {
        let [none, owed] = both(EXPLAIN, case, 200);
        if none.refusal.is_some() {
            assert_eq!(owed, none);
            return;
        }
        let departs = owed.list != none.list;
        assert!(!departs || shows_another_term(case), "{case}");
        assert_eq!(owed.by, if owed == none { By::Rust } else { By::Second }, "{case}");
        for call in [PRESCRIBE, UTILITY] {
            let [none, owed] = both(call, case, 200);
            assert!(owed == none || departs && owed.by == By::Second, "{case}");
        }
        *(if departs { &mut departed } else { &mut stayed }) += 1;
    };
    let decisions = SPACES.iter().find(|space| space.name == "decisions").expect("a set of this name");
    (decisions.each)(&mut |case| check(&case));
    let random = DRAWS.iter().find(|draws| draws.name == "random decisions").expect("a set of this name");
    (0..20_000).for_each(|number| check(&(random.case)(Draw::of(Policies::Apart, 5, number))));
    assert!(departed > 1_000 && stayed > 1_000, "{departed} departed, {stayed} stayed");
}

/// 35 bytes whose last four are 0 say what 30 or 31 do.
#[test]
fn a_policy_that_says_no_allowance_is_the_rusts() {
    let random = DRAWS.iter().find(|draws| draws.name == "random searches").expect("a set of this name");
    for number in 0..5_000 {
        let case = (random.case)(Draw::of(Policies::Apart, 6, number));
        if case.policy.len() == POLICY_BYTES {
            let long = allowed(case.clone(), 0);
            for call in [PRESCRIBE, EXPLAIN, UTILITY, WIN, MARGIN, UNIT] {
                assert_eq!(CALLS[call].owed_on(&long), CALLS[call].owed_on(&case), "{case}");
            }
        }
    }
}

/// An allowance that the policy doesn't name is a difference.
#[test]
fn an_allowance_that_is_not_named_is_a_difference() {
    let call = &CALLS[PRESCRIBE];
    let apart = call.held(&call.ask(&free())).expect_err("the Rust charges every millisecond");
    let utility = |answer: &Answer| i64::from_le_bytes(answer.out[25..33].try_into().expect("8 bytes"));
    assert_eq!((utility(&apart.rust), utility(&apart.second)), (6_200, 6_700));
}
