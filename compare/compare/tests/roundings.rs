//! The worked rows on rounding once: those of `cost_rows` in `crates/rules/proofs/OnceRows.antt` and all of `crates/rows/proofs/RoundingRows.antt`, by
//! their names and in their order. The second reading comes to the same answers by itself.
use compare::calls::{
    Answer, ASK, CALLS, EXPLAIN, MARGIN, PRESCRIBE, READ_STORED, UNIT, UTILITY, VALIDATE, WIN, WORDS, WRITE_STORED,
};
use compare::case::{Case, Formed, Room};
use compare::generate::example::example;
use compare::generate::roundings::once;
use compare::generate::Setting;
use compare::second::bytes::{long_policy_bytes, policy_of, Policy};
use compare::second::price::{billed, cost};
use compare::second::rules::Rounding::{self, Apart, Once};
use oracle::kernel::KernelModel;

const BOTH: [Rounding; 2] = [Apart, Once];
const HELD: u64 = u64::MAX;

/// The example's first model alone with two prices, and a request for so many tokens each way.
fn at(prices: (u64, u64), tokens: (u32, u32)) -> Setting {
    let mut setting = example();
    setting.models.truncate(1);
    setting.models[0].input_cost_microunits_per_million_tokens = prices.0;
    setting.models[0].output_cost_microunits_per_million_tokens = prices.1;
    (setting.request.input_tokens, setting.request.output_tokens) = tokens;
    setting
}

// ---- the cost

/// What tokens at a price, each way, cost apart and once.
fn both_costs(input: u32, input_price: u64, output: u32, output_price: u64) -> [u64; 2] {
    let setting = at((input_price, output_price), (input, output));
    BOTH.map(|rounding| cost(rounding, &setting.models[0], &setting.request))
}

#[test]
fn the_cost_at_its_edges() {
    assert_eq!(both_costs(1, 1, 1, 1), [2, 1], "one token each way, at price 1");
    assert_eq!(both_costs(1, 599_999, 1, 400_000), [2, 1], "a sum of 999,999");
    assert_eq!(both_costs(1, 600_000, 1, 400_000), [2, 1], "a sum of 1,000,000");
    assert_eq!(both_costs(1, 600_000, 1, 400_001), [2, 2], "a sum of 1,000,001");
    assert_eq!(both_costs(1, 1_000_000, 1, 1_000_000), [2, 2], "two whole millions");
    assert_eq!(both_costs(1, 1_000_001, 0, 1), [2, 2], "one direction alone");
    assert_eq!(both_costs(u32::MAX, 0, u32::MAX, 0), [0, 0], "prices 0");
    assert_eq!(both_costs(0, u64::MAX, 0, u64::MAX), [0, 0], "no tokens");
}

#[test]
fn the_cost_where_it_is_held() {
    assert_eq!(both_costs(1_000_000, HELD - 1, 0, 0), [HELD - 1; 2], "a rounded sum of 2^64 - 2");
    assert_eq!(both_costs(1_000_000, HELD - 1, 2, 1), [HELD; 2], "2^64 - 1 both ways");
    let one_more = both_costs(999_999, HELD - 1, 1, HELD - 1);
    assert_eq!(one_more, [HELD, HELD - 1], "a rounded sum of 2^64 - 2, and one more apart");
    let held = u128::from(HELD);
    let products = BOTH.map(|rounding| billed(rounding, 999_999 * held, held));
    assert_eq!(products, [1 << 64, held], "2^64 - 1 once, and 2^64 apart");
    assert_eq!(both_costs(999_999, HELD, 1, HELD), [HELD; 2], "which is held");
    assert_eq!(billed(Once, 1_000_000 * held, 1), 1 << 64, "2^64 once");
    assert_eq!(both_costs(1_000_000, HELD, 1, 1), [HELD; 2], "2^64 is held");
    assert_eq!(both_costs(u32::MAX, u64::MAX, u32::MAX, u64::MAX), [HELD; 2], "the highest of all");
}

// ---- what follows the cost

/// A call on a setting whose policy rounds apart, and whose policy rounds once, about this model.
fn both_about(id: u32, call: usize, setting: &Setting) -> [Answer; 2] {
    let case = setting.case(id);
    [case.clone(), once(case)].map(|case| CALLS[call].owed_on(&case))
}

/// The same about model 1.
fn both(call: usize, setting: &Setting) -> [Answer; 2] {
    both_about(1, call, setting)
}

/// What is decided apart, and what once.
fn decided(setting: &Setting) -> [Vec<u8>; 2] {
    both(PRESCRIBE, setting).map(|answer| answer.out)
}

/// Numbers of these widths, lowest byte first.
fn packed(numbers: &[u64], widths: &[usize]) -> Vec<u8> {
    numbers.iter().zip(widths).flat_map(|(n, w)| n.to_le_bytes()[..*w].to_vec()).collect()
}

/// A decision with its numbers in the order in which it is printed.
fn decision(numbers: [u64; 13]) -> Vec<u8> {
    packed(&numbers, &[8, 1, 2, 4, 2, 8, 8, 4, 8, 2, 2, 8, 8])
}

/// A decision and its nine counts.
fn counted(numbers: [u64; 13], counts: [u64; 9]) -> Vec<u8> {
    [decision(numbers), packed(&counts, &[2; 9])].concat()
}

const CHOICE: [u64; 13] = [42, 2, 2, 2, 1, 300, 6_200, 1, 5_200, 2, 2, 7, 3];
const NO_COUNTS: [u64; 9] = [0; 9];

/// The first model alone, where it costs 1.
fn first(utility: u64) -> Vec<u8> {
    counted([42, 1, 1, 1, 0, 1, utility, 0, 0, 1, 1, 7, 3], NO_COUNTS)
}

/// One model that is rejected for this reason.
fn rejected(reason: u64) -> [u64; 13] {
    [42, 3, reason, 0, 65_535, 0, 0, 0, 0, 1, 0, 7, 3]
}

/// Two models that cost 2 apart, of which the second costs 1 once.
fn two() -> Setting {
    let mut setting = at((1_000_000, 1_000_000), (1, 1));
    setting.models.push(KernelModel { model_id: 2, ..at((1, 1), (1, 1)).models[0] });
    setting
}

/// The first of them chosen, and the second.
const FIRST_OF_TWO: [u64; 13] = [42, 1, 1, 1, 0, 2, 6_998, 2, 6_998, 2, 2, 7, 3];
const SECOND_OF_TWO: [u64; 13] = [42, 2, 2, 2, 1, 1, 6_999, 1, 6_998, 2, 2, 7, 3];

#[test]
fn decisions() {
    let one_each = at((1, 1), (1, 1));
    assert_eq!(decided(&one_each)[1], first(6_999), "(G) once: cost 1");

    let mut budget = one_each.clone();
    budget.request.budget_limit_microunits = 1;
    let [apart, owed] = decided(&budget);
    let over = counted(rejected(108), [0, 0, 0, 0, 0, 0, 0, 1, 0]);
    assert_eq!(apart, over, "(G) with a budget of 1: over it apart");
    assert_eq!(owed, first(6_999), "and within it once");
    let mut said = budget.case(1);
    said.policy.push(0);
    assert_eq!(CALLS[PRESCRIBE].owed_on(&said).out, over, "a 31st byte of 0: apart");

    let utilities = both(UTILITY, &one_each).map(|answer| answer.out);
    assert_eq!(utilities, [6_998_u64, 6_999].map(|utility| utility.to_le_bytes().to_vec()), "the utility of one model");
    let [apart, owed] = both(UTILITY, &budget);
    let found = 6_999_u64.to_le_bytes().to_vec();
    assert_eq!((apart.word(), owed.out), (7, found), "the utility of one model, by a budget of 1");
    let costs = both(EXPLAIN, &one_each).map(|answer| answer.list[40..48].to_vec());
    assert_eq!(costs, [2_u64, 1].map(|cost| cost.to_le_bytes().to_vec()), "the cost that is explained");
    budget.request.budget_limit_microunits = 0;
    let costs = both(EXPLAIN, &budget).map(|answer| answer.list[8..24].to_vec());
    assert_eq!(costs, [2_u128, 1].map(|cost| cost.to_le_bytes().to_vec()), "the cost that is over a budget of 0");

    let mut worth = one_each.clone();
    worth.request.business_value_microunits = 1_253;
    let [apart, owed] = decided(&worth);
    assert_eq!(apart, counted(rejected(109), [0, 0, 0, 0, 0, 0, 0, 0, 1]), "a utility of 0 apart");
    assert_eq!(owed, first(1), "and of 1 once");

    let [apart, owed] = decided(&two());
    assert_eq!(apart, counted(FIRST_OF_TWO, NO_COUNTS), "the first of two apart");
    assert_eq!(owed, counted(SECOND_OF_TWO, NO_COUNTS), "and the second once");
    let whole = counted(CHOICE, NO_COUNTS);
    assert_eq!(decided(&example())[1], whole, "(A) once: every product is whole, and nothing changes");
}

/// The answer of a search with these levers.
fn bounded(opening: [u64; 13], model: u64, passes: u64, levers: &[[u64; 5]]) -> Vec<u8> {
    let mut out = decision(opening);
    out.extend(packed(&[model, 0, levers.len() as u64, passes], &[4, 1, 1, 8]));
    levers.iter().for_each(|lever| out.extend(packed(lever, &[1, 8, 8, 1, 8])));
    out.resize(183, 0);
    out
}

/// One model that only once is within its budget.
fn budgets() {
    let mut budget = at((1, 1), (1, 1));
    budget.request.budget_limit_microunits = 1;
    let chosen = [42, 1, 1, 1, 0, 1, 6_999, 0, 0, 1, 1, 7, 3];
    let [apart, owed] = both(MARGIN, &budget);
    assert_eq!(apart.word(), 6, "(G) with a budget of 1, apart: nothing is chosen, 6");
    let levers = [[1, 9_000, 5_000, 0, 0], [2, 100, 799, 0, 0], [4, 8_000, 1_000, 0, 0]];
    assert_eq!(owed.out, bounded(chosen, 1, 64, &levers), "(G) with a budget of 1, once: its margin");
    let [apart, owed] = both(WIN, &budget);
    let price = [3, 1_000_000, 999_999, 1, 0];
    assert_eq!(
        apart.out,
        bounded(rejected(108), 1, 26, &[price]),
        "(G) with a budget of 1, apart: its price must fall"
    );
    assert_eq!(owed.out, bounded(chosen, 1, 1, &[]), "(G) with a budget of 1, once: chosen already");
}

/// Two models, of which the first is chosen apart, and the second once.
fn pairs() {
    let [apart, owed] = both_about(2, WIN, &two());
    let levers = [[1, 9_000, 9_001, 0, 0], [2, 100, 99, 0, 0], [3, 1_000_000, 999_999, 1, 0]];
    let expected = bounded(FIRST_OF_TWO, 2, 43, &levers);
    assert_eq!(apart.out, expected, "two that cost 2, apart: what would make the second win");
    assert_eq!(owed.out, bounded(SECOND_OF_TWO, 2, 1, &[]), "two, once: the second is chosen already");

    let [apart, owed] = both(WIN, &two());
    assert_eq!(apart.out, bounded(FIRST_OF_TWO, 1, 1, &[]), "two, apart: the first is chosen already");
    let levers = [[1, 9_000, 9_002, 0, 0], [2, 100, 99, 0, 0], [3, 1_000_000, 500_000, 1, 1]];
    assert_eq!(owed.out, bounded(SECOND_OF_TWO, 1, 42, &levers), "two, once: what would make the first win");

    let [apart, owed] = both(MARGIN, &two());
    let levers =
        [[1, 9_000, 9_000, 0, 0], [2, 100, 100, 0, 0], [3, 1_000_000, 1_000_000, 1, 2], [4, 8_000, 1_000, 0, 0]];
    assert_eq!(apart.out, bounded(FIRST_OF_TWO, 1, 94, &levers), "two, apart: the first one's margin");
    let levers = [[1, 9_000, 8_999, 0, 0], [2, 100, 100, 0, 0], [4, 8_000, 1_000, 0, 0]];
    assert_eq!(owed.out, bounded(SECOND_OF_TWO, 2, 63, &levers), "two, once: the second one's margin");

    let mut off = two();
    off.models[0].enabled = 0;
    let [apart, owed] = both(WIN, &off);
    let left = [42, 2, 2, 2, 1, 2, 6_998, 0, 0, 2, 1, 7, 3];
    let on = bounded(left, 1, 2, &[[5, 0, 1, 0, 0]]);
    assert_eq!(apart.out, on, "two, the first switched off, apart: switched on, it would win");
    let left = [42, 2, 2, 2, 1, 1, 6_999, 0, 0, 2, 1, 7, 3];
    assert_eq!(owed.out, bounded(left, 1, 2, &[]), "two, the first switched off, once: it would not");

    let mut low = two();
    low.models[1].risk_ceiling_bps = 900;
    let [apart, owed] = both_about(2, WIN, &low);
    let left = [42, 1, 1, 1, 0, 2, 6_998, 0, 0, 2, 1, 7, 3];
    let nothing = bounded(left, 2, 5, &[]);
    assert_eq!(apart.out, nothing, "two, the second with a ceiling below the risk, apart: no ceiling makes it win");
    assert_eq!(
        owed.out,
        bounded(left, 2, 19, &[[4, 900, 1_000, 0, 0]]),
        "two, the second with a ceiling below the risk, once: 1,000 does"
    );
}

#[test]
fn boundaries() {
    let owed = both(WIN, &example())[1].out.clone();
    let price = [3, 1_000_000, 443_888, 1, 799];
    assert_eq!(owed, bounded(CHOICE, 1, 26, &[price]), "(B) once: 1,800 times the scale by 10^6, at most 799");
    let owed = both(MARGIN, &example())[1].out.clone();
    let levers =
        [[1, 8_000, 7_000, 0, 0], [2, 50, 150, 0, 0], [3, 1_000_000, 4_333_333, 1, 1_300], [4, 8_000, 1_000, 0, 0]];
    assert_eq!(owed, bounded(CHOICE, 2, 95, &levers), "(C) once: 300 times the scale by 10^6, at most 1,300");

    budgets();
    pairs();

    // At 999,999 millionths both prices of 1 are rounded down to 0, before anything is added.
    let mut scaled = at((1, 1), (1_000_000, 1_000_000));
    scaled.request.budget_limit_microunits = 1;
    let owed = both(WIN, &scaled)[1].out.clone();
    let price = [3, 1_000_000, 999_999, 1, 0];
    assert_eq!(owed, bounded(rejected(108), 1, 26, &[price]), "each scaled price is rounded down by itself");
}

// ---- a policy's bytes

/// The example's policy with these bytes after its numbers.
fn policy(after: &[u8]) -> Vec<u8> {
    [&example().case(1).policy[..], after].concat()
}

/// The policy that a call reads, or with which number it refuses.
fn read_policy(bytes: &[u8]) -> Result<Policy, u64> {
    let case = Case { policy: bytes.to_vec(), ..example().case(1) };
    match CALLS[VALIDATE].owed_on(&case).word() {
        0 => Ok(policy_of(bytes)),
        number => Err(number),
    }
}

#[test]
fn a_policys_bytes() {
    let apart = example().policy;
    assert_eq!(read_policy(&policy(&[])), Ok(apart), "30 bytes");
    assert_eq!(read_policy(&[0; 29]), Err(22), "29 bytes: 22");
    assert_eq!(read_policy(&[]), Err(22), "no byte: 22");
    assert_eq!(read_policy(&policy(&[2, 0])), Err(22), "32 bytes: 22, before 23");
    assert_eq!(read_policy(&policy(&[0])), Ok(apart), "a 31st byte of 0 is that of 30");
    assert_eq!(read_policy(&policy(&[1])), Ok(Policy { rounding: Once, ..apart }), "and of 1");
    assert_eq!(read_policy(&policy(&[2])), Err(23), "and of 2: 23");
    assert_eq!(read_policy(&policy(&[255])), Err(23), "and of 255: 23");
    let roundings = [&[][..], &[0], &[1]].map(|after| policy_of(&policy(after)).rounding);
    assert_eq!(roundings, [Apart, Apart, Once], "how they round");
    let handed = long_policy_bytes(&policy_of(&policy(&[1])));
    assert_eq!(handed, policy(&[1, 0, 0, 0, 0]), "handed back: 35 bytes, the last four 0");
}

// ---- stored forms

const ROUNDING: [u8; 4] = [4, 1, 0, 1];

/// The example's stored form with a policy that rounds apart, and its request form.
fn fields() -> (Vec<u8>, Vec<u8>) {
    let case = example().case(1);
    let field = |tag: u8, body: &[u8]| [&[tag, body.len() as u8, 0], body].concat();
    ([field(1, &case.policy), field(2, &case.bank)].concat(), field(3, &case.request))
}

/// The stored form and these bytes after it.
fn form(after: &[u8]) -> Vec<u8> {
    [&fields().0, after].concat()
}

/// So many bytes of 255 with these written to the start.
fn lent(bytes: usize, written: &[u8]) -> Vec<u8> {
    [written, &vec![255; bytes - written.len()]].concat()
}

/// The word handed back for a policy of these bytes that is written with the example's bank, and the buffer.
fn written(policy: Vec<u8>, room: Room) -> (u64, Vec<u8>) {
    let case = Case { policy, room, ..example().case(1) };
    let owed = CALLS[WRITE_STORED].owed_on(&case);
    (owed.word(), lent(CALLS[WRITE_STORED].ask(&case).room, &owed.out))
}

#[test]
fn forms_that_are_written() {
    let longer = written(policy(&[1]), Room::LongerBy(1));
    assert_eq!(longer, (0, lent(135, &form(&ROUNDING))), "once, written: four bytes more");
    let exact = written(policy(&[1]), Room::Exact);
    assert_eq!(exact, (0, lent(134, &form(&ROUNDING))), "once, into just the room that it needs");
    let short = written(policy(&[1]), Room::ShortBy(1));
    assert_eq!(short, (4, lent(133, &[])), "one byte is missing for them: 4");
    let said = written(policy(&[0]), Room::Exact);
    assert_eq!(said, (0, lent(130, &form(&[]))), "apart, said by a 31st byte: no tag 4");
}

/// The bytes of the example's models, and of the field before theirs.
const MODELS: usize = 94;
const POLICY_FIELD: usize = 33;

/// What is owed for a form of these bytes.
fn read(call: usize, form: &[u8], list_room: Room) -> Answer {
    CALLS[call].owed_on(&Case { formed: Formed::Bytes(form.to_vec()), list_room, ..example().case(1) })
}

/// A form read into so many bytes for its models: the word handed back, the policy with their size, and those bytes.
fn stored(form: &[u8], bytes: usize) -> (u64, Vec<u8>, Vec<u8>) {
    let room = if bytes < MODELS { Room::ShortBy(MODELS - bytes) } else { Room::LongerBy(bytes - MODELS) };
    let owed = read(READ_STORED, form, room);
    (owed.word(), owed.out.clone(), lent(bytes, &owed.list))
}

/// A refusal that leaves so many bytes.
fn unread(number: u64, bytes: usize) -> (u64, Vec<u8>, Vec<u8>) {
    (number, Vec::new(), lent(bytes, &[]))
}

#[test]
fn forms_that_are_read() {
    let models = example().case(1).bank;
    let owed = (0, [policy(&[1, 0, 0, 0, 0]), (MODELS as u64).to_le_bytes().to_vec()].concat(), lent(95, &models));
    assert_eq!(stored(&form(&ROUNDING), 95), owed, "once, read");
    let missing = stored(&form(&ROUNDING), 93);
    assert_eq!(missing, unread(4, 93), "once, one byte is missing for the models: 4");
    assert_eq!(stored(&form(&[4, 1]), 0), unread(20, 0), "20 before 4");
    assert_eq!(stored(&form(&[4, 1, 0, 0]), 0), unread(23, 0), "23 before 4");

    let (marked, unread) = (|after: &[u8]| stored(&form(after), 100), |number: u64| unread(number, 100));
    assert_eq!(marked(&[4]), unread(20), "a byte 4 alone begins a field: 20");
    assert_eq!(marked(&[3]), unread(21), "any other byte is one after the end: 21");
    assert_eq!(marked(&[4, 1, 0]), unread(20), "a header without its body: 20");
    assert_eq!(marked(&[4, 2, 0, 1]), unread(22), "another length: 22, before 20");
    assert_eq!(marked(&[4, 0, 0]), unread(22), "no body: 22");
    assert_eq!(marked(&[4, 2, 0, 0, 0]), unread(22), "another length and another body: 22, before 23");
    assert_eq!(marked(&[&[4, 1, 1][..], &[1; 257]].concat()), unread(22), "a length of 257: 22");
    assert_eq!(marked(&[4, 1, 0, 0]), unread(23), "a body of 0: 23");
    assert_eq!(marked(&[4, 1, 0, 2]), unread(23), "a body of 2: 23");
    assert_eq!(marked(&[4, 1, 0, 0, 0]), unread(23), "a body of 0, then a byte: 23, before 21");
    assert_eq!(marked(&[ROUNDING, ROUNDING].concat()), unread(21), "tag 4 twice: 21");
    assert_eq!(marked(&[&ROUNDING[..], &[4]].concat()), unread(21), "and a byte 4 after a whole one: 21");
    let whole = form(&[]);
    let (numbers, bank) = whole.split_at(POLICY_FIELD);
    let early = stored(&[numbers, &ROUNDING, bank].concat(), 100);
    assert_eq!(early, unread(21), "tag 4 before the catalogue: 21");
    let long = stored(&[&[1, 31, 0][..], &policy(&[1]), bank].concat(), 100);
    assert_eq!(long, unread(22), "a policy of 31 bytes in tag 1: 22");
}

// ---- the programs

/// What a call prints for an input.
fn printed(call: usize, input: &[&[u8]]) -> String {
    String::from_utf8(read(call, &input.concat(), Room::Exact).out[8..].to_vec()).expect("text")
}

#[test]
fn what_is_printed() {
    let (form, request) = fields();
    let input = [&form[..], &ROUNDING, &request];
    let decision = "decision 42 2 2 2 1 300 6200 1 5200 2 2 7 3\n";
    let lines = "rejected 0 0 0 0 0 0 0 0 0\nlever 1 8000 7000 -\nlever 2 50 150 -\nlever 3 1000000 4333333 1300\n\
                 lever 4 8000 1000 -\n";
    assert_eq!(printed(UNIT, &input), [decision, lines].concat(), "the example once");
    let lines = [decision, "lever 3 1000000 443888 799\npasses 26\n"].concat();
    assert_eq!(printed(ASK, &input), lines, "asked at the desk, once");
    let words = "Chosen: model 2, at a cost of 300 microunits, with a utility of 6200 microunits.\n\
                 Model 1 is outranked by model 2: its utility of 5200 microunits is below 6200.\n\
                 Price alone: it must fall by 55.7 percent or more; exactly, by 55.6112 percent, to 44.3888 percent of today's, \
                 where the request costs 799 microunits.\n";
    assert_eq!(printed(WORDS, &input), words, "in words, once");
}

/// The rows have these of the unit's program; here all three are asked. Of the other two the rows have the first: "asked at the desk: 23", and "in
/// words: 23".
#[test]
fn inputs_that_are_refused() {
    let (form, request) = fields();
    let (form, request) = (&form[..], &request[..]);
    let (numbers, bank) = form.split_at(POLICY_FIELD);
    for call in [UNIT, ASK, WORDS] {
        let refused = |number: u8, input: &[&[u8]], row: &str| {
            let text = printed(call, input);
            assert_eq!(text.lines().next(), Some(&format!("refused {number}")[..]), "{row}, {}", CALLS[call].name);
            // the desk is told in words too
            assert_eq!(text.lines().count(), if call == WORDS { 2 } else { 1 }, "{row}, {}", CALLS[call].name);
        };
        refused(23, &[form, &[4, 1, 0, 0], request], "a body of 0: 23");
        refused(22, &[form, &[4, 0, 0], request], "no body: 22");
        refused(23, &[form, &[4, 1, 0, 0]], "a body of 0, then nothing: 23");
        refused(22, &[form, &[4, 2, 0]], "a length of 2, then nothing: 22");
        refused(23, &[form, &[4, 1, 0, 0, 3]], "a body of 0, then a cut request: 23");
        refused(20, &[form, &[6, 0]], "two bytes of another tag: 20");
        refused(21, &[form, &[6, 0, 0]], "three: 21");
        refused(20, &[form, &ROUNDING, &[4]], "a byte 4 after a whole tag 4: 20");
        refused(21, &[numbers, &ROUNDING, bank, request], "tag 4 before the catalogue: 21");
        refused(20, &[form, &[4]], "a byte 4 at the end: 20, as any byte where the request is due");
        refused(20, &[form, &[9]], "any byte where the request is due: 20");
        refused(20, &[form, &[4, 1, 0]], "a header of tag 4 at the end: 20");
        refused(21, &[form, &ROUNDING], "no request after it: 21");
        refused(21, &[form, &ROUNDING, &ROUNDING, request], "twice: 21");
        refused(21, &[form, request, &ROUNDING], "after the request: 21");
        refused(23, &[numbers, &[2, 0, 0], &[4, 1, 0, 2], request], "23 before validation");
        refused(11, &[numbers, &[2, 0, 0], &ROUNDING, request], "once, and no models: 11");
    }
}
