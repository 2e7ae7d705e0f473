//! Enum values: the number that the library answers where a name holds.
use crate::common::{example_bank, failing, many, FIRST, POLICY, REQUEST, SECOND, SOUND, STRICT, UNIT_INPUT};
use crate::Row;
use volankizo::{ffi, Bank, KernelInput, KernelModel, PolicySnapshot};

/// The action and the reason that are answered.
fn decided(request: KernelInput, bank: &[u8]) -> (u64, u64) {
    let mut out = [0; 83];
    assert_eq!(ffi::prescribe(&POLICY.to_bytes(), &request.to_bytes(), bank, &mut out), 0);
    (out[8].into(), u16::from_le_bytes([out[9], out[10]]).into())
}

/// The verdict on a single model, and its gate.
fn judged(model: KernelModel) -> (u64, u64) {
    let mut list = [0; 72];
    let (policy, request) = (POLICY.to_bytes(), STRICT.to_bytes());
    assert_eq!(ffi::explain(&policy, &request, &model.to_bytes(), &mut list, &mut [0; 65]), 0);
    (list[6].into(), list[7].into())
}

fn decision_rows() -> Vec<Row> {
    let stopped = KernelInput { risk_bps: 9_000, ..REQUEST };
    let unsure = KernelInput { confidence_bps: 1_999, ..REQUEST };
    let asked = KernelInput { requested_model_id: 2, ..REQUEST };
    let bank = example_bank();
    let by = |model: KernelModel| decided(STRICT, &model.to_bytes()).1;
    let [off, poor, risky, slow, unable, barred, elsewhere, dear, useless, unknown] = failing();
    assert_eq!(by(barred), by(unknown));
    vec![
        ("ACTION_EXECUTE_REQUESTED", decided(asked, &bank).0),
        ("ACTION_SUBSTITUTE", decided(REQUEST, &bank).0),
        ("ACTION_REJECT", decided(stopped, &bank).0),
        ("REASON_REQUESTED_MODEL_MAXIMIZES_UTILITY", decided(asked, &bank).1),
        ("REASON_ALTERNATIVE_MAXIMIZES_UTILITY", decided(REQUEST, &bank).1),
        ("REASON_RISK_HARD_LIMIT", decided(stopped, &bank).1),
        ("REASON_CONFIDENCE_HARD_LIMIT", decided(unsure, &bank).1),
        ("REASON_NO_ENABLED_MODEL", by(off)),
        ("REASON_QUALITY_CONSTRAINT", by(poor)),
        ("REASON_LATENCY_CONSTRAINT", by(slow)),
        ("REASON_CAPABILITY_CONSTRAINT", by(unable)),
        ("REASON_PROVIDER_CONSTRAINT", by(barred)),
        ("REASON_REGION_CONSTRAINT", by(elsewhere)),
        ("REASON_BUDGET_CONSTRAINT", by(dear)),
        ("REASON_NON_POSITIVE_UTILITY", by(useless)),
        ("REASON_RISK_CEILING_CONSTRAINT", by(risky)),
        ("VERDICT_REJECTED", judged(off).0),
        ("VERDICT_OVER_BUDGET", judged(dear).0),
        ("VERDICT_NON_POSITIVE_UTILITY", judged(useless).0),
        ("VERDICT_ELIGIBLE", judged(SOUND).0),
        ("GATE_NONE", judged(SOUND).1),
        ("GATE_DISABLED", judged(off).1),
        ("GATE_QUALITY", judged(poor).1),
        ("GATE_LATENCY", judged(slow).1),
        ("GATE_CAPABILITY", judged(unable).1),
        ("GATE_PROVIDER_UNREPRESENTABLE", judged(unknown).1),
        ("GATE_PROVIDER_NOT_ALLOWED", judged(barred).1),
        ("GATE_REGION", judged(elsewhere).1),
        ("GATE_RISK_CEILING", judged(risky).1),
    ]
}

/// The levers of an answer's four rooms whose current value is this one.
fn lever_at(current: u64, out: &[u8]) -> u64 {
    let rooms: Vec<_> = out[79..].chunks(26).filter(|room| room[1..9] == current.to_le_bytes()).collect();
    assert_eq!(rooms.len(), 1, "a current value that one room has");
    rooms[0][0].into()
}

fn lever_rows() -> Vec<Row> {
    let (policy, request) = (POLICY.to_bytes(), REQUEST.to_bytes());
    let bank = Bank::from_models(&[FIRST, KernelModel { risk_ceiling_bps: 7_999, ..SECOND }]);
    let mut margin = [0; 183];
    assert_eq!(ffi::decision_margin(&policy, &request, &bank, &mut margin), 0);
    let off = Bank::from_models(&[KernelModel { enabled: 0, ..SECOND }, KernelModel { quality_bps: 5_000, ..FIRST }]);
    let mut won = [0; 183];
    assert_eq!(ffi::what_would_win(&policy, &request, &off, 2, &mut won), 0);
    assert_eq!(won[70], 1, "a model that is off has one lever");
    vec![
        ("LEVER_NONE", won[79 + 26].into()),
        ("LEVER_QUALITY_BPS", lever_at(8_000, &margin)),
        ("LEVER_P95_LATENCY_MS", lever_at(50, &margin)),
        ("LEVER_PRICE_SCALE_PPM", lever_at(1_000_000, &margin)),
        ("LEVER_RISK_CEILING_BPS", lever_at(7_999, &margin)),
        ("LEVER_ENABLED", won[79].into()),
    ]
}

fn two(first: KernelModel, second: KernelModel) -> Vec<u8> {
    Bank::from_models(&[first, second]).to_vec()
}

/// What validation tells of a bank.
fn validated(bank: &[u8]) -> u64 {
    ffi::validate(&POLICY.to_bytes(), bank)
}

/// What an edit tells that adds a model to a bank of one slot.
fn added(policy: PolicySnapshot, slot: &[u8], model: KernelModel) -> u64 {
    ffi::live::add(&mut policy.to_bytes(), &mut slot.to_vec(), &model.to_bytes(), &mut [0; 2])
}

/// The number of the line that a program prints for an input that it refuses.
fn refused_line(models: u32) -> u64 {
    let bank = many(models);
    let mut form = vec![0; 36 + bank.len()];
    assert_eq!(ffi::write_stored(&POLICY.to_bytes(), &bank, &mut form), 0);
    form.extend_from_slice(&UNIT_INPUT[UNIT_INPUT.len() - 73..]);
    let mut out = [0; 100];
    assert_eq!(ffi::unit_text(&form, &mut out), 0);
    let text = String::from_utf8(out[8..].to_vec()).unwrap();
    text.strip_prefix("refused ").and_then(|rest| rest.lines().next()).unwrap().parse().unwrap()
}

fn refusal_rows() -> Vec<Row> {
    let (policy, request, bank) = (POLICY.to_bytes(), REQUEST.to_bytes(), example_bank());
    let stopped = KernelInput { risk_bps: 9_000, ..REQUEST }.to_bytes();
    let out = &mut [0u8; 183];
    let high = KernelInput { confidence_bps: 10_001, ..REQUEST };
    let loose = PolicySnapshot { hard_risk_limit_bps: 10_001, ..POLICY };
    let spent = PolicySnapshot { catalog_epoch: u64::MAX, ..POLICY };
    let words = [
        ("ANSWERED", ffi::prescribe(&policy, &request, &bank, out)),
        ("REFUSAL_UNEVEN_BANK", ffi::find(&bank[1..], 1, out)),
        ("REFUSAL_CATALOG_TOO_LARGE", ffi::find(&vec![0; 65_536 * 47], 1, out)),
        ("REFUSAL_INPUT_OUT_OF_RANGE", ffi::check_request(&high.to_bytes())),
        ("REFUSAL_NO_ROOM", ffi::find(&bank, 1, &mut [0])),
        ("REFUSAL_UNKNOWN_MODEL", ffi::what_would_win(&policy, &request, &bank, 3, out)),
        ("REFUSAL_NOTHING_SELECTED", ffi::decision_margin(&policy, &stopped, &bank, out)),
        ("REFUSAL_NOT_ELIGIBLE", ffi::utility_for_model(&policy, &stopped, &bank, 1, out)),
        ("REFUSAL_BEYOND_BANK", ffi::record_at(&bank, 2, out)),
        ("REFUSAL_POLICY_OUT_OF_RANGE", ffi::validate(&loose.to_bytes(), &bank)),
        ("REFUSAL_EMPTY_CATALOG", validated(&[])),
        ("REFUSAL_DUPLICATE_MODEL_ID", validated(&two(FIRST, FIRST))),
        ("REFUSAL_INVALID_PROVIDER_ID", validated(&two(FIRST, KernelModel { provider_id: 64, ..SECOND }))),
        ("REFUSAL_MODEL_OUT_OF_RANGE", validated(&two(FIRST, KernelModel { quality_bps: 10_001, ..SECOND }))),
        ("REFUSAL_NO_ENABLED_MODELS", validated(&KernelModel { enabled: 0, ..FIRST }.to_bytes())),
        ("REFUSAL_RESERVED_MODEL_ID", ffi::trust(&policy, &mut two(FIRST, KernelModel { model_id: 0, ..SECOND }))),
        ("REFUSAL_INVALID_ENABLED_FLAG", ffi::trust(&policy, &mut two(FIRST, KernelModel { enabled: 2, ..SECOND }))),
        ("REFUSAL_TOO_MANY_TO_STORE", ffi::write_stored(&policy, &many(1_395), out)),
        ("REFUSAL_TOO_MANY_FOR_PROGRAM", refused_line(901)),
        ("REFUSAL_CUT_SHORT", ffi::read_request(&[3, 70], out)),
        ("REFUSAL_WRONG_TAG", ffi::read_request(&[9, 70, 0], out)),
        ("REFUSAL_WRONG_LENGTH", ffi::check_request(&request[1..])),
        ("REFUSAL_UNKNOWN_ROUNDING", ffi::validate(&[&policy[..30], &[2]].concat(), &bank)),
        (
            "REFUSAL_ZERO_ALLOWANCE",
            ffi::read_stored(&[&UNIT_INPUT[..130], &[5, 4, 0, 0, 0, 0, 0]].concat(), &mut [], out),
        ),
        ("REFUSAL_EPOCH_SPENT", added(spent, &[0; 47], FIRST)),
        ("REFUSAL_NO_FREE_SLOT", added(POLICY, &SECOND.to_bytes(), FIRST)),
        ("REFUSAL_SLOT_NOT_CLEAR", added(POLICY, &[&[0; 46][..], &[1]].concat(), FIRST)),
    ];
    words.map(|(name, word)| (name, word & 0xff)).to_vec()
}

/// Words that calls hand back, each with its number, field, value and id or place, which all differ.
pub fn words_with_parts() -> Vec<(u64, [u64; 4])> {
    let bad = KernelInput { minimum_quality_bps: 10_007, ..REQUEST };
    let mut requests = vec![REQUEST.to_bytes(); 9];
    requests[5] = bad.to_bytes();
    let row = requests.concat();
    let batch = ffi::batch::prescribe_batch_checked(&POLICY.to_bytes(), &row, 9, &example_bank(), &mut [0; 9 * 65]);
    let model = KernelModel { model_id: 0x0102_0304, risk_ceiling_bps: 65_535, ..SECOND };
    vec![(batch, [3, 3, 10_007, 5]), (validated(&two(FIRST, model)), [14, 8, 65_535, 0x0102_0304])]
}

pub fn rows() -> Vec<Row> {
    [decision_rows(), lever_rows(), refusal_rows()].concat()
}
