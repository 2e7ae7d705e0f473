/* The calls of libvolankizo.a: version, contract, layouts, refusals, numbers; then what each call takes, writes and refuses.
 *
 * VERSION. VOLANKIZO_VERSION is this header's, volankizo_version() the library's: 1,000,000 * major + 1,000 * minor + patch, so 0.5.0 is 5000, and a
 * later version has a higher number. A higher patch changes no byte of any answer, no declaration and no number of this header. A higher minor may
 * add calls, refusal numbers, enum values, tags and macros; from 1.0.0 on it changes nothing that was there, and while the major number is 0 it may,
 * and CHANGELOG.md says what. Anything else is a higher major. So a header and a library whose versions agree but for the patch fit together.
 *
 * CONTRACT. Numbers are little-endian and packed. A slice is an address and a length, which has 64 bits on every processor; no address is kept, and
 * none may be null, also where the length is 0.
 *   Any bytes   Every call takes any bytes, ends, and reads and writes within the lengths that it is lent. But for volankizo_version, which answers a
 *               number and takes none, it answers 0 and writes its answer to the start of `out`, or answers a refusal and writes nothing (but for
 *               volankizo_trust, see there). Bytes of `out` after the answer stay.
 *   Threads     No call has state, allocates, or waits. Any number may run at once, in threads or in interrupts, on what nobody writes meanwhile.
 *   Alignment   None is asked of any address. Numbers in buffers are bytes: read them by memcpy or byte by byte, not through a cast pointer.
 *   Overlap     What is only read may overlap. A buffer that is written overlaps nothing else that is lent: of an edit that is the policy, the bank
 *               and `out`, so that the record offered to it stands elsewhere.
 *   Order       None is asked: each call tests what it is lent, and decides what passes. The way it is meant: volankizo_trust once a policy with its
 *               bank has come (or volankizo_validate, which moves no record); volankizo_check_request on each request, or the checked calls; then
 *               volankizo_prescribe. That one does not repeat the tests of the others, and decides any bank and any request.
 *   Limits      65,535 models in a bank (2), in every call; 1,394 of them in a stored form (18; read, 22); 900 in a program's input, so in
 *               volankizo_unit_text, _ask_text and _ask_words (19, as text). Below 2^32 requests in a batch (22).
 *
 * LAYOUTS. The macros .._AT below have each offset.
 * A policy is 30 bytes: policy epoch u64, catalogue epoch u64, hard risk limit, minimum confidence, risk multiplier (u16 each), latency
 * penalty per ms u64; or 31, the last of which says how it rounds, u8; or 35, with how it rounds and then its latency allowance in ms, u32.
 * A cost is tokens times price by the million tokens, input and output, rounded up to whole microunits and at most 2^64 - 1: rounding 0, as with 30
 * bytes, each of the two is rounded up apart and then they are added; rounding 1, they are added and the sum is rounded up once. One token each way at
 * price 1 costs 2 apart, and 1 once.
 * The allowance is how many milliseconds of a model's latency are free: the penalty is charged for those above it alone. 0, as with 30 and 31 bytes, is
 * none. A request's latency limit is held against the full latency, whatever is free. With a penalty of 10 and an allowance of 200, latencies of 199,
 * 200 and 201 cost 0, 0 and 10.
 * A request is 70 bytes: sequence u64, requested model u32, input tokens u32, output tokens u32, value i64, budget u64, risk, confidence,
 * minimum quality (u16 each), latency limit u32, required capabilities u64, allowed providers u64, required regions u64.
 * A bank is any number of models up to 65,535, of 47 bytes each: id u32, provider u16, quality u16, ceiling u16, enabled u8, latency u32,
 * capabilities u64, regions u64, input price u64, output price u64.
 * Quality, ceiling, risk, confidence, their limits and the multiplier are in basis points, latencies in ms, value, budget, penalty, cost
 * and utility in microunits, prices in microunits per million tokens. A latency limit of 0 is none. Enabled other than 0 is on.
 * A provider's number is its bit in the mask of allowed ones, and all ones allow each up to 63. A model needs every required capability and, where
 * regions are required, one of them.
 *
 * THE CHOICE. Where nothing stops the request (100, 101), a model that fails no gate and costs no more than the budget has a utility:
 *   utility = quality term - risk term - cost - latency term, exact, then held within i64
 *   quality term = V * confidence * quality / 10^8, risk term = V * risk * multiplier / 10^8, both rounded down, with V the value, or 0 if below 0
 *   latency term = (latency - allowance) * penalty, 0 where the latency is not above the allowance
 * One above 0 is eligible. Of these the highest utility is chosen; of equal ones the lower cost, then the higher quality, the lower id, the earlier
 * place. The second by that order is the counterfactual model.
 * Repeated ids. A decision ranks every record by itself, so ids may repeat. Both boundary calls (volankizo_what_would_win, _decision_margin) vary the
 * first listed record with the id and leave the others; then what they tell is not claimed to be exact. Of two records with id 7, qualities 8,000
 * and 9,000 and all else the same, the second is chosen, and the margin tells the first's: current 8,000. volankizo_trust and _validate refuse
 * them (12).
 *
 * FORMS. A form is a row of fields. A field is a tag u8, the length of its body u16, and the body: the 30 bytes of a policy under tag 1; a bank of at
 * most 1,394 records under tag 2; a request under tag 3; one byte, 1, under tag 4, for a policy that rounds once; four bytes, an allowance above 0,
 * under tag 5. A stored form is tag 1, then tag 2, then tag 4 where the policy rounds once and nothing where it rounds apart, then tag 5 where it has
 * an allowance and nothing where it has none; a request form is tag 3 alone.
 * A form is read field by field, and the first fault comes back: no byte where a field is due, 21; a cut tag or length, 20; another tag, 21;
 * a length that the tag does not have, 22; a cut body, 20; another body of tag 4 than 1, 23; a body of tag 5 that is 0, 25; and after the last field
 * any byte, 21. A byte 4 after the bank begins tag 4, and without one the policy rounds apart; a byte 5 there, or after tag 4, begins tag 5, and
 * without one the policy has no allowance. So of a stored form 01 1f 00 09 is 22, 09 1e 00 00 is 21, 01 1e 00 is 20; and after its bank 04 is 20, 06 is
 * 21, 04 02 00 is 22, 04 01 00 00 is 23, 05 04 00 00 00 00 00 is 25, 04 01 00 01 twice is 21, and so is 05 04 00 c8 00 00 00 before 04 01 00 01.
 *
 * LIVE BANKS. Models may be swapped one by one, with no transfer of the rest. The records of a bank are slots then: live where the id is not 0, free
 * where all 47 bytes are 0; id 0 with another byte set is refused with 34. A bank of zeros has free slots alone, and zeros after a bank's records are
 * room. The calls volankizo_live_.. take such a bank. Those that ask run over its live records alone, as if it listed nothing else: a place is a slot,
 * the models evaluated and the entries of an explanation are live ones, and id 0 is nowhere. Where an id is listed twice, its first live record is
 * meant. Every other call decides any bank as before: an all-zero record is a switched-off model there.
 * An edit adds a record, or replaces or removes one by its id; a compaction closes the gaps. Each raises the catalogue epoch by one, in place, in
 * the policy's bytes that it is lent. Of a record the id alone is looked at; volankizo_validate tells whether it may serve.
 * A compaction tells how many records are live, and these stand first then: the bank to store, to validate or to trust is 47 times so many bytes. Free
 * slots would go along as all-zero records: two of them repeat id 0, so that the programs, as volankizo_validate, refuse such a stored form with
 * 12; and volankizo_trust refuses a single one with 16.
 *
 * REFUSALS. Of several the first in the order given with each call comes back, of a form's the first in the order above; enum volankizo_refusal has
 * their numbers by name:
 *   22  a policy is neither 30 bytes long nor 31 nor 35, a request not 70, the requests of a batch not 70 times their count, or that count is 2^32 or
 *       more, or a record that is offered not 47; in a form, a field has a length that its tag does not have
 *   23  the 31st byte of a policy is neither 0 nor 1; in a form, the body of tag 4 is not 1
 *   25  (of volankizo_read_stored and as a program's text alone) in a form, the body of tag 5 is 0; a policy that is lent says none by 0
 *    1  the bank's length is no multiple of 47
 *    2  the bank has more than 65,535 records
 *   34  (of the calls volankizo_live_.. alone) a slot has id 0 and another byte set
 *    4  a buffer is too short for what it is to hold
 *    3  risk (field 1), confidence (2) or minimum quality (3) is above 10,000; with the field and the value, of a batch with the request's place too
 *    5  the id is not listed
 *    6  the decision is a rejection
 *    7  the request is stopped by 100 or 101, the id is not listed, or its first listed record is not eligible
 *    8  the place is beyond the bank
 *   10  hard risk limit (field 4) or minimum confidence (5) is above 10,000, or the multiplier (6) above 50,000; with the field and the value
 *   11  the bank has no record
 *   12  an id that an earlier record has, or of a record to add, that a live one has; with the id
 *   13  a provider above 63; with the id and the provider
 *   14  a quality (field 7) or a ceiling (8) above 10,000; with the field, the id and the value
 *   15  no record has enabled other than 0
 *   16  some id is 0; of an edit, the one that is added, replaced or removed
 *   17  enabled is above 1; with the id and the value
 *   18  the bank has more than 1,394 records, too many for a stored form
 *   19  (as a program's text alone) the input has more than 900 models
 *   20  a form ends within a field
 *   21  a form has another tag where a field is due, or no byte, or a byte after its last field
 *   27  the catalogue epoch is 2^64 - 1 and can't be raised
 *   28  no slot is free
 * as number + 2^8 * field + 2^16 * value + 2^32 * (id or place), each 0 where none is told; VOLANKIZO_NUMBER and its siblings take it apart.
 *
 * NUMBERS IN AN ANSWER, by name in the enums below:
 *   action   1 the requested model, 2 another one, 3 none: a rejection
 *   reason   1 and 2 as the action. Of a rejection: 100 the risk is at or above the hard limit, 101 the confidence is below the minimum; else by
 *            the largest count 102 disabled, 103 quality, 104 latency, 105 capability, 106 provider, 107 region, 108 budget, 109 utility,
 *            110 ceiling; of equal counts the last of 105, 107, 106, 103, 110, 104, 108, 109, 102; of an empty bank 102
 *   verdict  1 rejected by a gate, 2 the cost is above the budget, 3 the utility is 0 or less, 4 eligible
 *   gate     the first that a record fails, with (measured, limit): 1 switched off (0, 1); 2 quality below the minimum (quality, minimum);
 *            3 latency above the limit (latency, limit); 4 a required capability is missing (capabilities, required); 5 provider above 63
 *            (provider, 63); 6 provider not allowed (provider, mask); 7 none of the required regions (regions, required); 8 risk
 *            above the ceiling (risk, ceiling). Gates 5 and 6 share the count of providers
 *   lever    1 quality, 2 latency, 3 price scale: both prices, in millionths of today's (1,000,000), 4 ceiling, 5 enabled
 * A rejection has model 0, place 65,535, cost and utilities 0; after 100 or 101 nothing is evaluated, and every count is 0. Where no second
 * model is eligible, the counterfactual model and its utility are 0. */
#ifndef VOLANKIZO_H
#define VOLANKIZO_H

#include <stdint.h>

#ifdef __cplusplus
extern "C" {
#endif

#define VOLANKIZO_VERSION_MAJOR 0
#define VOLANKIZO_VERSION_MINOR 5
#define VOLANKIZO_VERSION_PATCH 0
#define VOLANKIZO_VERSION (VOLANKIZO_VERSION_MAJOR * 1000000 + VOLANKIZO_VERSION_MINOR * 1000 + VOLANKIZO_VERSION_PATCH)

/* ---- Sizes in bytes: of what is lent, of what is written, and of a form's parts. */
#define VOLANKIZO_RECORD_BYTES 47
#define VOLANKIZO_POLICY_BYTES 30
#define VOLANKIZO_ROUNDED_POLICY_BYTES 31
#define VOLANKIZO_LONGEST_POLICY_BYTES 35
#define VOLANKIZO_REQUEST_BYTES 70
#define VOLANKIZO_DECISION_BYTES 83
#define VOLANKIZO_UNCOUNTED_BYTES 65
#define VOLANKIZO_UTILITY_BYTES 8
#define VOLANKIZO_PLACE_BYTES 2
#define VOLANKIZO_NEXT_BYTES 8
#define VOLANKIZO_EXPLANATION_BYTES 72
#define VOLANKIZO_BOUNDARY_BYTES 183
#define VOLANKIZO_ROOM_BYTES 26
#define VOLANKIZO_OFFSET_BYTES 8
#define VOLANKIZO_EDIT_BYTES 2
#define VOLANKIZO_FIELD_HEADER_BYTES 3
#define VOLANKIZO_ROUNDING_FIELD_BYTES 4
#define VOLANKIZO_ALLOWANCE_FIELD_BYTES 7
#define VOLANKIZO_STORED_POLICY_BYTES 43
#define VOLANKIZO_REQUEST_FORM_BYTES 73
#define VOLANKIZO_UNIT_TEXT_BYTES 848
#define VOLANKIZO_ASK_TEXT_BYTES 678
#define VOLANKIZO_ASK_WORDS_BYTES 1208

/* The bytes of a stored form with a bank of so many bytes, where the policy rounds apart and has no allowance; VOLANKIZO_ROUNDING_FIELD_BYTES more
 * where it rounds once, and VOLANKIZO_ALLOWANCE_FIELD_BYTES more where it has an allowance. */
#define VOLANKIZO_STORED_FORM_BYTES(bank_len) ((uint64_t)(bank_len) + 36)

/* ---- Limits (which holds where: above), and numbers that stand for none or all. */
#define VOLANKIZO_MAX_MODELS 65535
#define VOLANKIZO_MAX_STORED_MODELS 1394
#define VOLANKIZO_MAX_PROGRAM_MODELS 900
#define VOLANKIZO_MAX_LEVERS 4
#define VOLANKIZO_NO_PLACE 65535
#define VOLANKIZO_NO_NEXT UINT64_MAX
#define VOLANKIZO_ALL_PROVIDERS UINT64_MAX
#define VOLANKIZO_NO_ALLOWANCE 0

/* The 31st byte of a policy. */
#define VOLANKIZO_ROUNDS_APART 0
#define VOLANKIZO_ROUNDS_ONCE 1

/* ---- Offsets: a policy's. */
#define VOLANKIZO_POLICY_EPOCH_AT 0
#define VOLANKIZO_POLICY_CATALOG_EPOCH_AT 8
#define VOLANKIZO_POLICY_HARD_RISK_LIMIT_AT 16
#define VOLANKIZO_POLICY_MINIMUM_CONFIDENCE_AT 18
#define VOLANKIZO_POLICY_RISK_MULTIPLIER_AT 20
#define VOLANKIZO_POLICY_LATENCY_PENALTY_AT 22
#define VOLANKIZO_POLICY_ROUNDING_AT 30
#define VOLANKIZO_POLICY_LATENCY_ALLOWANCE_AT 31

/* A request's. */
#define VOLANKIZO_REQUEST_SEQUENCE_AT 0
#define VOLANKIZO_REQUEST_MODEL_AT 8
#define VOLANKIZO_REQUEST_INPUT_TOKENS_AT 12
#define VOLANKIZO_REQUEST_OUTPUT_TOKENS_AT 16
#define VOLANKIZO_REQUEST_VALUE_AT 20
#define VOLANKIZO_REQUEST_BUDGET_AT 28
#define VOLANKIZO_REQUEST_RISK_AT 36
#define VOLANKIZO_REQUEST_CONFIDENCE_AT 38
#define VOLANKIZO_REQUEST_MINIMUM_QUALITY_AT 40
#define VOLANKIZO_REQUEST_LATENCY_LIMIT_AT 42
#define VOLANKIZO_REQUEST_CAPABILITIES_AT 46
#define VOLANKIZO_REQUEST_PROVIDERS_AT 54
#define VOLANKIZO_REQUEST_REGIONS_AT 62

/* A record's, of a bank. */
#define VOLANKIZO_RECORD_ID_AT 0
#define VOLANKIZO_RECORD_PROVIDER_AT 4
#define VOLANKIZO_RECORD_QUALITY_AT 6
#define VOLANKIZO_RECORD_CEILING_AT 8
#define VOLANKIZO_RECORD_ENABLED_AT 10
#define VOLANKIZO_RECORD_LATENCY_AT 11
#define VOLANKIZO_RECORD_CAPABILITIES_AT 15
#define VOLANKIZO_RECORD_REGIONS_AT 23
#define VOLANKIZO_RECORD_INPUT_PRICE_AT 31
#define VOLANKIZO_RECORD_OUTPUT_PRICE_AT 39

/* A decision's, and its counts', which a decision of VOLANKIZO_UNCOUNTED_BYTES does not have. */
#define VOLANKIZO_DECISION_SEQUENCE_AT 0
#define VOLANKIZO_DECISION_ACTION_AT 8
#define VOLANKIZO_DECISION_REASON_AT 9
#define VOLANKIZO_DECISION_MODEL_AT 11
#define VOLANKIZO_DECISION_PLACE_AT 15
#define VOLANKIZO_DECISION_COST_AT 17
#define VOLANKIZO_DECISION_UTILITY_AT 25
#define VOLANKIZO_DECISION_COUNTERFACTUAL_AT 33
#define VOLANKIZO_DECISION_COUNTERFACTUAL_UTILITY_AT 37
#define VOLANKIZO_DECISION_EVALUATED_AT 45
#define VOLANKIZO_DECISION_ELIGIBLE_AT 47
#define VOLANKIZO_DECISION_POLICY_EPOCH_AT 49
#define VOLANKIZO_DECISION_CATALOG_EPOCH_AT 57
#define VOLANKIZO_COUNT_DISABLED_AT 65
#define VOLANKIZO_COUNT_QUALITY_AT 67
#define VOLANKIZO_COUNT_CEILING_AT 69
#define VOLANKIZO_COUNT_LATENCY_AT 71
#define VOLANKIZO_COUNT_CAPABILITY_AT 73
#define VOLANKIZO_COUNT_PROVIDER_AT 75
#define VOLANKIZO_COUNT_REGION_AT 77
#define VOLANKIZO_COUNT_BUDGET_AT 79
#define VOLANKIZO_COUNT_UTILITY_AT 81

/* An explanation entry's: three names at 8 and at 24, for verdict 1, for 2, and for 3 and 4. */
#define VOLANKIZO_EXPLANATION_MODEL_AT 0
#define VOLANKIZO_EXPLANATION_PLACE_AT 4
#define VOLANKIZO_EXPLANATION_VERDICT_AT 6
#define VOLANKIZO_EXPLANATION_GATE_AT 7
#define VOLANKIZO_EXPLANATION_MEASURED_AT 8
#define VOLANKIZO_EXPLANATION_OVER_COST_AT 8
#define VOLANKIZO_EXPLANATION_QUALITY_TERM_AT 8
#define VOLANKIZO_EXPLANATION_LIMIT_AT 24
#define VOLANKIZO_EXPLANATION_OVER_BUDGET_AT 24
#define VOLANKIZO_EXPLANATION_RISK_TERM_AT 24
#define VOLANKIZO_EXPLANATION_COST_AT 40
#define VOLANKIZO_EXPLANATION_LATENCY_TERM_AT 48
#define VOLANKIZO_EXPLANATION_UTILITY_AT 64

/* A boundary answer's, and within each of its VOLANKIZO_MAX_LEVERS rooms of VOLANKIZO_ROOM_BYTES. */
#define VOLANKIZO_BOUNDARY_DECISION_AT 0
#define VOLANKIZO_BOUNDARY_MODEL_AT 65
#define VOLANKIZO_BOUNDARY_BLOCKED_AT 69
#define VOLANKIZO_BOUNDARY_LEVERS_AT 70
#define VOLANKIZO_BOUNDARY_PASSES_AT 71
#define VOLANKIZO_BOUNDARY_ROOMS_AT 79
#define VOLANKIZO_ROOM_LEVER_AT 0
#define VOLANKIZO_ROOM_CURRENT_AT 1
#define VOLANKIZO_ROOM_BOUNDARY_AT 9
#define VOLANKIZO_ROOM_PRICED_AT 17
#define VOLANKIZO_ROOM_COST_AT 18

/* Those of what volankizo_read_stored writes to `out`, of a text, and of a form's field. */
#define VOLANKIZO_STORED_POLICY_AT 0
#define VOLANKIZO_STORED_BANK_LENGTH_AT 35
#define VOLANKIZO_TEXT_LENGTH_AT 0
#define VOLANKIZO_TEXT_AT 8
#define VOLANKIZO_FIELD_TAG_AT 0
#define VOLANKIZO_FIELD_LENGTH_AT 1

/* ---- The numbers in an answer. Read them from their bytes: no field has an enum's size. */
enum volankizo_action {
    VOLANKIZO_ACTION_EXECUTE_REQUESTED = 1,
    VOLANKIZO_ACTION_SUBSTITUTE = 2,
    VOLANKIZO_ACTION_REJECT = 3
};

enum volankizo_reason {
    VOLANKIZO_REASON_REQUESTED_MODEL_MAXIMIZES_UTILITY = 1,
    VOLANKIZO_REASON_ALTERNATIVE_MAXIMIZES_UTILITY = 2,
    VOLANKIZO_REASON_RISK_HARD_LIMIT = 100,
    VOLANKIZO_REASON_CONFIDENCE_HARD_LIMIT = 101,
    VOLANKIZO_REASON_NO_ENABLED_MODEL = 102,
    VOLANKIZO_REASON_QUALITY_CONSTRAINT = 103,
    VOLANKIZO_REASON_LATENCY_CONSTRAINT = 104,
    VOLANKIZO_REASON_CAPABILITY_CONSTRAINT = 105,
    VOLANKIZO_REASON_PROVIDER_CONSTRAINT = 106,
    VOLANKIZO_REASON_REGION_CONSTRAINT = 107,
    VOLANKIZO_REASON_BUDGET_CONSTRAINT = 108,
    VOLANKIZO_REASON_NON_POSITIVE_UTILITY = 109,
    VOLANKIZO_REASON_RISK_CEILING_CONSTRAINT = 110
};

enum volankizo_verdict {
    VOLANKIZO_VERDICT_REJECTED = 1,
    VOLANKIZO_VERDICT_OVER_BUDGET = 2,
    VOLANKIZO_VERDICT_NON_POSITIVE_UTILITY = 3,
    VOLANKIZO_VERDICT_ELIGIBLE = 4
};

enum volankizo_gate {
    VOLANKIZO_GATE_NONE = 0,
    VOLANKIZO_GATE_DISABLED = 1,
    VOLANKIZO_GATE_QUALITY = 2,
    VOLANKIZO_GATE_LATENCY = 3,
    VOLANKIZO_GATE_CAPABILITY = 4,
    VOLANKIZO_GATE_PROVIDER_UNREPRESENTABLE = 5,
    VOLANKIZO_GATE_PROVIDER_NOT_ALLOWED = 6,
    VOLANKIZO_GATE_REGION = 7,
    VOLANKIZO_GATE_RISK_CEILING = 8
};

enum volankizo_lever {
    VOLANKIZO_LEVER_NONE = 0,
    VOLANKIZO_LEVER_QUALITY_BPS = 1,
    VOLANKIZO_LEVER_P95_LATENCY_MS = 2,
    VOLANKIZO_LEVER_PRICE_SCALE_PPM = 3,
    VOLANKIZO_LEVER_RISK_CEILING_BPS = 4,
    VOLANKIZO_LEVER_ENABLED = 5
};

/* 0 says that the call answered. 19 stands in a program's text alone. */
enum volankizo_refusal {
    VOLANKIZO_ANSWERED = 0,
    VOLANKIZO_REFUSAL_UNEVEN_BANK = 1,
    VOLANKIZO_REFUSAL_CATALOG_TOO_LARGE = 2,
    VOLANKIZO_REFUSAL_INPUT_OUT_OF_RANGE = 3,
    VOLANKIZO_REFUSAL_NO_ROOM = 4,
    VOLANKIZO_REFUSAL_UNKNOWN_MODEL = 5,
    VOLANKIZO_REFUSAL_NOTHING_SELECTED = 6,
    VOLANKIZO_REFUSAL_NOT_ELIGIBLE = 7,
    VOLANKIZO_REFUSAL_BEYOND_BANK = 8,
    VOLANKIZO_REFUSAL_POLICY_OUT_OF_RANGE = 10,
    VOLANKIZO_REFUSAL_EMPTY_CATALOG = 11,
    VOLANKIZO_REFUSAL_DUPLICATE_MODEL_ID = 12,
    VOLANKIZO_REFUSAL_INVALID_PROVIDER_ID = 13,
    VOLANKIZO_REFUSAL_MODEL_OUT_OF_RANGE = 14,
    VOLANKIZO_REFUSAL_NO_ENABLED_MODELS = 15,
    VOLANKIZO_REFUSAL_RESERVED_MODEL_ID = 16,
    VOLANKIZO_REFUSAL_INVALID_ENABLED_FLAG = 17,
    VOLANKIZO_REFUSAL_TOO_MANY_TO_STORE = 18,
    VOLANKIZO_REFUSAL_TOO_MANY_FOR_PROGRAM = 19,
    VOLANKIZO_REFUSAL_CUT_SHORT = 20,
    VOLANKIZO_REFUSAL_WRONG_TAG = 21,
    VOLANKIZO_REFUSAL_WRONG_LENGTH = 22,
    VOLANKIZO_REFUSAL_UNKNOWN_ROUNDING = 23,
    VOLANKIZO_REFUSAL_ZERO_ALLOWANCE = 25,
    VOLANKIZO_REFUSAL_EPOCH_SPENT = 27,
    VOLANKIZO_REFUSAL_NO_FREE_SLOT = 28,
    VOLANKIZO_REFUSAL_SLOT_NOT_CLEAR = 34
};

/* The parts of a refusal. */
#define VOLANKIZO_NUMBER(word) ((unsigned)((word) & 0xff))
#define VOLANKIZO_FIELD(word) ((unsigned)(((word) >> 8) & 0xff))
#define VOLANKIZO_VALUE(word) ((unsigned)(((word) >> 16) & 0xffff))
#define VOLANKIZO_ID_OR_PLACE(word) ((uint32_t)((word) >> 32))

/* The library's version, as VOLANKIZO_VERSION is the header's. */
uint64_t volankizo_version(void);

/* Decides. 83 bytes: sequence u64 at 0, action u8 at 8, reason u16 at 9, model u32 at 11, place u16 at 15, cost u64 at 17, utility i64 at 25,
 * counterfactual model u32 at 33, its utility i64 at 37, evaluated u16 at 45, eligible u16 at 47, policy epoch u64 at 49, catalogue epoch u64
 * at 57; then nine counts of u16 from 65 on: disabled, quality, ceiling, latency, capability, provider, region, budget, utility.
 * Refusals: 22 (of the policy or of the request), 23, 1, 2, 4. */
uint64_t volankizo_prescribe(const uint8_t *policy, uint64_t policy_len, const uint8_t *request, uint64_t request_len, const uint8_t *bank,
                             uint64_t bank_len, uint8_t *out, uint64_t out_len);

/* The same for a checked request. Refusals: 22, 23, 1, 2, 4, 3. */
uint64_t volankizo_prescribe_checked(const uint8_t *policy, uint64_t policy_len, const uint8_t *request, uint64_t request_len,
                                     const uint8_t *bank, uint64_t bank_len, uint8_t *out, uint64_t out_len);

/* Decides a row of requests, each as volankizo_prescribe does: the request at 70 times a place, its decision at 65 times that place of `out`, without
 * its counts. `count` says how many requests there are, so that none is told from a length that was forgotten: `requests` has exactly 70 * count
 * bytes, and a count of 0 is answered and writes nothing. Refusals: 22 (of the requests, their count or the policy), 23, 1, 2, 4 (`out` has fewer
 * than 65 * count bytes). */
uint64_t volankizo_prescribe_batch(const uint8_t *policy, uint64_t policy_len, const uint8_t *requests, uint64_t requests_len, uint64_t count,
                                   const uint8_t *bank, uint64_t bank_len, uint8_t *out, uint64_t out_len);

/* The same once every request is checked. Refusals: 22, 23, 1, 2, 4, 3 (with the place of the first bad request; no decision is written then). */
uint64_t volankizo_prescribe_batch_checked(const uint8_t *policy, uint64_t policy_len, const uint8_t *requests, uint64_t requests_len,
                                           uint64_t count, const uint8_t *bank, uint64_t bank_len, uint8_t *out, uint64_t out_len);

/* The utility of the first listed record with an id: 8 bytes, i64. Refusals: 22, 23, 1, 2, 4, 7. */
uint64_t volankizo_utility_for_model(const uint8_t *policy, uint64_t policy_len, const uint8_t *request, uint64_t request_len,
                                     const uint8_t *bank, uint64_t bank_len, uint32_t id, uint8_t *out, uint64_t out_len);

/* The place of the first listed record with an id: 2 bytes, u16; 65,535 where the id is nowhere. Refusals: 1, 2, 4. */
uint64_t volankizo_find(const uint8_t *bank, uint64_t bank_len, uint32_t id, uint8_t *out, uint64_t out_len);

/* Whether a request would pass the checked call. Writes nothing. Refusals: 22, 3. */
uint64_t volankizo_check_request(const uint8_t *request, uint64_t request_len);

/* Decides, and tells what became of every record. `out`: 65 bytes, the decision as above without its counts. `list`: 72 bytes for each
 * record, in the order of the bank, and none where the request is stopped by 100 or 101, so as many entries as the decision says are evaluated
 * (u16 at VOLANKIZO_DECISION_EVALUATED_AT of `out`): model u32 at 0, place u16 at 4, verdict u8 at 6
 * (1 to 4), gate u8 at 7 (1 to 8, else 0), measured, cost or quality term at 8 and limit, budget or risk term at 24 (16 bytes each, for
 * verdicts 1, 2, and 3 or 4), cost u64 at 40, latency term at 48 (16 bytes), utility i64 at 64; from 40 on zero for verdicts 1 and 2. Bytes of
 * `list` after the last entry stay. Refusals: 22, 23, 1, 2, 4 (of either buffer). */
uint64_t volankizo_explain(const uint8_t *policy, uint64_t policy_len, const uint8_t *request, uint64_t request_len, const uint8_t *bank,
                           uint64_t bank_len, uint8_t *list, uint64_t list_len, uint8_t *out, uint64_t out_len);

/* The place of the next eligible entry (verdict 4) of such a list, at or after `from`: 8 bytes, u64; 2^64 - 1 where there is none. Any bytes may
 * be asked about; a part of an entry at their end, where they are no multiple of 72, is ignored. Refusals: 4. */
uint64_t volankizo_next_eligible(const uint8_t *list, uint64_t list_len, uint64_t from, uint8_t *out, uint64_t out_len);

/* Whether a policy with its bank may serve. Writes nothing. Refusals: 22, 23, 1, 2, 10, 11, then record by record 12, 13, 14, then 15. */
uint64_t volankizo_validate(const uint8_t *policy, uint64_t policy_len, const uint8_t *bank, uint64_t bank_len);

/* Puts the bank in ascending id order, equal ids in their old order, and validates it. Refusals that leave the bank as it was: 22, 23, 1, 2,
 * 16, 17; then, with the bank in order, 10, 11, record by record 12, 13, 14, then 15. */
uint64_t volankizo_trust(const uint8_t *policy, uint64_t policy_len, uint8_t *bank, uint64_t bank_len);

/* For a model that was not selected, by each lever alone: the smallest change after which it is. 183 bytes: the decision without its counts at
 * 0, model u32 at 65, blocked by the request u8 at 69 (1 where 100 or 101 stops it), count of levers u8 at 70, passes u64 at 71; then four
 * rooms of 26 bytes from 79 on, the unused ones zero, in each: lever u8 at 0 (1 to 5), current u64 at 1, boundary u64 at 9, priced u8 at 17 (1
 * where a cost is carried, by the price alone), cost u64 at 18. Each lever that is listed is enough by itself. Searched are quality and ceiling
 * from today to 10,000, latency and price scale from today down to 0; a lever by which the model wins nowhere there is not listed. Of a model
 * that is off only enabled is tried. A stopped request, or an id that is selected already, has no lever and 1 pass. Where the id is listed twice,
 * the first record is varied (repeated ids: above). Refusals: 22, 23, 1, 2, 4, 5. */
uint64_t volankizo_what_would_win(const uint8_t *policy, uint64_t policy_len, const uint8_t *request, uint64_t request_len, const uint8_t *bank,
                                  uint64_t bank_len, uint32_t id, uint8_t *out, uint64_t out_len);

/* For the model that was selected: how far each lever can move before it is not. The same 183 bytes; a boundary is the last setting that
 * keeps the choice. Searched are quality and ceiling from today down to 0, latency up to 2^32 - 1, price scale up to 1,000,000,000. Quality is
 * always listed; another lever that is not listed cannot lose the choice within its range. Where the chosen id is listed twice, the first record is
 * varied, chosen or not (repeated ids: above). Refusals: 22, 23, 1, 2, 4, 6. */
uint64_t volankizo_decision_margin(const uint8_t *policy, uint64_t policy_len, const uint8_t *request, uint64_t request_len,
                                   const uint8_t *bank, uint64_t bank_len, uint8_t *out, uint64_t out_len);

/* Where the record at a place of a bank begins: 8 bytes, u64, its offset in the bank; the record is the 47 bytes there. Refusals: 1, 2, 4, 8. */
uint64_t volankizo_record_at(const uint8_t *bank, uint64_t bank_len, uint64_t place, uint8_t *out, uint64_t out_len);

/* Writes the stored form of a policy with its bank: 36 bytes more than the bank has, 4 more where the policy rounds once, and 7 more where it has an
 * allowance. Refusals: 22, 23, 1, 2, 18, 4. */
uint64_t volankizo_write_stored(const uint8_t *policy, uint64_t policy_len, const uint8_t *bank, uint64_t bank_len, uint8_t *out,
                                uint64_t out_len);

/* Reads a stored form. The models' bytes go to the start of `bank`, whose other bytes stay; `out`: 43 bytes, the policy in 35 bytes at 0, the
 * length of the models' bytes u64 at 35. Neither buffer is written before the form's end was seen and both have room; nothing is validated or put
 * in order. Refusals: those of a form (20 to 23 and 25, in the order told above), then 4 (of either buffer). */
uint64_t volankizo_read_stored(const uint8_t *form, uint64_t form_len, uint8_t *bank, uint64_t bank_len, uint8_t *out, uint64_t out_len);

/* Writes the request form: 73 bytes. Refusals: 22, 4. */
uint64_t volankizo_write_request(const uint8_t *request, uint64_t request_len, uint8_t *out, uint64_t out_len);

/* Reads a request form: 70 bytes, the request. Refusals: those of a form (20, 21, 22, in the order told above), then 4. */
uint64_t volankizo_read_request(const uint8_t *form, uint64_t form_len, uint8_t *out, uint64_t out_len);

/* What the unit's program prints for an input of tags 1, 2, 4 where the policy rounds once, 5 where it has an allowance, and 3: the text's length in
 * bytes u64 at 0, the text from 8 on, in ASCII with a newline after each line and no zero after the last. 848 bytes always suffice. The lines:
 * `decision` and its numbers, `rejected` and the nine counts, both in the order above; for each lever of the margin `lever`, its number, today's value,
 * the boundary, and the cost or `-`. An input that the program refuses is answered too: its text is `refused` and the number, by a form's faults (one
 * or two bytes after the bank, or after a whole tag 4 or 5, are 20 whatever they are, since a request is due), then 19, then as by volankizo_validate,
 * then 3. Refusals: 4. */
uint64_t volankizo_unit_text(const uint8_t *input, uint64_t input_len, uint8_t *out, uint64_t out_len);

/* The same for what would make a model win, as `ask ID` prints it: `decision`, a `lever` for each that wins by itself, `passes` and their
 * number; or `refused`, last of all with 5. 678 bytes always suffice. Refusals: 4. */
uint64_t volankizo_ask_text(const uint8_t *input, uint64_t input_len, uint32_t id, uint8_t *out, uint64_t out_len);

/* The same in words, as `ask ID words` prints it, each sentence on a line of its own: who was chosen, at what cost and utility, or why nothing was;
 * that the requested model isn't listed, where it isn't; why the model asked about was not chosen; and what would make it the choice, its price
 * first. After the line of a refusal stands a sentence about it. 1208 bytes always suffice. Refusals: 4. */
uint64_t volankizo_ask_words(const uint8_t *input, uint64_t input_len, uint32_t id, uint8_t *out, uint64_t out_len);

/* Over live records alone, the slot as place, from here on. Decides: 83 bytes, as volankizo_prescribe. Refusals: 22 (of the policy or of the
 * request), 23, 1, 2, 34, 4. */
uint64_t volankizo_live_prescribe(const uint8_t *policy, uint64_t policy_len, const uint8_t *request, uint64_t request_len, const uint8_t *bank,
                                  uint64_t bank_len, uint8_t *out, uint64_t out_len);

/* The same for a checked request. Refusals: 22, 23, 1, 2, 34, 4, 3. */
uint64_t volankizo_live_prescribe_checked(const uint8_t *policy, uint64_t policy_len, const uint8_t *request, uint64_t request_len,
                                          const uint8_t *bank, uint64_t bank_len, uint8_t *out, uint64_t out_len);

/* Decides, 65 bytes of `out`, and tells what became of every live record: the entries of volankizo_explain, 72 bytes of `list` for each live
 * record, none for a free slot and no gap between them, each with its slot as place; none where the request is stopped by 100 or 101, so here too
 * as many as the decision says are evaluated. volankizo_next_eligible takes such a list too. Bytes of `list` after the last entry stay.
 * Refusals: 22, 23, 1, 2, 34, 4 (of `out`, then of `list`). */
uint64_t volankizo_live_explain(const uint8_t *policy, uint64_t policy_len, const uint8_t *request, uint64_t request_len, const uint8_t *bank,
                                uint64_t bank_len, uint8_t *list, uint64_t list_len, uint8_t *out, uint64_t out_len);

/* The slot of the first live record with an id: 2 bytes, u16; 65,535 where there is none, as for id 0. Refusals: 1, 2, 34, 4. */
uint64_t volankizo_live_find(const uint8_t *bank, uint64_t bank_len, uint32_t id, uint8_t *out, uint64_t out_len);

/* The utility of the first live record with an id: 8 bytes, i64. Refusals: 22, 23, 1, 2, 34, 4, 7 (always of id 0). */
uint64_t volankizo_live_utility_for_model(const uint8_t *policy, uint64_t policy_len, const uint8_t *request, uint64_t request_len,
                                          const uint8_t *bank, uint64_t bank_len, uint32_t id, uint8_t *out, uint64_t out_len);

/* For a live model that was not selected: the 183 bytes of volankizo_what_would_win. Refusals: 22, 23, 1, 2, 34, 4, 5 (always of id 0). */
uint64_t volankizo_live_what_would_win(const uint8_t *policy, uint64_t policy_len, const uint8_t *request, uint64_t request_len,
                                       const uint8_t *bank, uint64_t bank_len, uint32_t id, uint8_t *out, uint64_t out_len);

/* For the model that was selected: the 183 bytes of volankizo_decision_margin. Refusals: 22, 23, 1, 2, 34, 4, 6. */
uint64_t volankizo_live_decision_margin(const uint8_t *policy, uint64_t policy_len, const uint8_t *request, uint64_t request_len,
                                        const uint8_t *bank, uint64_t bank_len, uint8_t *out, uint64_t out_len);

/* Adds a record, 47 bytes, in the lowest free slot. Written, where it is not refused: in `policy` the catalogue epoch, u64 at 8, one higher; in
 * `bank` the slot's 47 bytes; in `out` 2 bytes, the slot u16. All other bytes of the three stay, and refused all of them do.
 * Refusals: 22 (of the record or of the policy), 23, 1, 2, 34, 4, 16, 27, 12, 28. */
uint64_t volankizo_live_add(uint8_t *policy, uint64_t policy_len, uint8_t *bank, uint64_t bank_len, const uint8_t *record, uint64_t record_len,
                            uint8_t *out, uint64_t out_len);

/* Puts a record, 47 bytes, in place of the first live one with its id. Written as by volankizo_live_add, also where the slot had these bytes.
 * Refusals: 22 (of the record or of the policy), 23, 1, 2, 34, 4, 16, 27, 5. */
uint64_t volankizo_live_replace(uint8_t *policy, uint64_t policy_len, uint8_t *bank, uint64_t bank_len, const uint8_t *record, uint64_t record_len,
                                uint8_t *out, uint64_t out_len);

/* Frees the slot of the first live record with an id. Written as by volankizo_live_add, the slot's 47 bytes with 0. Refusals: 22, 23, 1, 2, 34,
 * 4, 16, 27, 5. */
uint64_t volankizo_live_remove(uint8_t *policy, uint64_t policy_len, uint8_t *bank, uint64_t bank_len, uint32_t id, uint8_t *out, uint64_t out_len);

/* Closes the gaps: the live records stand first, in their order, and free slots after them. Written, where it is not refused: in `policy` the
 * catalogue epoch, u64 at 8, one higher, also where nothing moves; the bank; in `out` 2 bytes, how many records are live u16. A decision before
 * it and one after it differ in the place and in the catalogue epoch alone. Refusals: 22, 23, 1, 2, 34, 4, 27. */
uint64_t volankizo_live_compact(uint8_t *policy, uint64_t policy_len, uint8_t *bank, uint64_t bank_len, uint8_t *out, uint64_t out_len);

#ifdef __cplusplus
}
#endif

#endif
