/* The library's calls by the numbers that they have in the list, as crates/replay/src/calls.rt has them. */
#include "lent.h"
#include "volankizo.h"

#define POLICY lent->policy.at, lent->policy.len
#define REQUEST lent->request.at, lent->request.len
#define RECORD REQUEST
#define BYTES lent->bytes.at, lent->bytes.len
#define SPACE lent->space.at, lent->space.len
#define OUT lent->out.at, lent->out.len

/* 1 to 5: the kernel's calls. */
static uint64_t kernel_call(uint8_t call, const struct lent *lent)
{
    switch (call) {
    case 1: return volankizo_prescribe(POLICY, REQUEST, BYTES, OUT);
    case 2: return volankizo_prescribe_checked(POLICY, REQUEST, BYTES, OUT);
    case 3: return volankizo_utility_for_model(POLICY, REQUEST, BYTES, lent->id, OUT);
    case 4: return volankizo_find(BYTES, lent->id, OUT);
    case 5: return volankizo_check_request(REQUEST);
    default: return UNKNOWN_CALL;
    }
}

/* 6 to 11, but for 9: those above it. */
static uint64_t call_above(uint8_t call, const struct lent *lent)
{
    switch (call) {
    case 6: return volankizo_explain(POLICY, REQUEST, BYTES, SPACE, OUT);
    case 7: return volankizo_next_eligible(BYTES, lent->place, OUT);
    case 8: return volankizo_validate(POLICY, BYTES);
    case 10: return volankizo_what_would_win(POLICY, REQUEST, BYTES, lent->id, OUT);
    case 11: return volankizo_decision_margin(POLICY, REQUEST, BYTES, OUT);
    default: return UNKNOWN_CALL;
    }
}

/* 12 to 19: a record's offset, the two forms, and what is printed. */
static uint64_t form_call(uint8_t call, const struct lent *lent)
{
    switch (call) {
    case 12: return volankizo_record_at(BYTES, lent->place, OUT);
    case 13: return volankizo_write_stored(POLICY, BYTES, OUT);
    case 14: return volankizo_read_stored(BYTES, SPACE, OUT);
    case 15: return volankizo_write_request(REQUEST, OUT);
    case 16: return volankizo_read_request(BYTES, OUT);
    case 17: return volankizo_unit_text(BYTES, OUT);
    case 18: return volankizo_ask_text(BYTES, lent->id, OUT);
    case 19: return volankizo_ask_words(BYTES, lent->id, OUT);
    default: return UNKNOWN_CALL;
    }
}

/* 20 to 26: those on the live records of a bank. */
static uint64_t live_call(uint8_t call, const struct lent *lent)
{
    switch (call) {
    case 20: return volankizo_live_prescribe(POLICY, REQUEST, BYTES, OUT);
    case 21: return volankizo_live_prescribe_checked(POLICY, REQUEST, BYTES, OUT);
    case 22: return volankizo_live_explain(POLICY, REQUEST, BYTES, SPACE, OUT);
    case 23: return volankizo_live_find(BYTES, lent->id, OUT);
    case 24: return volankizo_live_utility_for_model(POLICY, REQUEST, BYTES, lent->id, OUT);
    case 25: return volankizo_live_what_would_win(POLICY, REQUEST, BYTES, lent->id, OUT);
    case 26: return volankizo_live_decision_margin(POLICY, REQUEST, BYTES, OUT);
    default: return UNKNOWN_CALL;
    }
}

/* 9 and 27 to 30: those that change a bank in its place, and but for 9 the policy too. */
static uint64_t edit_call(uint8_t call, const struct lent *lent)
{
    switch (call) {
    case 9: return volankizo_trust(POLICY, SPACE);
    case 27: return volankizo_live_add(POLICY, SPACE, RECORD, OUT);
    case 28: return volankizo_live_replace(POLICY, SPACE, RECORD, OUT);
    case 29: return volankizo_live_remove(POLICY, SPACE, lent->id, OUT);
    case 30: return volankizo_live_compact(POLICY, SPACE, OUT);
    default: return UNKNOWN_CALL;
    }
}

/* 31 and 32: a row of requests, of which the count is told. */
static uint64_t batch_call(uint8_t call, const struct lent *lent)
{
    switch (call) {
    case 31: return volankizo_prescribe_batch(POLICY, REQUEST, lent->place, BYTES, OUT);
    case 32: return volankizo_prescribe_batch_checked(POLICY, REQUEST, lent->place, BYTES, OUT);
    default: return UNKNOWN_CALL;
    }
}

bool changes_bank(uint8_t call)
{
    return call == 9 || (27 <= call && call <= 30);
}

uint64_t called(uint8_t call, const struct lent *lent)
{
    if (changes_bank(call))
        return edit_call(call, lent);
    if (call <= 5)
        return kernel_call(call, lent);
    if (call <= 11)
        return call_above(call, lent);
    if (call <= 19)
        return form_call(call, lent);
    if (call <= 26)
        return live_call(call, lent);
    return batch_call(call, lent);
}

bool version_is_the_headers(void)
{
    return volankizo_version() == VOLANKIZO_VERSION;
}
