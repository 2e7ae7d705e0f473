/* Swaps models between two sentences: a bank of four slots is edited where it stands, decided before and after, compacted and stored. Given a
 * path, it also writes there the input that the program `unit` reads.
 *
 *     cc -std=c11 -Iinclude examples/c/swap.c target/staticlib/libvolankizo.a -o target/swap
 *     target/swap target/swap.input */
#include <inttypes.h>
#include <stdio.h>
#include <stdlib.h>
#include <string.h>

#include "volankizo.h"

/* A bank has as many slots as it has room for records; those that are all 0 are free. */
enum { SLOTS = 4, BANK_BYTES = SLOTS * VOLANKIZO_RECORD_BYTES };
enum { INPUT_BYTES = VOLANKIZO_STORED_FORM_BYTES(BANK_BYTES) + VOLANKIZO_REQUEST_FORM_BYTES };
/* Where a decision has what a compaction moves; see volankizo_prescribe. */
enum { PLACE_AT = 15, EPOCH_AT = 57 };

struct unit {
    uint8_t policy[VOLANKIZO_POLICY_BYTES];
    uint8_t bank[BANK_BYTES];
};

/* Writes a number, lowest byte first, and hands back where the next one goes. */
static uint8_t *put(uint8_t *at, int bytes, uint64_t number)
{
    for (; bytes > 0; bytes--, number >>= 8)
        *at++ = (uint8_t)number;
    return at;
}

static uint64_t get(const uint8_t *at, int bytes)
{
    uint64_t number = 0;
    while (bytes-- > 0)
        number = number << 8 | at[bytes];
    return number;
}

static int64_t get_signed(const uint8_t *at)
{
    uint64_t bits = get(at, 8);
    int64_t number;
    memcpy(&number, &bits, sizeof number);
    return number;
}

/* Ends the program where a call was refused; a refused edit has changed nothing. */
static void must(const char *call, uint64_t word)
{
    if (word == 0)
        return;
    fprintf(stderr, "%s: refused %u, field %u, value %u, id or place %" PRIu32 "\n", call, VOLANKIZO_NUMBER(word),
            VOLANKIZO_FIELD(word), VOLANKIZO_VALUE(word), VOLANKIZO_ID_OR_PLACE(word));
    exit(1);
}

static void put_policy(uint8_t policy[VOLANKIZO_POLICY_BYTES])
{
    uint8_t *at = put(policy, 8, 7); /* policy epoch */
    at = put(at, 8, 0);              /* catalogue epoch, which every edit raises */
    at = put(at, 2, 9000);           /* hard risk limit */
    at = put(at, 2, 2000);           /* minimum confidence */
    at = put(at, 2, 10000);          /* risk multiplier */
    put(at, 8, 10);                  /* latency penalty per ms */
}

static void put_model(uint8_t record[VOLANKIZO_RECORD_BYTES], uint32_t id, uint16_t quality, uint32_t latency, uint64_t input_price,
                      uint64_t output_price)
{
    uint8_t *at = put(record, 4, id);
    at = put(at, 2, 0); /* provider */
    at = put(at, 2, quality);
    at = put(at, 2, 8000); /* risk ceiling */
    at = put(at, 1, 1);    /* enabled */
    at = put(at, 4, latency);
    at = put(at, 8, 1); /* capabilities */
    at = put(at, 8, 1); /* regions */
    at = put(at, 8, input_price);
    put(at, 8, output_price);
}

static void put_request(uint8_t request[VOLANKIZO_REQUEST_BYTES], uint64_t sequence)
{
    uint8_t *at = put(request, 8, sequence);
    at = put(at, 4, 1);          /* requested model */
    at = put(at, 4, 100);        /* input tokens */
    at = put(at, 4, 100);        /* output tokens */
    at = put(at, 8, 10000);      /* value */
    at = put(at, 8, 5000);       /* budget */
    at = put(at, 2, 1000);       /* risk */
    at = put(at, 2, 10000);      /* confidence */
    at = put(at, 2, 5000);       /* minimum quality */
    at = put(at, 4, 0);          /* no latency limit */
    at = put(at, 8, 1);          /* required capabilities */
    at = put(at, 8, UINT64_MAX); /* every provider */
    put(at, 8, 0);               /* no region is required */
}

static void print_edit(const struct unit *unit, const char *edited, uint32_t id, const uint8_t slot[VOLANKIZO_EDIT_BYTES])
{
    printf("%s model %" PRIu32 ": slot %u, catalogue epoch %" PRIu64 "\n", edited, id, (unsigned)get(slot, VOLANKIZO_EDIT_BYTES),
           get(unit->policy + 8, 8));
}

static void add(struct unit *unit, const uint8_t record[VOLANKIZO_RECORD_BYTES])
{
    uint8_t slot[VOLANKIZO_EDIT_BYTES];
    must("live_add", volankizo_live_add(unit->policy, sizeof unit->policy, unit->bank, sizeof unit->bank, record, VOLANKIZO_RECORD_BYTES,
                                        slot, sizeof slot));
    print_edit(unit, "added", (uint32_t)get(record, 4), slot);
}

static void replace(struct unit *unit, const uint8_t record[VOLANKIZO_RECORD_BYTES])
{
    uint8_t slot[VOLANKIZO_EDIT_BYTES];
    must("live_replace", volankizo_live_replace(unit->policy, sizeof unit->policy, unit->bank, sizeof unit->bank, record,
                                                VOLANKIZO_RECORD_BYTES, slot, sizeof slot));
    print_edit(unit, "replaced", (uint32_t)get(record, 4), slot);
}

/* Withdrawn: the slot is free for the next model that is added. */
static void take_out(struct unit *unit, uint32_t id)
{
    uint8_t slot[VOLANKIZO_EDIT_BYTES];
    must("live_remove",
         volankizo_live_remove(unit->policy, sizeof unit->policy, unit->bank, sizeof unit->bank, id, slot, sizeof slot));
    print_edit(unit, "removed", id, slot);
}

/* Decides over the live records alone. */
static void decide(const struct unit *unit, const uint8_t request[VOLANKIZO_REQUEST_BYTES], uint8_t out[VOLANKIZO_DECISION_BYTES])
{
    must("live_prescribe", volankizo_live_prescribe(unit->policy, sizeof unit->policy, request, VOLANKIZO_REQUEST_BYTES, unit->bank,
                                                    sizeof unit->bank, out, VOLANKIZO_DECISION_BYTES));
    printf("sentence %" PRIu64 ": model %u at slot %u, cost %" PRIu64 ", utility %" PRId64 "; next best model %u; %u evaluated, catalogue epoch %"
           PRIu64 "\n",
           get(out, 8), (unsigned)get(out + 11, 4), (unsigned)get(out + PLACE_AT, 2), get(out + 17, 8), get_signed(out + 25),
           (unsigned)get(out + 33, 4), (unsigned)get(out + 45, 2), get(out + EPOCH_AT, 8));
}

/* Closes the gaps, and tells how many bytes the live records take: they stand first then. */
static size_t compact(struct unit *unit)
{
    uint8_t live[VOLANKIZO_EDIT_BYTES];
    must("live_compact", volankizo_live_compact(unit->policy, sizeof unit->policy, unit->bank, sizeof unit->bank, live, sizeof live));
    printf("compacted: %u of %d slots are live, catalogue epoch %" PRIu64 "\n", (unsigned)get(live, sizeof live), SLOTS,
           get(unit->policy + 8, 8));
    return get(live, sizeof live) * VOLANKIZO_RECORD_BYTES;
}

/* Whether two decisions are the same in every byte but those of the place and of the catalogue epoch. */
static int same_but_place_and_epoch(const uint8_t before[VOLANKIZO_DECISION_BYTES], const uint8_t after[VOLANKIZO_DECISION_BYTES])
{
    uint8_t moved[VOLANKIZO_DECISION_BYTES];
    memcpy(moved, after, sizeof moved);
    memcpy(moved + PLACE_AT, before + PLACE_AT, 2);
    memcpy(moved + EPOCH_AT, before + EPOCH_AT, 8);
    return memcmp(moved, before, sizeof moved) == 0;
}

/* The stored form of the live records alone, and the request form after it: the free slots after them would be models with id 0 to `unit`. */
static size_t put_input(const struct unit *unit, size_t live_bytes, const uint8_t *request, uint8_t input[INPUT_BYTES])
{
    size_t stored = VOLANKIZO_STORED_FORM_BYTES(live_bytes);
    /* Edits look at ids alone, so what is to serve is validated. */
    must("validate", volankizo_validate(unit->policy, sizeof unit->policy, unit->bank, live_bytes));
    must("write_stored", volankizo_write_stored(unit->policy, sizeof unit->policy, unit->bank, live_bytes, input, stored));
    must("write_request",
         volankizo_write_request(request, VOLANKIZO_REQUEST_BYTES, input + stored, VOLANKIZO_REQUEST_FORM_BYTES));
    printf("stored form of the live records: %zu bytes\n", stored);
    return stored + VOLANKIZO_REQUEST_FORM_BYTES;
}

static void write_file(const char *path, const uint8_t *input, size_t bytes)
{
    FILE *file = fopen(path, "wb");
    if (file == NULL || fwrite(input, 1, bytes, file) != bytes || fclose(file) != 0) {
        perror(path);
        exit(1);
    }
    printf("wrote %zu bytes for unit\n", bytes);
}

int main(int argc, char **argv)
{
    struct unit unit = {.bank = {0}};
    uint8_t model[VOLANKIZO_RECORD_BYTES], request[VOLANKIZO_REQUEST_BYTES], input[INPUT_BYTES];
    uint8_t before[VOLANKIZO_DECISION_BYTES], after[VOLANKIZO_DECISION_BYTES];

    put_policy(unit.policy);
    put_model(model, 1, 9000, 100, 3000000, 15000000);
    add(&unit, model);
    put_model(model, 2, 8000, 50, 1000000, 2000000);
    add(&unit, model);
    put_model(model, 3, 8500, 60, 2000000, 6000000);
    add(&unit, model);
    put_request(request, 42);
    decide(&unit, request, before);

    /* Between two sentences: 1 and 2 are withdrawn, 4 is new, 3 has another price. */
    take_out(&unit, 1);
    take_out(&unit, 2);
    put_model(model, 4, 9200, 80, 3000000, 10000000);
    add(&unit, model);
    put_model(model, 3, 8500, 60, 1000000, 4000000);
    replace(&unit, model);
    put_request(request, 43);
    decide(&unit, request, before);

    size_t live_bytes = compact(&unit);
    decide(&unit, request, after);
    if (!same_but_place_and_epoch(before, after)) {
        fprintf(stderr, "the compaction moved more than place and epoch\n");
        return 1;
    }
    printf("only place and catalogue epoch moved\n");

    size_t bytes = put_input(&unit, live_bytes, request, input);
    if (argc > 1)
        write_file(argv[1], input, bytes);
    return 0;
}
