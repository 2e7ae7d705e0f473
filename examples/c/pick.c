/* Picks a model for one request: the worked example, from its numbers to its answers. Given a path, it also writes there the input
 * that the program `unit` reads.
 *
 *     cc -std=c11 -Iinclude examples/c/pick.c target/staticlib/libvolankizo.a -o target/pick
 *     target/pick target/pick.input */
#include <inttypes.h>
#include <stdio.h>
#include <stdlib.h>
#include <string.h>

#include "volankizo.h"

enum { MODELS = 2, BANK_BYTES = MODELS * VOLANKIZO_RECORD_BYTES, LIST_BYTES = MODELS * VOLANKIZO_EXPLANATION_BYTES };
/* The policy of `write_input` rounds apart and has no allowance; one that rounds once takes VOLANKIZO_ROUNDING_FIELD_BYTES more, and one with an
 * allowance VOLANKIZO_ALLOWANCE_FIELD_BYTES. */
enum { STORED_BYTES = VOLANKIZO_STORED_FORM_BYTES(BANK_BYTES), INPUT_BYTES = STORED_BYTES + VOLANKIZO_REQUEST_FORM_BYTES };

/* Writes a number, lowest byte first, and hands back where the next one goes. */
static uint8_t *put(uint8_t *at, int bytes, uint64_t number)
{
    for (; bytes > 0; bytes--, number >>= 8)
        *at++ = (uint8_t)number;
    return at;
}

static uint64_t get(const uint8_t *at, int bytes)
{
    uint64_t number = 0;
    while (bytes-- > 0)
        number = number << 8 | at[bytes];
    return number;
}

static int64_t get_signed(const uint8_t *at)
{
    uint64_t bits = get(at, 8);
    int64_t number;
    memcpy(&number, &bits, sizeof number);
    return number;
}

/* Ends the program where a call was refused. */
static void must(const char *call, uint64_t word)
{
    if (word == 0)
        return;
    fprintf(stderr, "%s: refused %u, field %u, value %u, id or place %" PRIu32 "\n", call, VOLANKIZO_NUMBER(word),
            VOLANKIZO_FIELD(word), VOLANKIZO_VALUE(word), VOLANKIZO_ID_OR_PLACE(word));
    exit(1);
}

/* The allowance may be left out, and how it rounds with it: 30 bytes are a policy that rounds apart, with no millisecond free. */
static void put_policy(uint8_t policy[VOLANKIZO_LONGEST_POLICY_BYTES], uint8_t rounding, uint32_t allowance)
{
    uint8_t *at = put(policy, 8, 7); /* policy epoch */
    at = put(at, 8, 3);              /* catalogue epoch */
    at = put(at, 2, 9000);           /* hard risk limit */
    at = put(at, 2, 2000);           /* minimum confidence */
    at = put(at, 2, 10000);          /* risk multiplier */
    at = put(at, 8, 10);             /* latency penalty per ms */
    at = put(at, 1, rounding);
    put(at, 4, allowance);
}

static uint8_t *put_model(uint8_t *at, uint32_t id, uint16_t provider, uint16_t quality, uint32_t latency, uint64_t capabilities,
                          uint64_t input_price, uint64_t output_price)
{
    at = put(at, 4, id);
    at = put(at, 2, provider);
    at = put(at, 2, quality);
    at = put(at, 2, 8000); /* risk ceiling */
    at = put(at, 1, 1);    /* enabled */
    at = put(at, 4, latency);
    at = put(at, 8, capabilities);
    at = put(at, 8, 1); /* regions */
    at = put(at, 8, input_price);
    return put(at, 8, output_price);
}

static void put_request(uint8_t request[VOLANKIZO_REQUEST_BYTES])
{
    uint8_t *at = put(request, 8, 42); /* sequence */
    at = put(at, 4, 1);                /* requested model */
    at = put(at, 4, 100);              /* input tokens */
    at = put(at, 4, 100);              /* output tokens */
    at = put(at, 8, 10000);            /* value */
    at = put(at, 8, 5000);             /* budget */
    at = put(at, 2, 1000);             /* risk */
    at = put(at, 2, 10000);            /* confidence */
    at = put(at, 2, 5000);             /* minimum quality */
    at = put(at, 4, 0);                /* no latency limit */
    at = put(at, 8, 1);                /* required capabilities */
    at = put(at, 8, UINT64_MAX);       /* every provider */
    put(at, 8, 0);                     /* no region is required */
}

static void print_decision(const uint8_t *out)
{
    printf("request %" PRIu64 ": action %u, reason %u, model %u at place %u, cost %" PRIu64 ", utility %" PRId64
           "; next best model %u, utility %" PRId64 "\n",
           get(out, 8), (unsigned)get(out + 8, 1), (unsigned)get(out + 9, 2), (unsigned)get(out + 11, 4),
           (unsigned)get(out + 15, 2), get(out + 17, 8), get_signed(out + 25), (unsigned)get(out + 33, 4), get_signed(out + 37));
}

/* A term has 16 bytes; those of this example fit in eight. */
static void print_entry(const uint8_t *entry)
{
    printf("model %u at place %u: ", (unsigned)get(entry, 4), (unsigned)get(entry + 4, 2));
    switch (entry[6]) {
    case 1:
        printf("stopped by gate %u: measured %" PRIu64 ", limit %" PRIu64 "\n", entry[7], get(entry + 8, 8), get(entry + 24, 8));
        break;
    case 2:
        printf("over budget: cost %" PRIu64 ", budget %" PRIu64 "\n", get(entry + 8, 8), get(entry + 24, 8));
        break;
    case 3:
        printf("not worth it: utility %" PRId64 "\n", get_signed(entry + 64));
        break;
    default:
        printf("eligible: quality %" PRIu64 " - risk %" PRIu64 " - cost %" PRIu64 " - latency %" PRIu64 " = utility %" PRId64 "\n",
               get(entry + 8, 8), get(entry + 24, 8), get(entry + 40, 8), get(entry + 48, 8), get_signed(entry + 64));
    }
}

static void print_levers(const uint8_t *out)
{
    printf("model %u would win by %u of its levers alone (%" PRIu64 " passes)\n", (unsigned)get(out + 65, 4), out[70],
           get(out + 71, 8));
    for (const uint8_t *room = out + 79; room < out + 79 + 26 * out[70]; room += 26) {
        printf("lever %u at %" PRIu64 " instead of %" PRIu64, room[0], get(room + 9, 8), get(room + 1, 8));
        if (room[17])
            printf(", cost %" PRIu64, get(room + 18, 8));
        printf("\n");
    }
}

/* The input of `unit` and `ask`: the stored form of policy and bank, and the request form after it. */
static void write_input(const char *path, const uint8_t *policy, const uint8_t *bank, const uint8_t *request)
{
    uint8_t input[INPUT_BYTES];
    must("write_stored",
         volankizo_write_stored(policy, VOLANKIZO_LONGEST_POLICY_BYTES, bank, BANK_BYTES, input, STORED_BYTES));
    must("write_request", volankizo_write_request(request, VOLANKIZO_REQUEST_BYTES, input + STORED_BYTES,
                                                  VOLANKIZO_REQUEST_FORM_BYTES));
    FILE *file = fopen(path, "wb");
    if (file == NULL || fwrite(input, 1, sizeof input, file) != sizeof input || fclose(file) != 0) {
        perror(path);
        exit(1);
    }
    printf("wrote %zu bytes for unit\n", sizeof input);
}

int main(int argc, char **argv)
{
    uint8_t policy[VOLANKIZO_LONGEST_POLICY_BYTES], once[VOLANKIZO_LONGEST_POLICY_BYTES], free_200[VOLANKIZO_LONGEST_POLICY_BYTES];
    uint8_t bank[BANK_BYTES], request[VOLANKIZO_REQUEST_BYTES];
    uint8_t decision[VOLANKIZO_DECISION_BYTES], list[LIST_BYTES], boundary[VOLANKIZO_BOUNDARY_BYTES];

    put_policy(policy, VOLANKIZO_ROUNDS_APART, VOLANKIZO_NO_ALLOWANCE);
    put_policy(once, VOLANKIZO_ROUNDS_ONCE, VOLANKIZO_NO_ALLOWANCE);
    put_policy(free_200, VOLANKIZO_ROUNDS_APART, 200);
    put_request(request);
    /* In any order: trusting puts the bank in the order of the ids, and refuses what may not serve. */
    uint8_t *next = put_model(bank, 2, 1, 8000, 50, 1, 1000000, 2000000);
    put_model(next, 1, 0, 9000, 100, 3, 3000000, 15000000);
    must("trust", volankizo_trust(policy, sizeof policy, bank, sizeof bank));

    must("prescribe_checked", volankizo_prescribe_checked(policy, sizeof policy, request, sizeof request, bank, sizeof bank,
                                                          decision, sizeof decision));
    print_decision(decision);

    must("explain", volankizo_explain(policy, sizeof policy, request, sizeof request, bank, sizeof bank, list, sizeof list,
                                      decision, sizeof decision));
    /* An entry for each model that was evaluated: none where the request itself is stopped. */
    for (unsigned place = 0; place < get(decision + 45, 2); place++)
        print_entry(list + place * VOLANKIZO_EXPLANATION_BYTES);

    must("what_would_win", volankizo_what_would_win(policy, sizeof policy, request, sizeof request, bank, sizeof bank, 1,
                                                    boundary, sizeof boundary));
    print_levers(boundary);
    /* The same under a policy that adds what input and output cost before it rounds up. */
    must("what_would_win", volankizo_what_would_win(once, sizeof once, request, sizeof request, bank, sizeof bank, 1, boundary,
                                                    sizeof boundary));
    printf("with the cost rounded up once, in place of input and output apart:\n");
    print_levers(boundary);
    /* And under one by which the first 200 ms of each latency are free. */
    must("what_would_win", volankizo_what_would_win(free_200, sizeof free_200, request, sizeof request, bank, sizeof bank, 1, boundary,
                                                    sizeof boundary));
    printf("with 200 ms of each latency free:\n");
    print_levers(boundary);

    if (argc > 1)
        write_input(argv[1], policy, bank, request);
    return 0;
}
