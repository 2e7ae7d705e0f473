/* Makes one call of the library for Cortex-M on a long input, on a painted stack of its own, and prints the number that came back, the deepest byte of
 * stack that was touched, counted from the arguments down, and the timer's ticks. It is told `CALL RECORDS`. The calls `nothing` and `loop` are
 * its own, `within_64_bits` is a decision whose products fit 64 bits, and `one_request` is a batch of one in place of ten. The inputs are those of
 * bench/src/worst/inputs, but for two that take longer here: a compaction where the first slot alone is free, and a place beyond the bank. */
#include "board.h"
#include "volankizo.h"
#include <string.h>

enum { STACK = 1 << 14, PAINT = 0xa5, MOST = 1394, ROOM = 47 * MOST + 256, REQUESTS = 10, ALLOWANCE = 1 };
static uint8_t stack[STACK] __attribute__((aligned(8)));
static uint8_t policy[35], request[70], requests[70 * REQUESTS], bank[47 * MOST], record[47], list[72 * MOST], form[ROOM], out[ROOM];
static uint64_t policy_len = sizeof policy, bank_len, list_len, form_len;
static uint32_t id;

/* call_on(top, function, words, count): calls with the stack pointer at `top`, less the words that don't go over in four registers. */
uint64_t call_on(uint8_t *top, void *function, const uint32_t *words, uint32_t count);
__asm__(".syntax unified\n.thumb\n.text\n.globl call_on\n.type call_on, %function\ncall_on:\n"
        "push {r4, r5, r6, r7, r8, lr}\nmov r4, sp\nmov r5, r1\nsubs r3, #4\nsub.w r0, r0, r3, lsl #2\nmov r6, r0\nadd.w r7, r2, #16\n"
        "1: cbz r3, 2f\nldr r8, [r7], #4\nstr r8, [r6], #4\nsubs r3, #1\nb 1b\n"
        "2: mov sp, r0\nldmia r2, {r0, r1, r2, r3}\nblx r5\nmov sp, r4\npop {r4, r5, r6, r7, r8, pc}\n");

static uint32_t words[24], count;

static void word(uint32_t value) { words[count++] = value; }

/* A number of 64 bits begins at an even word. */
static void number(uint64_t value) {
  count += count & 1;
  word((uint32_t)value);
  word((uint32_t)(value >> 32));
}

static void slice(void *bytes, uint64_t length) {
  word((uint32_t)bytes);
  number(length);
}

static void put(uint8_t *at, uint64_t value, int bytes) {
  for (int i = 0; i < bytes; i++) at[i] = (uint8_t)(value >> 8 * i);
}

static void model(uint8_t *at, uint32_t number) {
  memset(at, 0xff, 47);
  put(at, number, 4), put(at + 4, 63, 2), put(at + 6, 1, 2), put(at + 8, 10000, 2), put(at + 10, 1, 1), put(at + 11, ALLOWANCE, 4);
  put(at + 31, (1ull << 40) - 1, 8), put(at + 39, 1ull << 40, 8);
}

static void settle(uint64_t penalty) {
  put(policy, ~0ull, 8), put(policy + 8, ~0ull - 1, 8), put(policy + 16, 10000, 2), put(policy + 18, 0, 2), put(policy + 20, 0, 2);
  put(policy + 22, penalty, 8), put(policy + 30, 0, 1), put(policy + 31, ALLOWANCE, 4);
  memset(request, 0xff, 70);
  put(request + 12, 1000000, 4), put(request + 16, 1000000, 4), put(request + 20, 2000000000000000000ull, 8);
  put(request + 36, 1, 2), put(request + 38, 10000, 2), put(request + 40, 0, 2);
}

/* Ids: the lowest first, the others falling; or all falling, with the highest one twice. */
static void make_bank(uint32_t n, int twice) {
  for (uint32_t i = 0; i < n; i++) model(bank + 47 * i, twice ? (i == 1 ? n : n - i) : i == 0 ? 1 : n + 1 - i);
  bank_len = 47 * n, list_len = 72 * n, id = twice ? 1 : n == 1 ? 1 : 2;
}

/* The chosen one stands last but one, so that it is found late. */
static void chosen_late(uint32_t n) {
  for (uint32_t i = 0; i < n; i++) put(bank + 47 * i, i == 0 ? 2 : i + 2 == n ? 1 : i + 1 == n ? 3 : n + 1 - i, 4);
  id = 3;
}

static void last_chosen(uint32_t n, uint16_t most, uint16_t others) {
  uint8_t *last = bank + 47 * (n - 1);
  settle(4000000000ull);
  for (uint32_t i = 0; i + 1 < n; i++) put(bank + 47 * i + 6, others, 2);
  put(last + 6, most, 2), put(last + 8, most, 2), put(last + 11, 0, 4), put(last + 39, 20501000000000000ull, 8);
}

static void last_outranked(uint32_t n) {
  uint8_t *last = bank + 47 * (n - 1);
  settle(30000);
  put(last + 6, 2, 2), put(last + 11, 0xffffffff, 4), put(last + 39, 130000000000000ull, 8);
}

/* Ids that rise but for the last one, every model off. */
static void rising_but_last(uint32_t n) {
  for (uint32_t i = 0; i < n; i++) put(bank + 47 * i, i + 1 == n ? 1 : i + 2, 4), bank[47 * i + 10] = 0;
}

/* Beside the bank: the fields of tags 1, 2, of tag 4 where the policy rounds once, and of tag 5. */
static void make_form(int with_request) {
  if (volankizo_write_stored(policy, policy_len, bank, bank_len, form, sizeof form)) leave();
  form_len = bank_len + 33 + 3 + (policy[30] ? 4 : 0) + 7;
  if (with_request && volankizo_write_request(request, 70, form + form_len, 73)) leave();
  if (with_request) form_len += 73;
}

static void all_free(uint32_t but) {
  for (uint64_t i = 0; i < bank_len / 47; i++)
    if (i + 1 != but) memset(bank + 47 * i, 0, 47);
}

static void three(void) { slice(policy, policy_len), slice(request, 70), slice(bank, bank_len); }
static void answer(void) { slice(out, sizeof out); }

/* A batch over the bank, of the same request so many times. */
static void row(uint32_t many) {
  for (uint32_t i = 0; i < many; i++) memcpy(requests + 70 * i, request, 70);
  slice(policy, policy_len), slice(requests, 70 * many), number(many), slice(bank, bank_len), answer();
}

/* Products that fit 64 bits, every record eligible all the same. */
static void within_64_bits(uint32_t n) {
  put(request + 20, 1ull << 33, 8);
  for (uint32_t i = 0; i < n; i++) put(bank + 47 * i + 6, 10000, 2), put(bank + 47 * i + 31, 1, 8), put(bank + 47 * i + 39, 1, 8);
}

/* Makes the call's input and its arguments, and tells the function. */
static void *prepared(const char *name, uint32_t n) {
#define CALL(x) (void *)volankizo_##x
#define IS(x) (!strcmp(name, "volankizo_" #x))
#define DECIDES(x) if (IS(x)) return three(), answer(), CALL(x)
#define ASKS(x) if (IS(x)) return three(), word(id), answer(), CALL(x)
#define LISTS(x) if (IS(x)) return three(), slice(list, list_len), answer(), CALL(x)
#define BOUNDS(x) if (IS(x)) return last_chosen(n, 65535, 32767), three(), answer(), CALL(x)
#define WINS(x) if (IS(x)) return last_outranked(n), three(), word(id), answer(), CALL(x)
#define PRINTS(x) if (IS(x)) return last_outranked(n), make_form(1), slice(form, form_len), word(id), answer(), CALL(x)
#define BATCHES(x) if (IS(x)) return row(REQUESTS), CALL(x)
#define EDITS(x, free) if (IS(x)) return all_free(free), slice(policy, policy_len), slice(bank, bank_len), slice(record, 47), answer(), CALL(x)
  DECIDES(prescribe); DECIDES(prescribe_checked); DECIDES(live_prescribe); DECIDES(live_prescribe_checked);
  BATCHES(prescribe_batch); BATCHES(prescribe_batch_checked);
  ASKS(utility_for_model);
  LISTS(explain); LISTS(live_explain);
  BOUNDS(decision_margin); BOUNDS(live_decision_margin);
  WINS(what_would_win); WINS(live_what_would_win);
  PRINTS(ask_text);
  if (IS(ask_words)) chosen_late(n);
  PRINTS(ask_words);
  if (IS(version)) return CALL(version);
  if (IS(unit_text)) return last_chosen(n, 10000, 3000), make_form(1), slice(form, form_len), answer(), CALL(unit_text);
  if (IS(find)) return slice(bank, bank_len), word(~0u), answer(), CALL(find);
  if (IS(live_find)) return all_free(0), slice(bank, bank_len), word(~0u), answer(), CALL(live_find);
  if (IS(live_utility_for_model)) return all_free(n), three(), word(id), answer(), CALL(live_utility_for_model);
  if (IS(check_request)) return put(request + 40, 10001, 2), slice(request, 70), CALL(check_request);
  if (IS(next_eligible)) return slice(list, list_len), number(0), answer(), CALL(next_eligible);
  if (IS(validate)) return rising_but_last(n), slice(policy, policy_len), slice(bank, bank_len), CALL(validate);
  if (IS(trust)) return make_bank(n, 1), slice(policy, policy_len), slice(bank, bank_len), CALL(trust);
  if (IS(record_at)) return slice(bank, bank_len), number(n), answer(), CALL(record_at);
  if (IS(write_stored)) return policy[30] = 1, slice(policy, policy_len), slice(bank, bank_len), answer(), CALL(write_stored);
  if (IS(read_stored)) return policy[30] = 1, make_form(0), slice(form, form_len), slice(bank, bank_len), answer(), CALL(read_stored);
  if (IS(write_request)) return slice(request, 70), answer(), CALL(write_request);
  if (IS(read_request)) return volankizo_write_request(request, 70, form, 73), slice(form, 73), answer(), CALL(read_request);
  if (IS(live_remove)) return all_free(0), slice(policy, policy_len), slice(bank, bank_len), word(~0u), answer(), CALL(live_remove);
  if (IS(live_compact)) return memset(bank, 0, 47), slice(policy, policy_len), slice(bank, bank_len), answer(), CALL(live_compact);
  EDITS(live_add, 0);
  put(record, id, 4);
  EDITS(live_replace, n);
  return NULL;
}

uint64_t nothing(void) { return 0; }

/* Two instructions, a thousand times for each record: what a tick of the timer is can be told by it. */
uint64_t loop(uint32_t turns);
__asm__(".syntax unified\n.thumb\n.text\n.globl loop\n.type loop, %function\nloop: subs r0, #1\nbne loop\nbx lr\n");

static void *function_for(const char *name, uint32_t n) {
  if (!strcmp(name, "nothing")) return (void *)nothing;
  if (!strcmp(name, "loop")) return word(1000 * n), (void *)loop;
  if (!strcmp(name, "within_64_bits")) return within_64_bits(n), prepared("volankizo_prescribe", n);
  if (!strcmp(name, "one_request")) return row(1), (void *)volankizo_prescribe_batch;
  return prepared(name, n);
}

static uint32_t read_number(const char *text) {
  uint32_t number = 0;
  while (*text >= '0' && *text <= '9') number = 10 * number + (uint32_t)(*text++ - '0');
  return number;
}

void run(void) {
  char told[96], *records;
  told_words(told, sizeof told);
  if (!(records = strchr(told, ' '))) return;
  *records++ = 0;
  uint32_t n = read_number(records);
  if (n < 3 || n > MOST) return;
  settle(1), make_bank(n, 0), model(record, ~0u);
  void *function = function_for(told, n);
  if (!function) return;
  if (count < 4) count = 4;
  memset(stack, PAINT, STACK);
  start_timer();
  uint64_t back = call_on(stack + STACK, function, words, count);
  uint32_t took = ticks(), lowest = 0, arguments = STACK - 4 * (count - 4);
  while (lowest < arguments && stack[lowest] == PAINT) lowest++;
  say_number(back & 0xff), say(" "), say_number(arguments - lowest), say(" "), say_number(took), say("\n");
}
