/* Replays the list of questions and owed answers that crates/replay runs, on the processor that this is compiled for.
 *
 * An entry: who told the answer (1 the Rust, 2 a second reading of the rules, 3 both), the call's number, the id, place or count that it takes (8
 * bytes), five lengths of two bytes, the policy, the request, a row of them or the record that is offered, the bytes that are read, the word that
 * is owed, and the policy, the space and the buffer as they are owed after the call.
 *
 * Every call is made eight times, with what is lent at every place from one multiple of eight bytes to the next. The list is run twice: as it is,
 * when no answer may differ, and with one owed byte of every entry changed, when every answer must: so that each comparison is seen to fail where
 * it has to. */
#include <string.h>

#include "lent.h"
#include "machine.h"

extern uint8_t list_start[], list_end[];

/* FILL stands in a room before the call, and around what is lent, GUARD_BYTES after it among that, also afterwards. */
enum { HEADER_BYTES = 20, WORD_BYTES = 8, ROOM_BYTES = 65535, GUARD_BYTES = 64, FILL = 165 };
enum { BY_RUST = 1, BY_SECOND = 2, BY_BOTH = 3, TELLERS = 4 };
/* So many differences are told by their place; of the others there is the count alone. */
enum { TOLD_DIFFERENCES = 10 };

/* A room begins at a multiple of SHIFTS, and what is lent in it at every place from there to the next. */
enum { SHIFTS = 8, WHOLE_ROOM_BYTES = SHIFTS + ROOM_BYTES + GUARD_BYTES };
#define ROOM static _Alignas(SHIFTS) uint8_t
ROOM policy_room[WHOLE_ROOM_BYTES];
ROOM request_room[WHOLE_ROOM_BYTES];
ROOM bytes_room[WHOLE_ROOM_BYTES];
ROOM space_room[WHOLE_ROOM_BYTES];
ROOM out_room[WHOLE_ROOM_BYTES];

struct entry {
    uint8_t teller, call;
    struct lent lent;
    const uint8_t *owed;
    uint8_t *end;
};

struct counts {
    unsigned answers, different, by[TELLERS];
    bool whole;
};

static uint64_t number_at(const uint8_t *at, int bytes)
{
    uint64_t number = 0;
    while (bytes-- > 0)
        number = number << 8 | at[bytes];
    return number;
}

static void say_number(unsigned number)
{
    char digits[11], *at = digits + sizeof digits;
    *--at = 0;
    do
        *--at = (char)('0' + number % 10);
    while ((number /= 10) != 0);
    say(at);
}

static void say_counted(const char *before, unsigned number)
{
    say(before);
    say_number(number);
}

/* The parts of the entry that begins at a place; false where the list ends within it. */
static bool entry_at(uint8_t *at, struct entry *entry)
{
    if (list_end - at < HEADER_BYTES)
        return false;
    struct lent *lent = &entry->lent;
    entry->teller = at[0];
    entry->call = at[1];
    lent->id = (uint32_t)number_at(at + 2, 4);
    lent->place = number_at(at + 2, 8);
    struct slice *parts[] = {&lent->policy, &lent->request, &lent->bytes, &lent->space, &lent->out};
    for (int part = 0; part < 5; part++)
        parts[part]->len = number_at(at + 10 + 2 * part, 2);
    uint64_t read = lent->policy.len + lent->request.len + lent->bytes.len;
    uint64_t owed = WORD_BYTES + lent->policy.len + lent->space.len + lent->out.len;
    if ((uint64_t)(list_end - at) < HEADER_BYTES + read + owed)
        return false;
    lent->policy.at = at + HEADER_BYTES;
    lent->request.at = lent->policy.at + lent->policy.len;
    lent->bytes.at = lent->request.at + lent->request.len;
    entry->owed = lent->bytes.at + lent->bytes.len;
    entry->end = at + HEADER_BYTES + read + owed;
    return true;
}

/* A slice moved to a room that is filled, so many bytes after its start, with a copy of some bytes where there are any. */
static void lend(struct slice *slice, uint8_t *room, unsigned shift, const uint8_t *bytes)
{
    memset(room, FILL, shift + slice->len + GUARD_BYTES);
    slice->at = room + shift;
    if (bytes != NULL)
        memcpy(slice->at, bytes, slice->len);
}

/* Whether a slice is as it is owed, and neither the bytes before it in its room nor those after it have changed. */
static bool as_owed(const struct slice *slice, unsigned shift, const uint8_t *owed)
{
    for (unsigned place = 1; place <= shift; place++)
        if (*(slice->at - place) != FILL)
            return false;
    for (unsigned place = 0; place < GUARD_BYTES; place++)
        if (slice->at[slice->len + place] != FILL)
            return false;
    return memcmp(slice->at, owed, slice->len) == 0;
}

/* Whether an entry's call answers as it owes with every slice so many bytes after the start of its room: the word, and every lent byte. */
static bool answers_at(const struct entry *entry, unsigned shift)
{
    const struct lent *listed = &entry->lent;
    struct lent lent = *listed;
    lend(&lent.policy, policy_room, shift, listed->policy.at);
    lend(&lent.request, request_room, shift, listed->request.at);
    lend(&lent.bytes, bytes_room, shift, listed->bytes.at);
    lend(&lent.space, space_room, shift, changes_bank(entry->call) ? listed->bytes.at : NULL);
    lend(&lent.out, out_room, shift, NULL);
    uint64_t word = called(entry->call, &lent);
    const uint8_t *policy = entry->owed + WORD_BYTES, *space = policy + lent.policy.len, *out = space + lent.space.len;
    return word != UNKNOWN_CALL && word == number_at(entry->owed, WORD_BYTES) && as_owed(&lent.policy, shift, policy) &&
           as_owed(&lent.request, shift, listed->request.at) && as_owed(&lent.bytes, shift, listed->bytes.at) &&
           as_owed(&lent.space, shift, space) && as_owed(&lent.out, shift, out);
}

/* Whether it does so wherever the slices begin, since a processor may load a word from some addresses and not from others. */
static bool answers_as_owed(const struct entry *entry)
{
    if (changes_bank(entry->call) && entry->lent.bytes.len != entry->lent.space.len)
        return false;
    for (unsigned shift = 0; shift < SHIFTS; shift++)
        if (!answers_at(entry, shift))
            return false;
    return true;
}

static void say_difference(unsigned answer, uint8_t call)
{
    say_counted("answer ", answer);
    say_counted(", of call ", call);
    say(", differs\n");
}

/* The whole list; with `told`, the first differences by their places. */
static struct counts replayed(bool told)
{
    struct counts counts = {0};
    struct entry entry;
    uint8_t *at = list_start;
    for (; at < list_end && entry_at(at, &entry); at = entry.end) {
        counts.answers++;
        if (entry.teller < TELLERS)
            counts.by[entry.teller]++;
        if (answers_as_owed(&entry))
            continue;
        if (told && counts.different < TOLD_DIFFERENCES)
            say_difference(counts.answers, entry.call);
        counts.different++;
    }
    counts.whole = at == list_end;
    return counts;
}

/* The last byte of an entry is owed: of the buffer, or of what stands before it where that is empty. */
static void change_what_is_owed(void)
{
    struct entry entry;
    for (uint8_t *at = list_start; at < list_end && entry_at(at, &entry); at = entry.end)
        entry.end[-1] ^= 1;
}

int main(void)
{
    struct counts counts = replayed(true);
    say_number(counts.answers);
    say_counted(" answers, ", counts.different);
    say_counted(" differ; told by the Rust ", counts.by[BY_RUST]);
    say_counted(", by the second reading ", counts.by[BY_SECOND]);
    say_counted(", by both ", counts.by[BY_BOTH]);
    say(counts.whole ? "\n" : "\nthe list is cut short\n");
    change_what_is_owed();
    struct counts changed = replayed(false);
    say_counted("with a byte of each changed, ", changed.different);
    say(" differ\n");
    if (!version_is_the_headers())
        say("volankizo_version tells another version than the header\n");
    return !(counts.different == 0 && counts.whole && changed.different == counts.answers && version_is_the_headers());
}
