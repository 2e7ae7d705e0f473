/* Calls the library: reads questions from standard input, and writes back the word that comes back and the memory as it then is.
 *
 * A program of its own, since the archive is for x86-64 alone: on another processor this program runs under the kit's emulator,
 * and the Rust beside it as it is. A fault in the library ends this program, and the comparison can say on which case.
 * It uses no C library and no header, so the kit's compiler is all that it needs.
 *
 * A question: struct question, then its memory. An answer: the word (8 bytes), then the memory. Answers are kept until no question is
 * left that was sent already, so that many can be sent and read together. */

typedef __UINT64_TYPE__ u64;

enum { NAME = 32, MOST_ARGUMENTS = 12, PAGE = 4096 };
/* Room for the largest bank with an answer for each of its records. */
#define ARENA (32ul << 20)

struct question {
    char name[NAME];
    struct {
        u64 is_offset; /* into the memory: the argument is that address */
        u64 number;
    } arguments[MOST_ARGUMENTS];
    u64 memory_bytes;
};

/* Every exported function takes numbers and addresses and hands back a u64. The system's convention lets a caller pass more of
 * them than are taken, so all are called alike. */
typedef u64 exported(u64, u64, u64, u64, u64, u64, u64, u64, u64, u64, u64, u64);

exported volankizo_prescribe, volankizo_prescribe_checked, volankizo_utility_for_model, volankizo_find, volankizo_check_request,
    volankizo_explain, volankizo_next_eligible, volankizo_validate, volankizo_trust, volankizo_what_would_win, volankizo_decision_margin,
    volankizo_record_at, volankizo_write_stored, volankizo_read_stored, volankizo_write_request, volankizo_read_request,
    volankizo_unit_text, volankizo_ask_text, volankizo_ask_words, volankizo_live_prescribe, volankizo_live_prescribe_checked,
    volankizo_live_explain, volankizo_live_find, volankizo_live_utility_for_model, volankizo_live_what_would_win,
    volankizo_live_decision_margin, volankizo_live_add, volankizo_live_replace, volankizo_live_remove, volankizo_live_compact,
    volankizo_prescribe_batch, volankizo_prescribe_batch_checked;

static const struct {
    const char *name;
    exported *function;
} calls[] = {
    {"prescribe", volankizo_prescribe},
    {"prescribe_checked", volankizo_prescribe_checked},
    {"utility_for_model", volankizo_utility_for_model},
    {"find", volankizo_find},
    {"check_request", volankizo_check_request},
    {"explain", volankizo_explain},
    {"next_eligible", volankizo_next_eligible},
    {"validate", volankizo_validate},
    {"trust", volankizo_trust},
    {"what_would_win", volankizo_what_would_win},
    {"decision_margin", volankizo_decision_margin},
    {"record_at", volankizo_record_at},
    {"write_stored", volankizo_write_stored},
    {"read_stored", volankizo_read_stored},
    {"write_request", volankizo_write_request},
    {"read_request", volankizo_read_request},
    {"unit_text", volankizo_unit_text},
    {"ask_text", volankizo_ask_text},
    {"ask_words", volankizo_ask_words},
    {"live_prescribe", volankizo_live_prescribe},
    {"live_prescribe_checked", volankizo_live_prescribe_checked},
    {"live_explain", volankizo_live_explain},
    {"live_find", volankizo_live_find},
    {"live_utility_for_model", volankizo_live_utility_for_model},
    {"live_what_would_win", volankizo_live_what_would_win},
    {"live_decision_margin", volankizo_live_decision_margin},
    {"live_add", volankizo_live_add},
    {"live_replace", volankizo_live_replace},
    {"live_remove", volankizo_live_remove},
    {"live_compact", volankizo_live_compact},
    {"prescribe_batch", volankizo_prescribe_batch},
    {"prescribe_batch_checked", volankizo_prescribe_batch_checked},
};

enum { SYS_READ = 0, SYS_WRITE = 1, SYS_MMAP = 9, SYS_MPROTECT = 10, SYS_EXIT = 60 };

static long system_call(long number, u64 a, u64 b, u64 c, u64 d, u64 e, u64 f)
{
    long result;
    register u64 r10 __asm__("r10") = d;
    register u64 r8 __asm__("r8") = e;
    register u64 r9 __asm__("r9") = f;
    __asm__ volatile("syscall"
                     : "=a"(result)
                     : "a"(number), "D"(a), "S"(b), "d"(c), "r"(r10), "r"(r8), "r"(r9)
                     : "rcx", "r11", "memory");
    return result;
}

static _Noreturn void leave(int code)
{
    for (;;)
        system_call(SYS_EXIT, code, 0, 0, 0, 0, 0);
}

/* Questions that were read and not yet asked, and answers that were not yet sent. */
enum { TOGETHER = 1 << 16 };
static char questions[TOGETHER], answers[TOGETHER];
static u64 asked, got, answered;

static void copy(char *to, const char *from, u64 bytes)
{
    __asm__ volatile("rep movsb" : "+D"(to), "+S"(from), "+c"(bytes) : : "memory");
}

static void send(const char *from, u64 bytes)
{
    for (u64 sent = 0; sent < bytes;) {
        long n = system_call(SYS_WRITE, 1, (u64)from + sent, bytes - sent, 0, 0, 0);
        if (n <= 0)
            leave(2);
        sent += n;
    }
}

static void send_answers(void)
{
    send(answers, answered);
    answered = 0;
}

/* Reads what there is, after what is owed was sent. No more input is the end, and is good only where a question would begin. */
static u64 more(char *to, u64 most, int may_end)
{
    send_answers();
    long n = system_call(SYS_READ, 0, (u64)to, most, 0, 0, 0);
    if (n <= 0)
        leave(n == 0 && may_end ? 0 : 2);
    return n;
}

/* Fills the buffer. A long rest is read to where it goes. */
static void take(void *to, u64 bytes, int may_end)
{
    for (u64 had = 0; had < bytes;) {
        u64 left = bytes - had;
        if (asked == got && left >= TOGETHER) {
            had += more((char *)to + had, left, 0);
            continue;
        }
        if (asked == got) {
            got = more(questions, TOGETHER, may_end && had == 0);
            asked = 0;
        }
        u64 some = got - asked < left ? got - asked : left;
        copy((char *)to + had, questions + asked, some);
        asked += some;
        had += some;
    }
}

static void give(const void *from, u64 bytes)
{
    if (answered + bytes > TOGETHER)
        send_answers();
    if (bytes > TOGETHER) {
        send(from, bytes);
        return;
    }
    copy(answers + answered, from, bytes);
    answered += bytes;
}

/* The end of the memory lent: what follows cannot be read or written, so that a step too far is a fault. */
static char *arena_end(void)
{
    enum { NONE = 0, READ_WRITE = 3, PRIVATE_ANONYMOUS = 0x22 };
    long start = system_call(SYS_MMAP, 0, ARENA + PAGE, READ_WRITE, PRIVATE_ANONYMOUS, -1, 0);
    if (start < 0 && start > -PAGE)
        leave(2);
    if (system_call(SYS_MPROTECT, start + ARENA, PAGE, NONE, 0, 0, 0) != 0)
        leave(2);
    return (char *)start + ARENA;
}

static exported *named(const char *name)
{
    for (u64 i = 0; i < sizeof calls / sizeof calls[0]; i++) {
        u64 at = 0;
        while (at < NAME - 1 && name[at] == calls[i].name[at] && name[at] != 0)
            at++;
        if (name[at] == 0 && calls[i].name[at] == 0)
            return calls[i].function;
    }
    leave(3);
}

static void answer(const struct question *q, char *memory)
{
    u64 a[MOST_ARGUMENTS];
    for (int i = 0; i < MOST_ARGUMENTS; i++)
        a[i] = q->arguments[i].number + (q->arguments[i].is_offset ? (u64)memory : 0);
    u64 word = named(q->name)(a[0], a[1], a[2], a[3], a[4], a[5], a[6], a[7], a[8], a[9], a[10], a[11]);
    give(&word, sizeof word);
    give(memory, q->memory_bytes);
}

__attribute__((force_align_arg_pointer)) _Noreturn void _start(void)
{
    static struct question q;
    char *end = arena_end();
    for (;;) {
        take(&q, sizeof q, 1);
        if (q.memory_bytes > ARENA)
            leave(4);
        take(end - q.memory_bytes, q.memory_bytes, 0);
        answer(&q, end - q.memory_bytes);
    }
}

/* A compiler may call these where the source has a loop or an assignment. */
void *memcpy(void *to, const void *from, u64 bytes)
{
    for (u64 i = 0; i < bytes; i++)
        ((volatile char *)to)[i] = ((const char *)from)[i];
    return to;
}

void *memmove(void *to, const void *from, u64 bytes)
{
    int up = (u64)to <= (u64)from;
    for (u64 i = 0; i < bytes; i++) {
        u64 at = up ? i : bytes - 1 - i;
        ((volatile char *)to)[at] = ((const char *)from)[at];
    }
    return to;
}

void *memset(void *to, int byte, u64 bytes)
{
    for (u64 i = 0; i < bytes; i++)
        ((volatile char *)to)[i] = (char)byte;
    return to;
}

int memcmp(const void *left, const void *right, u64 bytes)
{
    const unsigned char *l = left, *r = right;
    for (u64 i = 0; i < bytes; i++)
        if (l[i] != r[i])
            return l[i] < r[i] ? -1 : 1;
    return 0;
}

int bcmp(const void *left, const void *right, u64 bytes)
{
    return memcmp(left, right, bytes);
}
