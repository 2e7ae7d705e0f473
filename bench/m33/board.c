/* What the harness asks of the board and of the emulator that it runs in. */
#include "board.h"

enum { WRITE0 = 0x04, GET_CMDLINE = 0x15, EXIT = 0x18, SUCCESS = 0x20026 };
static volatile uint32_t *const systick = (uint32_t *)0xe000e010;

static uint32_t ask(uint32_t what, void *with) {
  register uint32_t r0 __asm__("r0") = what;
  register void *r1 __asm__("r1") = with;
  __asm__ volatile("bkpt 0xab" : "+r"(r0) : "r"(r1) : "memory");
  return r0;
}

void say(const char *text) { ask(WRITE0, (void *)text); }

void say_number(uint64_t number) {
  char text[22], *at = text + 21;
  *at = 0;
  do *--at = (char)('0' + number % 10), number /= 10;
  while (number);
  say(at);
}

void told_words(char *text, uint32_t room) {
  struct { char *text; uint32_t length; } block = {text, room};
  if (ask(GET_CMDLINE, &block)) leave();
}

void leave(void) {
  ask(EXIT, (void *)SUCCESS);
  for (;;) {}
}

/* The timer counts down by the processor's clock, from 2^24 - 1 once its first tick has come, and says in its control register that it has passed 0. */
void start_timer(void) {
  systick[1] = 0xffffff, systick[2] = 0, systick[0] = 5;
  while (!systick[2]) {}
  (void)systick[0];
}

/* The ticks since then, at most 2^24. */
uint32_t ticks(void) {
  uint32_t now = 0xffffff - systick[2];
  return systick[0] >> 16 ? 1 << 24 : now;
}

extern uint8_t first_stack[];
void start(void) { run(), leave(); }
static void fault(void) { say("fault\n"), leave(); }
__attribute__((section(".vectors"), used)) static const void *const vectors[16] = {
    first_stack, start, fault, fault, fault, fault, fault, fault, fault, fault, fault, fault, fault, fault, fault, fault};
