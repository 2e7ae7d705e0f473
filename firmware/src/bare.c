/* What a program on a bare processor has in place of an operating system: its start once there is a stack, its end, and what it tells. The last
 * two go by semihosting, calls that the emulator answers in place of a machine. */
#include "bare.h"

#include "machine.h"

enum { SYS_WRITE0 = 0x04, SYS_EXIT_EXTENDED = 0x20, APPLICATION_EXIT = 0x20026 };
/* A processor's fault, told as a status that no run of the list ends with. */
enum { FAULTED = 3 };

extern uint8_t bss_start[], bss_end[];
int main(void);

void say(const char *text)
{
    semihosting(SYS_WRITE0, text);
}

static void end(uint32_t status)
{
    const uint32_t how[] = {APPLICATION_EXIT, status};
    semihosting(SYS_EXIT_EXTENDED, how);
    for (;;) {
    }
}

void run(void)
{
    for (uint8_t *at = bss_start; at < bss_end; at++)
        *at = 0;
    end((uint32_t)main());
}

void fault(void)
{
    say("the processor faulted\n");
    end(FAULTED);
}
