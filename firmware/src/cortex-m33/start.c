/* The start on a bare Cortex-M33: its vectors, and how it asks the emulator. */
#include "../bare.h"

/* The register that lets coprocessors be used, and its bits for the two that are the float unit. */
#define CPACR 0xe000ed88u
enum { BOTH_FLOAT_UNITS = 0xf << 20 };

extern uint8_t stack_top[];

void semihosting(uint32_t call, const void *argument)
{
    register uint32_t r0 __asm__("r0") = call;
    register const void *r1 __asm__("r1") = argument;
    __asm__ volatile("bkpt 0xab" : "+r"(r0) : "r"(r1) : "memory");
}

/* Floating point is off after reset, and code for hardware floats may keep whole numbers in its registers. */
static void allow_floats(void)
{
#ifdef __ARM_FP
    *(volatile uint32_t *)CPACR |= BOTH_FLOAT_UNITS;
    __asm__ volatile("dsb\n isb" ::: "memory");
#endif
}

void start(void)
{
    allow_floats();
    run();
}

/* The stack, the start, and one handler for the 14 exceptions after it. */
__attribute__((section(".vectors"), used)) static const void *const vectors[] = {
    stack_top, start, fault, fault, fault, fault, fault, fault, fault, fault, fault, fault, fault, fault, fault, fault,
};
