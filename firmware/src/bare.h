/* Between a bare processor's own start and what is the same on all of them. */
#ifndef BARE_H
#define BARE_H

#include <stdint.h>

/* The processor's own: asks the emulator. */
void semihosting(uint32_t call, const void *argument);

/* Shared: the program from its first instruction with a stack to its end, and what a fault comes to. */
void run(void);
void fault(void);

#endif
