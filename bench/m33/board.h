#include <stdint.h>

void run(void); /* the harness */
void say(const char *text);
void say_number(uint64_t number);
void told_words(char *text, uint32_t room);
void leave(void);
void start_timer(void);
uint32_t ticks(void);
