/* A program of Linux tells a text on standard output. */
#include <stdio.h>

#include "machine.h"

void say(const char *text)
{
    fputs(text, stdout);
}
