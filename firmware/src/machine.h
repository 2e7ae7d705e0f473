/* What differs from machine to machine: how a text is told. */
#ifndef MACHINE_H
#define MACHINE_H

void say(const char *text);

#endif
