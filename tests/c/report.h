/* What the client says where something is not as it has to be: a line that names the case. It ends with status 1. */
#ifndef REPORT_H
#define REPORT_H

#include <stdio.h>
#include <stdlib.h>

/* For the report: what is being tried, and the call that is being made for it, if there is one. */
extern char tried[200], called[200];

#define TRYING(...) ((void)snprintf(tried, sizeof tried, __VA_ARGS__))
#define DIFFERS(...) (report_case(), printf(__VA_ARGS__), printf("\n"), exit(1))

void report_case(void);

/* From now on a fault, and a client that does not end, are reported so as well. */
void report_signals(void);

/* Lets a fault of the calling thread be reported where the thread's own stack is used up. */
void report_on(void *stack, size_t size);

#endif
