#define _XOPEN_SOURCE 700
#include "report.h"
#include "lent.h"
#include <signal.h>
#include <string.h>
#include <unistd.h>

enum { SECONDS = 50 }; /* for all of a group */

char tried[200], called[200];

void report_case(void) {
    printf("%s: ", tried);
    if (called[0] != 0) printf("%s: ", called);
}

/* A fault comes from within a call of the library, where nothing of stdio is under way: so snprintf may be used. */
static void caught(int number, siginfo_t *info, void *context) {
    char where[200] = "", text[700];
    const char *between = called[0] != 0 ? ": " : "", *what = number == SIGALRM ? "does not end" : strsignal(number);
    (void)context;
    if (number == SIGSEGV || number == SIGBUS) lent_describe(info->si_addr, where, sizeof where);
    int length = snprintf(text, sizeof text, "%s: %s%s%s%s\n", tried, called, between, what, where);
    _exit(write(STDOUT_FILENO, text, (size_t)length) == length ? 1 : 2);
}

void report_on(void *stack, size_t size) {
    stack_t other;
    memset(&other, 0, sizeof other);
    other.ss_sp = stack;
    other.ss_size = size;
    if (sigaltstack(&other, NULL) != 0) DIFFERS("no other stack for signals");
}

void report_signals(void) {
    static const int numbers[] = {SIGSEGV, SIGBUS, SIGILL, SIGFPE, SIGABRT, SIGALRM};
    static uint8_t stack[65536];
    struct sigaction action;
    memset(&action, 0, sizeof action);
    action.sa_sigaction = caught;
    action.sa_flags = SA_SIGINFO | SA_ONSTACK;
    for (size_t i = 0; i < sizeof numbers / sizeof numbers[0]; i++) {
        if (sigaction(numbers[i], &action, NULL) != 0) DIFFERS("no report of signal %d", numbers[i]);
    }
    report_on(stack, sizeof stack);
    alarm(SECONDS);
}
