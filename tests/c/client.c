/* The client of the library: runs the group of tests that it is named. Its status is 1 where something differs. */
#include "groups.h"
#include "report.h"
#include <string.h>

static const struct {
    const char *name;
    void (*run)(void);
} groups[] = {
    {"cases", cases},     {"order", order},     {"schemes", schemes}, {"opening", opening}, {"blank", blank},
    {"finding", finding}, {"runs", runs},       {"keys", keys},       {"slices", slices},   {"stack", stack},
    {"header", header},   {"threads", threads}, {"wrong", wrong},
};

int main(int count, char **arguments) {
    report_signals();
    for (size_t i = 0; i < COUNT(groups); i++) {
        if (count != 2 || strcmp(arguments[1], groups[i].name) != 0) continue;
        groups[i].run();
        return 0;
    }
    fprintf(stderr, "usage: client GROUP\n");
    return 2;
}
