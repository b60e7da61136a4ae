/* Wrong libraries, to see that the groups can fail; and those of finding. */
#define _DEFAULT_SOURCE
#include "wrong.h"
#include "groups.h"
#include "report.h"
#include <errno.h>
#include <string.h>
#include <sys/wait.h>
#include <unistd.h>

library right;
static int wrong_libraries;
static volatile uint8_t seen;

#define FIND_CALL const uint8_t *pack, size_t n, uint32_t place
#define FIND pack, n, place

static uint32_t read_pack(FIND_CALL) {
    if (n > 0) seen = pack[n - 1];
    return right.find(FIND);
}

static uint32_t write_pack(FIND_CALL) {
    uint32_t number = right.find(FIND);
    if (number == 0) ((uint8_t *)pack)[512 * place] ^= 1;
    return number;
}

static uint32_t find_set_errno(FIND_CALL) {
    errno = 0;
    return right.find(FIND);
}

static uint32_t always_found(FIND_CALL) { return (void)pack, (void)n, (void)place, 0; }

static uint32_t never_found(FIND_CALL) { return (void)pack, (void)n, (void)place, 10; }

static uint32_t seven_for_ten(FIND_CALL) { return right.find(FIND) == 10 ? 7 : right.find(FIND); }

static uint32_t find_in_empty(FIND_CALL) { return n == 0 && place == 0 ? 0 : right.find(FIND); }

static uint32_t place_of_empty(FIND_CALL) { return n == 0 ? 6 : right.find(FIND); }

static uint32_t find_in_129(FIND_CALL) { return n == 129 * 512 && place < 129 ? 0 : right.find(FIND); }

static uint32_t not_in_128(FIND_CALL) { return n == 128 * 512 ? 10 : right.find(FIND); }

static uint32_t find_in_cut(FIND_CALL) { return right.find(pack, n - n % 512, place); }

static uint32_t find_in_511(FIND_CALL) { return right.find(pack, n % 511 == 0 ? n / 511 * 512 : n, place); }

static uint32_t find_place_n(FIND_CALL) { return right.find(pack, n, place == n / 512 ? 0 : place); }

static uint32_t not_last_place(FIND_CALL) { return right.find(pack, n, place + 1 == n / 512 ? place + 1 : place); }

static uint32_t find_all_places(FIND_CALL) { return right.find(pack, n, place > 65535 ? place : 0); }

static uint32_t find_place_of_16_bits(FIND_CALL) { return right.find(pack, n, place & 0xffff); }

static uint32_t pack_by_32_bits(FIND_CALL) { return right.find(pack, (uint32_t)n, place); }

static const mistake find_mistakes[] = {
    {"reads the pack", {.find = read_pack}, slices, "at byte 1535 of the pack"},
    {"writes the pack", {.find = write_pack}, slices, "at byte 1024 of the pack"},
    {"finding, sets errno", {.find = find_set_errno}, slices, "sets errno to 0"},
    {"finds always", {.find = always_found}, finding, "answers 0 in the place of 10"},
    {"never finds", {.find = never_found}, finding, "answers 10 in the place of 0"},
    {"has 7 in the place of 10", {.find = seven_for_ten}, order, "answers 7 in the place of 10"},
    {"finds in an empty pack", {.find = find_in_empty}, finding, "find(pack of 0, place 0)"},
    {"misses a place in an empty pack", {.find = place_of_empty}, order, "answers 6 in the place of 10"},
    {"finds in a pack of 129", {.find = find_in_129}, finding, "find(pack of 66048, place 0)"},
    {"does not find in a pack of 128", {.find = not_in_128}, finding, "find(pack of 65536, place 0)"},
    {"finds in a pack that is cut", {.find = find_in_cut}, finding, "find(pack of 513, place 0)"},
    {"has blocks of 511 bytes", {.find = find_in_511}, finding, "find(pack of 511, place 0)"},
    {"finds the place n", {.find = find_place_n}, finding, "find(pack of 512, place 1)"},
    {"does not find the last place", {.find = not_last_place}, finding, "answers 6 in the place of 0"},
    {"finds each place up to 65,535", {.find = find_all_places}, order, "answers 0 in the place of 6"},
    {"finds a place by its last 16 bits", {.find = find_place_of_16_bits}, order, "answers 0 in the place of 6"},
    {"takes a pack by its length's last 32 bits", {.find = pack_by_32_bits}, slices, "answers 0 in the place of 10"},
    {NULL, {.find = NULL}, NULL, NULL},
};

static void put_in_place(const library *l) {
    right = boards;
    for (int s = 0; s < SCHEMES; s++) {
        const scheme_functions *given = &l->by[s];
        scheme_functions *its = &boards.by[s];
        if (given->encipher != NULL) its->encipher = given->encipher;
        if (given->decipher != NULL) its->decipher = given->decipher;
        if (given->seal != NULL) its->seal = given->seal;
        if (given->open != NULL) its->open = given->open;
    }
    if (l->find != NULL) boards.find = l->find;
    if (l->seal_run != NULL) boards.seal_run = l->seal_run;
    if (l->open_run != NULL) boards.open_run = l->open_run;
}

/* In a process of its own, which the report ends; the report goes into the text. Standard input, a file, is read from
   its start. */
static int status_of(const library *l, void (*group)(void), char *text, size_t size) {
    int ends[2], status;
    fflush(stdout);
    lseek(STDIN_FILENO, 0, SEEK_SET);
    if (pipe(ends) != 0) DIFFERS("no pipe");
    pid_t process = fork();
    if (process < 0) DIFFERS("no process");
    if (process == 0) {
        dup2(ends[1], STDOUT_FILENO);
        put_in_place(l);
        report_signals();
        group();
        exit(0);
    }
    close(ends[1]);
    FILE *report = fdopen(ends[0], "r");
    if (report == NULL || fgets(text, (int)size, report) == NULL) text[0] = 0;
    waitpid(process, &status, 0);
    if (report != NULL) fclose(report);
    return WIFEXITED(status) ? WEXITSTATUS(status) : -1;
}

void expect_report(const library *l, void (*group)(void), const char *words, const char *more_words) {
    char text[1000];
    int status = status_of(l, group, text, sizeof text);
    int told = strstr(text, words) != NULL && strstr(text, more_words) != NULL;
    if (status != 1 || !told) DIFFERS("status %d, report: %s", status, text);
    wrong_libraries++;
}

void expect_no_report(const library *l, void (*group)(void)) {
    char text[1000];
    int status = status_of(l, group, text, sizeof text);
    if (status != 0) DIFFERS("status %d, report: %s", status, text);
}

static void expect_reports(const mistake *m) {
    for (; m->name != NULL; m++) {
        TRYING("a library that %s", m->name);
        expect_report(&m->library, m->group, m->words, "");
    }
}

void wrong(void) {
    expect_reports(find_mistakes);
    expect_reports(run_mistakes);
    wrong_keys();
    wrong_orders();
    wrong_blanks();
    wrong_functions();
    wrong_schemes();
    wrong_steps();
    printf("%d wrong libraries are reported\n", wrong_libraries);
}
