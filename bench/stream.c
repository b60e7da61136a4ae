/* Times the program boardline on a stream of lines of 4,096-byte boards beside the library's own calls on the same boards, turn by turn in one run,
   and prints how much of the library's speed the program has, both ways: 1 would be all of it. The program reads a file and writes to one. */
#define _POSIX_C_SOURCE 200809L
#include "times.h"
#include <boards.h>
#include <stdio.h>
#include <stdlib.h>
#include <string.h>
#include <sys/wait.h>
#include <unistd.h>

typedef uint32_t call(const uint8_t *key, size_t key_length, const uint8_t *tweak, size_t tweak_length, uint8_t *data, size_t length);

enum { STREAMS = 20, LINES = 600, BOARD = 4096 };

static uint8_t boards[LINES][BOARD], results[LINES][BOARD];
static const uint8_t key[16] = {0x2b, 0x7e, 0x15, 0x16, 0x28, 0xae, 0xd2, 0xa6, 0xab, 0xf7, 0x15, 0x88, 0x09, 0xcf, 0x4f, 0x3c};
static const uint8_t tweak[16] = {1};

static char *put_hex(char *at, const uint8_t *bytes, size_t n) {
    static const char digits[] = "0123456789abcdef";
    for (size_t i = 0; i < n; i++) {
        *at++ = digits[bytes[i] / 16];
        *at++ = digits[bytes[i] % 16];
    }
    return at;
}

static void need(int ok, const char *what) {
    if (ok) return;
    printf("%s\n", what);
    exit(1);
}

/* The lines of all boards, as a file. */
static FILE *lines(char command) {
    static char line[2 * BOARD + 69];
    FILE *f = tmpfile();
    need(f != NULL, "no temporary file");
    for (int i = 0; i < LINES; i++) {
        char *at = line;
        *at++ = command;
        *at++ = ' ';
        at = put_hex(at, key, 16);
        *at++ = ' ';
        at = put_hex(at, tweak, 16);
        *at++ = ' ';
        at = put_hex(at, boards[i], BOARD);
        *at++ = '\n';
        fwrite(line, 1, (size_t)(at - line), f);
    }
    need(fflush(f) == 0, "the lines were not written");
    return f;
}

static double run_program(const char *program, FILE *in, FILE *out) {
    rewind(in);
    rewind(out);
    need(ftruncate(fileno(out), 0) == 0, "the output was not emptied");
    double start = now();
    pid_t child = fork();
    if (child == 0) {
        dup2(fileno(in), 0);
        dup2(fileno(out), 1);
        execl(program, program, (char *)0);
        _exit(127);
    }
    int status = 0;
    need(child > 0 && waitpid(child, &status, 0) == child && status == 0, "the program did not run");
    return now() - start;
}

static double run_library(call *work) {
    memcpy(results, boards, sizeof boards);
    double start = now();
    for (int i = 0; i < LINES; i++) need(work(key, 16, tweak, 16, results[i], BOARD) == BOARDS_DONE, "a call was not done");
    return now() - start;
}

/* Whether the program wrote the library's results, and nothing else. */
static int same(FILE *out) {
    static char wanted[2 * BOARD + 1], got[2 * BOARD + 1];
    rewind(out);
    for (int i = 0; i < LINES; i++) {
        *put_hex(wanted, results[i], BOARD) = '\n';
        if (fread(got, 1, sizeof got, out) != sizeof got || memcmp(got, wanted, sizeof got) != 0) return 0;
    }
    return getc(out) == EOF;
}

static void compare(const char *program, const char *name, char command, call *work) {
    FILE *in = lines(command), *out = tmpfile();
    need(out != NULL, "no temporary file");
    double best_program = 1e9, best_library = 1e9;
    for (int turn = 0; turn < STREAMS; turn++) {
        double p = run_program(program, in, out), l = run_library(work);
        need(same(out), "the program and the library differ");
        if (p < best_program) best_program = p;
        if (l < best_library) best_library = l;
    }
    printf("boardline, %s boards of 4,096 bytes: %.1f us a line, the library %.1f us, of its speed %.2f\n", name, best_program / LINES * 1e6,
           best_library / LINES * 1e6, best_library / best_program);
    fclose(in);
    fclose(out);
}

int main(int argc, char **argv) {
    need(argc == 2, "usage: stream PROGRAM");
    uint32_t x = 1;
    for (int i = 0; i < LINES; i++)
        for (int j = 0; j < BOARD; j++) boards[i][j] = (uint8_t)((x = x * 1664525 + 1013904223) >> 24);
    compare(argv[1], "enciphering", 'E', boards_encipher);
    compare(argv[1], "deciphering", 'D', boards_decipher);
    return 0;
}
