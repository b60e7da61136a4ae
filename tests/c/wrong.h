/* Wrong libraries: what is wrong, the group that has to report it, and words of that report. */
#ifndef WRONG_H
#define WRONG_H

#include "call.h"

typedef struct {
    const char *name;
    library library;
    void (*group)(void);
    const char *words;
} mistake;

/* The right functions, around which the wrong ones do one thing wrong. */
extern library right;

/* What wrong functions do with the call that is made to them; the libraries of which one function is such a one; and
   the library of which all are that have a key. */
extern uint32_t (*wrongly)(call *c);
extern const library wrong_in[FUNCTIONS], wrong_in_all;

/* The group has to report this library, with both these words. TRYING has said what is wrong with it. */
void expect_report(const library *l, void (*group)(void), const char *words, const char *more_words);

/* The group has to find nothing wrong with it. */
void expect_no_report(const library *l, void (*group)(void));

/* The mistakes that can be made with runs, in wrong_runs.c; the last has no name. */
extern const mistake run_mistakes[];

/* Those that each function can make, in wrong_calls.c: what it takes for a key, the order of its refusals, and what it
   says and leaves of a block that fails its check, or of zeros. */
void wrong_keys(void);
void wrong_orders(void);
void wrong_blanks(void);

/* Those that each scheme can make, in wrong_schemes.c: in one of its functions, by doing another scheme's work, and in
   a step of the scheme. */
void wrong_functions(void);
void wrong_schemes(void);
void wrong_steps(void);

#endif
