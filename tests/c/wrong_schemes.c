/* Wrong libraries of the schemes: a mistake that each of them can make, in one of its functions; the work of one scheme
   in the place of another's; and the encryption-only scheme with a step that is wrong. */
#define _DEFAULT_SOURCE
#include "groups.h"
#include "report.h"
#include "steps.h"
#include "table.h"
#include "wrong.h"
#include <errno.h>
#include <inttypes.h>
#include <limits.h>
#include <sched.h>
#include <string.h>

static volatile uint8_t seen;

static uint32_t rightly(const call *c) { return answer_of(&right, c); }

static uint8_t *data_of(const call *c) { return (uint8_t *)c->data.bytes; }

/* What is touched. */

static uint32_t read_before_tweak(call *c) {
    seen = c->tweak.bytes[-1];
    return rightly(c);
}

static uint32_t read_past_payload(call *c) {
    seen = c->payload.bytes[c->payload.length];
    return rightly(c);
}

static uint32_t read_empty_data(call *c) {
    if (c->data.length == 0) seen = c->data.bytes[0];
    return rightly(c);
}

static uint32_t write_key(call *c) {
    volatile uint8_t *same = (uint8_t *)c->key.bytes + 3;
    *same = *same;
    return rightly(c);
}

static uint32_t write_past_data(call *c) {
    data_of(c)[c->data.length] ^= 1;
    return rightly(c);
}

/* Only where the block ends with a page. */
static uint32_t write_past_block(call *c) {
    uint8_t *end = data_of(c) + c->data.length;
    if ((uintptr_t)end % 4096 == 0) *end ^= 1;
    return rightly(c);
}

static uint32_t take_key_for_aligned(call *c) {
    c->key.bytes -= (uintptr_t)c->key.bytes % 8;
    return rightly(c);
}

static uint32_t set_errno(call *c) {
    errno = 0;
    return rightly(c);
}

static uint32_t one_key_for_all(call *c) {
    static uint8_t kept[32];
    if (!is_key(c->key.length)) return 1;
    memcpy(kept, c->key.bytes, c->key.length);
    c->key.bytes = kept;
    sched_yield();
    return rightly(c);
}

static uint32_t large_stack(call *c) {
    volatile uint8_t much[PTHREAD_STACK_MIN];
    for (size_t i = sizeof much; i > 0; i--) much[i - 1] = 0;
    return rightly(c) + much[0];
}

/* Refused calls, and limits. */

static uint32_t check_before_place(call *c) {
    if (c->place > 65535) c->place = 0;
    return rightly(c);
}

static uint32_t change_too_short(call *c) {
    uint32_t number = rightly(c);
    if (number != 0 && number == looks[c->name][2] && c->data.length > 0) data_of(c)[0] ^= 1;
    return number;
}

static uint32_t work_on_too_long(call *c) {
    uint32_t number = rightly(c);
    if (number != 4) return number;
    c->data.length = MOST_DATA;
    return number + rightly(c);
}

static uint32_t write_when_refused(call *c) {
    if (is_key(c->key.length) && c->data.length == 512) data_of(c)[511] = 0;
    return rightly(c);
}

static uint32_t write_short_block(call *c) {
    if (is_key(c->key.length) && c->data.length > 0 && c->data.length < 512) data_of(c)[0] ^= 1;
    return rightly(c);
}

/* Lengths that are a byte beyond a limit: the work is not done, but the answer is 0. */
static uint32_t take_one_less(call *c) {
    uint32_t number = rightly(c);
    return number == looks[c->name][2] && c->data.length == least_data[scheme_of(c->name)] - 1 ? 0 : number;
}

static uint32_t take_one_more(call *c) {
    uint32_t number = rightly(c);
    return number == 4 && c->data.length == MOST_DATA + 1 ? 0 : number;
}

static uint32_t refuse_shortest(call *c) {
    int refused = first(c, 0) == 0 && c->data.length == least_data[scheme_of(c->name)];
    return refused ? looks[c->name][2] : rightly(c);
}

static uint32_t refuse_longest(call *c) {
    return first(c, 0) == 0 && c->data.length == MOST_DATA ? 4 : rightly(c);
}

static uint32_t take_place_by_16_bits(call *c) {
    c->place &= 0xffff;
    return rightly(c);
}

static uint32_t take_pack_by_32_bits(call *c) {
    c->pack &= 0xffffffff;
    return rightly(c);
}

static uint32_t take_length_by_32_bits(call *c) {
    c->data.length = (uint32_t)c->data.length;
    return rightly(c);
}

/* The work. */

static uint32_t deciphered_after(uint32_t refusal, call *c) {
    static const uint8_t zeros[16];
    uint32_t number = rightly(c);
    if (number != refusal) return number;
    c->name = by(scheme_of(c->name), DECIPHER);
    c->tweak = (slice){zeros, sizeof zeros};
    return number + rightly(c);
}

static uint32_t decipher_before_place(call *c) { return deciphered_after(6, c); }

/* "Leaving deciphered bytes behind after number 8." */
static uint32_t leave_deciphered(call *c) { return deciphered_after(8, c); }

static uint32_t open_damaged(call *c) {
    uint32_t number = rightly(c);
    return number == 8 ? 0 : number;
}

static uint32_t change_last_byte(call *c) {
    uint32_t number = rightly(c);
    if (number == 0) data_of(c)[c->data.length - 1] ^= 1;
    return number;
}

static uint32_t touch_nothing(call *c) { return first(c, 0); }

static uint32_t refuse_all(call *c) { return (void)c, 1; }

static uint32_t leave_all_but_two_blocks(call *c) {
    uint8_t before[MOST_DATA];
    size_t kept = c->data.length > 32 ? c->data.length - 32 : 0;
    if (first(c, 0) == 0) memcpy(before, c->data.bytes + 32, kept);
    uint32_t number = rightly(c);
    if (number == 0) memcpy(data_of(c) + 32, before, kept);
    return number;
}

/* Each is made by each scheme in turn, in its function of this kind. */
static const struct {
    const char *name;
    function kind;
    uint32_t (*wrongly)(call *c);
    void (*group)(void);
    const char *words;
} mistakes[] = {
    {"reads before the tweak", DECIPHER, read_before_tweak, slices, "at byte -1 of the tweak"},
    {"reads past the payload", SEAL, read_past_payload, slices, "at byte 123 of the payload"},
    {"reads empty data", ENCIPHER, read_empty_data, slices, "data of 0)"},
    {"writes the key", DECIPHER, write_key, slices, "at byte 3 of the key"},
    {"writes past the data", DECIPHER, write_past_data, slices, "byte 1000 of the data, which has 1000 bytes, is"},
    {"writes past the block", OPEN, write_past_block, slices, "at byte 512 of the data"},
    {"takes the key for aligned", ENCIPHER, take_key_for_aligned, slices, "lent at an odd address"},
    {"sets errno", SEAL, set_errno, slices, "sets errno to 0"},
    {"has one key for all threads", ENCIPHER, one_key_for_all, threads, "other bytes"},
    {"needs a large stack", OPEN, large_stack, threads, "fault"},
    {"looks at the check before the place", OPEN, check_before_place, order, "answers 8 in the place of 6"},
    {"changes data that is too short", ENCIPHER, change_too_short, order, "byte 0 of the data"},
    {"deciphers data that is too long", DECIPHER, work_on_too_long, order, "byte 0 of the data"},
    {"changes a block that it refuses", SEAL, write_when_refused, order, "byte 511 of the data"},
    {"changes a short block that it refuses", SEAL, write_short_block, order, "byte 0 of the data"},
    {"enciphers a board that is a byte too short", ENCIPHER, take_one_less, order, "answers 0 in the place of"},
    {"deciphers a board that is a byte too short", DECIPHER, take_one_less, order, "answers 0 in the place of"},
    {"enciphers a board that is a byte too long", ENCIPHER, take_one_more, order, "answers 0 in the place of 4"},
    {"deciphers a board that is a byte too long", DECIPHER, take_one_more, order, "answers 0 in the place of 4"},
    {"does not encipher the shortest board", ENCIPHER, refuse_shortest, schemes, "in the place of 0"},
    {"does not decipher the shortest board", DECIPHER, refuse_shortest, schemes, "in the place of 0"},
    {"does not encipher the longest board", ENCIPHER, refuse_longest, schemes, "answers 4 in the place of 0"},
    {"does not decipher the longest board", DECIPHER, refuse_longest, schemes, "answers 4 in the place of 0"},
    {"takes a place by its last 16 bits", OPEN, take_place_by_16_bits, opening, "in the place of 6"},
    {"takes a pack by its last 32 bits", SEAL, take_pack_by_32_bits, opening, "a payload of 100 bytes"},
    {"takes a length by its last 32 bits", ENCIPHER, take_length_by_32_bits, slices, "answers 0 in the place of 4"},
    {"deciphers a block before its place", OPEN, decipher_before_place, order, "byte 0 of the data"},
    {"leaves deciphered bytes", OPEN, leave_deciphered, opening, "byte 0 of the data"},
    {"opens damaged blocks", OPEN, open_damaged, opening, "answers 0 in the place of 8"},
    {"enciphers wrongly", ENCIPHER, change_last_byte, opening, "of the data"},
    {"enciphers nothing", ENCIPHER, touch_nothing, schemes, "byte 0 of the data"},
    {"deciphers nothing", DECIPHER, touch_nothing, schemes, "byte 0 of the data"},
    {"seals nothing", SEAL, touch_nothing, opening, "byte 0 of the data"},
    {"opens nothing", OPEN, touch_nothing, opening, "byte 0 of the data"},
    {"refuses to encipher", ENCIPHER, refuse_all, schemes, "answers 1 in the place of"},
    {"refuses to decipher", DECIPHER, refuse_all, schemes, "answers 1 in the place of"},
    {"refuses to seal", SEAL, refuse_all, opening, "answers 1 in the place of 0"},
    {"refuses to open", OPEN, refuse_all, opening, "answers 1 in the place of 0"},
    {"enciphers two blocks alone", ENCIPHER, leave_all_but_two_blocks, schemes, "of the data"},
    {"deciphers two blocks alone", DECIPHER, leave_all_but_two_blocks, schemes, "byte 32 of the data"},
};

void wrong_functions(void) {
    for (size_t i = 0; i < SCHEMES * COUNT(mistakes); i++) {
        size_t m = i / SCHEMES;
        function f = by((scheme)(i % SCHEMES), mistakes[m].kind);
        wrongly = mistakes[m].wrongly;
        TRYING("a library of which %s %s", function_names[f], mistakes[m].name);
        expect_report(&wrong_in[f], mistakes[m].group, mistakes[m].words, "");
    }
}

/* One scheme in the place of another. */

static function of_next_scheme(function f) { return by((scheme)((scheme_of(f) + 1) % SCHEMES), kind_of(f)); }

/* Where the next scheme takes the call too. */
static uint32_t by_next_scheme(call *c) {
    call other = *c;
    other.name = of_next_scheme(c->name);
    return rightly(first(c, 0) == 0 && first(&other, 0) == 0 ? &other : c);
}

static uint32_t next_number(call *c) {
    uint32_t number = rightly(c);
    return number == looks[c->name][2] ? looks[of_next_scheme(c->name)][2] : number;
}

/* A board that only the next scheme takes is given to it, and one that it does not take is refused. */
static uint32_t next_least_length(call *c) {
    call other = *c;
    other.name = of_next_scheme(c->name);
    uint32_t too_short = looks[c->name][2], number = first(c, 0);
    if (number == too_short) return first(&other, 0) == 0 ? rightly(&other) : number;
    return number == 0 && first(&other, 0) != 0 ? too_short : rightly(c);
}

static uint32_t work_twice(call *c) {
    uint32_t number = rightly(c);
    return number == 0 ? rightly(c) : number;
}

static uint32_t zeros_for_tweak(call *c) {
    static const uint8_t zeros[16];
    if (c->tweak.length == sizeof zeros) c->tweak.bytes = zeros;
    return rightly(c);
}

static uint32_t tweak_for_key(call *c) {
    slice key = c->key;
    if (key.length != 16 || c->tweak.length != 16) return rightly(c);
    c->key = c->tweak;
    c->tweak = key;
    return rightly(c);
}

/* Enciphering and deciphering are wrong together, so that in most of these they undo each other. */
static const struct {
    const char *name;
    uint32_t (*wrongly)(call *c);
    void (*group)(void);
    const char *words;
} pair_mistakes[] = {
    {"do another scheme's work", by_next_scheme, schemes, "both make the same of it"},
    {"have another scheme's least length", next_least_length, schemes, "in the place of"},
    {"touch nothing", touch_nothing, schemes, "leaves it"},
    {"work twice", work_twice, cases, "line "},
    {"take each tweak for zeros", zeros_for_tweak, cases, "line "},
    {"take the tweak for the key and the key for the tweak", tweak_for_key, cases, "line "},
};

/* The library of which both are wrong. */
static library wrong_pair(scheme s) {
    library l = {.find = NULL};
    l.by[s].encipher = wrong_in_all.by[s].encipher;
    l.by[s].decipher = wrong_in_all.by[s].decipher;
    return l;
}

static void wrong_pairs(scheme s) {
    library l = wrong_pair(s);
    for (size_t i = 0; i < COUNT(pair_mistakes); i++) {
        wrongly = pair_mistakes[i].wrongly;
        TRYING("a library of which %s and %s %s", function_names[by(s, ENCIPHER)], function_names[by(s, DECIPHER)],
               pair_mistakes[i].name);
        expect_report(&l, pair_mistakes[i].group, pair_mistakes[i].words, "");
    }
}

static void wrong_numbers(function f) {
    char words[60];
    snprintf(words, sizeof words, "answers %" PRIu32 " in the place of %" PRIu32, looks[of_next_scheme(f)][2],
             looks[f][2]);
    wrongly = next_number;
    TRYING("a library of which %s has another scheme's number for data that is too short", function_names[f]);
    expect_report(&wrong_in[f], order, words, function_names[f]);
}

void wrong_schemes(void) {
    library all = wrong_in_all;
    for (function f = ENCIPHER; f < FIND; f++) {
        wrongly = by_next_scheme;
        TRYING("a library of which %s does another scheme's work", function_names[f]);
        expect_report(&wrong_in[f], schemes, kind_of(f) < SEAL ? "of the data" : "answers 0 in the place of 8", "");
        if (kind_of(f) < SEAL) wrong_numbers(f);
    }
    for (scheme s = HCH; s < SCHEMES; s++) wrong_pairs(s);
    wrongly = by_next_scheme;
    all.seal_run = NULL;
    all.open_run = NULL;
    TRYING("a library of which each scheme does another's work");
    expect_report(&all, cases, "line ", "");
}

/* A step that is wrong both ways, or backwards alone. Most of these are ciphers too: nothing but the cases tells. */

static step done_wrongly;

static uint32_t with_wrong_step(call *c) {
    uint32_t number = first(c, 0);
    int backwards = kind_of(c->name) == DECIPHER;
    if (number == 0) forward_with(done_wrongly, backwards, c->key, c->tweak.bytes, data_of(c), c->data.length);
    return number;
}

void wrong_steps(void) {
    library l = wrong_pair(FORWARD);
    wrongly = with_wrong_step;
    TRYING("the encryption-only scheme in plain C");
    expect_no_report(&l, cases);
    for (done_wrongly = ALL_RIGHT + 1; done_wrongly < STEPS; done_wrongly++) {
        TRYING("a library that %s", step_names[done_wrongly]);
        expect_report(&l, cases, "line ", "forward_");
    }
}
