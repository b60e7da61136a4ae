/* Wrong libraries, in which any one of the functions is wrong in the same way: in what it takes for its key, in the
   order of its refusals, or in what it says and leaves of a block that fails its check, or of zeros. */
#include "groups.h"
#include "report.h"
#include "table.h"
#include "wrong.h"
#include <inttypes.h>
#include <string.h>

/* Keys. */

typedef struct {
    const char *name;
    size_t length;          /* of the keys that are taken for another one, */
    size_t as;              /* which has this length, */
    size_t count, from, to; /* so many bytes of theirs, from here on, at that place of it, and zeros elsewhere; */
    size_t reads;           /* and so many bytes of theirs are read, */
    int denied;             /* and the work is done, but the answer is 1 */
    const char *words;      /* of the report, beside the length of the key */
} key_mistake;

static const key_mistake key_mistakes[] = {
    {"refuses a key of 16", 16, 0, 0, 0, 0, 0, 0, "answers 1 in the place of 0"},
    {"refuses a key of 32", 32, 0, 0, 0, 0, 0, 0, "answers 1 in the place of 0"},
    {"takes the first half of a key of 32 for the key", 32, 16, 16, 0, 0, 0, 0, "in the place of"},
    {"takes the second half of a key of 32 for the key", 32, 16, 16, 16, 0, 0, 0, "in the place of"},
    {"takes the second half of a key of 32 for zeros", 32, 32, 16, 0, 0, 0, 0, "in the place of"},
    {"takes the first half of a key of 32 for zeros", 32, 32, 16, 16, 16, 0, 0, "in the place of"},
    {"takes the last byte of a key of 32 for zero", 32, 32, 31, 0, 0, 0, 0, "in the place of"},
    {"takes the first byte of a key of 32 for zero", 32, 32, 31, 1, 1, 0, 0, "in the place of"},
    {"puts zeros behind a key of 16", 16, 32, 16, 0, 0, 0, 0, "in the place of"},
    {"puts zeros before a key of 16", 16, 32, 16, 0, 16, 0, 0, "in the place of"},
    {"takes a key of 0 for zeros", 0, 16, 0, 0, 0, 0, 0, "in the place of 1"},
    {"puts a zero behind a key of 15", 15, 16, 15, 0, 0, 0, 0, "in the place of 1"},
    {"cuts a key of 17", 17, 16, 16, 0, 0, 0, 0, "in the place of 1"},
    {"cuts a key of 24", 24, 16, 16, 0, 0, 0, 0, "in the place of 1"},
    {"puts zeros behind a key of 24", 24, 32, 24, 0, 0, 0, 0, "in the place of 1"},
    {"cuts a key of 31", 31, 16, 16, 0, 0, 0, 0, "in the place of 1"},
    {"puts a zero behind a key of 31", 31, 32, 31, 0, 0, 0, 0, "in the place of 1"},
    {"cuts a key of 33", 33, 32, 32, 0, 0, 0, 0, "in the place of 1"},
    {"cuts a key of 64", 64, 32, 32, 0, 0, 0, 0, "in the place of 1"},
    {"takes a key of 272 by the last 8 bits of its length", 272, 16, 16, 0, 0, 0, 0, "in the place of 1"},
    {"takes a key of 288 by the last 8 bits of its length", 288, 32, 32, 0, 0, 0, 0, "in the place of 1"},
    {"takes a key of 24, and denies it", 24, 16, 16, 0, 0, 0, 1, " is "},
    {"takes a key of 33, and denies it", 33, 32, 32, 0, 0, 0, 1, " is "},
    {"reads 32 bytes of a key of 16", 16, 16, 16, 0, 0, 32, 0, "at byte 16 of the key, which has 16 bytes"},
    {"reads past a key of 32", 32, 32, 32, 0, 0, 33, 0, "at byte 32 of the key, which has 32 bytes"},
    {"reads 16 bytes of a key of 0", 0, 0, 0, 0, 0, 16, 0, "of the key, which has 0 bytes"},
    {"reads 16 bytes of a key of 15", 15, 15, 15, 0, 0, 16, 0, "at byte 15 of the key, which has 15 bytes"},
    {"reads 32 bytes of a key of 24", 24, 24, 24, 0, 0, 32, 0, "at byte 24 of the key, which has 24 bytes"},
    {"reads 32 bytes of a key of 31", 31, 31, 31, 0, 0, 32, 0, "at byte 31 of the key, which has 31 bytes"},
};

static const key_mistake *taking;

static uint32_t with_other_key(call *c) {
    static volatile uint8_t seen;
    uint8_t taken[64] = {0};
    if (c->key.length != taking->length) return answer_of(&right, c);
    for (size_t i = 0; i < taking->reads; i++) seen = c->key.bytes[i];
    for (size_t i = 0; i < taking->count; i++) taken[taking->to + i] = c->key.bytes[taking->from + i];
    c->key = (slice){taken, taking->as};
    uint32_t number = answer_of(&right, c);
    return (void)seen, taking->denied ? 1 : number;
}

void wrong_keys(void) {
    wrongly = with_other_key;
    for (size_t i = 0; i < COUNT(key_mistakes); i++) {
        char length[20];
        taking = &key_mistakes[i];
        snprintf(length, sizeof length, "key of %zu", taking->length);
        for (int f = 0; f < FUNCTIONS; f++) {
            TRYING("a library of which %s %s", function_names[f], taking->name);
            if (f != FIND) expect_report(&wrong_in[f], keys, length, taking->words);
        }
        TRYING("a library that %s", taking->name);
        expect_report(&wrong_in_all, keys, length, taking->words);
    }
}

/* The order of refusals. The check of a block, which cannot be looked at without the key, stands elsewhere; but whether
   the block, or a run's first one, is all zeros can be seen too soon. */

static uint32_t early, late; /* the first is looked at right before the second */

static uint32_t in_other_order(call *c) {
    c->failed_place = c->place;
    for (int i = 0; i < LOOKS; i++) {
        uint32_t number = looks[c->name][i];
        int too_soon = number == late && applies(early, c, early == 12);
        if (too_soon && c->name == OPEN_RUN && early == 12) *c->failed = c->place;
        if (too_soon) return early;
        if (applies(number, c, 0)) return number;
    }
    return answer_of(&right, c);
}

void wrong_orders(void) {
    wrongly = in_other_order;
    for (int i = 0; i < FUNCTIONS * LOOKS * LOOKS; i++) {
        int f = i / (LOOKS * LOOKS), at = i / LOOKS % LOOKS;
        char words[60];
        late = looks[f][at];
        early = looks[f][i % LOOKS];
        if (i % LOOKS <= at || early == 8 || !can_meet(early, late)) continue;
        snprintf(words, sizeof words, "answers %" PRIu32 " in the place of %" PRIu32, early, late);
        TRYING("a library of which %s looks at %" PRIu32 " before %" PRIu32, function_names[f], early, late);
        expect_report(&wrong_in[f], order, words, function_names[f]);
    }
}

/* Blocks that fail. No key is known under which a block of zeros passes its check: so a library that has 12 for each of
   them, and does not decipher it, cannot be reported here. */

typedef struct {
    const char *name;
    size_t from, to;        /* in these bytes of a block that fails, */
    uint8_t unseen;         /* these bits are not looked at; */
    char by;                /* the others are put together by this operator, */
    size_t word;            /* in little-endian words of so many bytes; */
    uint32_t zeros, others; /* and the answers if that is zero, and if not, */
    size_t key;             /* under a key of this length, or 0 for both */
    const char *words;
} blank_mistake;

static const blank_mistake blank_mistakes[] = {
    {"has 8 for zeros", 0, 0, 0, '|', 1, 8, 8, 0, "answers 8 in the place of 12"},
    {"has 8 for zeros under a key of 16", 0, 0, 0, '|', 1, 8, 8, 16, "answers 8 in the place of 12"},
    {"has 8 for zeros under a key of 32", 0, 0, 0, '|', 1, 8, 8, 32, "answers 8 in the place of 12"},
    {"has 0 for zeros", 0, 0, 0, '|', 1, 0, 8, 0, "answers 0 in the place of 12"},
    {"has 12 for all that fails", 0, 0, 0, '|', 1, 12, 12, 0, "answers 12 in the place of 8"},
    {"has 8 for 12 and 12 for 8", 0, 0, 0, '|', 1, 8, 12, 0, "answers 8 in the place of 12"},
    {"looks at the first byte alone", 1, 512, 0xff, '|', 1, 12, 8, 0, "bit 7 of the bytes 7 and 511:"},
    {"looks at the last byte alone", 0, 511, 0xff, '|', 1, 12, 8, 0, "bit 7 of the bytes 0 and 504:"},
    {"does not look at the first byte", 0, 1, 0xff, '|', 1, 12, 8, 0, "but for bit 0 of byte 0:"},
    {"does not look at the last byte", 511, 512, 0xff, '|', 1, 12, 8, 0, " of byte 511:"},
    {"looks at the first 256 bytes alone", 256, 512, 0xff, '|', 1, 12, 8, 0, "zeros but for bit "},
    {"looks at a payload's bytes alone", 496, 512, 0xff, '|', 1, 12, 8, 0, "zeros but for bit "},
    {"does not look at a payload's bytes", 0, 496, 0xff, '|', 1, 12, 8, 0, "but for bit 0 of byte 0:"},
    {"does not look at a byte's highest bit", 0, 512, 0x80, '|', 1, 12, 8, 0, "bit 7 alone in all bytes"},
    {"does not look at a byte's lowest bit", 0, 512, 0x01, '|', 1, 12, 8, 0, "bit 0 alone in all bytes"},
    {"does not look at bit 0 of byte 7", 7, 8, 0x01, '|', 1, 12, 8, 0, "but for bit 0 of byte 7:"},
    {"does not look at bit 7 of byte 300", 300, 301, 0x80, '|', 1, 12, 8, 0, "but for bit 7 of byte 300:"},
    {"adds the bytes up in 8 bits", 0, 0, 0, '+', 1, 12, 8, 0, "bit 0 alone in all bytes"},
    {"adds up words of 16 bits", 0, 0, 0, '+', 2, 12, 8, 0, "bit 7 of the bytes 7 and 511:"},
    {"adds up words of 32 bits", 0, 0, 0, '+', 4, 12, 8, 0, "bit 7 of the bytes 7 and 511:"},
    {"adds up words of 64 bits", 0, 0, 0, '+', 8, 12, 8, 0, "bit 7 of the bytes 7 and 511:"},
    {"takes the exclusive or of the bytes", 0, 0, 0, '^', 1, 12, 8, 0, "bit 0 alone in all bytes"},
};

static const blank_mistake *telling;

/* The block that failed, or, where none did, the first one. */
static uint8_t *told_block(const call *c, uint32_t number) {
    size_t at = c->name == OPEN_RUN && says_failed(number) ? 512 * (size_t)(*c->failed - c->place) : 0;
    return (uint8_t *)c->data.bytes + at;
}

/* A block deciphered by the scheme of the call. */
static uint32_t deciphered(const call *c, const uint8_t tweak[16], const uint8_t block[512]) {
    call d = {.name = by(scheme_of(c->name), DECIPHER), .key = c->key, .tweak = {tweak, 16}, .data = {block, 512}};
    return answer_of(&right, &d);
}

static uint32_t by_some_bits(call *c) {
    uint64_t all = 0;
    uint32_t number = answer_of(&right, c);
    const uint8_t *block = told_block(c, number);
    if (!says_failed(number) || (telling->key != 0 && telling->key != c->key.length)) return number;
    for (size_t i = 0; i < 512; i++) {
        int unseen = i >= telling->from && i < telling->to ? telling->unseen : 0;
        uint64_t part = (uint64_t)(block[i] & ~unseen) << 8 * (i % telling->word);
        all = telling->by == '|' ? all | part : telling->by == '^' ? all ^ part : all + part;
    }
    return all << (64 - 8 * telling->word) == 0 ? telling->zeros : telling->others;
}

/* As where the search begins at an address that is a multiple of 8, at or before the block's. */
static uint32_t blank_when_aligned(call *c) {
    uint32_t number = answer_of(&right, c);
    const uint8_t *block = told_block(c, number);
    return !says_failed(number) ? number : all_zero(block - (uintptr_t)block % 8, 512) ? 12 : 8;
}

/* As where the block is looked at after it was deciphered: of those that open, one is all zeros. */
static uint32_t blank_when_opened(call *c) {
    uint32_t number = answer_of(&right, c);
    return number == 0 && all_zero(told_block(c, number), 512) ? 12 : number;
}

/* The same of those that do not open. */
static uint32_t blank_when_deciphered(call *c) {
    uint8_t plain[512], tweak[16] = {0};
    uint32_t number = answer_of(&right, c);
    if (number != 8) return number;
    memcpy(plain, told_block(c, number), sizeof plain);
    tweak[15] = (uint8_t)(c->name == OPEN_RUN ? *c->failed : c->place);
    deciphered(c, tweak, plain);
    return all_zero(plain, sizeof plain) ? 12 : 8;
}

static uint32_t decipher_blank(call *c) {
    uint8_t tweak[16] = {0};
    uint32_t number = answer_of(&right, c);
    if (number != 12) return number;
    return number + deciphered(c, tweak, told_block(c, number));
}

static uint32_t seal_blank(call *c) {
    uint32_t number = answer_of(&right, c);
    if (number != 12) return number;
    call seal = {.name = by(scheme_of(c->name), SEAL), .key = c->key, .pack = c->pack, .place = c->place};
    seal.data = (slice){told_block(c, number), 512};
    return number + answer_of(&right, &seal);
}

static uint32_t clear_failed(call *c) {
    uint32_t number = answer_of(&right, c);
    if (number == 8) memset(told_block(c, number), 0, 512);
    return number;
}

static const struct {
    const char *name;
    uint32_t (*wrongly)(call *c);
    const char *words;
} failed_mistakes[] = {
    {"takes the block for aligned", blank_when_aligned, "lent at an odd address: answers 8 in the place of 12"},
    {"has 12 where it opened zeros", blank_when_opened, "answers 12 in the place of 0"},
    {"has 12 where it deciphered zeros", blank_when_deciphered, "answers 12 in the place of 8"},
    {"leaves a blank block deciphered", decipher_blank, "byte 0 of the"},
    {"seals an empty payload into a blank block", seal_blank, "byte 0 of the"},
    {"clears a block that fails", clear_failed, "byte 0 of the"},
};

/* Of a function that opens nothing, and so has no number 12. */
static uint32_t blank_data(call *c) {
    return c->data.length == 512 && all_zero(c->data.bytes, 512) ? 12 : answer_of(&right, c);
}

static void expect_of(function f, const char *name, const char *words) {
    TRYING("a library of which %s %s", function_names[f], name);
    expect_report(&wrong_in[f], blank, words, function_names[f]);
}

static void expect_of_openers(const char *name, const char *words) {
    for (scheme s = HCH; s < SCHEMES; s++) expect_of(by(s, OPEN), name, words);
    expect_of(OPEN_RUN, name, words);
}

void wrong_blanks(void) {
    wrongly = by_some_bits;
    for (size_t i = 0; i < COUNT(blank_mistakes); i++) {
        telling = &blank_mistakes[i];
        expect_of_openers(telling->name, telling->words);
    }
    for (size_t i = 0; i < COUNT(failed_mistakes); i++) {
        wrongly = failed_mistakes[i].wrongly;
        expect_of_openers(failed_mistakes[i].name, failed_mistakes[i].words);
    }
    wrongly = blank_data;
    for (function f = ENCIPHER; f < FIND; f++) {
        if (kind_of(f) != OPEN) expect_of(f, "has 12 for zeros", "answers 12 in the place of 0");
    }
}
