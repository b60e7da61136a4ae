/* What the header has beside the functions of the archive. */
#include "groups.h"
#include "report.h"
#include <boards.h>
#include <inttypes.h>
#include <string.h>

static const struct {
    const char *name;
    unsigned long value, wanted;
} constants[] = {
    {"BOARDS_KEY_SIZE", BOARDS_KEY_SIZE, 16},
    {"BOARDS_LONG_KEY_SIZE", BOARDS_LONG_KEY_SIZE, 32},
    {"BOARDS_TWEAK_SIZE", BOARDS_TWEAK_SIZE, 16},
    {"BOARDS_DATA_MIN", BOARDS_DATA_MIN, 16},
    {"BOARDS_FORWARD_DATA_MIN", BOARDS_FORWARD_DATA_MIN, 33},
    {"BOARDS_DATA_MAX", BOARDS_DATA_MAX, 4096},
    {"BOARDS_BLOCK_SIZE", BOARDS_BLOCK_SIZE, 512},
    {"BOARDS_PAYLOAD_MAX", BOARDS_PAYLOAD_MAX, 496},
    {"BOARDS_PLACE_MAX", BOARDS_PLACE_MAX, 65535},
    {"BOARDS_PACK_BLOCKS_MAX", BOARDS_PACK_BLOCKS_MAX, 128},
    {"BOARDS_RUN_BLOCKS_MAX", BOARDS_RUN_BLOCKS_MAX, 128},
    {"BOARDS_DONE", BOARDS_DONE, 0},
    {"BOARDS_WRONG_KEY_SIZE", BOARDS_WRONG_KEY_SIZE, 1},
    {"BOARDS_WRONG_TWEAK_SIZE", BOARDS_WRONG_TWEAK_SIZE, 2},
    {"BOARDS_DATA_TOO_SHORT", BOARDS_DATA_TOO_SHORT, 3},
    {"BOARDS_DATA_TOO_LONG", BOARDS_DATA_TOO_LONG, 4},
    {"BOARDS_PAYLOAD_TOO_LONG", BOARDS_PAYLOAD_TOO_LONG, 5},
    {"BOARDS_PLACE_TOO_HIGH", BOARDS_PLACE_TOO_HIGH, 6},
    {"BOARDS_WRONG_BLOCK_SIZE", BOARDS_WRONG_BLOCK_SIZE, 7},
    {"BOARDS_CHECK_FAILED", BOARDS_CHECK_FAILED, 8},
    {"BOARDS_LINE_NOT_UNDERSTOOD", BOARDS_LINE_NOT_UNDERSTOOD, 9},
    {"BOARDS_WRONG_PACK_SIZE", BOARDS_WRONG_PACK_SIZE, 10},
    {"BOARDS_WRONG_LIST_SIZE", BOARDS_WRONG_LIST_SIZE, 11},
    {"BOARDS_BLANK", BOARDS_BLANK, 12},
    {"BOARDS_FORWARD_DATA_TOO_SHORT", BOARDS_FORWARD_DATA_TOO_SHORT, 13},
};

static void check_constants(void) {
    for (size_t i = 0; i < COUNT(constants); i++) {
        TRYING("%s", constants[i].name);
        if (constants[i].value != constants[i].wanted)
            DIFFERS("%lu in the place of %lu", constants[i].value, constants[i].wanted);
    }
}

static void check_reasons(void) {
    for (uint32_t a = 0; a <= 13; a++) {
        TRYING("boards_reason(%" PRIu32 ")", a);
        const char *reason = boards_reason(a);
        if (reason == NULL || reason[0] == 0 || reason[strlen(reason) - 1] == '.')
            DIFFERS("not a sentence without a full stop");
        for (uint32_t b = 0; b < a; b++) {
            if (strcmp(reason, boards_reason(b)) == 0) DIFFERS("the same as of %" PRIu32, b);
        }
        if (strcmp(reason, boards_reason(UINT32_MAX)) == 0) DIFFERS("the same as of no number");
    }
    TRYING("the least lengths in boards_reason");
    if (strstr(boards_reason(BOARDS_DATA_TOO_SHORT), "16") == NULL) DIFFERS("no 16 where HCH's board is too short");
    if (strstr(boards_reason(BOARDS_FORWARD_DATA_TOO_SHORT), "33") == NULL) DIFFERS("no 33 where a forward board is");
    for (uint32_t bit = 0; bit < 32; bit++) {
        uint32_t others[] = {14 + bit, (uint32_t)1 << bit, 0xffffffff >> bit};
        for (size_t i = 0; i < COUNT(others); i++) {
            TRYING("boards_reason(%" PRIu32 ")", others[i]);
            if (boards_reason(others[i]) == NULL) DIFFERS("it is NULL");
        }
    }
    TRYING("the sentence that a player reads");
    if (strcmp(boards_reason(12), "this slot was never saved") != 0) DIFFERS("it is: %s", boards_reason(12));
}

/* The calls that open a block look at boards_payload_length too: here is each length, among bytes that are not zero. */
static void check_lengths(void) {
    uint8_t block[512];
    memset(block, 0xff, sizeof block);
    for (size_t used = 0; used <= 496; used++) {
        TRYING("boards_payload_length");
        block[508] = (uint8_t)(used / 256);
        block[509] = (uint8_t)(used % 256);
        if (boards_payload_length(block) != used)
            DIFFERS("%zu in the place of %zu", boards_payload_length(block), used);
    }
}

/* The parts of the longest pack: each is 512 bytes of it, behind those of the place before. */
static void check_parts(void) {
    static uint8_t pack[128 * 512];
    uint8_t *next = pack;
    for (uint32_t place = 0; place < 128; place++, next += 512) {
        TRYING("the part of place %" PRIu32, place);
        if (boards_part(pack, place) != next) DIFFERS("it does not begin at byte %ld", (long)(next - pack));
        if (boards_const_part(pack, place) != next) DIFFERS("it is another one where the pack is only read");
    }
    if (next != pack + sizeof pack) DIFFERS("the last part does not end with the pack");
}

void header(void) {
    check_constants();
    check_reasons();
    check_lengths();
    check_parts();
    printf("version %d.%d, %zu constants\n", BOARDS_VERSION_MAJOR, BOARDS_VERSION_MINOR, COUNT(constants));
}
