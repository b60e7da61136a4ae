// A program in C++ that calls every function of the header, so that each is seen to link there too, under a key of each
// length.
#include <boards.h>

#include <cstdio>
#include <cstring>

static const uint8_t key[BOARDS_LONG_KEY_SIZE] = {1};

static bool said(const char *what) {
    std::printf("%s\n", what);
    return false;
}

// The functions of a scheme.
struct scheme {
    uint32_t (*encipher)(const uint8_t *, size_t, const uint8_t *, size_t, uint8_t *, size_t);
    uint32_t (*decipher)(const uint8_t *, size_t, const uint8_t *, size_t, uint8_t *, size_t);
    uint32_t (*seal)(const uint8_t *, size_t, const uint8_t *, size_t, uint64_t, uint32_t, uint8_t *, size_t);
    uint32_t (*open)(const uint8_t *, size_t, uint64_t, uint32_t, uint8_t *, size_t);
    size_t least;
    uint32_t too_short;
};

static const scheme schemes[2] = {
    {boards_encipher, boards_decipher, boards_seal, boards_open, BOARDS_DATA_MIN, BOARDS_DATA_TOO_SHORT},
    {boards_forward_encipher, boards_forward_decipher, boards_forward_seal, boards_forward_open,
     BOARDS_FORWARD_DATA_MIN, BOARDS_FORWARD_DATA_TOO_SHORT},
};

static bool data(const scheme &by, size_t k) {
    const uint8_t tweak[BOARDS_TWEAK_SIZE] = {2};
    uint8_t board[BOARDS_FORWARD_DATA_MIN] = {3};
    const uint8_t same[BOARDS_FORWARD_DATA_MIN] = {3};
    if (by.encipher(key, k, tweak, sizeof tweak, board, by.least - 1) != by.too_short)
        return said("not too short");
    if (by.encipher(key, k, tweak, sizeof tweak, board, sizeof board) != BOARDS_DONE)
        return said("not enciphered");
    if (std::memcmp(board, same, sizeof board) == 0) return said("enciphered to itself");
    if (by.decipher(key, k, tweak, sizeof tweak, board, sizeof board) != BOARDS_DONE)
        return said("not deciphered");
    return std::memcmp(board, same, sizeof board) == 0 || said("deciphered to another board");
}

static bool block(const scheme &by, const scheme &other, size_t k) {
    const uint8_t payload[3] = {0x41, 0x42, 0x43};
    uint8_t block[BOARDS_BLOCK_SIZE] = {0};
    if (by.open(key, k, 1, 3, block, sizeof block) != BOARDS_BLANK) return said("zeros that are not blank");
    if (by.seal(key, k, payload, sizeof payload, 1, 3, block, sizeof block) != BOARDS_DONE)
        return said("not sealed");
    if (by.open(key, k, 1, 4, block, sizeof block) != BOARDS_CHECK_FAILED)
        return said("opened as another place");
    if (other.open(key, k, 1, 3, block, sizeof block) != BOARDS_CHECK_FAILED)
        return said("opened by the other scheme");
    if (by.open(key, k, 1, 3, block, sizeof block) != BOARDS_DONE) return said("not opened");
    if (boards_payload_length(block) != sizeof payload) return said("another length");
    return std::memcmp(block, payload, sizeof payload) == 0 || said("another payload");
}

static bool pack(size_t k) {
    const uint8_t payload[3] = {0x41, 0x42, 0x43};
    uint8_t pack[3 * BOARDS_BLOCK_SIZE] = {0};
    const uint8_t *same = pack;
    if (boards_find(pack, sizeof pack - 1, 3) != BOARDS_WRONG_PACK_SIZE) return said("found in no whole blocks");
    if (boards_find(pack, sizeof pack, 3) != BOARDS_PLACE_TOO_HIGH) return said("found past the last block");
    if (boards_find(pack, sizeof pack, 2) != BOARDS_DONE) return said("not found");
    uint8_t *part = boards_part(pack, 2);
    if (part != pack + 1024 || boards_const_part(same, 2) != part) return said("found elsewhere");
    if (boards_seal(key, k, payload, sizeof payload, 1, 2, part, BOARDS_BLOCK_SIZE) != BOARDS_DONE)
        return said("not sealed in the pack");
    return boards_open(key, k, 1, 2, part, BOARDS_BLOCK_SIZE) == BOARDS_DONE || said("not opened in the pack");
}

static bool run(size_t k) {
    const uint16_t lengths[3] = {0, 496, 3};
    uint8_t run[3 * BOARDS_BLOCK_SIZE] = {0};
    uint16_t opened[3] = {0, 0, 0};
    uint32_t failed = 0;
    if (boards_open_run(key, k, 1, 7, opened, 3, run, sizeof run, &failed) != BOARDS_BLANK || failed != 7)
        return said("a run of zeros that is not blank");
    if (boards_seal_run(key, k, 1, 7, lengths, 2, run, sizeof run) != BOARDS_WRONG_LIST_SIZE)
        return said("sealed by a list that is too short");
    if (boards_seal_run(key, k, 1, 7, lengths, 3, run, sizeof run) != BOARDS_DONE)
        return said("a run is not sealed");
    run[2 * BOARDS_BLOCK_SIZE] ^= 1;
    if (boards_open_run(key, k, 1, 7, opened, 3, run, sizeof run, &failed) != BOARDS_CHECK_FAILED)
        return said("a damaged run is opened");
    if (failed != 9) return said("another place failed");
    run[2 * BOARDS_BLOCK_SIZE] ^= 1;
    if (boards_open_run(key, k, 1, 7, opened, 3, run, sizeof run, &failed) != BOARDS_DONE)
        return said("a run is not opened");
    return std::memcmp(opened, lengths, sizeof opened) == 0 || said("other lengths");
}

static bool all(size_t k) {
    for (int i = 0; i < 2; i++) {
        if (!data(schemes[i], k) || !block(schemes[i], schemes[1 - i], k)) return false;
    }
    return pack(k) && run(k);
}

int main() {
    if (!all(BOARDS_KEY_SIZE) || !all(BOARDS_LONG_KEY_SIZE)) return 1;
    std::printf("%s\n", boards_reason(BOARDS_DONE));
    return 0;
}
