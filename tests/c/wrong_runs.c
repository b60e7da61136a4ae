/* Wrong libraries of runs. */
#define _DEFAULT_SOURCE
#include "groups.h"
#include "table.h"
#include "wrong.h"
#include <boards.h>
#include <errno.h>
#include <sched.h>
#include <string.h>

enum { SIZE = 512, MOST = 128 };

static volatile uint8_t seen;

#define SEAL_CALL \
    const uint8_t *key, size_t k, uint64_t pack, uint32_t first, const uint16_t *lengths, size_t count, uint8_t *run, \
    size_t n
#define SEAL key, k, pack, first, lengths, count, run, n
#define OPEN_CALL \
    const uint8_t *key, size_t k, uint64_t pack, uint32_t first, uint16_t *lengths, size_t count, uint8_t *run, \
    size_t n, uint32_t *failed
#define OPEN key, k, pack, first, lengths, count, run, n, failed

/* Whether neither 1 nor 10 applies, and the last place, which is not cut. */
static int whole(size_t k, size_t n) { return is_key(k) && n >= SIZE && n <= MOST * SIZE && n % SIZE == 0; }

static uint64_t last_place(uint32_t first, size_t n) { return first + (uint64_t)(n / SIZE) - 1; }

static uint32_t seal_block(slice key, uint64_t pack, uint32_t place, uint8_t *block, size_t used) {
    uint8_t payload[496];
    memcpy(payload, block, used);
    return right.by[HCH].seal(key.bytes, key.length, payload, used, pack, place, block, SIZE);
}

/* Order and limits. */

static uint32_t open_block_before_place(OPEN_CALL) {
    uint32_t number = right.open_run(OPEN);
    return number == 6 ? right.open_run(key, k, pack, 0, lengths, count, run, n, failed) : number;
}

static uint32_t open_by_numbers(OPEN_CALL) {
    for (size_t i = 0; whole(k, n) && i < count && count == n / SIZE; i++) {
        if (lengths[i] > 496) return 5;
    }
    return right.open_run(OPEN);
}

static uint32_t seal_cut_run(SEAL_CALL) {
    return right.seal_run(key, k, pack, first, lengths, count, run, n - n % SIZE);
}

static uint32_t open_129(OPEN_CALL) { return is_key(k) && n == 129 * SIZE ? 8 : right.open_run(OPEN); }

static uint32_t not_128(OPEN_CALL) { return is_key(k) && n == MOST * SIZE ? 10 : right.open_run(OPEN); }

static uint32_t seal_none(SEAL_CALL) { return is_key(k) && n == 0 && count == 0 ? 0 : right.seal_run(SEAL); }

static uint32_t longer_list(SEAL_CALL) {
    return right.seal_run(key, k, pack, first, lengths, count > n / SIZE ? n / SIZE : count, run, n);
}

static uint32_t shorter_list(OPEN_CALL) {
    return right.open_run(key, k, pack, first, lengths, count, run, count < n / SIZE ? count * SIZE : n, failed);
}

static uint32_t admits_497(SEAL_CALL) {
    uint32_t number = right.seal_run(SEAL);
    return number == 5 && lengths[0] == 497 ? 0 : number;
}

static uint32_t refuses_496(SEAL_CALL) {
    return whole(k, n) && count == n / SIZE && lengths[0] == 496 ? 5 : right.seal_run(SEAL);
}

static uint32_t first_number_alone(SEAL_CALL) {
    uint32_t number = right.seal_run(SEAL);
    return number == 5 && lengths[0] <= 496 ? 0 : number;
}

static uint32_t admits_65536(SEAL_CALL) {
    uint32_t number = right.seal_run(SEAL);
    return number == 6 && last_place(first, n) == 65536 ? 0 : number;
}

static uint32_t first_place_alone(OPEN_CALL) {
    uint32_t number = right.open_run(OPEN);
    return number == 6 && first <= 65535 ? 8 : number;
}

static uint32_t refuses_65535(OPEN_CALL) {
    uint32_t number = right.open_run(OPEN);
    return number == 0 && last_place(first, n) == 65535 ? 6 : number;
}

static uint32_t last_place_of_32_bits(SEAL_CALL) {
    uint32_t number = right.seal_run(SEAL);
    return number == 6 && (uint32_t)last_place(first, n) <= 65535 ? 0 : number;
}

static uint32_t count_of_32_bits(SEAL_CALL) {
    return right.seal_run(key, k, pack, first, lengths, (uint32_t)count, run, n);
}

static uint32_t run_of_32_bits(OPEN_CALL) {
    return right.open_run(key, k, pack, first, lengths, count, run, (uint32_t)n, failed);
}

/* What is left. */

static uint32_t seal_for_first(SEAL_CALL) {
    uint32_t number = right.seal_run(SEAL);
    for (size_t i = 1; number == 0 && i < count; i++) {
        number = right.by[HCH].open(key, k, pack, first + (uint32_t)i, run + SIZE * i, SIZE);
        number |= seal_block((slice){key, k}, pack, first, run + SIZE * i, lengths[i]);
    }
    return number;
}

/* The last block of a run, before the call and again after it. */
static uint8_t last_block[SIZE];

static void keep_last(const uint8_t *run, size_t n) {
    if (n >= SIZE) memcpy(last_block, run + n - SIZE, SIZE);
}

static uint32_t put_last(uint32_t number, uint8_t *run, size_t n) {
    if (number == 0) memcpy(run + n - SIZE, last_block, SIZE);
    return number;
}

static uint32_t seal_not_last(SEAL_CALL) {
    keep_last(run, n);
    return put_last(right.seal_run(SEAL), run, n);
}

static uint32_t seal_496(SEAL_CALL) {
    uint16_t all[2 * MOST];
    if (count > COUNT(all)) return right.seal_run(SEAL);
    for (size_t i = 0; i < count; i++) all[i] = lengths[i] < 496 ? 496 : lengths[i];
    return right.seal_run(key, k, pack, first, all, count, run, n);
}

static uint32_t seal_before_refusal(SEAL_CALL) {
    uint32_t number = right.seal_run(SEAL);
    for (size_t i = 0; number == 5 && lengths[i] <= 496; i++) {
        number += seal_block((slice){key, k}, pack, first + (uint32_t)i, run + SIZE * i, lengths[i]);
    }
    return number;
}

static uint32_t write_list(SEAL_CALL) {
    uint32_t number = right.seal_run(SEAL);
    if (number == 0) ((volatile uint16_t *)lengths)[0] = lengths[0];
    return number;
}

static uint32_t read_past_list(SEAL_CALL) {
    seen = (uint8_t)lengths[count];
    return right.seal_run(SEAL);
}

/* As where the numbers are tested before the count is: up to one that is over 496. */
static uint32_t seal_read_told(SEAL_CALL) {
    for (size_t i = 0; whole(k, n) && i < count && lengths[i] <= 496; i++) seen = (uint8_t)lengths[i];
    return right.seal_run(SEAL);
}

static uint32_t open_read_told(OPEN_CALL) {
    uint32_t number = right.open_run(OPEN);
    for (size_t i = 0; number == 11 && i < count; i++) seen = (uint8_t)lengths[i];
    return number;
}

static uint32_t write_past_run(OPEN_CALL) {
    if (n > 0) run[n] ^= 1;
    return right.open_run(OPEN);
}

static uint32_t write_past_list(OPEN_CALL) {
    uint32_t number = right.open_run(OPEN);
    if (number == 0) lengths[count] = 0;
    return number;
}

static uint32_t run_set_errno(SEAL_CALL) {
    errno = 0;
    return right.seal_run(SEAL);
}

static uint32_t open_not_last(OPEN_CALL) {
    keep_last(run, n);
    return put_last(right.open_run(OPEN), run, n);
}

static uint32_t check_first_alone(OPEN_CALL) {
    uint32_t number = right.open_run(OPEN);
    return number == 8 && *failed > first ? 0 : number;
}

static uint32_t left_open_with(uint32_t refusal, OPEN_CALL) {
    uint32_t number = right.open_run(OPEN);
    for (uint32_t place = first; number == refusal && place < *failed; place++) {
        number += right.by[HCH].open(key, k, pack, place, run + SIZE * (place - first), SIZE);
    }
    return number;
}

static uint32_t leave_open(OPEN_CALL) { return left_open_with(8, OPEN); }

static uint32_t leave_open_with_12(OPEN_CALL) { return left_open_with(12, OPEN); }

static uint32_t leave_last_open(OPEN_CALL) {
    uint32_t number = right.open_run(OPEN);
    if (number == 8 && *failed > first) {
        number += right.by[HCH].open(key, k, pack, *failed - 1, run + SIZE * (*failed - 1 - first), SIZE);
    }
    return number;
}

static uint32_t leave_deciphered(OPEN_CALL) {
    uint8_t tweak[16] = {0};
    uint32_t number = right.open_run(OPEN);
    return number + (number == 8 ? right.by[HCH].decipher(key, k, tweak, 16, run + SIZE * (*failed - first), SIZE) : 0);
}

static uint32_t write_list_too_soon(OPEN_CALL) {
    uint32_t number = right.open_run(OPEN);
    if (number == 8 && *failed > first) lengths[0] = 0;
    return number;
}

static uint32_t write_list_when_refused(OPEN_CALL) {
    uint32_t number = right.open_run(OPEN);
    if (number == 6) lengths[0] = 0;
    return number;
}

static uint32_t keep_list(OPEN_CALL) {
    uint16_t all[2 * MOST];
    if (count > COUNT(all)) return right.open_run(OPEN);
    return right.open_run(key, k, pack, first, all, count, run, n, failed);
}

static uint32_t bytes_of_numbers(OPEN_CALL) {
    uint32_t number = right.open_run(OPEN);
    for (size_t i = 0; number == 0 && i < count; i++) lengths[i] = (uint16_t)(lengths[i] << 8 | lengths[i] >> 8);
    return number;
}

static uint32_t number_of_blank(OPEN_CALL) {
    uint32_t number = right.open_run(OPEN);
    if (number == 12) lengths[*failed - first] = 0;
    return number;
}

/* The block that failed, and its place. */

/* Where the answer is instead_of, the last block that answers wanted is told, with that number. */
static uint32_t told_by_last(uint32_t instead_of, uint32_t wanted, OPEN_CALL) {
    uint8_t block[SIZE];
    uint32_t number = right.open_run(OPEN), told = number;
    for (uint32_t i = 0; number == instead_of && i < n / SIZE; i++) {
        memcpy(block, run + SIZE * i, SIZE);
        if (right.by[HCH].open(key, k, pack, first + i, block, SIZE) != wanted) continue;
        *failed = first + i;
        told = wanted;
    }
    return told;
}

static uint32_t largest_place(OPEN_CALL) { return told_by_last(8, 8, OPEN); }

static uint32_t largest_blank_place(OPEN_CALL) { return told_by_last(12, 12, OPEN); }

static uint32_t blank_before_damaged(OPEN_CALL) { return told_by_last(8, 12, OPEN); }

static uint32_t damaged_before_blank(OPEN_CALL) { return told_by_last(12, 8, OPEN); }

static uint32_t blank_by_any_block(OPEN_CALL) {
    uint32_t number = right.open_run(OPEN);
    for (size_t at = 0; number == 8 && at < n; at += SIZE) number = all_zero(run + at, SIZE) ? 12 : 8;
    return number;
}

static uint32_t blank_by_all_blocks(OPEN_CALL) {
    uint32_t number = right.open_run(OPEN);
    return number == 12 && !all_zero(run, n) ? 8 : number;
}

static uint32_t blank_by_first_block(OPEN_CALL) {
    uint32_t number = right.open_run(OPEN);
    return number == 12 && !all_zero(run, SIZE) ? 8 : number;
}

static uint32_t blank_by_last_block(OPEN_CALL) {
    uint32_t number = right.open_run(OPEN);
    return says_failed(number) ? (all_zero(run + n - SIZE, SIZE) ? 12 : 8) : number;
}

static uint32_t no_place_with_12(OPEN_CALL) {
    uint32_t before = *failed, number = right.open_run(OPEN);
    if (number == 12) *failed = before;
    return number;
}

static uint32_t place_in_run(OPEN_CALL) {
    uint32_t number = right.open_run(OPEN);
    if (number == 8) *failed -= first;
    return number;
}

static uint32_t no_place(OPEN_CALL) {
    uint32_t other;
    (void)failed;
    return right.open_run(key, k, pack, first, lengths, count, run, n, &other);
}

static uint32_t place_when_done(OPEN_CALL) {
    uint32_t number = right.open_run(OPEN);
    if (number == 0) *failed = 0;
    return number;
}

static uint32_t place_when_refused(OPEN_CALL) {
    uint32_t number = right.open_run(OPEN);
    if (number != 0 && !says_failed(number)) *failed = first;
    return number;
}

static uint32_t place_too_high_told(OPEN_CALL) {
    uint32_t number = right.open_run(OPEN);
    if (number == 6) *failed = 65536;
    return number;
}

static uint32_t one_list_for_all(OPEN_CALL) {
    static uint16_t kept[MOST];
    if (count > MOST) return right.open_run(OPEN);
    memcpy(kept, lengths, count * sizeof *kept);
    uint32_t number = right.open_run(key, k, pack, first, kept, count, run, n, failed);
    sched_yield();
    memcpy(lengths, kept, count * sizeof *kept);
    return number;
}

const mistake run_mistakes[] = {
    {"opening a run, has 8 before 6", {.open_run = open_block_before_place}, order, "answers 8 in the place of 6"},
    {"opening a run, looks at the list's numbers", {.open_run = open_by_numbers}, runs, "answers 5 in the place of 8"},
    {"seals a run that is cut", {.seal_run = seal_cut_run}, runs, "run of 513)"},
    {"opens a run of 129", {.open_run = open_129}, runs, "answers 8 in the place of 10"},
    {"does not open a run of 128", {.open_run = not_128}, runs, "run of 65536)"},
    {"seals a run without a block", {.seal_run = seal_none}, runs, "answers 0 in the place of 10"},
    {"takes a list that is longer", {.seal_run = longer_list}, runs, "list of 2, run of 512)"},
    {"takes a list that is shorter", {.open_run = shorter_list}, runs, "in the place of 11"},
    {"seals a payload of 497 in a run", {.seal_run = admits_497}, runs, "answers 0 in the place of 5"},
    {"does not seal a payload of 496 in a run", {.seal_run = refuses_496}, runs, "answers 5 in the place of 0"},
    {"looks at the first number of the list alone", {.seal_run = first_number_alone}, runs, "the number 497 of 1"},
    {"seals a run up to the place 65,536", {.seal_run = admits_65536}, runs, "first place 65536, list of 1"},
    {"looks at the first place alone", {.open_run = first_place_alone}, runs, "answers 8 in the place of 6"},
    {"does not open a run up to the place 65,535", {.open_run = refuses_65535}, runs, "answers 6 in the place of 0"},
    {"adds to the first place in 32 bits", {.seal_run = last_place_of_32_bits}, runs, "first place 4294967"},
    {"takes a list by its count's last 32 bits", {.seal_run = count_of_32_bits}, slices, "in the place of 11"},
    {"takes a run by its length's last 32 bits", {.open_run = run_of_32_bits}, slices, "in the place of 10"},
    {"seals all blocks for the first place", {.seal_run = seal_for_first}, runs, "byte 512 of the run"},
    {"does not seal the last block", {.seal_run = seal_not_last}, runs, "byte 0 of the run"},
    {"seals 496 bytes of each block", {.seal_run = seal_496}, runs, "of the run"},
    {"seals the blocks before one that it refuses", {.seal_run = seal_before_refusal}, runs, "byte 0 of the run"},
    {"sealing a run, writes the list", {.seal_run = write_list}, runs, "at byte 0 of the list"},
    {"reads past the list", {.seal_run = read_past_list}, runs, "of the list"},
    {"sealing a run, reads all that the count tells of", {.seal_run = seal_read_told}, runs, "list, which has 2 bytes"},
    {"opening a run, reads all that the count tells of", {.open_run = open_read_told}, runs, "list, which has 2 bytes"},
    {"writes past the run", {.open_run = write_past_run}, runs, "of the run"},
    {"writes past the list", {.open_run = write_past_list}, runs, "of the list"},
    {"sealing a run, sets errno", {.seal_run = run_set_errno}, slices, "sets errno to 0"},
    {"does not open the last block", {.open_run = open_not_last}, runs, "of the run"},
    {"looks at the first block's check alone", {.open_run = check_first_alone}, runs, "answers 0 in the place of 8"},
    {"leaves opened blocks of a run", {.open_run = leave_open}, runs, "byte 0 of the run"},
    {"leaves the blocks before a blank one opened", {.open_run = leave_open_with_12}, runs, "byte 0 of the run"},
    {"leaves the last opened block of a run", {.open_run = leave_last_open}, runs, "of the run"},
    {"leaves deciphered bytes in a run", {.open_run = leave_deciphered}, runs, "byte 0 of the run"},
    {"writes the list before the last block is opened", {.open_run = write_list_too_soon}, runs, "byte 0 of the list"},
    {"writes the list of a run that it refuses", {.open_run = write_list_when_refused}, runs, "byte 0 of the list"},
    {"writes the number 0 for a blank block", {.open_run = number_of_blank}, runs, "of the list"},
    {"does not write the list", {.open_run = keep_list}, runs, "byte 0 of the list"},
    {"writes the bytes of a number in the other order", {.open_run = bytes_of_numbers}, runs, "of the list"},
    {"tells the largest place that failed", {.open_run = largest_place}, runs, "*failed is 1 in the place of 0"},
    {"tells the largest place of a blank block", {.open_run = largest_blank_place}, runs, "*failed is 10"},
    {"prefers 12 to an 8 before it", {.open_run = blank_before_damaged}, runs, "answers 12 in the place of 8"},
    {"prefers 8 to a 12 before it", {.open_run = damaged_before_blank}, runs, "answers 8 in the place of 12"},
    {"has 12 for a run with any block of zeros", {.open_run = blank_by_any_block}, runs, "12 in the place of 8"},
    {"has 12 for a run of zeros alone", {.open_run = blank_by_all_blocks}, runs, "answers 8 in the place of 12"},
    {"looks for zeros in the first block", {.open_run = blank_by_first_block}, runs, "answers 8 in the place of 12"},
    {"looks for zeros in the last block", {.open_run = blank_by_last_block}, runs, "in the place of"},
    {"tells no place of a blank block", {.open_run = no_place_with_12}, runs, "3735928559 in the place of 9"},
    {"tells the place in the run", {.open_run = place_in_run}, runs, "*failed is 0 in the place of 65535"},
    {"tells no place", {.open_run = no_place}, runs, "*failed is 3735928559 in the place of 0"},
    {"writes *failed when it is done", {.open_run = place_when_done}, runs, "*failed is 0 in the place of 3735928559"},
    {"writes *failed with other numbers", {.open_run = place_when_refused}, order, "in the place of 3735928559"},
    {"writes *failed with number 6", {.open_run = place_too_high_told}, runs, "*failed is 65536"},
    {"has one list for all threads", {.open_run = one_list_for_all}, threads, "other bytes"},
    {NULL, {.open_run = NULL}, NULL, NULL},
};
