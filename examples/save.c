/*
 * save.c: saves boards in a pack file of sealed blocks, gives them back, and tells an empty slot from a damaged one.
 *
 *     cc -I PREFIX/include -o save save.c -L PREFIX/lib -lboards
 *
 *     save KEYFILE PACKNUMBER PACKFILE add BOARD...           seals each file BOARD behind those that were saved
 *     save KEYFILE PACKNUMBER PACKFILE get PLACE              writes the board that begins there to standard output
 *     save KEYFILE PACKNUMBER PACKFILE chapter PLACE BOARD... writes the boards from there on to new files, in one go
 *     save KEYFILE PACKNUMBER PACKFILE check                  says which blocks are good, never saved or damaged
 *
 * KEYFILE holds the 16 or 32 bytes of the key, and PACKNUMBER is a number of up to 64 bits. The pack file is a pack of
 * 1 to 128 blocks, all under one key; add begins it where it is empty or missing. A board is a file, cut into payloads
 * of 496 bytes. Its last payload is shorter, and empty if nothing is left for it, so that a board's end is told from
 * its blocks alone: a board of 1,236 bytes takes three blocks, of 496, 496 and 244 bytes.
 *
 * An empty slot is a block of zero bytes. A new save file may be full of them. It is no damage, and check counts it
 * apart. add fills the empty slots behind the last board, not those in front of it, and the file grows where they do
 * not suffice. get and chapter say of an empty slot that it was never saved; those at the end of the file do not keep
 * chapter from the boards in front of them. A saved block that was overwritten with zeros later is an empty slot too:
 * check counts it as never saved, and add may fill it. check also tells of a board whose end is missing, because an
 * empty slot or the end of the file comes first.
 *
 * One program at a time may add to a pack file. If two add at once and the file grows at its end, the second is told
 * that its board was not saved. If both fill the same empty slots, a board may be lost, and nobody is told.
 * If a board was not saved whole, the file takes no more until it is cut back to the end of its last whole board, or
 * holds zero bytes from there on. If it ends within a block, it gives none either, but check still looks at the blocks
 * in front of that one.
 *
 * Status 0: all was done; check has found nothing damaged and no board without its end. 1: something was refused, was
 * never saved, is damaged, or could not be read or written. 2: wrong arguments.
 */
#include <boards.h>
#include <errno.h>
#include <inttypes.h>
#include <stdbool.h>
#include <stdio.h>
#include <stdlib.h>
#include <string.h>

/* Set once, from the arguments. */
static uint8_t key[BOARDS_LONG_KEY_SIZE + 1]; /* one byte more, so that a key file that is too long is told */
static size_t key_length;
static uint64_t pack_number;
static const char *pack_file;

/* The pack, as long as it may be and a block more, so that one that is too long is told. */
static uint8_t pack[(BOARDS_PACK_BLOCKS_MAX + 1) * BOARDS_BLOCK_SIZE];
static size_t pack_length;

static const char no_end[] = "the end of this board is missing";

/* Unless all is well, says what is wrong with a file and ends the program. Without a sentence, errno has the reason. */
static void need(bool well, const char *file, const char *sentence) {
    if (well) return;
    fprintf(stderr, "save: %s: %s\n", file, sentence != NULL ? sentence : strerror(errno));
    exit(1);
}

/* The same for a place of the pack file. */
static void need_at(uint32_t place, bool well, const char *sentence) {
    if (well) return;
    fprintf(stderr, "save: %s: place %" PRIu32 ": %s\n", pack_file, place, sentence);
    exit(1);
}

static FILE *open_file(const char *name, const char *mode) {
    FILE *file = fopen(name, mode);
    need(file != NULL, name, NULL);
    return file;
}

/* A read or a write that failed has left its mark in the file, and a write that was put off may fail now. */
static void close_file(FILE *file, const char *name) { need(!ferror(file) && fclose(file) == 0, name, NULL); }

/* Reads a file, or as much of it as there is room for, and gives the number of bytes. */
static size_t read_file(const char *name, uint8_t *bytes, size_t room) {
    FILE *file = open_file(name, "rb");
    size_t length = fread(bytes, 1, room, file);
    close_file(file, name);
    return length;
}

/* The library is lent what was read, and refuses a key of another length: here, before anything else is done. */
static void read_key(const char *name) {
    key_length = read_file(name, key, sizeof key);
    uint32_t answer = boards_seal(key, key_length, NULL, 0, pack_number, 0, pack, BOARDS_BLOCK_SIZE);
    need(answer == BOARDS_DONE, name, boards_reason(answer));
}

static void read_pack(void) { pack_length = read_file(pack_file, pack, sizeof pack); }

/* What was read has to be a pack, whichever place is asked for. */
static void need_pack(void) {
    uint32_t answer = boards_find(pack, pack_length, 0);
    need(answer == BOARDS_DONE, pack_file, boards_reason(answer));
}

/* The block of a place, where it stands in the pack. */
static uint8_t *find(uint32_t place) {
    uint32_t answer = boards_find(pack, pack_length, place);
    need_at(place, answer == BOARDS_DONE, boards_reason(answer));
    return boards_part(pack, place);
}

/* Opens the block of a place where it stands, and gives its payload's length. */
static size_t open_block(uint32_t place) {
    uint32_t answer = boards_open(key, key_length, pack_number, place, find(place), BOARDS_BLOCK_SIZE);
    need_at(place, answer == BOARDS_DONE, boards_reason(answer));
    return boards_payload_length(find(place));
}

/* Whether a place is an empty slot. Its block is opened in a copy: one that is good stays sealed. */
static bool is_empty(uint32_t place) {
    uint8_t block[BOARDS_BLOCK_SIZE];
    memcpy(block, find(place), sizeof block);
    return boards_open(key, key_length, pack_number, place, block, sizeof block) == BOARDS_BLANK;
}

/* The number of places up to the last that is not an empty slot, but at least this many. */
static uint32_t saved_places(uint32_t least) {
    uint32_t count = (uint32_t)(pack_length / BOARDS_BLOCK_SIZE);
    while (count > least && is_empty(count - 1)) count--;
    return count;
}

/* Cuts a board into payloads, each put to the front of its block from a place on, and seals these blocks as a run.
   Gives their number. */
static uint32_t seal_board(const uint8_t *board, size_t length, uint32_t first) {
    uint16_t lengths[BOARDS_RUN_BLOCKS_MAX];
    uint32_t count = (uint32_t)(length / BOARDS_PAYLOAD_MAX) + 1;
    need_at(BOARDS_PACK_BLOCKS_MAX, first + count <= BOARDS_PACK_BLOCKS_MAX,
            "the board does not fit in: a pack has 128 blocks at most");
    pack_length = (size_t)(first + count) * BOARDS_BLOCK_SIZE; /* it now ends with this board */
    for (uint32_t i = 0; i < count; i++) {
        lengths[i] = (uint16_t)(i + 1 < count ? BOARDS_PAYLOAD_MAX : length % BOARDS_PAYLOAD_MAX);
        memcpy(find(first + i), board + (size_t)BOARDS_PAYLOAD_MAX * i, lengths[i]);
    }
    uint32_t answer = boards_seal_run(key, key_length, pack_number, first, lengths, count, find(first),
                                      (size_t)count * BOARDS_BLOCK_SIZE);
    need_at(first, answer == BOARDS_DONE, boards_reason(answer));
    return count;
}

/* Writes blocks of the pack to the file, at its end or over empty slots, and says whether they are where they belong.
   What is appended goes to the end that the file has by then: if another program has added to it, that is elsewhere. */
static bool write_blocks(uint32_t first, uint32_t count, bool append) {
    FILE *file = open_file(pack_file, append ? "ab" : "r+b");
    long start = (long)first * BOARDS_BLOCK_SIZE, end = start + (long)count * BOARDS_BLOCK_SIZE;
    return fseek(file, start, SEEK_SET) == 0 && fwrite(find(first), BOARDS_BLOCK_SIZE, count, file) == count &&
           fflush(file) == 0 && ftell(file) == end && fclose(file) == 0;
}

/* Seals all of a board before any of it is written: if it is refused, the pack file holds what it held. The last block
   that was saved has to be good and the end of a board: nothing is added behind half a board, nor under another key or
   pack number. The board is read first, so that a slow one leaves no time for another program to take its place. */
static void add(const char *name) {
    static uint8_t board[BOARDS_PACK_BLOCKS_MAX * BOARDS_PAYLOAD_MAX]; /* one that fills this fits in no pack */
    size_t length = read_file(name, board, sizeof board);
    close_file(open_file(pack_file, "ab"), pack_file); /* makes it where it is missing */
    read_pack();
    if (pack_length > 0) need_pack();
    uint32_t first = saved_places(0);
    bool append = pack_length == (size_t)first * BOARDS_BLOCK_SIZE; /* there is no empty slot to be filled */
    if (first > 0) need_at(first - 1, open_block(first - 1) < BOARDS_PAYLOAD_MAX, no_end);
    uint32_t count = seal_board(board, length, first);
    need_at(first, write_blocks(first, count, append),
            "a board was not saved whole: the disk is full, or another program added to the file");
    printf("%s: first place %" PRIu32 ", number of blocks %" PRIu32 "\n", name, first, count);
}

/* Opens all blocks of a board before any of it is written: of a board that is damaged nothing is given. */
static void get(uint32_t first) {
    uint32_t last = first;
    read_pack();
    while (open_block(last) == BOARDS_PAYLOAD_MAX) last++;
    for (; first <= last; first++) fwrite(find(first), 1, boards_payload_length(find(first)), stdout);
}

/* A file that is there already is not overwritten, even if it cannot be read. */
static void need_new(const char *name) {
    need(fopen(name, "rb") == NULL, name, "there is such a file already");
    need(errno == ENOENT, name, NULL);
}

/* Opens the pack from a place on, without the empty slots at its end, by one call, and writes as many boards as there
   are names. If a block of these is damaged or an empty slot, or there are not so many boards, or one of the files is
   there already, no file is written. */
static void chapter(uint32_t first, char **names, size_t boards) {
    uint16_t lengths[BOARDS_RUN_BLOCKS_MAX];
    uint32_t failed = first;
    size_t ends = 0;
    read_pack();
    uint8_t *run = find(first);
    size_t count = saved_places(first + 1) - first; /* the run has the block of this place at least, be it empty */
    uint32_t answer = boards_open_run(key, key_length, pack_number, first, lengths, count, run,
                                      count * BOARDS_BLOCK_SIZE, &failed);
    need_at(failed, answer == BOARDS_DONE, boards_reason(answer));
    for (size_t i = 0; i < count; i++) ends += lengths[i] < BOARDS_PAYLOAD_MAX;
    need_at(first, ends >= boards, "there are not so many boards from here on");
    for (size_t i = 0; i < boards; i++) need_new(names[i]);
    for (const uint16_t *length = lengths; boards > 0; boards--, names++) {
        need_new(*names); /* again, for a name may be given twice */
        FILE *board = open_file(*names, "wb");
        do {
            fwrite(run, 1, *length, board);
            run += BOARDS_BLOCK_SIZE;
        } while (*length++ == BOARDS_PAYLOAD_MAX);
        close_file(board, *names);
    }
}

/* Where the file ends within a block, the whole ones are looked at before this is told. The board of a block whose
   payload is full goes on in the next one: where that was never saved, the board's end is missing. */
static void check(void) {
    uint32_t answers[BOARDS_PACK_BLOCKS_MAX + 1], count = 0, empty = 0, damaged = 0;
    read_pack();
    size_t whole = pack_length - pack_length % BOARDS_BLOCK_SIZE;
    for (; boards_find(pack, whole, count) == BOARDS_DONE; count++) {
        uint32_t answer = boards_open(key, key_length, pack_number, count, boards_part(pack, count), BOARDS_BLOCK_SIZE);
        printf("place %" PRIu32 ": %s\n", count, answer == BOARDS_DONE ? "good" : boards_reason(answer));
        answers[count] = answer;
        empty += answer == BOARDS_BLANK;
        damaged += answer != BOARDS_DONE && answer != BOARDS_BLANK;
    }
    answers[count] = BOARDS_BLANK; /* nothing was ever saved behind the end of the file */
    need_pack();
    printf("number of blocks %" PRIu32 ", never saved %" PRIu32 ", damaged %" PRIu32 "\n", count, empty, damaged);
    need(damaged == 0, pack_file, "not all saved blocks are good");
    for (uint32_t place = 0; place < count; place++)
        if (answers[place] == BOARDS_DONE && answers[place + 1] == BOARDS_BLANK)
            need_at(place, boards_payload_length(find(place)) < BOARDS_PAYLOAD_MAX, no_end);
}

/* Whether the text is a number, in digits alone: strtoull itself would pass over blanks and take a sign. */
static bool is_number(const char *text, uint64_t most, uint64_t *number) {
    char *end;
    errno = 0;
    *number = strtoull(text, &end, 10);
    return text[0] >= '0' && text[0] <= '9' && *end == '\0' && errno == 0 && *number <= most;
}

int main(int argc, char **argv) {
    uint64_t place = 0;
    bool adding = argc > 5 && strcmp(argv[4], "add") == 0;
    bool getting = argc == 6 && strcmp(argv[4], "get") == 0 && is_number(argv[5], UINT32_MAX, &place);
    bool loading = argc > 6 && strcmp(argv[4], "chapter") == 0 && is_number(argv[5], UINT32_MAX, &place);
    bool checking = argc == 5 && strcmp(argv[4], "check") == 0;
    if (!(adding || getting || loading || checking) || !is_number(argv[2], UINT64_MAX, &pack_number)) {
        fputs("usage: save KEYFILE PACKNUMBER PACKFILE "
              "add BOARD... | get PLACE | chapter PLACE BOARD... | check\n", stderr);
        return 2;
    }
    pack_file = argv[3];
    read_key(argv[1]);
    for (int i = 5; adding && i < argc; i++) add(argv[i]);
    if (getting) get((uint32_t)place);
    if (loading) chapter((uint32_t)place, argv + 6, (size_t)argc - 6);
    if (checking) check();
    close_file(stdout, "standard output"); /* what was printed may only now be written */
    return 0;
}
