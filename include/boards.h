/*
 * boards.h: puzzle boards enciphered over AES-128 or AES-256, as the key's length says, by one of two schemes, and
 * sealed in blocks of 512 bytes, for C99 and C++ on Linux, x86-64.
 *
 *     cc -I PREFIX/include -o program program.c -L PREFIX/lib -lboards
 *
 * boards_encipher and boards_decipher turn a board into as many other bytes and back. The tweak is no secret: it
 * stands for where a board belongs, so that the same board looks different elsewhere. The same board under the same
 * key and tweak always gives the same bytes, and nothing tells whether enciphered bytes were changed.
 *
 * boards_seal puts a payload into a block that carries its own check, for a pack and a place, and boards_open gives
 * it back. A pack is a collection of blocks, known by a number that you choose, and a place is the number of a block
 * in it. What is longer than a payload takes several blocks: examples/save.c, in the source of this library, shows
 * how.
 *
 * In a file or in memory, a pack is 1 to 128 blocks in the order of their places: n blocks have the places 0 to n - 1,
 * and the block of place p begins at byte 512 * p. boards_find says whether a pack has a block of that place, and
 * boards_part where it stands: it is sealed or opened there, and nothing is copied. boards_seal and boards_open
 * themselves see one block, wherever it is, and take every place up to 65,535.
 *
 * boards_seal_run and boards_open_run do this for a run in one call. A run is 1 to 128 blocks, one behind the other,
 * for places that follow each other: a whole pack, a part of one, or blocks by themselves. Beside it goes a list with
 * the length of each block's payload. Each payload is sealed where it stands, at the front of its block. Of a run, all
 * blocks are opened or none is.
 *
 * A new file is often filled with zeros. A block of 512 zeros that will not open is blank: boards_open answers 12 for
 * it, and 8 for any other block that will not open. Of a run, the first block that will not open decides. So a user who
 * looks where nothing was saved yet need not be told that something is damaged. 12 tells of the zeros and not of how
 * they came there: a block that was overwritten with zeros later is blank too.
 *
 * All this is done by the scheme HCH, which needs AES decryption to decipher and to open. boards_forward_encipher,
 * boards_forward_decipher, boards_forward_seal and boards_forward_open do the same by the encryption-only scheme, here
 * called the forward scheme, which needs AES encryption alone. Choose
 *   - HCH for boards of 16 to 32 bytes, for runs, and for all that was enciphered or sealed before version 0.14;
 *   - the forward scheme for boards and blocks that are also read or written on a machine whose cipher unit has no AES
 *     decryption. It takes boards of 33 bytes or more, and has no runs for now: its blocks are sealed and opened one by
 *     one. boards_find and boards_part serve them too.
 * This library does AES itself, and uses no cipher unit. For the rest either scheme serves; README, in the source, has
 * their times. Use a key with one scheme only: neither paper says what both are worth under one key. Nothing in the
 * bytes tells the scheme: your program has to know it, as it knows the key.
 *
 * A key is 16 bytes long, for AES-128, or 32 bytes long, for AES-256. Every call that takes a key takes both lengths.
 * Decipher and open with the key and by the scheme that you enciphered and sealed with. With another key, or by the
 * other scheme, deciphering leaves some other board, and opening answers 8: this is not proved, but that it does not is
 * as unlikely as guessing 16 bytes. A block of zeros is blank under every key that is known, by both schemes, so 12
 * says nothing of either. A key of 32 bytes is not one of 16 with more bytes behind it: its first 16 bytes are another
 * key. To give a pack that HCH sealed a longer key, call boards_open_run with the old key and, if it answered 0,
 * boards_seal_run with the new key on the same run and list. To give a pack of the forward scheme a new key, or to move
 * a pack to the other scheme, with a new key too, open and seal its blocks one by one. Leave blank blocks as they are.
 *
 * Programs that were written for version 0.13 need no change: its calls answer the same numbers and leave the same
 * bytes. New are the four forward calls, and number 13, which only boards_forward_encipher and boards_forward_decipher
 * answer. 0.13 brought number 12: a program for 0.12 that asks for 8, or switches on the number, has to know that 12
 * stands in the place of 8 where the block is all zeros, and that *failed is written with it as with 8. 0.12 brought
 * keys of 32 bytes, which 0.11 refused with 1. Compile with this header: the boards_reason of an earlier one does not
 * know the numbers that came later.
 *
 * Each call does its work on the bytes that it is lent and answers 0, or it answers the number of what is wrong and
 * leaves every byte as it was, but for the place that boards_open_run writes to *failed. It does so for every key,
 * tweak, board, payload, block, pack, run and list, of any length and any content, and for every pack number and every
 * place. Of every call:
 *   - Bytes are lent as a pointer to the first of them and a length, and a list as a pointer to its first number and
 *     their count. As many have to be there as the length or the count says, and those of data, block and run, and of
 *     the list of boards_open_run, have to be writable. Where it is 0, the pointer may be anything, NULL too.
 *   - key, tweak, payload, the pack that is lent to boards_find and the list of boards_seal_run are never written.
 *     data, block and run are read and written. boards_open_run writes its list and *failed where it says so. Nothing
 *     else is touched, errno included.
 *   - What is written must overlap nothing: data, block, run, *failed and the list of boards_open_run are to have no
 *     byte in common with each other or with anything else that is lent; so a payload cannot be lent to boards_seal or
 *     boards_forward_seal where it stands in the block. What is only read may overlap: key, tweak, payload and the list
 *     of boards_seal_run.
 *   - No call can tell whether a pointer, a length or an overlap is wrong in this sense: nothing is promised then.
 *   - Nothing is kept between calls, no memory is allocated, and no system call is made. As compiled today, a call
 *     takes some 6 KiB of stack. Any number of threads may call at once, as long as none is lent bytes that another
 *     one's call may write. As compiled today, boards_find reads no byte of the pack, so that other threads may be at
 *     work on its blocks meanwhile; this is tested, and not proved.
 *   - Bytes may stand at any address: they need not be aligned. A list and *failed are aligned as C aligns uint16_t and
 *     uint32_t.
 *
 * What is proved. The eleven functions are written in Rattle, a language in which each function states what it
 * promises, and the archive libboards.a is made only after a checker has accepted a proof of every promise. Proved is
 * that each call ends, touches nothing but the bytes that it is lent, and answers and leaves what is said below, for
 * all arguments. HCH, the forward scheme and AES are definitions in the source, written line by line from the paper of
 * D. Chakraborty and P. Sarkar, from that of P. Sarkar on schemes that use only the encryption function of a block
 * cipher, and from FIPS 197. Proved is also, of each scheme, that no two boards of a length encipher to the same bytes
 * under the same key and tweak, and that no two blocks open to the same payload with the same key, pack and place. For
 * the forward scheme both hold with any function from blocks to blocks in the place of AES, invertible or not: it uses
 * no inverse of AES.
 * crates/boards/src/lib.rt, in the source, has the promises in full.
 *
 * Where the proof ends. Not proved are this header (its declarations, its comments and its four inline functions);
 * that the definitions are what the papers mean, which a reader can see and vectors from outside test; the compiler
 * that makes the archive, and the C library's memcpy and memset; that your pointers and lengths are right; and that
 * either scheme is hard to break.
 *
 * Timing. Nothing is promised of the time that a call takes, and no proof speaks of it. AES has 10 rounds under a key
 * of 16 bytes and 14 under one of 32, so the time tells which it is. AES looks up tables at places that depend on the
 * key and the data: whoever shares a processor's cache with the program may learn something of both. The forward calls
 * use the tables of AES encryption alone. The products in both schemes use no table, and no branch that depends on the
 * data was seen in their compiled code. The schemes' own tests, in their source, are on lengths alone; the Feistel
 * structure of the forward scheme has none. Opening, in its source, looks at every byte of the check where the
 * payload's length is at most 496. Its time depends on that length, and a block that it answers 8 or 12 for takes twice
 * as long as a good one, by either scheme. Whether such a block is all zeros is found by looking at every byte of it. A
 * run is opened block by block up to the first that will not open, and what was opened is then enciphered again. The
 * compiled code of the schemes and of opening was not searched for other branches. Nothing is wiped from the stack.
 * Keys are yours to make, to keep and to wipe.
 */
#ifndef BOARDS_H
#define BOARDS_H

#include <stddef.h>
#include <stdint.h>

/* The version of the library: 0.14. */
#define BOARDS_VERSION_MAJOR 0
#define BOARDS_VERSION_MINOR 14

/* The limits, in bytes but for the last three. */
#define BOARDS_KEY_SIZE 16         /* of a key for AES-128 */
#define BOARDS_LONG_KEY_SIZE 32    /* of a key for AES-256; calls take either */
#define BOARDS_TWEAK_SIZE 16
#define BOARDS_DATA_MIN 16         /* by HCH */
#define BOARDS_FORWARD_DATA_MIN 33 /* by the forward scheme */
#define BOARDS_DATA_MAX 4096       /* by both */
#define BOARDS_BLOCK_SIZE 512
#define BOARDS_PAYLOAD_MAX 496
#define BOARDS_PLACE_MAX 65535     /* places run from 0 to this one */
#define BOARDS_PACK_BLOCKS_MAX 128 /* a pack has 1 to so many blocks */
#define BOARDS_RUN_BLOCKS_MAX 128  /* and so has a run */

/* What a call answers. */
#define BOARDS_DONE 0                    /* the work is done */
#define BOARDS_WRONG_KEY_SIZE 1          /* key_length is neither 16 nor 32 */
#define BOARDS_WRONG_TWEAK_SIZE 2        /* tweak_length is not 16 */
#define BOARDS_DATA_TOO_SHORT 3          /* the data is under 16 bytes long, for HCH */
#define BOARDS_DATA_TOO_LONG 4           /* the data is over 4,096 bytes long */
#define BOARDS_PAYLOAD_TOO_LONG 5        /* payload_length, or a number of the list lent to sealing, is over 496 */
#define BOARDS_PLACE_TOO_HIGH 6          /* the place, or a run's last, is over 65,535; in boards_find, past the pack */
#define BOARDS_WRONG_BLOCK_SIZE 7        /* the block is not 512 bytes long */
#define BOARDS_CHECK_FAILED 8            /* no payload seals to this block with this key, pack and place; not blank */
#define BOARDS_LINE_NOT_UNDERSTOOD 9     /* said by the command boardline alone: no function here answers it */
#define BOARDS_WRONG_PACK_SIZE 10        /* the pack or the run is not 1 to 128 whole blocks of 512 bytes */
#define BOARDS_WRONG_LIST_SIZE 11        /* the list does not have one number for each block of the run */
#define BOARDS_BLANK 12                  /* no payload seals to this block, and its 512 bytes are zero */
#define BOARDS_FORWARD_DATA_TOO_SHORT 13 /* the data is under 33 bytes long, for the forward scheme */

/* Lets the compiler warn where an answer is not looked at: the data of a refused call is still the plain board. */
#if defined(__GNUC__)
#define BOARDS_LOOK_AT_ANSWER __attribute__((warn_unused_result))
#else
#define BOARDS_LOOK_AT_ANSWER
#endif

#ifdef __cplusplus
extern "C" {
#endif

/*
 * Enciphers a board of 16 to 4,096 bytes in place, by HCH under a key of 16 or 32 bytes and a tweak of 16.
 *
 * Answers BOARDS_DONE: data holds the enciphered board, as long as the plain one.
 * Answers 1, 2, 3 or 4, the first of them that applies (BOARDS_WRONG_KEY_SIZE, BOARDS_WRONG_TWEAK_SIZE,
 * BOARDS_DATA_TOO_SHORT, BOARDS_DATA_TOO_LONG): data is as it was.
 */
BOARDS_LOOK_AT_ANSWER
uint32_t boards_encipher(const uint8_t *key, size_t key_length, const uint8_t *tweak, size_t tweak_length,
                         uint8_t *data, size_t length);

/*
 * Deciphers a board of 16 to 4,096 bytes in place, by HCH under the key and the tweak that it was enciphered with.
 * Under others, and where the forward scheme enciphered it, it answers BOARDS_DONE too, and leaves some other board: a
 * board enciphered so has no check.
 *
 * Answers BOARDS_DONE: data holds the one board of its length that boards_encipher turns into the bytes that were
 * lent.
 * Answers 1, 2, 3 or 4, the first of them that applies, as above: data is as it was.
 */
BOARDS_LOOK_AT_ANSWER
uint32_t boards_decipher(const uint8_t *key, size_t key_length, const uint8_t *tweak, size_t tweak_length,
                         uint8_t *data, size_t length);

/*
 * Seals a payload of 0 to 496 bytes by HCH into a block of 512 bytes, under a key of 16 or 32 bytes, for any 64-bit
 * pack number and a place from 0 to 65,535. What the block held before has no effect, and it may never have been
 * written. The same payload, sealed again under the same key for the same pack and place, gives the same block.
 *
 * Answers BOARDS_DONE: block holds the sealed block, the only one that boards_open opens to this payload with this
 * key, pack and place. It is the plain block that is described at boards_open, as boards_encipher enciphers it under
 * the tweak of the pack in 8 bytes, four zeros and the place in 4 bytes, highest byte first.
 * Answers 1, 7, 5 or 6, the first of them that applies, in this order (BOARDS_WRONG_KEY_SIZE,
 * BOARDS_WRONG_BLOCK_SIZE, BOARDS_PAYLOAD_TOO_LONG, BOARDS_PLACE_TOO_HIGH): block is as it was.
 */
BOARDS_LOOK_AT_ANSWER
uint32_t boards_seal(const uint8_t *key, size_t key_length, const uint8_t *payload, size_t payload_length,
                     uint64_t pack, uint32_t place, uint8_t *block, size_t length);

/*
 * Opens a block of 512 bytes that HCH sealed, in place, with the key (16 or 32 bytes), the pack and the place that it
 * was sealed for.
 *
 * Answers BOARDS_DONE: block holds the plain block. It has the payload from byte 0 on, boards_payload_length(block)
 * bytes of it, then zeros up to byte 495, the pack (8 bytes), the place (4), the payload's length (2) and two zeros,
 * each number with its highest byte first.
 * Answers 1, 7 or 6, the first of them that applies, in this order (BOARDS_WRONG_KEY_SIZE, BOARDS_WRONG_BLOCK_SIZE,
 * BOARDS_PLACE_TOO_HIGH): block is as it was.
 * Answers 8 or 12 where none of these applies and the block will not open (BOARDS_CHECK_FAILED, BOARDS_BLANK): block is
 * as it was. Both say that boards_seal makes this block from no payload at all with this key, pack and place.
 *   - 12 says besides that all 512 bytes are zero, as in a new file that was filled with zeros. There is nothing to
 *     read here: tell the user so, and seal into the block when there is something to save.
 *   - 8 says that they are not all zero: the block was damaged, or it belongs to another key, pack or place, or the
 *     other scheme sealed it.
 * A block of zeros that boards_seal does make from some payload is opened as any other.
 */
BOARDS_LOOK_AT_ANSWER
uint32_t boards_open(const uint8_t *key, size_t key_length, uint64_t pack, uint32_t place,
                     uint8_t *block, size_t length);

/*
 * Says whether a pack of n blocks, 1 to 128, has a block of this place, which is so for the places 0 to n - 1.
 *
 * Answers BOARDS_DONE: the block begins at byte 512 * place of the pack, at boards_part(pack, place).
 * Answers 10 or 6, the first of them that applies, in this order (BOARDS_WRONG_PACK_SIZE, BOARDS_PLACE_TOO_HIGH): there
 * is no such block.
 */
BOARDS_LOOK_AT_ANSWER
uint32_t boards_find(const uint8_t *pack, size_t length, uint32_t place);

/* The block of a place that boards_find has found in the pack: the address of its 512 bytes, to be sealed or opened by
   either scheme, or lent with the blocks behind it as a run. Blocks of different places have no byte in common. Where
   boards_find did not answer BOARDS_DONE, nothing is promised. */
static inline uint8_t *boards_part(uint8_t *pack, uint32_t place) {
    return pack + (size_t)BOARDS_BLOCK_SIZE * place;
}

/* The same in a pack that is only read. */
static inline const uint8_t *boards_const_part(const uint8_t *pack, uint32_t place) {
    return pack + (size_t)BOARDS_BLOCK_SIZE * place;
}

/*
 * Seals the payloads of a run of n blocks, 1 to 128, by HCH, under a key of 16 or 32 bytes, for the places first to
 * first + n - 1 of a pack. The list lengths has n numbers from 0 to 496. count is the count of its numbers and not of
 * its bytes, for an array sizeof lengths / sizeof lengths[0]. The payload of block i, counted from 0, is its first
 * lengths[i] bytes; what stands behind them has no effect, is overwritten, and may never have been written.
 *
 * Answers BOARDS_DONE: block i is the one that boards_seal makes of its payload for the place first + i.
 * Answers 1, 10, 11, 5 or 6, the first of them that applies, in this order (BOARDS_WRONG_KEY_SIZE,
 * BOARDS_WRONG_PACK_SIZE, BOARDS_WRONG_LIST_SIZE, BOARDS_PAYLOAD_TOO_LONG, BOARDS_PLACE_TOO_HIGH): run is as it was.
 * Number 6 is for a last place over 65,535.
 */
BOARDS_LOOK_AT_ANSWER
uint32_t boards_seal_run(const uint8_t *key, size_t key_length, uint64_t pack, uint32_t first,
                         const uint16_t *lengths, size_t count, uint8_t *run, size_t run_length);

/*
 * Opens a run of n blocks, 1 to 128, that HCH sealed, in place, with the key (16 or 32 bytes), the pack and the places
 * first to first + n - 1 that they were sealed for. The list lengths has room for n numbers; what it held has no
 * effect. count is the count of its numbers and not of its bytes, for an array sizeof lengths / sizeof lengths[0].
 * failed points to a uint32_t, and must not be NULL.
 *
 * Answers BOARDS_DONE: block i is the plain block that boards_open leaves for the place first + i, and lengths[i] is
 * the length of its payload.
 * Answers 1, 10, 11 or 6, the first of them that applies, in this order (BOARDS_WRONG_KEY_SIZE,
 * BOARDS_WRONG_PACK_SIZE, BOARDS_WRONG_LIST_SIZE, BOARDS_PLACE_TOO_HIGH): run and lengths are as they were.
 * Answers 8 or 12 where none of these applies and a block will not open (BOARDS_CHECK_FAILED, BOARDS_BLANK): run and
 * lengths are as they were. *failed is the smallest place whose block boards_open would not open, and the answer is
 * what boards_open answers for that block; of the blocks behind it nothing is told. So a run with a blank block is not
 * opened: open the blocks before it and behind it by other calls.
 * With any answer but 8 and 12, BOARDS_DONE too, *failed is not written.
 */
BOARDS_LOOK_AT_ANSWER
uint32_t boards_open_run(const uint8_t *key, size_t key_length, uint64_t pack, uint32_t first,
                         uint16_t *lengths, size_t count, uint8_t *run, size_t run_length, uint32_t *failed);

/*
 * Enciphers a board of 33 to 4,096 bytes in place, by the forward scheme under a key of 16 or 32 bytes and a tweak of
 * 16.
 *
 * Answers BOARDS_DONE: data holds the enciphered board, as long as the plain one.
 * Answers 1, 2, 13 or 4, the first of them that applies, in this order (BOARDS_WRONG_KEY_SIZE,
 * BOARDS_WRONG_TWEAK_SIZE, BOARDS_FORWARD_DATA_TOO_SHORT, BOARDS_DATA_TOO_LONG): data is as it was.
 */
BOARDS_LOOK_AT_ANSWER
uint32_t boards_forward_encipher(const uint8_t *key, size_t key_length, const uint8_t *tweak, size_t tweak_length,
                                 uint8_t *data, size_t length);

/*
 * Deciphers a board of 33 to 4,096 bytes in place, by the forward scheme under the key and the tweak that it was
 * enciphered with. Under others, and where HCH enciphered it, it answers BOARDS_DONE too, and leaves some other board.
 *
 * Answers BOARDS_DONE: data holds the one board of its length that boards_forward_encipher turns into the bytes that
 * were lent.
 * Answers 1, 2, 13 or 4, the first of them that applies, in this order, as above: data is as it was.
 */
BOARDS_LOOK_AT_ANSWER
uint32_t boards_forward_decipher(const uint8_t *key, size_t key_length, const uint8_t *tweak, size_t tweak_length,
                                 uint8_t *data, size_t length);

/*
 * Seals a payload into a block by the forward scheme; for all else as boards_seal.
 *
 * Answers BOARDS_DONE: block holds the sealed block, the only one that boards_forward_open opens to this payload with
 * this key, pack and place. The plain block and the tweak are those of boards_seal, and boards_forward_encipher
 * enciphers it.
 * Answers 1, 7, 5 or 6, the first of them that applies, in this order, as boards_seal does: block is as it was.
 */
BOARDS_LOOK_AT_ANSWER
uint32_t boards_forward_seal(const uint8_t *key, size_t key_length, const uint8_t *payload, size_t payload_length,
                             uint64_t pack, uint32_t place, uint8_t *block, size_t length);

/*
 * Opens a block that boards_forward_seal sealed, in place; for all else as boards_open.
 *
 * Answers BOARDS_DONE: block holds the plain block, which is laid out as boards_open leaves it.
 * Answers 1, 7 or 6, the first of them that applies, in this order, as boards_open does: block is as it was.
 * Answers 8 or 12 where none of these applies and the block will not open: block is as it was. Both say that
 * boards_forward_seal makes this block from no payload at all with this key, pack and place: 12 of a block of zeros, 8
 * of any other, such as one that is damaged or that boards_seal made.
 */
BOARDS_LOOK_AT_ANSWER
uint32_t boards_forward_open(const uint8_t *key, size_t key_length, uint64_t pack, uint32_t place,
                             uint8_t *block, size_t length);

/* The payload's length, 0 to 496, in a block that was opened. Of other bytes it tells nothing: it may be up to 65,535
   there. */
static inline size_t boards_payload_length(const uint8_t *block) {
    return 256u * block[508] + block[509];
}

/* What an answer means, as a sentence for a person, without a full stop. It is never NULL, whatever the number. */
static inline const char *boards_reason(uint32_t number) {
    switch (number) {
    case BOARDS_DONE: return "the work is done";
    case BOARDS_WRONG_KEY_SIZE: return "the key is neither 16 nor 32 bytes long";
    case BOARDS_WRONG_TWEAK_SIZE: return "the tweak is not 16 bytes long";
    case BOARDS_DATA_TOO_SHORT: return "the board is shorter than 16 bytes";
    case BOARDS_DATA_TOO_LONG: return "the board is longer than 4,096 bytes";
    case BOARDS_PAYLOAD_TOO_LONG: return "a payload is longer than 496 bytes";
    case BOARDS_PLACE_TOO_HIGH: return "a place is over 65,535, or past the last block of the pack";
    case BOARDS_WRONG_BLOCK_SIZE: return "the block is not 512 bytes long";
    case BOARDS_CHECK_FAILED: return "the block is damaged, or belongs to another key, pack, place or scheme";
    case BOARDS_LINE_NOT_UNDERSTOOD: return "the line was not understood";
    case BOARDS_WRONG_PACK_SIZE: return "the pack or the run is not 1 to 128 whole blocks of 512 bytes";
    case BOARDS_WRONG_LIST_SIZE: return "the list does not have one number for each block of the run";
    case BOARDS_BLANK: return "this slot was never saved";
    case BOARDS_FORWARD_DATA_TOO_SHORT: return "the board is shorter than 33 bytes";
    default: return "there is no such number";
    }
}

#ifdef __cplusplus
}
#endif

#endif
