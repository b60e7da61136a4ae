/* The functions under test. The client calls them through this table alone, so that wrong.c can put others there. */
#ifndef LIBRARY_H
#define LIBRARY_H

#include <stddef.h>
#include <stdint.h>

typedef uint32_t data_function(const uint8_t *key, size_t key_length, const uint8_t *tweak, size_t tweak_length,
                               uint8_t *data, size_t length);
typedef uint32_t seal_function(const uint8_t *key, size_t key_length, const uint8_t *payload, size_t payload_length,
                               uint64_t pack, uint32_t place, uint8_t *block, size_t length);
typedef uint32_t open_function(const uint8_t *key, size_t key_length, uint64_t pack, uint32_t place, uint8_t *block,
                               size_t length);
typedef uint32_t find_function(const uint8_t *pack, size_t length, uint32_t place);
typedef uint32_t seal_run_function(const uint8_t *key, size_t key_length, uint64_t pack, uint32_t first,
                                   const uint16_t *lengths, size_t count, uint8_t *run, size_t run_length);
typedef uint32_t open_run_function(const uint8_t *key, size_t key_length, uint64_t pack, uint32_t first,
                                   uint16_t *lengths, size_t count, uint8_t *run, size_t run_length, uint32_t *failed);

/* The schemes, and the functions that each of them has. */
typedef enum { HCH, FORWARD, SCHEMES } scheme;

typedef struct {
    data_function *encipher, *decipher;
    seal_function *seal;
    open_function *open;
} scheme_functions;

/* Runs are HCH's alone; finding has no scheme. */
typedef struct {
    scheme_functions by[SCHEMES];
    find_function *find;
    seal_run_function *seal_run;
    open_run_function *open_run;
} library;

extern library boards;

#endif
