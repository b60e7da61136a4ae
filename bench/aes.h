/* AES in plain C, to measure against; and of it what the careful C takes over. */
#ifndef AES_H
#define AES_H

#include <stddef.h>
#include <stdint.h>

/* The expanded key: 44 words and 10 rounds from a key of 16 bytes, 60 words and 14 rounds from one of 32. */
typedef struct {
    uint32_t words[60];
    size_t rounds;
} aes_key;

void plain_aes_expand(aes_key *w, const uint8_t *key, size_t length);
void plain_aes_encipher(const aes_key *w, uint8_t block[16]);
void plain_aes_decipher(const aes_key *w, uint8_t block[16]);

extern const uint8_t plain_sbox[256], plain_inv_sbox[256];
void plain_mix_columns(uint8_t block[16]);
void plain_inv_mix_columns(uint8_t block[16]);

#endif
