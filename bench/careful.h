/* AES, HCH and the encryption-only scheme in careful portable C, to measure against. The key has 16 or 32 bytes, the
   data 16 to 4,096, and 33 to 4,096 for the encryption-only scheme; the work is done in place. */
#include "aes.h"
#include "element.h"

/* The multiples of a block by the 256 polynomials of degree below 8. */
typedef struct {
    element by[256];
} careful_factor;

/* Makes the tables that all calls read: it comes first. */
void careful_start(void);

/* The expanded key is plain_aes_expand's; for deciphering it is made ready by careful_aes_invert. */
void careful_aes_encipher(const aes_key *k, uint8_t block[16]);
void careful_aes_invert(aes_key *k);
void careful_aes_decipher(const aes_key *inverted, uint8_t block[16]);

void careful_prepare(careful_factor *r, const uint8_t a[16]);
void careful_product(const careful_factor *r, uint8_t block[16]);

void careful_hch_encipher(const uint8_t *key, size_t key_length, const uint8_t tweak[16], uint8_t *data, size_t length);
void careful_hch_decipher(const uint8_t *key, size_t key_length, const uint8_t tweak[16], uint8_t *data, size_t length);
void careful_forward_encipher(const uint8_t *key, size_t key_length, const uint8_t tweak[16], uint8_t *data,
                              size_t length);
void careful_forward_decipher(const uint8_t *key, size_t key_length, const uint8_t tweak[16], uint8_t *data,
                              size_t length);
