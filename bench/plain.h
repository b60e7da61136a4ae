/* HCH, the encryption-only scheme and their product in plain C, to measure against. The key has 16 or 32 bytes, the
   data 16 to 4,096, and 33 to 4,096 for the encryption-only scheme; the work is done in place. */
#include <stddef.h>
#include <stdint.h>

void plain_product(const uint8_t a[16], uint8_t block[16]);
void plain_hch_encipher(const uint8_t *key, size_t key_length, const uint8_t tweak[16], uint8_t *data, size_t length);
void plain_hch_decipher(const uint8_t *key, size_t key_length, const uint8_t tweak[16], uint8_t *data, size_t length);
void plain_forward_encipher(const uint8_t *key, size_t key_length, const uint8_t tweak[16], uint8_t *data,
                            size_t length);
void plain_forward_decipher(const uint8_t *key, size_t key_length, const uint8_t tweak[16], uint8_t *data,
                            size_t length);
