/* What bench_c exports, and the plain C beside it. */
#include <stddef.h>
#include <stdint.h>

void bench_blake2b(uint8_t *out, size_t out_len, const uint8_t *key, size_t key_len, const uint8_t *text,
                   size_t text_len);
void bench_xchacha20_xor(const uint8_t *key, size_t key_len, const uint8_t *nonce, size_t nonce_len, uint8_t *buf,
                         size_t buf_len);
void plain_blake2b(uint8_t *out, size_t out_len, const uint8_t *key, size_t key_len, const uint8_t *text,
                   size_t text_len);
void plain_xchacha20_xor(const uint8_t *key, const uint8_t *nonce, uint8_t *buf, size_t len);
