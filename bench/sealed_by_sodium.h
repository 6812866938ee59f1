/* Records sealed and opened by libsodium and plain C, as bench_c seals and opens them. */
#include <stddef.h>
#include <stdint.h>

/* Sizes in bytes: a key, the random bytes of a seal, and the id of a key. */
enum { KEY = 32, DRAWN = 96, KEY_ID = 51 };

/* The id of a key, which both keep. */
void sodium_key_id(char id[KEY_ID + 1], const uint8_t *key);

/* Writes the sealed text and then the wrapped one; the lengths as bench_seal answers them. */
uint64_t sodium_seal(const uint8_t *key, const char *id, const uint8_t *drawn, uint64_t idx, const uint8_t *payload,
                     size_t payload_len, uint8_t *out, size_t out_len);

/* Writes the payload and answers its length; 0 where the record opens to nothing. */
uint64_t sodium_unseal(const uint8_t *key, const char *id, uint64_t idx, const uint8_t *sealed, size_t sealed_len,
                       const uint8_t *wrapped, size_t wrapped_len, uint8_t *out, size_t out_len);
