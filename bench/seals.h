/* What bench_c exports of sealing and of payloads: 0 is a failure, and leaves `out` as it was. */
#include <stddef.h>
#include <stdint.h>

/* Seals as index idx of record id 1 of host 1, version v0, tag history, by 96 random bytes; writes the sealed text and
   then the wrapped one, and answers the first one's length in the high and the second one's in the low 32 bits. */
uint64_t bench_seal(const uint8_t *key, size_t key_len, const uint8_t *drawn, size_t drawn_len, uint64_t idx,
                    const uint8_t *payload, size_t payload_len, uint8_t *out, size_t out_len);

/* Opens such a record, writes the payload and answers its length. */
uint64_t bench_unseal(const uint8_t *key, size_t key_len, uint64_t idx, const uint8_t *sealed, size_t sealed_len,
                      const uint8_t *wrapped, size_t wrapped_len, uint8_t *out, size_t out_len);

/* Reads the creation of a command, tag history and version v0, to its parts: 1 where it reads. */
uint64_t bench_payload_read(const uint8_t *bytes, size_t len);

/* Reads it, and then writes it so many times: the length of what was written last. */
uint64_t bench_payload_write(const uint8_t *bytes, size_t len, uint64_t times);

/* 1 where two tags of one length are equal, else 0. */
uint64_t bench_same_tag(const uint8_t *expected, size_t expected_len, const uint8_t *found, size_t found_len);
