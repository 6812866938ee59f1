/* The creation of a command read and written by plain C, as bench_c's exports read and write it. */
#include <stddef.h>
#include <stdint.h>

/* Reads it to its parts, whose texts are copied: 1, or 0 where it isn't one. */
uint64_t c_payload_read(const uint8_t *bytes, size_t len);

/* Reads it, and writes it so many times: the length of what was written last, or 0. */
uint64_t c_payload_write(const uint8_t *bytes, size_t len, uint64_t times);
