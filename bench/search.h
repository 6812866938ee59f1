/* What bench_search exports. A history is commands in a row: for each its time in eight bytes and four texts, each
   behind its length of two, all lengths and times the greatest byte first: command, working directory, session, host
   name. */
#include <stddef.h>
#include <stdint.h>

/* Reads `count` commands, keeps none, and answers how many there were. */
uint64_t bench_history(uint64_t count, const uint8_t *history, size_t history_len);

/* Fills a view with `count` commands, searches it `rounds` times for the newest `limit` that match, and answers how many
   hits there were. `mode` 0 is by prefix, else by substring; `by` is 0 for all commands, 1 for those of the host `within`,
   2 of the session, 3 of the working directory; `unique` 0 shows equal commands again. */
uint64_t bench_search(uint64_t count, const uint8_t *history, size_t history_len, uint64_t mode, const uint8_t *written,
                      size_t written_len, uint64_t by, const uint8_t *within, size_t within_len, uint64_t unique,
                      uint32_t limit, uint64_t rounds);
