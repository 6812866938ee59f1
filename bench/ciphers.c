/* Times the proved hash and cipher beside the same plain C and beside libsodium, in one program. The three
   take turns, so that a disturbance meets all of them; each figure is the fastest of its turns, since what
   else runs on the machine makes a turn slower and never faster. */
#include "ciphers.h"

#include <sodium.h>
#include <stdio.h>
#include <stdlib.h>
#include <string.h>
#include <time.h>

enum { TURNS = 101, LONGEST = 1 << 20, CHECKED = 1001 };

static uint8_t key[32], nonce[24], hash[64];
static uint8_t *buf;

static void proved_cipher(size_t len) { bench_xchacha20_xor(key, sizeof key, nonce, sizeof nonce, buf, len); }
static void plain_cipher(size_t len) { plain_xchacha20_xor(key, nonce, buf, len); }
static void sodium_cipher(size_t len) { crypto_stream_xchacha20_xor(buf, buf, len, nonce, key); }
static void proved_hash(size_t len) { bench_blake2b(hash, sizeof hash, NULL, 0, buf, len); }
static void plain_hash(size_t len) { plain_blake2b(hash, sizeof hash, NULL, 0, buf, len); }
static void sodium_hash(size_t len) { crypto_generichash(hash, sizeof hash, buf, len, NULL, 0); }
static void proved_keyed(size_t len) { bench_blake2b(hash, sizeof hash, key, sizeof key, buf, len); }
static void plain_keyed(size_t len) { plain_blake2b(hash, sizeof hash, key, sizeof key, buf, len); }
static void sodium_keyed(size_t len) { crypto_generichash(hash, sizeof hash, buf, len, key, sizeof key); }

typedef void (*call)(size_t len);

static const struct {
    const char *name;
    call calls[3]; /* proved, plain C, libsodium */
} measured[] = {{"XChaCha20", {proved_cipher, plain_cipher, sodium_cipher}},
                {"BLAKE2b", {proved_hash, plain_hash, sodium_hash}},
                {"keyed", {proved_keyed, plain_keyed, sodium_keyed}}};

/* Of this process alone, so that what else runs on the machine counts little. */
static double nanoseconds(void) {
    struct timespec at;
    clock_gettime(CLOCK_PROCESS_CPUTIME_ID, &at);
    return at.tv_sec * 1e9 + at.tv_nsec;
}

/* Ends the program where the three do not agree on some short text. */
static void check_same(size_t which) {
    static uint8_t texts[3][CHECKED], hashes[3][64];
    for (size_t len = 0; len < CHECKED; len++) {
        for (int i = 0; i < 3; i++) {
            memset(buf, 7, CHECKED);
            memset(hash, 0, sizeof hash);
            measured[which].calls[i](len);
            memcpy(texts[i], buf, CHECKED);
            memcpy(hashes[i], hash, sizeof hash);
        }
        for (int i = 1; i < 3; i++)
            if (memcmp(texts[0], texts[i], CHECKED) || memcmp(hashes[0], hashes[i], sizeof hash)) {
                fprintf(stderr, "%s differs at %zu bytes\n", measured[which].name, len);
                exit(1);
            }
    }
}

static void measure(size_t which, size_t len) {
    double best[3] = {0};
    long calls = 200000 / (64 + (long)len) * 8 + 1;
    for (int turn = 0; turn < TURNS; turn++)
        for (int i = 0; i < 3; i++) {
            double began = nanoseconds();
            for (long n = 0; n < calls; n++)
                measured[which].calls[i](len);
            double took = (nanoseconds() - began) / calls;
            if (turn == 0 || took < best[i])
                best[i] = took;
        }
    printf("%-10s %8zu %12.0f %12.0f %12.0f %12.2f %12.2f\n", measured[which].name, len, best[0], best[1], best[2],
           best[1] / best[0], best[2] / best[0]);
}

int main(void) {
    static const size_t lengths[] = {64, 100, 256, 1024, LONGEST};
    buf = malloc(LONGEST);
    if (sodium_init() < 0 || buf == NULL)
        return 1;
    for (int i = 0; i < 32; i++)
        key[i] = (uint8_t)(3 * i + 1);
    for (int i = 0; i < 24; i++)
        nonce[i] = (uint8_t)(5 * i + 2);
    memset(buf, 7, LONGEST);
    printf("%-10s %8s %12s %12s %12s %12s %12s\n", "", "bytes", "proved, ns", "plain C, ns", "sodium, ns", "of plain C",
           "of sodium");
    for (size_t which = 0; which < sizeof measured / sizeof *measured; which++) {
        check_same(which);
        for (size_t i = 0; i < sizeof lengths / sizeof *lengths; i++)
            measure(which, lengths[i]);
    }
    return 0;
}
