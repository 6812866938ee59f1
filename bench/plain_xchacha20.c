/* XChaCha20 in plain C, one block at a time (RFC 8439, draft-irtf-cfrg-xchacha-03): what a C compiler
   makes of the method that xchacha_core uses. */
#include "ciphers.h"

#include <string.h>

static uint32_t load32(const uint8_t *bytes) {
    return (uint32_t)bytes[0] | (uint32_t)bytes[1] << 8 | (uint32_t)bytes[2] << 16 | (uint32_t)bytes[3] << 24;
}

static void store32(uint8_t *bytes, uint32_t word) {
    bytes[0] = (uint8_t)word;
    bytes[1] = (uint8_t)(word >> 8);
    bytes[2] = (uint8_t)(word >> 16);
    bytes[3] = (uint8_t)(word >> 24);
}

static uint32_t rotate(uint32_t word, int by) { return word << by | word >> (32 - by); }

#define QUARTER_ROUND(a, b, c, d)                                                                                      \
    a += b, d = rotate(d ^ a, 16), c += d, b = rotate(b ^ c, 12), a += b, d = rotate(d ^ a, 8), c += d,                \
    b = rotate(b ^ c, 7)

static void ten_double_rounds(uint32_t x[16]) {
    for (int i = 0; i < 10; i++) {
        QUARTER_ROUND(x[0], x[4], x[8], x[12]);
        QUARTER_ROUND(x[1], x[5], x[9], x[13]);
        QUARTER_ROUND(x[2], x[6], x[10], x[14]);
        QUARTER_ROUND(x[3], x[7], x[11], x[15]);
        QUARTER_ROUND(x[0], x[5], x[10], x[15]);
        QUARTER_ROUND(x[1], x[6], x[11], x[12]);
        QUARTER_ROUND(x[2], x[7], x[8], x[13]);
        QUARTER_ROUND(x[3], x[4], x[9], x[14]);
    }
}

static void start(uint32_t state[16], const uint8_t key[32]) {
    state[0] = 0x61707865, state[1] = 0x3320646e, state[2] = 0x79622d32, state[3] = 0x6b206574;
    for (int i = 0; i < 8; i++)
        state[4 + i] = load32(key + 4 * i);
}

void plain_xchacha20_xor(const uint8_t *key, const uint8_t *nonce, uint8_t *buf, size_t len) {
    uint32_t state[16], x[16];
    uint8_t subkey[32], last[64];
    start(state, key);
    for (int i = 0; i < 4; i++)
        state[12 + i] = load32(nonce + 4 * i);
    ten_double_rounds(state);
    for (int i = 0; i < 4; i++)
        store32(subkey + 4 * i, state[i]), store32(subkey + 16 + 4 * i, state[12 + i]);
    start(state, subkey);
    state[12] = 0, state[13] = 0, state[14] = load32(nonce + 16), state[15] = load32(nonce + 20);
    for (; len >= 64; len -= 64, buf += 64, state[12]++) {
        memcpy(x, state, sizeof x);
        ten_double_rounds(x);
        for (int i = 0; i < 16; i++)
            store32(buf + 4 * i, load32(buf + 4 * i) ^ (x[i] + state[i]));
    }
    if (len > 0) {
        memcpy(x, state, sizeof x);
        ten_double_rounds(x);
        for (int i = 0; i < 16; i++)
            store32(last + 4 * i, x[i] + state[i]);
        for (size_t i = 0; i < len; i++)
            buf[i] ^= last[i];
    }
}
