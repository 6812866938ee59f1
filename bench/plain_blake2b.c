/* BLAKE2b in plain C (RFC 7693), of a text that is whole in memory: what a C compiler makes of the method
   that blake2b_core uses. */
#include "ciphers.h"

#include <string.h>

static const uint64_t iv[8] = {0x6a09e667f3bcc908, 0xbb67ae8584caa73b, 0x3c6ef372fe94f82b, 0xa54ff53a5f1d36f1,
                               0x510e527fade682d1, 0x9b05688c2b3e6c1f, 0x1f83d9abfb41bd6b, 0x5be0cd19137e2179};

static const uint8_t sigma[10][16] = {
    {0, 1, 2, 3, 4, 5, 6, 7, 8, 9, 10, 11, 12, 13, 14, 15}, {14, 10, 4, 8, 9, 15, 13, 6, 1, 12, 0, 2, 11, 7, 5, 3},
    {11, 8, 12, 0, 5, 2, 15, 13, 10, 14, 3, 6, 7, 1, 9, 4}, {7, 9, 3, 1, 13, 12, 11, 14, 2, 6, 5, 10, 4, 0, 15, 8},
    {9, 0, 5, 7, 2, 4, 10, 15, 14, 1, 11, 12, 6, 8, 3, 13}, {2, 12, 6, 10, 0, 11, 8, 3, 4, 13, 7, 5, 15, 14, 1, 9},
    {12, 5, 1, 15, 14, 13, 4, 10, 0, 7, 6, 3, 9, 2, 8, 11}, {13, 11, 7, 14, 12, 1, 3, 9, 5, 0, 15, 4, 8, 6, 2, 10},
    {6, 15, 14, 9, 11, 3, 0, 8, 12, 2, 13, 7, 1, 4, 10, 5}, {10, 2, 8, 4, 7, 6, 1, 5, 15, 11, 9, 14, 3, 12, 13, 0}};

static uint64_t load64(const uint8_t *bytes) {
    uint64_t word = 0;
    for (int i = 0; i < 8; i++)
        word |= (uint64_t)bytes[i] << 8 * i;
    return word;
}

static uint64_t rotate(uint64_t word, int by) { return word >> by | word << (64 - by); }

#define MIX(a, b, c, d, x, y)                                                                                          \
    a += b + x, d = rotate(d ^ a, 32), c += d, b = rotate(b ^ c, 24), a += b + y, d = rotate(d ^ a, 16), c += d,       \
    b = rotate(b ^ c, 63)

#define ROUND(r)                                                                                                       \
    MIX(v[0], v[4], v[8], v[12], m[sigma[r][0]], m[sigma[r][1]]);                                                      \
    MIX(v[1], v[5], v[9], v[13], m[sigma[r][2]], m[sigma[r][3]]);                                                      \
    MIX(v[2], v[6], v[10], v[14], m[sigma[r][4]], m[sigma[r][5]]);                                                     \
    MIX(v[3], v[7], v[11], v[15], m[sigma[r][6]], m[sigma[r][7]]);                                                     \
    MIX(v[0], v[5], v[10], v[15], m[sigma[r][8]], m[sigma[r][9]]);                                                     \
    MIX(v[1], v[6], v[11], v[12], m[sigma[r][10]], m[sigma[r][11]]);                                                   \
    MIX(v[2], v[7], v[8], v[13], m[sigma[r][12]], m[sigma[r][13]]);                                                    \
    MIX(v[3], v[4], v[9], v[14], m[sigma[r][14]], m[sigma[r][15]])

static void compress(uint64_t h[8], const uint8_t block[128], uint64_t count, int last) {
    uint64_t m[16], v[16];
    for (int i = 0; i < 16; i++)
        m[i] = load64(block + 8 * i);
    for (int i = 0; i < 8; i++)
        v[i] = h[i], v[8 + i] = iv[i];
    v[12] ^= count;
    if (last)
        v[14] = ~v[14];
    ROUND(0);
    ROUND(1);
    ROUND(2);
    ROUND(3);
    ROUND(4);
    ROUND(5);
    ROUND(6);
    ROUND(7);
    ROUND(8);
    ROUND(9);
    ROUND(0);
    ROUND(1);
    for (int i = 0; i < 8; i++)
        h[i] ^= v[i] ^ v[8 + i];
}

void plain_blake2b(uint8_t *out, size_t out_len, const uint8_t *key, size_t key_len, const uint8_t *text,
                   size_t text_len) {
    uint64_t h[8], count = 0;
    uint8_t block[128] = {0};
    memcpy(h, iv, sizeof h);
    h[0] ^= 0x01010000 ^ key_len << 8 ^ out_len;
    if (key_len > 0) {
        memcpy(block, key, key_len);
        compress(h, block, count += 128, text_len == 0);
    }
    for (; text_len > 128; text += 128, text_len -= 128)
        compress(h, text, count += 128, 0);
    if (text_len > 0 || key_len == 0) {
        memset(block, 0, sizeof block);
        memcpy(block, text, text_len);
        compress(h, block, count + text_len, 1);
    }
    for (size_t i = 0; i < out_len; i++)
        out[i] = (uint8_t)(h[i / 8] >> 8 * (i % 8));
}
