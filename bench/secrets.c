/* Runs the hash, the cipher and the comparison of tags on keys and texts that valgrind takes for undefined: it tells of
   each branch and each address that depends on them. With an argument it looks into a table by a secret byte, which
   has to be told of. Lengths are no secrets, and neither is what comes out. */
#include "ciphers.h"
#include "seals.h"

#include <stdio.h>
#include <string.h>
#include <valgrind/memcheck.h>

enum { LONGEST = 1000 };

static uint8_t key[64], nonce[24], text[LONGEST], hash[64], tag[32], other[32];

static void hide(void) {
    VALGRIND_MAKE_MEM_UNDEFINED(key, sizeof key);
    VALGRIND_MAKE_MEM_UNDEFINED(nonce, sizeof nonce);
    VALGRIND_MAKE_MEM_UNDEFINED(text, sizeof text);
    VALGRIND_MAKE_MEM_UNDEFINED(tag, sizeof tag);
    VALGRIND_MAKE_MEM_UNDEFINED(other, sizeof other);
}

int main(int argc, char **argv) {
    static const size_t lengths[] = {0, 1, 63, 64, 65, 127, 128, 129, 255, 256, 257, 300, LONGEST};
    (void)argv;
    uint64_t sum = 0;
    if (argc > 1) {
        hide();
        sum = lengths[key[0] % 8];
    }
    for (size_t i = 0; i < sizeof lengths / sizeof *lengths; i++)
        for (size_t key_len = 0; key_len <= sizeof key; key_len += 32) {
            hide();
            bench_blake2b(hash, sizeof hash, key, key_len, text, lengths[i]);
            bench_xchacha20_xor(key, 32, nonce, sizeof nonce, text, lengths[i]);
            uint64_t same = bench_same_tag(tag, sizeof tag, other, sizeof other);
            VALGRIND_MAKE_MEM_DEFINED(hash, sizeof hash);
            VALGRIND_MAKE_MEM_DEFINED(text, sizeof text);
            VALGRIND_MAKE_MEM_DEFINED(&same, sizeof same);
            sum += hash[0] + text[0] + same;
        }
    VALGRIND_MAKE_MEM_DEFINED(&sum, sizeof sum);
    printf("ran, %llu\n", (unsigned long long)sum);
    return 0;
}
