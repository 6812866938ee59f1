/* The heap of a static library that Rattle makes, over the C library's: what the exports that want memory call. */
#include <stdbool.h>
#include <stddef.h>
#include <stdint.h>
#include <stdlib.h>

struct tried {
    bool ok;
    uint8_t *p;
};

static uint8_t nothing;

static struct tried tried(uint8_t *p) {
    return p ? (struct tried){true, p} : (struct tried){false, &nothing};
}

/* Alignments up to 16, which malloc and realloc keep. */
struct tried rattle_alloc(size_t size, size_t alignment) {
    (void)alignment;
    return tried(malloc(size ? size : 1));
}

struct tried rattle_realloc(uint8_t *p, size_t kept, size_t size, size_t alignment) {
    (void)kept, (void)alignment;
    return tried(realloc(p, size ? size : 1));
}

void rattle_dealloc(uint8_t *p) { free(p); }
