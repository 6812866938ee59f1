/* The creation of a command, in version v0, read and written by plain C in the manner of a MessagePack library: a reader
   takes every spelling of an item and checks lengths and UTF-8, a writer spells each item in its shortest form or in the
   one that its place names. */
#include "payload_by_c.h"

#include <stdbool.h>
#include <stdlib.h>
#include <string.h>

enum { ID_DIGITS = 32, TEXTS = 4 };

typedef unsigned __int128 id_number;

struct text {
    uint8_t *bytes;
    size_t len;
};

struct creation {
    id_number id;
    uint64_t timestamp;
    int64_t duration, exit;
    struct text texts[TEXTS];
    bool deleted;
    uint64_t deleted_at;
};

/* ---- reading */

struct reader {
    const uint8_t *at;
    size_t left;
};

/* So many bytes that are left, or NULL. */
static const uint8_t *take(struct reader *r, size_t count) {
    if (r->left < count)
        return NULL;
    const uint8_t *taken = r->at;
    r->at += count;
    r->left -= count;
    return taken;
}

static bool read_big(struct reader *r, size_t bytes, uint64_t *value) {
    const uint8_t *at = take(r, bytes);
    if (!at)
        return false;
    uint64_t sum = 0;
    for (size_t i = 0; i < bytes; i++)
        sum = sum << 8 | at[i];
    *value = sum;
    return true;
}

/* An integer: its 64 bits, and whether they stand for a number below 0. */
static bool read_integer(struct reader *r, uint64_t *bits, bool *negative) {
    const uint8_t *mark = take(r, 1);
    if (!mark)
        return false;
    *negative = false;
    if (*mark <= 0x7f) {
        *bits = *mark;
        return true;
    }
    if (*mark >= 0xe0) {
        *bits = (uint64_t)(int8_t)*mark;
        *negative = true;
        return true;
    }
    if (*mark >= 0xcc && *mark <= 0xcf)
        return read_big(r, (size_t)1 << (*mark - 0xcc), bits);
    if (*mark < 0xd0 || *mark > 0xd3)
        return false;
    size_t bytes = (size_t)1 << (*mark - 0xd0);
    if (!read_big(r, bytes, bits))
        return false;
    if (bytes < 8 && *bits >> (8 * bytes - 1))
        *bits |= ~(uint64_t)0 << (8 * bytes);
    *negative = *bits >> 63;
    return true;
}

static bool read_unsigned(struct reader *r, uint64_t *value) {
    bool negative;
    return read_integer(r, value, &negative) && !negative;
}

static bool read_signed(struct reader *r, int64_t *value) {
    uint64_t bits;
    bool negative;
    if (!read_integer(r, &bits, &negative) || (!negative && bits >> 63))
        return false;
    *value = (int64_t)bits;
    return true;
}

/* The length behind a mark with a length of 1, 2 or 4 bytes, of which the first is `first`. */
static bool read_length(struct reader *r, uint8_t mark, uint8_t first, uint64_t *len) {
    return mark >= first && mark <= first + 2 && read_big(r, (size_t)1 << (mark - first), len);
}

static bool is_utf8(const uint8_t *s, size_t len) {
    size_t i = 0;
    while (i < len) {
        uint64_t eight;
        if (i + 8 <= len && (memcpy(&eight, s + i, 8), !(eight & 0x8080808080808080))) {
            i += 8;
            continue;
        }
        uint8_t a = s[i];
        if (a < 0x80) {
            i++;
            continue;
        }
        size_t more = a >= 0xc2 && a <= 0xdf ? 1 : (a & 0xf0) == 0xe0 ? 2 : a >= 0xf0 && a <= 0xf4 ? 3 : 0;
        if (!more || len - i <= more)
            return false;
        uint8_t b = s[i + 1];
        uint8_t low = a == 0xe0 ? 0xa0 : a == 0xf0 ? 0x90 : 0x80, high = a == 0xed ? 0x9f : a == 0xf4 ? 0x8f : 0xbf;
        if (b < low || b > high)
            return false;
        for (size_t k = 2; k <= more; k++)
            if ((s[i + k] & 0xc0) != 0x80)
                return false;
        i += more + 1;
    }
    return true;
}

static const uint8_t *read_text(struct reader *r, uint64_t *len) {
    const uint8_t *mark = take(r, 1);
    if (!mark)
        return NULL;
    if ((*mark & 0xe0) == 0xa0)
        *len = *mark & 0x1f;
    else if (!read_length(r, *mark, 0xd9, len))
        return NULL;
    const uint8_t *bytes = take(r, *len);
    return bytes && is_utf8(bytes, *len) ? bytes : NULL;
}

static bool read_copied(struct reader *r, struct text *text) {
    uint64_t len;
    const uint8_t *bytes = read_text(r, &len);
    if (!bytes || !(text->bytes = malloc(len ? len : 1)))
        return false;
    memcpy(text->bytes, bytes, len);
    text->len = len;
    return true;
}

static bool read_id(struct reader *r, id_number *id) {
    uint64_t len;
    const uint8_t *digits = read_text(r, &len);
    if (!digits || len != ID_DIGITS)
        return false;
    *id = 0;
    for (size_t i = 0; i < ID_DIGITS; i++) {
        uint8_t d = digits[i];
        if (d >= '0' && d <= '9')
            d -= '0';
        else if (d >= 'a' && d <= 'f')
            d -= 'a' - 10;
        else
            return false;
        *id = *id << 4 | d;
    }
    return true;
}

static bool read_bin(struct reader *r, struct reader *held) {
    const uint8_t *mark = take(r, 1);
    uint64_t len;
    if (!mark || !read_length(r, *mark, 0xc4, &len))
        return false;
    held->at = take(r, len);
    held->left = len;
    return held->at;
}

static bool read_array(struct reader *r, uint64_t *count) {
    const uint8_t *mark = take(r, 1);
    if (!mark)
        return false;
    if ((*mark & 0xf0) == 0x90) {
        *count = *mark & 0x0f;
        return true;
    }
    return (*mark == 0xdc && read_big(r, 2, count)) || (*mark == 0xdd && read_big(r, 4, count));
}

static bool read_time(struct reader *r, bool *there, uint64_t *time) {
    *there = !(r->left && *r->at == 0xc0);
    return *there ? read_unsigned(r, time) : take(r, 1) != NULL;
}

static void free_texts(struct creation *c) {
    for (int i = 0; i < TEXTS; i++)
        free(c->texts[i].bytes);
}

static bool read_parts(struct reader *r, struct creation *c) {
    struct reader held;
    uint64_t kind, layout, count;
    if (!read_unsigned(r, &kind) || kind != 0 || !read_bin(r, &held) || r->left)
        return false;
    if (!read_unsigned(&held, &layout) || layout != 0 || !read_array(&held, &count) || count != 9)
        return false;
    if (!read_id(&held, &c->id) || !read_unsigned(&held, &c->timestamp) || !read_signed(&held, &c->duration) ||
        !read_signed(&held, &c->exit))
        return false;
    for (int i = 0; i < TEXTS; i++)
        if (!read_copied(&held, &c->texts[i]))
            return false;
    return read_time(&held, &c->deleted, &c->deleted_at) && !held.left;
}

/* Its texts are freed again where it isn't one. */
static bool read_creation(const uint8_t *bytes, size_t len, struct creation *c) {
    struct reader r = {bytes, len};
    memset(c->texts, 0, sizeof c->texts);
    if (read_parts(&r, c))
        return true;
    free_texts(c);
    return false;
}

__attribute__((noinline)) uint64_t c_payload_read(const uint8_t *bytes, size_t len) {
    struct creation c;
    if (!read_creation(bytes, len, &c))
        return 0;
    __asm__ volatile("" : : "r"(&c) : "memory"); /* the parts are looked at */
    free_texts(&c);
    return 1;
}

/* ---- writing */

static size_t integer_length(uint64_t bits, bool negative) {
    if (!negative)
        return bits < 1 << 7 ? 1 : bits < 1 << 8 ? 2 : bits < 1 << 16 ? 3 : bits < (uint64_t)1 << 32 ? 5 : 9;
    int64_t value = (int64_t)bits;
    return value >= -32 ? 1 : value >= INT8_MIN ? 2 : value >= INT16_MIN ? 3 : value >= INT32_MIN ? 5 : 9;
}

static size_t head_length(size_t len, size_t shortest) {
    return len < shortest ? 1 : len < 1 << 8 ? 2 : len < 1 << 16 ? 3 : 5;
}

static uint8_t *put_big(uint8_t *at, uint64_t value, size_t bytes) {
    for (size_t i = 0; i < bytes; i++)
        at[i] = value >> 8 * (bytes - 1 - i);
    return at + bytes;
}

static uint8_t *put_marked(uint8_t *at, uint8_t mark, uint64_t value, size_t bytes) {
    *at = mark;
    return put_big(at + 1, value, bytes);
}

static uint8_t *put_signed(uint8_t *at, int64_t value) {
    size_t bytes = integer_length(value, value < 0) - 1;
    if (bytes == 0)
        return put_big(at, value, 1);
    int power = bytes == 1 ? 0 : bytes == 2 ? 1 : bytes == 4 ? 2 : 3;
    return put_marked(at, (value < 0 ? 0xd0 : 0xcc) + power, value, bytes);
}

static uint8_t *put_length(uint8_t *at, uint8_t first, size_t len, size_t bytes) {
    return put_marked(at, first + (bytes == 1 ? 0 : bytes == 2 ? 1 : 2), len, bytes);
}

static uint8_t *put_text(uint8_t *at, const uint8_t *bytes, size_t len) {
    size_t head = head_length(len, 32);
    at = head == 1 ? put_big(at, 0xa0 | len, 1) : put_length(at, 0xd9, len, head - 1);
    memcpy(at, bytes, len);
    return at + len;
}

static uint8_t *put_id(uint8_t *at, id_number id) {
    uint8_t digits[ID_DIGITS];
    for (int i = 0; i < ID_DIGITS; i++)
        digits[i] = "0123456789abcdef"[(uint8_t)(id >> 4 * (ID_DIGITS - 1 - i)) & 15];
    return put_text(at, digits, ID_DIGITS);
}

static size_t held_length(const struct creation *c) {
    size_t len = 3 + 1 + 34 + 9 + integer_length(c->duration, c->duration < 0) + integer_length(c->exit, c->exit < 0) + (c->deleted ? 9 : 1);
    for (int i = 0; i < TEXTS; i++)
        len += head_length(c->texts[i].len, 32) + c->texts[i].len;
    return len;
}

/* The bytes, which are the caller's; NULL where there is no memory. */
static uint8_t *write_creation(const struct creation *c, size_t *len) {
    size_t held = held_length(c), head = head_length(held, 0);
    *len = 2 + head + held;
    uint8_t *bytes = malloc(*len), *at = bytes;
    if (!bytes)
        return NULL;
    at = put_marked(at, 0xcc, 0, 1);
    at = put_length(at, 0xc4, held, head - 1);
    at = put_marked(at, 0xcd, 0, 2);
    *at++ = 0x99;
    at = put_id(at, c->id);
    at = put_marked(at, 0xcf, c->timestamp, 8);
    at = put_signed(at, c->duration);
    at = put_signed(at, c->exit);
    for (int i = 0; i < TEXTS; i++)
        at = put_text(at, c->texts[i].bytes, c->texts[i].len);
    if (c->deleted)
        put_marked(at, 0xcf, c->deleted_at, 8);
    else
        *at = 0xc0;
    return bytes;
}

__attribute__((noinline)) uint64_t c_payload_write(const uint8_t *bytes, size_t len, uint64_t times) {
    struct creation c;
    size_t last = 0;
    if (!read_creation(bytes, len, &c))
        return 0;
    for (uint64_t turn = 0; turn < times; turn++) {
        uint8_t *written = write_creation(&c, &last);
        if (!written) {
            last = 0;
            break;
        }
        __asm__ volatile("" : : "r"(written) : "memory"); /* the bytes are looked at */
        free(written);
    }
    free_texts(&c);
    return last;
}
