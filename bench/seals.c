/* Times sealing and opening a record by the proved code beside the same composed from libsodium, and reading and writing
   its payload beside plain C, in one program. The two take turns, so that a disturbance meets both; each figure is the
   fastest of its turns, since what else runs on the machine makes a turn slower and never faster. Only the peer keeps
   the key's id: bench_seal and bench_unseal compute it anew. */
#include "payload_by_c.h"
#include "sealed_by_sodium.h"
#include "seals.h"

#include <sodium.h>
#include <stdio.h>
#include <stdlib.h>
#include <string.h>
#include <time.h>

/* A write is one of so many of a call, which reads once. */
enum { TURNS = 101, LONGEST = 4096, ROOM = 2 * LONGEST + 1000, WRITES = 64 };

static uint8_t key[KEY], drawn[DRAWN], payload[LONGEST], out[2][ROOM], plain[2][ROOM];
static char id[KEY_ID + 1];
static size_t payload_len, sealed_len, wrapped_len;

static uint64_t seal_by(int which) {
    return which == 0 ? bench_seal(key, sizeof key, drawn, sizeof drawn, 0, payload, payload_len, out[0], ROOM)
                      : sodium_seal(key, id, drawn, 0, payload, payload_len, out[1], ROOM);
}

static uint64_t unseal_by(int which) {
    const uint8_t *wrapped = out[0] + sealed_len;
    return which == 0 ? bench_unseal(key, sizeof key, 0, out[0], sealed_len, wrapped, wrapped_len, plain[0], ROOM)
                      : sodium_unseal(key, id, 0, out[0], sealed_len, wrapped, wrapped_len, plain[1], ROOM);
}

static uint64_t read_by(int which) {
    return which == 0 ? bench_payload_read(payload, payload_len) : c_payload_read(payload, payload_len);
}

static uint64_t write_by(int which) {
    return which == 0 ? bench_payload_write(payload, payload_len, WRITES) : c_payload_write(payload, payload_len, WRITES);
}

static const struct {
    const char *name, *peer;
    uint64_t (*call)(int which);
    long times; /* in one call */
} measured[] = {{"seal", "libsodium", seal_by, 1},
                {"open", "libsodium", unseal_by, 1},
                {"read", "plain C", read_by, 1},
                {"write", "plain C", write_by, WRITES}};

/* Of this process alone, so that what else runs on the machine counts little. */
static double nanoseconds(void) {
    struct timespec at;
    clock_gettime(CLOCK_PROCESS_CPUTIME_ID, &at);
    return at.tv_sec * 1e9 + at.tv_nsec;
}

static uint8_t *append(uint8_t *at, const char *bytes, size_t len) {
    memcpy(at, bytes, len);
    return at + len;
}

#define APPEND(at, text) append(at, text, sizeof(text) - 1)

/* The creation of a command of so many bytes, which are below 65,536. */
static void make_payload(size_t command) {
    size_t head = command < 32 ? 1 : 3, held = 61 + head + command;
    uint8_t *at = APPEND(payload, "\xcc");
    *at++ = 0;
    if (held < 256) {
        at = APPEND(at, "\xc4");
    } else {
        at = APPEND(at, "\xc5");
        *at++ = held >> 8;
    }
    *at++ = held;
    at = APPEND(at, "\xcd\0\0\x99\xd9\x20" "018bcfe5680070018203040506070809\xcf\x17\x97\x9c\xfe\x36\x2a\0\0\xcd\x03\xe8\0");
    if (head == 1) {
        *at++ = 0xa0 | command;
    } else {
        at = APPEND(at, "\xda");
        *at++ = command >> 8;
        *at++ = command;
    }
    for (size_t i = 0; i < command; i++)
        *at++ = "ls"[i % 2];
    at = APPEND(at, "\xa1/\xa2s1\xa3h:u\xc0");
    payload_len = at - payload;
}

static void differ(const char *what) {
    fprintf(stderr, "%s of %zu bytes differs\n", what, payload_len);
    exit(1);
}

/* Ends the program where the two don't write and read the same. */
static void check_same(void) {
    uint64_t lengths[2] = {seal_by(0), seal_by(1)};
    sealed_len = lengths[0] >> 32;
    wrapped_len = lengths[0] & 0xffffffff;
    if (!lengths[0] || lengths[0] != lengths[1] || memcmp(out[0], out[1], sealed_len + wrapped_len))
        differ("the seal of a payload");
    for (int i = 0; i < 2; i++) {
        if (unseal_by(i) != payload_len || memcmp(plain[i], payload, payload_len))
            differ("what opens of a payload");
        if (read_by(i) != 1 || write_by(i) != payload_len)
            differ("what is read of a payload");
    }
    for (size_t len = 0; len < payload_len; len++)
        if (bench_payload_read(payload, len) || c_payload_read(payload, len))
            differ("what is read of a part of a payload");
}

static void measure(size_t which) {
    double best[2] = {0};
    long calls = 200000 / (1000 + (long)payload_len) / measured[which].times + 1;
    for (int turn = 0; turn < TURNS; turn++)
        for (int i = 0; i < 2; i++) {
            double began = nanoseconds();
            for (long n = 0; n < calls; n++)
                measured[which].call(i);
            double took = (nanoseconds() - began) / calls / measured[which].times;
            if (turn == 0 || took < best[i])
                best[i] = took;
        }
    printf("%-8s %8zu %12.0f %12.0f   %-10s %8.2f\n", measured[which].name, payload_len, best[0], best[1], measured[which].peer,
           best[1] / best[0]);
}

int main(void) {
    static const size_t commands[] = {2, LONGEST - 69};
    if (sodium_init() < 0)
        return 1;
    for (size_t i = 0; i < sizeof key; i++)
        key[i] = 0x70 + i;
    for (size_t i = 0; i < sizeof drawn; i++)
        drawn[i] = i;
    sodium_key_id(id, key);
    printf("%-8s %8s %12s %12s   %-10s %8s\n", "", "bytes", "proved, ns", "peer, ns", "peer", "of it");
    for (size_t i = 0; i < sizeof commands / sizeof *commands; i++) {
        make_payload(commands[i]);
        check_same();
        for (size_t which = 0; which < sizeof measured / sizeof *measured; which++)
            measure(which);
    }
    return 0;
}
