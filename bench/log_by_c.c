// What a log does with its file, in C: `append FILE COUNT BYTES` writes and syncs as it does, `sqlite FILE COUNT BYTES`
// stores as many records in SQLite, `hash FILE` reads and hashes the file.
#include <fcntl.h>
#include <sodium.h>
#include <sqlite3.h>
#include <stdio.h>
#include <stdlib.h>
#include <string.h>
#include <unistd.h>

enum { HEADER_BYTES = 33, FRAME_BYTES = 104, PIECE_BYTES = 65536 };

static int failed(const char *what) {
    fprintf(stderr, "%s failed\n", what);
    return 1;
}

// Each batch is written behind a closed gate, synced, and its gate opened and synced.
static int append(const char *path, long count, size_t bytes) {
    int file = open(path, O_RDWR | O_CREAT | O_TRUNC, 0600);
    size_t length = bytes + FRAME_BYTES;
    unsigned char *batch = calloc(length, 1), open_gate = 1;
    unsigned char header[HEADER_BYTES] = {0};
    off_t gate = HEADER_BYTES - 1;
    if (file < 0 || batch == NULL || write(file, header, sizeof header) < 0 || fsync(file))
        return failed("append");
    for (long i = 0; i < count; i++, gate += length) {
        batch[0] = i;
        if (pwrite(file, batch, length, gate + 1) < 0 || fsync(file) || pwrite(file, &open_gate, 1, gate) < 0 || fsync(file))
            return failed("append");
    }
    return 0;
}

static int store(const char *path, long count, int bytes) {
    sqlite3 *db;
    sqlite3_stmt *insert;
    char *sealed = malloc(bytes);
    if (sealed == NULL || sqlite3_open(path, &db) != SQLITE_OK)
        return failed("sqlite");
    memset(sealed, 'x', bytes);
    sqlite3_exec(db, "pragma journal_mode=wal; pragma synchronous=full; create table store (id blob primary key, idx integer, "
                     "host blob, timestamp integer, tag text, version text, data text, cek text); "
                     "create unique index record_uniq on store (host, tag, idx)", NULL, NULL, NULL);
    sqlite3_prepare_v2(db, "insert into store values (?1, ?2, ?3, ?2, 'history', 'v0', ?4, 'w')", -1, &insert, NULL);
    for (long i = 0; i < count; i++) {
        char id[16] = {0}, host[16] = {0};
        memcpy(id, &i, sizeof i);
        sqlite3_bind_blob(insert, 1, id, sizeof id, SQLITE_STATIC);
        sqlite3_bind_int64(insert, 2, i);
        sqlite3_bind_blob(insert, 3, host, sizeof host, SQLITE_STATIC);
        sqlite3_bind_text(insert, 4, sealed, bytes, SQLITE_STATIC);
        if (sqlite3_step(insert) != SQLITE_DONE)
            return failed("sqlite");
        sqlite3_reset(insert);
    }
    return 0;
}

static int hash(const char *path) {
    static unsigned char piece[PIECE_BYTES];
    unsigned char digest[16];
    crypto_generichash_state state;
    int file = open(path, O_RDONLY);
    ssize_t got;
    if (file < 0 || sodium_init() < 0)
        return failed("hash");
    crypto_generichash_init(&state, NULL, 0, sizeof digest);
    while ((got = read(file, piece, sizeof piece)) > 0)
        crypto_generichash_update(&state, piece, got);
    crypto_generichash_final(&state, digest, sizeof digest);
    printf("%02x\n", digest[0]);
    return got < 0;
}

int main(int argc, char **argv) {
    if (argc == 3 && strcmp(argv[1], "hash") == 0)
        return hash(argv[2]);
    if (argc == 5 && strcmp(argv[1], "append") == 0)
        return append(argv[2], atol(argv[3]), atol(argv[4]));
    if (argc == 5 && strcmp(argv[1], "sqlite") == 0)
        return store(argv[2], atol(argv[3]), atoi(argv[4]));
    return 2;
}
