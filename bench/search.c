/* Times the proved view and search beside SQLite with the table, the indexes and the queries of Atuin 18, on one history:
   20,000 different commands of 30 bytes on average, the k-th as often as 1/k says, in sessions of 100, from 500
   directories and 3 hosts. Each time is of this process alone. A search of the view is timed by filling it and searching
   often, less filling it alone; what fits into no such time is measured again with more rounds. */
#define _GNU_SOURCE
#include "search.h"

#include <sqlite3.h>
#include <stdio.h>
#include <stdlib.h>
#include <string.h>
#include <sys/resource.h>
#include <sys/wait.h>
#include <time.h>
#include <unistd.h>

enum { DIFFERENT = 20000, DIRECTORIES = 500, SESSION = 100, LIMIT = 100 };

static char words[DIFFERENT][96];
static double upto[DIFFERENT];
static uint8_t *history;
static size_t history_len;
static char *laid;
static size_t laid_at, laid_end;
static char last_session[40], last_cwd[64];

static uint64_t state = 0x9e3779b97f4a7c15;

static uint64_t drawn(void) {
    uint64_t z = state += 0x9e3779b97f4a7c15;
    z = (z ^ (z >> 30)) * 0xbf58476d1ce4e5b9;
    z = (z ^ (z >> 27)) * 0x94d049bb133111eb;
    return z ^ (z >> 31);
}

static double seconds(void) {
    struct timespec at;
    clock_gettime(CLOCK_PROCESS_CPUTIME_ID, &at);
    return at.tv_sec + at.tv_nsec / 1e9;
}

static void make_words(void) {
    static const char *programs[] = {"git", "cargo", "ls", "cd", "docker", "kubectl", "make", "ssh", "vim", "grep", "curl", "python3"};
    static const char *verbs[] = {"status", "build", "-la", "commit -m", "run", "test", "push", "get", "show", "--help"};
    double sum = 0;
    for (int i = 0; i < DIFFERENT; i++) {
        snprintf(words[i], sizeof words[i], "%s %s %.*s%05d", programs[drawn() % 12], verbs[drawn() % 10], (int)(drawn() % 24),
                 "src/main/resources/files", i);
        sum += 1.0 / (i + 1);
        upto[i] = sum;
    }
    for (int i = 0; i < DIFFERENT; i++) upto[i] /= sum;
}

static const char *word(void) {
    double at = (drawn() >> 11) / 9007199254740992.0;
    int low = 0, high = DIFFERENT - 1;
    while (low < high) {
        int mid = (low + high) / 2;
        if (upto[mid] < at) low = mid + 1; else high = mid;
    }
    return words[low];
}

static void put_text(const char *text) {
    size_t len = strlen(text);
    history[history_len++] = len >> 8;
    history[history_len++] = len & 255;
    memcpy(history + history_len, text, len);
    history_len += len;
}

struct row { uint64_t time; const char *command; char cwd[64], session[40], hostname[16]; };

static uint64_t session_number;

static void next_row(uint64_t i, uint64_t count, struct row *r) {
    r->time = 1600000000000000000ull + i * 1000000007ull;
    r->command = i == count / 50 ? "one hit far back" : word();
    if (i % SESSION == 0) session_number = drawn();
    snprintf(r->session, sizeof r->session, "%016llx%016llx", (unsigned long long)session_number, (unsigned long long)i / SESSION);
    snprintf(r->cwd, sizeof r->cwd, "/projects/number%03llu", (unsigned long long)(drawn() % DIRECTORIES));
    snprintf(r->hostname, sizeof r->hostname, "host%llu:user", (unsigned long long)((i / 5000) % 3));
}

static sqlite3 *db;

static void run(const char *sql) {
    char *wrong = 0;
    if (sqlite3_exec(db, sql, 0, 0, &wrong)) {
        fprintf(stderr, "%s: %s\n", sql, wrong);
        exit(1);
    }
}

/* Makes the history of `count` commands, and the table of the same. Answers what an insert took. */
static double make(uint64_t count) {
    history = malloc(count * 200);
    laid = malloc(count * 100);
    history_len = 0;
    laid_at = laid_end = count * 100;
    sqlite3_open(":memory:", &db);
    run("create table history (id text primary key, timestamp integer not null, duration integer not null, exit integer not null,"
        " command text not null, cwd text not null, session text not null, hostname text not null, deleted_at integer,"
        " unique(timestamp, cwd, command));"
        "create index idx_history_timestamp on history(timestamp);"
        "create index idx_history_command on history(command);"
        "create index idx_history_command_timestamp on history(command, timestamp);");
    sqlite3_stmt *add;
    sqlite3_prepare_v2(db, "insert or ignore into history values (?,?,1000,0,?,?,?,?,null)", -1, &add, 0);
    double took = 0;
    run("begin");
    for (uint64_t i = 0; i < count; i++) {
        struct row r;
        next_row(i, count, &r);
        for (int shift = 56; shift >= 0; shift -= 8) history[history_len++] = r.time >> shift;
        put_text(r.command), put_text(r.cwd), put_text(r.session), put_text(r.hostname);
        laid[--laid_at] = '\n';
        laid_at -= strlen(r.command);
        memcpy(laid + laid_at, r.command, strlen(r.command));
        char id[40];
        snprintf(id, sizeof id, "%032llx", (unsigned long long)i);
        double began = seconds();
        sqlite3_reset(add);
        sqlite3_bind_text(add, 1, id, -1, SQLITE_STATIC);
        sqlite3_bind_int64(add, 2, r.time);
        sqlite3_bind_text(add, 3, r.command, -1, SQLITE_STATIC);
        sqlite3_bind_text(add, 4, r.cwd, -1, SQLITE_STATIC);
        sqlite3_bind_text(add, 5, r.session, -1, SQLITE_STATIC);
        sqlite3_bind_text(add, 6, r.hostname, -1, SQLITE_STATIC);
        sqlite3_step(add);
        took += seconds() - began;
        strcpy(last_session, r.session), strcpy(last_cwd, r.cwd);
    }
    run("commit");
    sqlite3_finalize(add);
    return took / count;
}

/* What an answer of SQLite takes, its rows read. */
static double asked(const char *sql, uint64_t *hits) {
    sqlite3_stmt *s;
    if (sqlite3_prepare_v2(db, sql, -1, &s, 0)) {
        fprintf(stderr, "%s: %s\n", sql, sqlite3_errmsg(db));
        exit(1);
    }
    long turns = 0;
    double began = seconds(), took;
    do {
        *hits = 0;
        while (sqlite3_step(s) == SQLITE_ROW) {
            for (int column = 0; column < 8; column++) (void)sqlite3_column_text(s, column);
            ++*hits;
        }
        sqlite3_reset(s);
        turns++;
        took = seconds() - began;
    } while (took < 0.3);
    sqlite3_finalize(s);
    return took / turns;
}

static double filling;

static double fill(uint64_t count) {
    double best = 1e9;
    for (int turn = 0; turn < 3; turn++) {
        double began = seconds();
        bench_search(count, history, history_len, 0, (const uint8_t *)"", 0, 0, (const uint8_t *)"", 0, 0, LIMIT, 0);
        double took = seconds() - began;
        if (took < best) best = took;
    }
    return best;
}

static double searched(uint64_t count, int mode, const char *text, int by, const char *within, int unique, uint64_t *hits) {
    for (uint64_t rounds = 4;; rounds *= 8) {
        double began = seconds();
        *hits = bench_search(count, history, history_len, mode, (const uint8_t *)text, strlen(text), by, (const uint8_t *)within,
                             strlen(within), unique, LIMIT, rounds);
        double took = seconds() - began - filling;
        if (took > 0.2 * filling + 0.2) return took / rounds;
    }
}

static void compare(uint64_t count, const char *name, int mode, const char *text, int by, const char *within, int unique, const char *sql) {
    uint64_t ours, theirs;
    double took = searched(count, mode, text, by, within, unique, &ours), peer = asked(sql, &theirs);
    if (ours != theirs) printf("  (%llu hits beside %llu)\n", (unsigned long long)ours, (unsigned long long)theirs);
    printf("  %-34s %12.1f us %12.1f us  %8.1f times\n", name, took * 1e6, peer * 1e6, peer / took);
    if (mode == 1 && !by && !unique && ours < 2) {
        double began = seconds(), floor;
        long turns = 0;
        do {
            if (memmem(laid + laid_at, laid_end - laid_at, text, strlen(text)) == laid + laid_at) abort();
            turns++;
            floor = (seconds() - began) / turns;
        } while (floor * turns < 0.2);
        printf("  %-34s %12s    %12.1f us  %8.2f times\n", "  memmem from the newest on", "", floor * 1e6, floor / took);
    }
    fflush(stdout);
}

/* The most that a child of this process had resident beyond what a child that keeps nothing had, a command. */
static double resident(uint64_t count) {
    long most[2];
    for (int keep = 0; keep < 2; keep++) {
        pid_t child = fork();
        if (!child) {
            struct rusage before, after;
            getrusage(RUSAGE_SELF, &before);
            if (keep) bench_search(count, history, history_len, 0, (const uint8_t *)"", 0, 0, (const uint8_t *)"", 0, 0, LIMIT, 0);
            else bench_history(count, history, history_len);
            getrusage(RUSAGE_SELF, &after);
            FILE *told = fopen("out/resident.txt", "w");
            fprintf(told, "%ld\n", after.ru_maxrss - before.ru_maxrss);
            fclose(told);
            _exit(0);
        }
        waitpid(child, 0, 0);
        FILE *told = fopen("out/resident.txt", "r");
        if (fscanf(told, "%ld", &most[keep]) != 1) abort();
        fclose(told);
    }
    return (most[1] - most[0]) * 1024.0 / count;
}

int main(int argc, char **argv) {
    make_words();
    for (int i = 1; i < argc; i++) {
        uint64_t count = strtoull(argv[i], 0, 10);
        double insert = make(count);
        double room = resident(count);
        filling = fill(count);
        double began = seconds();
        bench_history(count, history, history_len);
        double reading = seconds() - began;
        printf("%llu commands                                  the view          SQLite\n", (unsigned long long)count);
        printf("  %-34s %12.3f us %12.3f us  %8.1f times\n", "an add", (filling - reading) / count * 1e6, insert * 1e6, insert / ((filling - reading) / count));
        printf("  %-34s %12.1f\n", "resident bytes a command", room);
        char sql[600];
        compare(count, "the newest 100", 0, "", 0, "", 0, "select * from history where deleted_at is null order by timestamp desc limit 100");
        compare(count, "a prefix, many hits", 0, "git", 0, "", 0, "select * from history where command like 'git%' and deleted_at is null order by timestamp desc limit 100");
        compare(count, "a substring, many hits", 1, "status", 0, "", 0, "select * from history where command like '%status%' and deleted_at is null order by timestamp desc limit 100");
        compare(count, "one hit far back", 1, "one hit far", 0, "", 0, "select * from history where command like '%one hit far%' and deleted_at is null order by timestamp desc limit 100");
        compare(count, "no hit", 1, "no such thing", 0, "", 0, "select * from history where command like '%no such thing%' and deleted_at is null order by timestamp desc limit 100");
        compare(count, "unique with a substring", 1, "status", 0, "", 1,
                "select * from history where command like '%status%' and deleted_at is null group by command having max(timestamp) order by timestamp desc limit 100");
        snprintf(sql, sizeof sql, "select * from history where session = '%s' and deleted_at is null order by timestamp desc limit 100", last_session);
        compare(count, "a session's 100", 0, "", 2, last_session, 0, sql);
        snprintf(sql, sizeof sql, "select * from history where cwd = '%s' and deleted_at is null order by timestamp desc limit 100", last_cwd);
        compare(count, "a directory's 100", 0, "", 3, last_cwd, 0, sql);
        sqlite3_close(db);
        free(history), free(laid);
    }
}
