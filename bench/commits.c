/* Makes the commits that enqd makes for so many units of one lock and one put, with libsqlite3: two commits a unit, with
   write-ahead log and full sync. Before the first of them it adds the unit's lock to a log beside the database, and behind
   the second that it is gone: a record and a closed gate, a sync, the open gate, a sync. With a third word, whatever it is, it
   makes those of so many units of `enqd load`: a lock, a number, two rows inserted, and a second part in its own commit. With a
   fourth one, whatever it is, it makes as many syncs as `enqd_wal load`: one more behind each commit, of a byte in a file.
   Usage: commits PATH UNITS [load [gates]] */
#include <fcntl.h>
#include <sqlite3.h>
#include <stdint.h>
#include <stdio.h>
#include <stdlib.h>
#include <string.h>
#include <unistd.h>

static sqlite3 *db;
static int log_file;
static int gate_file = -1;
static off_t log_end = 8;
static sqlite3_stmt *put;

static void check(int code, int wanted) {
    if (code != wanted) {
        fprintf(stderr, "commits: %s\n", sqlite3_errmsg(db));
        exit(1);
    }
}

static void run(const char *sql) {
    check(sqlite3_exec(db, sql, NULL, NULL, NULL), SQLITE_OK);
}

static void sync_at(int file, off_t at, const uint8_t *bytes, size_t length) {
    if (pwrite(file, bytes, length, at) != (ssize_t)length || fdatasync(file) != 0) {
        perror("commits");
        exit(1);
    }
}

static void commit(void) {
    uint8_t open = 1;
    run("COMMIT");
    if (gate_file >= 0) {
        sync_at(gate_file, 0, &open, 1);
    }
}

static void big_endian(uint8_t *to, int width, uint64_t n) {
    for (int i = width - 1; i >= 0; i--) {
        to[i] = n & 255;
        n >>= 8;
    }
}

static void put_row(int table, const uint8_t *key, int key_len, const uint8_t *value, int value_len) {
    check(sqlite3_bind_int(put, 1, table), SQLITE_OK);
    check(sqlite3_bind_blob(put, 2, key, key_len, SQLITE_STATIC), SQLITE_OK);
    check(sqlite3_bind_blob(put, 3, value, value_len, SQLITE_STATIC), SQLITE_OK);
    check(sqlite3_step(put), SQLITE_DONE);
    check(sqlite3_reset(put), SQLITE_OK);
}

static void put_mark(uint64_t seq, const uint8_t *unit, int kind) {
    uint8_t key[8], value[13], meta[12];
    big_endian(key, 8, seq);
    value[0] = kind;
    memcpy(value + 1, unit, 12);
    put_row(4, key, 8, value, 13);
    big_endian(meta, 4, 1);
    big_endian(meta + 4, 8, seq);
    put_row(0, (const uint8_t *)"S", 1, meta, 12);
}

/* The rows of a unit, a lock row and the unit's mark. */
static void commit_unit(uint32_t n, uint8_t *key) {
    uint8_t header[17] = {6, 'M', 'I', 'L', 'L', 'E', 'R', 0, 1, 0, 0, 0, 0, 0, 1, 0, 0};
    uint8_t count[2] = {0, 1};
    uint8_t effect[40] = {1, 4, 'V', 'B', 'A', 'K', 10};
    uint8_t lock[26] = {6, 'Z', 'O', 'R', 'D', 'E', 'R', 2, 0, 1, 13, '1', '0', '0'};
    char digits[11];
    snprintf(digits, sizeof digits, "%010u", n);
    memcpy(effect + 7, digits, 10);
    memcpy(effect + 17, "\0\013MILLER PUMP", 13);
    memcpy(lock + 14, digits, 10);
    run("BEGIN IMMEDIATE");
    put_row(1, key, 12, header, 17);
    key[12] = 1;
    put_row(2, key, 13, count, 2);
    big_endian(key + 13, 2, 1);
    put_row(3, key, 15, effect, 30);
    big_endian(key + 12, 4, 1);
    put_row(7, key, 16, lock, 24);
    put_mark(2 * (uint64_t)n - 1, key, 2);
    commit();
}

/* The business row that the unit puts, and its mark. */
static void commit_post(uint32_t n, const uint8_t *unit) {
    uint8_t key[16] = {4, 'V', 'B', 'A', 'K'};
    char digits[11];
    snprintf(digits, sizeof digits, "%010u", n);
    memcpy(key + 5, digits, 10);
    run("BEGIN IMMEDIATE");
    put_row(6, key, 15, (const uint8_t *)"MILLER PUMP", 11);
    put_mark(2 * (uint64_t)n, unit, 3);
    commit();
}

/* The rows of a unit of `enqd load`, its lock row, the level of the interval and the unit's mark. */
static void commit_loaded_unit(uint32_t n, uint8_t *key) {
    uint8_t header[13] = {2, 'U', '1', 0, 1, 0, 0, 0, 0, 0, 1, 0, 1};
    uint8_t count[2] = {0, 2};
    uint8_t effect[40] = {2, 4, 'V', 'B', 'A', 'K', 10};
    uint8_t lock[26] = {6, 'Z', 'O', 'R', 'D', 'E', 'R', 2, 0, 1, 13, '1', '0', '0'};
    uint8_t interval[9] = {6, 'Z', 'O', 'R', 'D', 'N', 'R', '0', '1'};
    uint8_t level[8];
    char digits[11];
    snprintf(digits, sizeof digits, "%010u", n);
    memcpy(effect + 7, digits, 10);
    memcpy(effect + 17, "\0\007ORDER 1", 9);
    memcpy(lock + 14, digits, 10);
    big_endian(level, 8, n);
    run("BEGIN IMMEDIATE");
    put_row(1, key, 12, header, 13);
    key[12] = 1;
    put_row(2, key, 13, count, 2);
    big_endian(key + 13, 2, 1);
    put_row(3, key, 15, effect, 26);
    big_endian(key + 13, 2, 2);
    put_row(3, key, 15, effect, 26);
    count[1] = 1;
    key[12] = 2;
    put_row(2, key, 13, count, 2);
    big_endian(key + 13, 2, 1);
    put_row(3, key, 15, effect, 20);
    big_endian(key + 12, 4, 1);
    put_row(7, key, 16, lock, 24);
    put_row(5, interval, 9, level, 8);
    put_mark(3 * (uint64_t)n - 2, key, 2);
    commit();
}

/* The two rows that its first part inserts, and its mark. */
static void commit_first_part(uint32_t n, const uint8_t *unit) {
    uint8_t key[19] = {4, 'V', 'B', 'A', 'K'};
    char digits[14];
    snprintf(digits, sizeof digits, "%010u-10", n);
    memcpy(key + 5, digits, 13);
    run("BEGIN IMMEDIATE");
    put_row(6, key, 15, (const uint8_t *)"ORDER 1", 7);
    key[4] = 'P';
    put_row(6, key, 18, (const uint8_t *)"ITEM 1", 6);
    put_mark(3 * (uint64_t)n - 1, unit, 3);
    commit();
}

/* The counter that its second part raises, and its mark. */
static void commit_second_part(uint32_t n, const uint8_t *unit) {
    uint8_t key[11] = {4, 'S', 'T', 'A', 'T', 'O', 'R', 'D', 'E', 'R', 'S'};
    char digits[11];
    snprintf(digits, sizeof digits, "%u", n);
    run("BEGIN IMMEDIATE");
    put_row(6, key, 11, (const uint8_t *)digits, (int)strlen(digits));
    put_mark(3 * (uint64_t)n, unit, 4);
    commit();
}

/* One record of the log: its gate is opened once it is on the disk. */
static void add_record(size_t length) {
    uint8_t record[80] = {0};
    uint8_t open = 1;
    sync_at(log_file, log_end + 1, record, length + 1);
    sync_at(log_file, log_end, &open, 1);
    log_end += 1 + (off_t)length;
}

/* A file beside the database, with nothing in it. */
static int new_file(const char *path, const char *name) {
    char whole[4096];
    snprintf(whole, sizeof whole, "%s.%s", path, name);
    return open(whole, O_RDWR | O_CREAT | O_TRUNC, 0666);
}

int main(int argc, char **argv) {
    if (argc < 3 || argc > 5) {
        fprintf(stderr, "usage: commits PATH UNITS [load [gates]]\n");
        return 2;
    }
    uint32_t units = (uint32_t)strtoul(argv[2], NULL, 10);
    check(sqlite3_open(argv[1], &db), SQLITE_OK);
    run("PRAGMA journal_mode = WAL");
    run("PRAGMA synchronous = FULL");
    run("CREATE TABLE kept (number INTEGER NOT NULL, key BLOB NOT NULL, value BLOB NOT NULL, PRIMARY KEY (number, key)) STRICT");
    check(sqlite3_prepare_v2(db,
              "INSERT INTO kept (number, key, value) VALUES (?1, ?2, ?3) "
              "ON CONFLICT (number, key) DO UPDATE SET value = excluded.value",
              -1, &put, NULL),
        SQLITE_OK);
    log_file = new_file(argv[1], "log");
    if (argc == 5) {
        gate_file = new_file(argv[1], "gate");
    }
    for (uint32_t n = 1; n <= units; n++) {
        uint8_t unit[16] = {0, 0, 0, 1, 0, 0, 0, 1};
        big_endian(unit + 8, 4, n);
        add_record(52);
        if (argc > 3) {
            commit_loaded_unit(n, unit);
            commit_first_part(n, unit);
        } else {
            commit_unit(n, unit);
            commit_post(n, unit);
        }
        add_record(17);
        if (argc > 3) {
            commit_second_part(n, unit);
        }
    }
    sqlite3_finalize(put);
    sqlite3_close(db);
    close(log_file);
    return 0;
}
