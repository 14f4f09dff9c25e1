/* The statements of an import into the tables of a store, prepared, over the SQLite of the system: what an import can be
 * held against. `tables PATH DAYS READINGS FORM` makes a store in a new file (:memory: is none) and takes in so many days of
 * so many readings in one transaction. By the form `rows` each reading is a row, by `packs` each day. Then it asks for all of
 * them again. It prints the readings put in a second. */
#include <sqlite3.h>
#include <stdio.h>
#include <stdlib.h>
#include <string.h>
#include <time.h>

#define SUFFIX "E1"
#define UPDATE 1704157323
#define MOST_READINGS 288

static sqlite3 *db;

static void check(int code) {
    if (code != SQLITE_OK && code != SQLITE_DONE && code != SQLITE_ROW) {
        fprintf(stderr, "%s\n", sqlite3_errmsg(db));
        exit(1);
    }
}

static void run(const char *sql) { check(sqlite3_exec(db, sql, NULL, NULL, NULL)); }

static sqlite3_stmt *prepared(const char *sql) {
    sqlite3_stmt *statement;
    check(sqlite3_prepare_v2(db, sql, -1, &statement, NULL));
    return statement;
}

static void text(sqlite3_stmt *s, int at, const char *value) { check(sqlite3_bind_text(s, at, value, -1, SQLITE_STATIC)); }

static void number(sqlite3_stmt *s, int at, long long value) { check(sqlite3_bind_int64(s, at, value)); }

static void blob(sqlite3_stmt *s, int at, const unsigned char *value, int size) {
    check(sqlite3_bind_blob(s, at, value, size, SQLITE_STATIC));
}

/* Steps through a statement, and says how many rows it gave. */
static long rows(sqlite3_stmt *s) {
    long count = 0;
    int code;
    while ((code = sqlite3_step(s)) == SQLITE_ROW) count++;
    check(code);
    check(sqlite3_reset(s));
    return count;
}

static double now(void) {
    struct timespec t;
    clock_gettime(CLOCK_MONOTONIC, &t);
    return t.tv_sec + t.tv_nsec / 1e9;
}

/* The number of a day, and what each table has as its first three columns. */
static void key(sqlite3_stmt *s, const char *nmi, long n) {
    text(s, 1, nmi);
    text(s, 2, SUFFIX);
    number(s, 3, 19000 + n % 365);
}

static long long amount(long n, long slot) { return (n * 7919 + slot * 104729) % 9000000; }

/* Puts a number of so many bytes, the most significant one first, and says where the next goes. */
static unsigned char *bytes(unsigned char *at, int size, long long value) {
    for (int k = size - 1; k >= 0; k--, value >>= 8) at[k] = value & 0xFF;
    return at + size;
}

/* Packs a day, all of quality A and without a reason: docs/FORMATS.md, "Packed days". Says how many bytes it has. */
static int packed(unsigned char *body, long n, long readings) {
    const long long parts[][2] = {{1, 1}, {2, readings}, {2, 1}, {2, 1}, {2, readings}, {1, 'A'}, {1, 0}, {2, 0xFFFF}, {2, 0}};
    unsigned char *at = body;
    for (size_t k = 0; k < sizeof parts / sizeof *parts; k++) at = bytes(at, parts[k][0], parts[k][1]);
    for (long slot = 1; slot <= readings; slot++) at = bytes(at, 8, amount(n, slot));
    return at - body;
}

static void put_rows(sqlite3_stmt *put, const char *nmi, long n, long readings) {
    for (long slot = 1; slot <= readings; slot++) {
        key(put, nmi, n);
        number(put, 4, slot);
        number(put, 5, UPDATE);
        text(put, 6, "A");
        number(put, 7, -1);
        text(put, 8, "");
        number(put, 9, amount(n, slot));
        rows(put);
    }
}

static void put_pack(sqlite3_stmt *put, const char *nmi, long n, long readings) {
    unsigned char body[15 + 8 * MOST_READINGS];
    key(put, nmi, n);
    number(put, 4, UPDATE);
    blob(put, 5, body, packed(body, n, readings));
    rows(put);
}

int main(int argc, char **argv) {
    if (argc != 5) return 2;
    long days = atol(argv[2]), readings = atol(argv[3]);
    if (readings < 1 || readings > MOST_READINGS) return 2;
    int packs = strcmp(argv[4], "packs") == 0;
    check(sqlite3_open(argv[1], &db));
    run("PRAGMA journal_mode = WAL; PRAGMA synchronous = FULL; PRAGMA foreign_keys = ON");
    run("CREATE TABLE mds_head (nmi TEXT NOT NULL, suffix TEXT NOT NULL, day INTEGER NOT NULL, length INTEGER NOT NULL,"
        " unit TEXT NOT NULL, PRIMARY KEY (nmi, suffix, day)) STRICT");
    run("CREATE TABLE mds_version (nmi TEXT NOT NULL, suffix TEXT NOT NULL, day INTEGER NOT NULL, slot INTEGER NOT NULL,"
        " moment INTEGER NOT NULL, quality TEXT NOT NULL, code INTEGER NOT NULL, note TEXT NOT NULL, amount INTEGER NOT NULL,"
        " PRIMARY KEY (nmi, suffix, day, slot, moment),"
        " FOREIGN KEY (nmi, suffix, day) REFERENCES mds_head (nmi, suffix, day)) STRICT");
    run("CREATE TABLE mds_pack (nmi TEXT NOT NULL, suffix TEXT NOT NULL, day INTEGER NOT NULL, moment INTEGER NOT NULL,"
        " body BLOB NOT NULL, PRIMARY KEY (nmi, suffix, day, moment),"
        " FOREIGN KEY (nmi, suffix, day) REFERENCES mds_head (nmi, suffix, day)) STRICT");
    sqlite3_stmt *head_of = prepared("SELECT length, unit FROM mds_head WHERE nmi = ?1 AND suffix = ?2 AND day = ?3");
    sqlite3_stmt *put_head = prepared("INSERT INTO mds_head VALUES (?1, ?2, ?3, ?4, ?5)");
    sqlite3_stmt *versions_of = prepared(packs
        ? "SELECT moment, body FROM mds_pack WHERE nmi = ?1 AND suffix = ?2 AND day = ?3"
        : "SELECT slot, moment, quality, code, note, amount FROM mds_version WHERE nmi = ?1 AND suffix = ?2 AND day = ?3");
    sqlite3_stmt *put_versions = prepared(packs
        ? "INSERT INTO mds_pack VALUES (?1, ?2, ?3, ?4, ?5)"
        : "INSERT INTO mds_version VALUES (?1, ?2, ?3, ?4, ?5, ?6, ?7, ?8, ?9)");
    char nmi[32];
    for (int pass = 0; pass < 2; pass++) {
        double start = now();
        long known = 0;
        run("BEGIN");
        for (long n = 0; n < days; n++) {
            snprintf(nmi, sizeof nmi, "N%09ld", n / 365);
            key(head_of, nmi, n);
            rows(head_of);
            key(versions_of, nmi, n);
            known += rows(versions_of) * (packs ? readings : 1);
            if (pass == 1) continue;
            key(put_head, nmi, n);
            number(put_head, 4, 1440 / readings);
            text(put_head, 5, "kWh");
            rows(put_head);
            (packs ? put_pack : put_rows)(put_versions, nmi, n, readings);
        }
        run("COMMIT");
        double time = now() - start;
        printf("%s %ld days of %ld as %s: %.0f readings/s (known %ld)\n", pass == 0 ? "new" : "known", days, readings, argv[4],
               days * readings / time, known);
    }
    check(sqlite3_finalize(head_of));
    check(sqlite3_finalize(versions_of));
    check(sqlite3_finalize(put_head));
    check(sqlite3_finalize(put_versions));
    check(sqlite3_close(db));
    return 0;
}
