/* What a spool file's speed is measured against: SQLite alone, which adds and deletes the rows of files of 20 cards.

       cc -O2 -o plain_writer plain_writer.c -lsqlite3 && ./plain_writer DATABASE FILES SECONDS

   DATABASE doesn't exist yet. It gets a spool file's tables of files and of records, pages of 4,096 bytes, and a log
   (WAL, synchronous FULL), but no sums on its pages. A commit adds so many files, of each the row of the file and three
   rows of its records, as a hub writes them: the job header's, the data set header's, and that of the cards and the
   trailer. And it deletes the files that the commit before added. So it goes on for so many seconds. Printed are how
   many files came and went, the microseconds that passed, and those of processor. spool_rate.py builds and runs it. */
#include <sqlite3.h>
#include <stdio.h>
#include <stdlib.h>
#include <time.h>

/* How far apart the numbers of two files' first records are. */
#define PLACES 8388608L

/* The rows of a file's records: their SRCBs, 256 of several, and how many bytes each has. */
enum { ROWS = 3 };
static const int srcbs[ROWS] = {0xC0, 0xE0, 256}, lengths[ROWS] = {100, 24, 20 * (3 + 80) + 3 + 4};

static sqlite3 *database;

static void check(int code)
{
    if (code == SQLITE_OK || code == SQLITE_DONE) return;
    fprintf(stderr, "plain_writer: %s\n", sqlite3_errmsg(database));
    exit(1);
}

static void run(const char *statements)
{
    check(sqlite3_exec(database, statements, NULL, NULL, NULL));
}

static sqlite3_stmt *prepared(const char *text)
{
    sqlite3_stmt *found;
    check(sqlite3_prepare_v2(database, text, -1, &found, NULL));
    return found;
}

/* Runs a statement with these numbers as its first values. */
static void step(sqlite3_stmt *statement, int count, const long *values)
{
    for (int at = 0; at < count; at++) check(sqlite3_bind_int64(statement, at + 1, values[at]));
    check(sqlite3_step(statement));
    check(sqlite3_reset(statement));
}

static void make(const char *path)
{
    check(sqlite3_open(path, &database));
    run("PRAGMA page_size = 4096; PRAGMA journal_mode = WAL; PRAGMA synchronous = FULL");
    run("CREATE TABLE files (id INTEGER PRIMARY KEY, customer TEXT NOT NULL, key INTEGER NOT NULL, kind TEXT NOT NULL, "
        "job TEXT NOT NULL, number INTEGER NOT NULL, owner_node TEXT NOT NULL, owner_user TEXT NOT NULL, "
        "to_node TEXT NOT NULL, to_user TEXT NOT NULL, held INTEGER NOT NULL, records INTEGER NOT NULL, "
        "blocks INTEGER NOT NULL, came INTEGER NOT NULL) STRICT");
    run("CREATE TABLE records (id INTEGER PRIMARY KEY, file INTEGER NOT NULL, place INTEGER NOT NULL, "
        "srcb INTEGER NOT NULL, bytes BLOB NOT NULL) STRICT");
}

/* A commit that adds files from this number on, and deletes as many before it. The keys of two commits take turns. */
static void commit(long number, long files)
{
    static sqlite3_stmt *add_record, *add_file, *delete_file, *delete_records;
    static char bytes[4096];
    if (!add_record) {
        add_record = prepared("INSERT INTO records VALUES (?1, ?2, ?3, ?4, ?5)");
        add_file = prepared("INSERT INTO files VALUES (?1, 'C0', ?2, 'OUT', 'JOB', 1, 'N0', 'ANNA', 'N1', 'PAUL', 0, "
                            "23, 8, 1800000000)");
        delete_file = prepared("DELETE FROM files WHERE id = ?1");
        delete_records = prepared("DELETE FROM records WHERE id >= ?1 AND id < ?2");
    }
    long first = number / files % 2 * files, before = files - first;
    run("BEGIN");
    for (long key = first; key < first + files; key++) {
        for (int row = 0; row < ROWS; row++) {
            check(sqlite3_bind_blob(add_record, 5, bytes, lengths[row], SQLITE_STATIC));
            step(add_record, 4, (long[]){key * PLACES + row, key, row, srcbs[row]});
        }
        step(add_file, 2, (long[]){number + key - first, key});
    }
    for (long key = before; number && key < before + files; key++) {
        step(delete_file, 1, (long[]){number - files + key - before});
        step(delete_records, 2, (long[]){key * PLACES, (key + 1) * PLACES});
    }
    run("COMMIT");
}

/* A clock, in microseconds. */
static long read_clock(clockid_t clock)
{
    struct timespec time;
    clock_gettime(clock, &time);
    return time.tv_sec * 1000000L + time.tv_nsec / 1000;
}

int main(int count, char **words)
{
    if (count != 4) return 1;
    make(words[1]);
    long files = atol(words[2]), number = 0, begun = read_clock(CLOCK_MONOTONIC), passed = 0;
    long used = read_clock(CLOCK_PROCESS_CPUTIME_ID);
    for (; passed < atol(words[3]) * 1000000L; number += files) {
        commit(number, files);
        passed = read_clock(CLOCK_MONOTONIC) - begun;
    }
    printf("%ld %ld %ld\n", number, passed, read_clock(CLOCK_PROCESS_CPUTIME_ID) - used);
}
