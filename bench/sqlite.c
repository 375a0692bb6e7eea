/* SQLite with a write-ahead log and nothing synchronised; a snapshot is the open list of a connection of its own. */
#include "work.h"

#include <sqlite3.h>
#include <stdio.h>
#include <sys/stat.h>

static char path[256], log_path[260];
static sqlite3 *writer, *readers[SCANS];
static sqlite3_stmt *update, *commit, *start, *lists[SCANS];

static void ok(int answer, int right)
{
    if (answer != right)
        fail("sqlite", sqlite3_errstr(answer));
}

static void run(const char *text)
{
    ok(sqlite3_exec(writer, text, NULL, NULL, NULL), SQLITE_OK);
}

static sqlite3_stmt *prepared(sqlite3 *of, const char *text)
{
    sqlite3_stmt *made;
    ok(sqlite3_prepare_v2(of, text, -1, &made, NULL), SQLITE_OK);
    return made;
}

static void step(sqlite3_stmt *statement)
{
    ok(sqlite3_step(statement), SQLITE_DONE);
    sqlite3_reset(statement);
}

static void put(sqlite3_stmt *statement, uint32_t number, const uint8_t *body)
{
    sqlite3_bind_int64(statement, 1, number);
    sqlite3_bind_blob(statement, 2, body, BODY, SQLITE_STATIC);
    step(statement);
}

static void drop(void)
{
    for (int i = 0; i < SCANS; i++)
        sqlite3_reset(lists[i]);
    run("PRAGMA wal_checkpoint(TRUNCATE)");
}

static void opens(uint32_t slots, const uint8_t *body)
{
    snprintf(path, sizeof path, "%s/sqlite", files);
    snprintf(log_path, sizeof log_path, "%s-wal", path);
    ok(sqlite3_open(path, &writer), SQLITE_OK);
    run("PRAGMA journal_mode=WAL; PRAGMA synchronous=OFF");
    run("CREATE TABLE record(number INTEGER PRIMARY KEY, body BLOB); BEGIN");
    sqlite3_stmt *insert = prepared(writer, "INSERT INTO record VALUES(?1, ?2)");
    for (uint32_t number = 1; number <= slots; number++)
        put(insert, number, body);
    sqlite3_finalize(insert);
    run("COMMIT");
    update = prepared(writer, "UPDATE record SET body = ?2 WHERE number = ?1");
    start = prepared(writer, "BEGIN IMMEDIATE");
    commit = prepared(writer, "COMMIT");
    for (int i = 0; i < SCANS; i++) {
        ok(sqlite3_open(path, &readers[i]), SQLITE_OK);
        lists[i] = prepared(readers[i], "SELECT number, body FROM record");
    }
    drop();
}

static void modify(const uint32_t *numbers, int count, const uint8_t *body, bool together)
{
    if (together)
        step(start);
    for (int i = 0; i < count; i++)
        put(update, numbers[i], body);
    if (together)
        step(commit);
}

/* The first record is found, which takes the snapshot. */
static void begin(int scan)
{
    ok(sqlite3_step(lists[scan]), SQLITE_ROW);
}

static struct list draw(int scan, uint32_t most)
{
    struct list l = { 0, 0 };
    do
        add(&l, (uint32_t)sqlite3_column_int64(lists[scan], 0), sqlite3_column_blob(lists[scan], 1));
    while (l.records < most && sqlite3_step(lists[scan]) == SQLITE_ROW);
    sqlite3_reset(lists[scan]);
    return l;
}

/* The log is empty when a snapshot begins; what it holds later cannot go into the file while the snapshot is open. */
static uint64_t kept(void)
{
    struct stat log;
    if (stat(log_path, &log) != 0)
        fail("sqlite", "no log");
    return (uint64_t)log.st_size;
}

static void closes(void)
{
    sqlite3_finalize(update);
    sqlite3_finalize(start);
    sqlite3_finalize(commit);
    for (int i = 0; i < SCANS; i++) {
        sqlite3_finalize(lists[i]);
        sqlite3_close(readers[i]);
    }
    sqlite3_close(writer);
    remove(path);
}

const struct store sqlite = { "SQLite " SQLITE_VERSION, UINT32_MAX, opens, modify, begin, draw, drop, kept, closes };
