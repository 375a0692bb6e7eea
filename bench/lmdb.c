/* LMDB, its file mapped for writing and nothing synchronised; a snapshot is a read transaction. */
#include "work.h"

#include <lmdb.h>
#include <stdio.h>

static const size_t MAP = (size_t)1 << 28;
static const MDB_dbi FREED = 0;     /* LMDB's own list: under each transaction, how many pages it freed and which */

static char path[256], lock_path[262];
static MDB_env *env;
static MDB_dbi records;
static MDB_txn *readers[SCANS];

static void ok(int answer)
{
    if (answer != 0)
        fail("lmdb", mdb_strerror(answer));
}

static void put(MDB_txn *in, uint32_t number, const uint8_t *body)
{
    MDB_val key = { sizeof number, &number }, value = { BODY, (void *)body };
    ok(mdb_put(in, records, &key, &value, 0));
}

static void drop(void)
{
    for (int i = 0; i < SCANS; i++)
        mdb_txn_reset(readers[i]);
}

static void opens(uint32_t slots, const uint8_t *body)
{
    MDB_txn *in;
    snprintf(path, sizeof path, "%s/lmdb", files);
    snprintf(lock_path, sizeof lock_path, "%s-lock", path);
    ok(mdb_env_create(&env));
    ok(mdb_env_set_mapsize(env, MAP));
    ok(mdb_env_open(env, path, MDB_NOSUBDIR | MDB_NOSYNC | MDB_WRITEMAP | MDB_NOTLS, 0600));
    ok(mdb_txn_begin(env, NULL, 0, &in));
    ok(mdb_dbi_open(in, NULL, MDB_INTEGERKEY, &records));
    for (uint32_t number = 1; number <= slots; number++)
        put(in, number, body);
    ok(mdb_txn_commit(in));
    for (int i = 0; i < SCANS; i++)
        ok(mdb_txn_begin(env, NULL, MDB_RDONLY, &readers[i]));
    drop();
}

static void modify(const uint32_t *numbers, int count, const uint8_t *body, bool together)
{
    MDB_txn *in;
    for (int i = 0; i < count; i++) {
        if (i == 0 || !together)
            ok(mdb_txn_begin(env, NULL, 0, &in));
        put(in, numbers[i], body);
        if (i == count - 1 || !together)
            ok(mdb_txn_commit(in));
    }
}

static void begin(int scan)
{
    ok(mdb_txn_renew(readers[scan]));
}

static struct list draw(int scan, uint32_t most)
{
    struct list l = { 0, 0 };
    MDB_cursor *at;
    MDB_val key, value;
    ok(mdb_cursor_open(readers[scan], records, &at));
    while (l.records < most && mdb_cursor_get(at, &key, &value, MDB_NEXT) == 0)
        add(&l, *(uint32_t *)key.mv_data, value.mv_data);
    mdb_cursor_close(at);
    return l;
}

/* The pages freed since the first snapshot began: none of them may be used again while it is open. */
static uint64_t kept(void)
{
    MDB_txn *in;
    MDB_cursor *at;
    MDB_val key, value;
    MDB_stat sizes;
    uint64_t pages = 0;
    ok(mdb_txn_begin(env, NULL, MDB_RDONLY, &in));
    ok(mdb_stat(in, records, &sizes));
    ok(mdb_cursor_open(in, FREED, &at));
    while (mdb_cursor_get(at, &key, &value, MDB_NEXT) == 0)
        if (*(size_t *)key.mv_data > mdb_txn_id(readers[0]))
            pages += *(size_t *)value.mv_data;
    mdb_cursor_close(at);
    mdb_txn_abort(in);
    return pages * sizes.ms_psize;
}

static void closes(void)
{
    for (int i = 0; i < SCANS; i++)
        mdb_txn_abort(readers[i]);
    mdb_env_close(env);
    remove(path);
    remove(lock_path);
}

#define VERSION TEXT_OF(MDB_VERSION_MAJOR) "." TEXT_OF(MDB_VERSION_MINOR) "." TEXT_OF(MDB_VERSION_PATCH)

const struct store lmdb = { "LMDB " VERSION, UINT32_MAX, opens, modify, begin, draw, drop, kept, closes };
