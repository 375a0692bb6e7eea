/* Inarumpit: a small store of records that can be changed while long scans run.
 *
 * A record is a number (not 0) and a body of 52 bytes. Records are inserted, modified and deleted one at a time, and a
 * scan hands out, one by one and each once, exactly the records that stood in the store when the scan began, as they
 * read then, whatever has been changed since. Up to 64 scans run side by side, each a few looks at a time.
 *
 * In this file, in this order: a store from open to end; memory and ownership; the body; what comes back. Then the
 * version, sizes and answers; the calls; a return value taken apart, an answer in words; numbers in bytes; a record taken
 * apart; sizes at run time; a store in one struct, and the calls on it; read by number; the desk and the scans that run.
 *
 *
 * A STORE FROM OPEN TO END
 *
 *   static uint8_t memory[INARUMPIT_STORE_BYTES(1000, 4000)];                       T = 1000 slots, R = 4000 entries
 *   struct inarumpit_store store = inarumpit_store_in(memory, sizeof memory, 1000, 4000);
 *   uint8_t body[INARUMPIT_BODY_SIZE] = { 0 }, out[INARUMPIT_OUT_SIZE];
 *
 *   inarumpit_store_open(&store, 4);                                                N = 4 scans at one time
 *   inarumpit_put32(body + INARUMPIT_BODY_DAY, 321);
 *   body[INARUMPIT_BODY_KIND] = INARUMPIT_BOUND;
 *   inarumpit_store_insert(&store, 4711, body);
 *
 *   uint64_t r = inarumpit_store_begin(&store);
 *   uint32_t ticket = inarumpit_ticket_of(r);                                       if the answer is INARUMPIT_DONE
 *   do {
 *       r = inarumpit_store_next(&store, ticket, 1000, out);
 *       if (inarumpit_answer_of(r) == INARUMPIT_DONE)
 *           .. out holds a record: inarumpit_number(out), inarumpit_body(out) ..
 *       else if (inarumpit_answer_of(r) == INARUMPIT_PAUSED)
 *           .. 1000 looks without a record: do something else, then go on ..
 *   } while (inarumpit_goes_on(r));                                                 to INARUMPIT_FINISHED, or a refusal
 *
 * Run every scan to INARUMPIT_FINISHED: until then it holds its position, and the old versions that it waits for stay on
 * the shelf.
 *
 *
 * MEMORY AND OWNERSHIP
 *
 * All memory is yours. The library allocates nothing, keeps nothing between calls and holds no pointer after a call has
 * returned. A store is three buffers that you own and lend to each call, always in this order:
 *
 *   desk    exactly INARUMPIT_DESK_SIZE bytes: the scans that run
 *   table   T slots of INARUMPIT_SLOT_SIZE bytes, T from 1 to INARUMPIT_SLOTS_MAX: the records
 *   shelf   R entries of INARUMPIT_SLOT_SIZE bytes, R from 1 to INARUMPIT_ENTRIES_MAX: old versions of records that some
 *           running scan has still to hand out
 *
 * Each is a pointer and a length in bytes. Lend the same three buffers, whole, to every call on the store: T and R are
 * fixed when it is opened. To save, copy or move a store, copy the three buffers. A buffer may start at any address; no
 * alignment is asked for. The buffers of one call must not overlap. A buffer of length 0 may be NULL (and is refused).
 * Two threads must not be in calls on one store at a time; calls on different stores do not touch each other.
 *
 * Between calls you may read the buffers. If you write into them, nothing breaks in the library (every call tests the
 * desk first, and comes back with an answer and within your buffers for any bytes at all), but what scans hand out is no
 * longer promised. inarumpit_tally and inarumpit_owed read only, and so does every call that is refused: answers 1 to 11
 * leave every byte of every buffer as it was.
 *
 * How large a shelf? A change needs a free entry only if the version it replaces is still to be handed out by some
 * running scan; one entry serves all scans that wait for it. With R of at least N times T (N as given to inarumpit_open)
 * a change is never turned away for want of room: inarumpit_shelf_enough.
 *
 *
 * THE BODY
 *
 * Bytes 0 to 3 are the start day, byte 4 the kind: INARUMPIT_BOUND, INARUMPIT_WRITTEN or INARUMPIT_SPOKEN. Bytes 5 to 51
 * are yours. The kind is tested; nothing else in the body is looked at. Numbers in the buffers are little-endian.
 *
 *
 * WHAT COMES BACK
 *
 * Every call returns one 64-bit number, answer + 256 * value: inarumpit_answer_of and its neighbours take it apart. The
 * answer is one of the numbers below; where several refusals apply, the lowest is given. The value is 0 but where a call
 * says otherwise. Every call that is lent a wrong length answers INARUMPIT_BAD_LENGTH, and all but inarumpit_open answer
 * INARUMPIT_BAD_DESK if the desk contradicts itself or the lengths, which does not happen in a store that only these
 * calls have written.
 */
#ifndef INARUMPIT_H
#define INARUMPIT_H

#include <stddef.h>
#include <stdint.h>
#ifdef INARUMPIT_DEBUG
#include <assert.h>
#endif

#ifdef __cplusplus
extern "C" {
#endif

/* ---- the version of this header, the same as in inarumpit.pc */

#define INARUMPIT_VERSION "0.1.0"
#define INARUMPIT_VERSION_MAJOR 0
#define INARUMPIT_VERSION_MINOR 1
#define INARUMPIT_VERSION_PATCH 0

/* ---- sizes, in bytes unless said otherwise */

#define INARUMPIT_DESK_SIZE 1088
#define INARUMPIT_SLOT_SIZE 64          /* a table slot or a shelf entry */
#define INARUMPIT_BODY_SIZE 52
#define INARUMPIT_OUT_SIZE 56           /* a record as handed out: number (4 bytes, little-endian), then body */
#define INARUMPIT_SLOTS_MAX 16384       /* T, in slots */
#define INARUMPIT_ENTRIES_MAX 1048576   /* R, in entries */
#define INARUMPIT_SCANS_MAX 64          /* N, in scans that run at one time */

/* ---- the body */

#define INARUMPIT_BODY_DAY 0            /* offset of the start day, 4 bytes */
#define INARUMPIT_BODY_KIND 4           /* offset of the kind, 1 byte */
#define INARUMPIT_BODY_OWN 5            /* offset of the bytes that belong to you, 47 of them */

#define INARUMPIT_BOUND 1               /* a bound policy */
#define INARUMPIT_WRITTEN 2             /* a written quote */
#define INARUMPIT_SPOKEN 3              /* a spoken quote */

/* ---- answers */

#define INARUMPIT_DONE 0                /* done; from next: a record in hand */

/* refusals: no byte has changed */
#define INARUMPIT_BAD_LENGTH 1          /* desk not 1,088 bytes; table or shelf not whole slots, or none, or too many;
                                           body not 52 bytes; hand-out buffer not 56 bytes */
#define INARUMPIT_BAD_DESK 2            /* the desk contradicts itself, or names another T or R than it was lent with */
#define INARUMPIT_BAD_NUMBER 3          /* record number 0; open: N not from 1 to 64 */
#define INARUMPIT_BAD_KIND 4            /* the body's kind is not 1, 2 or 3 */
#define INARUMPIT_ALREADY_THERE 5       /* a record with this number is in the table */
#define INARUMPIT_NOT_THERE 6           /* no record with this number is in the table */
#define INARUMPIT_TABLE_FULL 7          /* no slot is empty */
#define INARUMPIT_SHELF_FULL 8          /* some scan waits for the present version and no shelf entry is empty */
#define INARUMPIT_NO_POSITION 9         /* N scans run already */
#define INARUMPIT_NO_SCAN 10            /* no running scan has this ticket */
#define INARUMPIT_NO_TICKET 11          /* ticket 4,294,967,295 has been given: no more until the next opening */

/* further answers of next */
#define INARUMPIT_PAUSED 100            /* the budget is spent, no record in hand, more slots to look at */
#define INARUMPIT_FINISHED 101          /* the scan has looked at everything; its ticket is no longer good */

/* ---- the calls */

/* Makes a fresh, empty store for up to n scans at one time, n from 1 to 64, in any memory: all bytes of the three buffers
   are overwritten and none is looked at. T and R follow from the lengths. Tickets given before are void.

   0   done
   1   a length
   3   n is not from 1 to 64 */
uint64_t inarumpit_open(uint8_t *desk, size_t desk_len,
                        uint8_t *table, size_t table_len,
                        uint8_t *shelf, size_t shelf_len,
                        uint32_t n);

/* Puts a new record into the table. Scans that run already will not hand it out. body is only read.

   0   done
   1   a length (of the body too)
   2   the desk is not sound
   3   number is 0
   4   the body's kind is not 1, 2 or 3
   5   the number is in the table already: modify it instead
   7   no slot is empty: delete a record first */
uint64_t inarumpit_insert(uint8_t *desk, size_t desk_len,
                          uint8_t *table, size_t table_len,
                          uint8_t *shelf, size_t shelf_len,
                          uint32_t number, const uint8_t *body, size_t body_len);

/* Replaces the body of a record. Running scans that began with the old version and have not handed it out will still hand
   out the old one: it moves to the shelf for them. The same body once more is a change like any other. body is only read.

   0   done
   1   a length (of the body too)
   2   the desk is not sound
   3   number is 0
   4   the body's kind is not 1, 2 or 3
   6   the number is not in the table
   8   a scan waits for the present version and the shelf has no empty entry: let scans go on, then try again */
uint64_t inarumpit_modify(uint8_t *desk, size_t desk_len,
                          uint8_t *table, size_t table_len,
                          uint8_t *shelf, size_t shelf_len,
                          uint32_t number, const uint8_t *body, size_t body_len);

/* Takes a record out of the table. Running scans that began with it and have not handed it out still will.

   0   done
   1   a length
   2   the desk is not sound
   3   number is 0
   6   the number is not in the table
   8   a scan waits for the present version and the shelf has no empty entry: let scans go on, then try again */
uint64_t inarumpit_delete(uint8_t *desk, size_t desk_len,
                          uint8_t *table, size_t table_len,
                          uint8_t *shelf, size_t shelf_len,
                          uint32_t number);

/* Begins a scan of the records as they stand now, and gives its ticket, a number from 1 up that names this scan and no
   other until the next opening. It copies nothing: its cost does not grow with the number of records.

   0   done; the value is the ticket (inarumpit_ticket_of)
   1   a length
   2   the desk is not sound
   9   as many scans run as the store was opened for: finish one first
   11  the last ticket there is has been given */
uint64_t inarumpit_begin(uint8_t *desk, size_t desk_len,
                         uint8_t *table, size_t table_len,
                         uint8_t *shelf, size_t shelf_len);

/* Goes on with a scan until it has a record for you, or has made budget looks, or is at its end. A look is at one slot of
   the table or one entry of the shelf; a scan makes T + R of them over its life, whatever calls come between, so the
   budget bounds the time of this call. Budget 0 is allowed: it makes no look, and still tells a scan that is at its end.

   0    a record in hand: its number and body, as they read when the scan began, are in out; the value is the looks made
        in this call (inarumpit_looks_of)
   1    a length (of the hand-out buffer too)
   2    the desk is not sound
   10   the ticket is 0, was never given, or its scan has finished
   100  paused: the budget is spent and no record found; call again. The value is the looks made, that is, the budget
   101  finished: everything has been handed out, and the scan has given up its position and its ticket. The value holds
        the looks made in this call (inarumpit_looks_of) and the records handed out over its life (inarumpit_handed_of)

   out is written with answer 0 and with no other. */
uint64_t inarumpit_next(uint8_t *desk, size_t desk_len,
                        uint8_t *table, size_t table_len,
                        uint8_t *shelf, size_t shelf_len,
                        uint32_t ticket, uint32_t budget, uint8_t *out, size_t out_len);

/* Counts the records in the table and the old versions on the shelf. Reads only.

   0   done; the value holds both counts (inarumpit_records_of, inarumpit_entries_of)
   1   a length
   2   the desk is not sound */
uint64_t inarumpit_tally(const uint8_t *desk, size_t desk_len,
                         const uint8_t *table, size_t table_len,
                         const uint8_t *shelf, size_t shelf_len);

/* Counts the records that a scan has still to hand out, as long as it walks the table, that is, in its first T looks. In
   its shelf walk the count is too high: it is then the versions that the scan has still to hand out from the shelf and, on
   top of them, every record in the table, although the scan hands out none of those any more. Reads only.

   0   done; the value is the count (inarumpit_owed_of)
   1   a length
   2   the desk is not sound
   10  the ticket is 0, was never given, or its scan has finished */
uint64_t inarumpit_owed(const uint8_t *desk, size_t desk_len,
                        const uint8_t *table, size_t table_len,
                        const uint8_t *shelf, size_t shelf_len,
                        uint32_t ticket);

#ifdef __cplusplus
}
#endif

/* ---- a return value taken apart */

/* A conversion, written as C and as C++ like it; for this file only. */
#ifdef __cplusplus
#define INARUMPIT_AS(type, value) (static_cast<type>(value))
#define INARUMPIT_ADDRESS(pointer) (reinterpret_cast<uintptr_t>(pointer))
#else
#define INARUMPIT_AS(type, value) ((type)(value))
#define INARUMPIT_ADDRESS(pointer) ((uintptr_t)(pointer))
#endif

/* The answer: one of the numbers above. */
static inline uint32_t inarumpit_answer_of(uint64_t returned)
{
    return INARUMPIT_AS(uint32_t, returned & 255u);
}

/* The value, whatever it means for the call. */
static inline uint64_t inarumpit_value_of(uint64_t returned)
{
    return returned >> 8;
}

/* begin, answer 0: the ticket of the new scan. After a refusal 0, which is no scan's ticket. */
static inline uint32_t inarumpit_ticket_of(uint64_t returned)
{
    return INARUMPIT_AS(uint32_t, inarumpit_value_of(returned));
}

/* next: 1 where the scan is not at its end (answers 0 and 100), so that next is to be called again; 0 at its end, and after
   a refusal. */
static inline int inarumpit_goes_on(uint64_t returned)
{
    return inarumpit_answer_of(returned) == INARUMPIT_DONE || inarumpit_answer_of(returned) == INARUMPIT_PAUSED;
}

/* next, answers 0, 100 and 101: the looks made in this call. */
static inline uint32_t inarumpit_looks_of(uint64_t returned)
{
    return INARUMPIT_AS(uint32_t, inarumpit_value_of(returned) % 2097152u);
}

/* next, answer 101: the records that the scan has handed out over its life. */
static inline uint32_t inarumpit_handed_of(uint64_t returned)
{
    return INARUMPIT_AS(uint32_t, inarumpit_value_of(returned) / 2097152u);
}

/* tally, answer 0: the records in the table. */
static inline uint32_t inarumpit_records_of(uint64_t returned)
{
    return INARUMPIT_AS(uint32_t, inarumpit_value_of(returned) % 32768u);
}

/* tally, answer 0: the shelf entries in use. */
static inline uint32_t inarumpit_entries_of(uint64_t returned)
{
    return INARUMPIT_AS(uint32_t, inarumpit_value_of(returned) / 32768u);
}

/* owed, answer 0: the count. */
static inline uint32_t inarumpit_owed_of(uint64_t returned)
{
    return INARUMPIT_AS(uint32_t, inarumpit_value_of(returned));
}

/* An answer in words, for a message. Takes what a call returned, or the answer alone; never NULL. */
static inline const char *inarumpit_text(uint64_t returned)
{
    switch (inarumpit_answer_of(returned)) {
    case INARUMPIT_DONE: return "done";
    case INARUMPIT_BAD_LENGTH: return "a buffer has a wrong length";
    case INARUMPIT_BAD_DESK: return "the desk is not sound";
    case INARUMPIT_BAD_NUMBER: return "the record number is 0, or N is not from 1 to 64";
    case INARUMPIT_BAD_KIND: return "the kind is not 1, 2 or 3";
    case INARUMPIT_ALREADY_THERE: return "a record with this number is there already";
    case INARUMPIT_NOT_THERE: return "no record with this number is there";
    case INARUMPIT_TABLE_FULL: return "the table is full";
    case INARUMPIT_SHELF_FULL: return "a scan waits for the present version and the shelf is full";
    case INARUMPIT_NO_POSITION: return "no position is free for another scan";
    case INARUMPIT_NO_SCAN: return "no running scan has this ticket";
    case INARUMPIT_NO_TICKET: return "no ticket is left until the next opening";
    case INARUMPIT_PAUSED: return "paused, the budget is spent";
    case INARUMPIT_FINISHED: return "finished";
    default: return "not an answer of this library";
    }
}

/* ---- numbers in bytes, little-endian, at any address and on any machine */

static inline uint32_t inarumpit_get32(const uint8_t *from)
{
    return from[0] | INARUMPIT_AS(uint32_t, from[1]) << 8 | INARUMPIT_AS(uint32_t, from[2]) << 16
         | INARUMPIT_AS(uint32_t, from[3]) << 24;
}

static inline uint64_t inarumpit_get64(const uint8_t *from)
{
    return inarumpit_get32(from) | INARUMPIT_AS(uint64_t, inarumpit_get32(from + 4)) << 32;
}

static inline void inarumpit_put32(uint8_t *to, uint32_t value)
{
    int i;
    for (i = 0; i < 4; i++)
        to[i] = INARUMPIT_AS(uint8_t, value >> 8 * i & 255u);
}

static inline void inarumpit_put64(uint8_t *to, uint64_t value)
{
    inarumpit_put32(to, INARUMPIT_AS(uint32_t, value & 0xFFFFFFFFu));
    inarumpit_put32(to + 4, INARUMPIT_AS(uint32_t, value >> 32));
}

/* ---- a record: the 56 bytes that next has handed out, or a slot of the table, or an entry of the shelf */

#define INARUMPIT_SLOT_NUMBER 0         /* offset of the record number, 4 bytes; 0: empty */
#define INARUMPIT_SLOT_BODY 4           /* offset of the body, 52 bytes */
#define INARUMPIT_SLOT_MASK 56          /* slots and entries only: offset of a mask, 8 bytes, a bit for each position */

/* Its number; 0 in a slot or an entry that is empty. */
static inline uint32_t inarumpit_number(const uint8_t *record)
{
    return inarumpit_get32(record + INARUMPIT_SLOT_NUMBER);
}

/* Its body, 52 bytes within the record. */
static inline const uint8_t *inarumpit_body(const uint8_t *record)
{
    return record + INARUMPIT_SLOT_BODY;
}

/* The start day in its body. */
static inline uint32_t inarumpit_start_day(const uint8_t *record)
{
    return inarumpit_get32(inarumpit_body(record) + INARUMPIT_BODY_DAY);
}

/* The kind in its body: INARUMPIT_BOUND, INARUMPIT_WRITTEN or INARUMPIT_SPOKEN. */
static inline uint32_t inarumpit_kind(const uint8_t *record)
{
    return inarumpit_body(record)[INARUMPIT_BODY_KIND];
}

/* ---- sizes at run time */

/* Each is 0 where a count is out of range, and a buffer of length 0 is refused: no product wraps. */

/* The bytes of a table of T slots. */
static inline size_t inarumpit_table_bytes(uint64_t slots)
{
    return slots < 1 || slots > INARUMPIT_SLOTS_MAX ? 0 : INARUMPIT_AS(size_t, slots * INARUMPIT_SLOT_SIZE);
}

/* The bytes of a shelf of R entries. */
static inline size_t inarumpit_shelf_bytes(uint64_t entries)
{
    return entries < 1 || entries > INARUMPIT_ENTRIES_MAX ? 0 : INARUMPIT_AS(size_t, entries * INARUMPIT_SLOT_SIZE);
}

/* The entries of a shelf that always suffices for N scans and T slots, so that no change is ever turned away by answer 8: N
   times T, never above INARUMPIT_ENTRIES_MAX. */
static inline uint32_t inarumpit_shelf_enough(uint64_t scans, uint64_t slots)
{
    return scans < 1 || scans > INARUMPIT_SCANS_MAX || slots < 1 || slots > INARUMPIT_SLOTS_MAX
        ? 0 : INARUMPIT_AS(uint32_t, scans * slots);
}

/* The bytes of desk, table and shelf together, for inarumpit_store_in. */
static inline size_t inarumpit_store_bytes(uint64_t slots, uint64_t entries)
{
    size_t table_len = inarumpit_table_bytes(slots), shelf_len = inarumpit_shelf_bytes(entries);
    return table_len == 0 || shelf_len == 0 ? 0 : INARUMPIT_DESK_SIZE + table_len + shelf_len;
}

/* The same of constants in range, for the length of an array. */
#define INARUMPIT_STORE_BYTES(slots, entries) (INARUMPIT_DESK_SIZE + INARUMPIT_SLOT_SIZE * ((slots) + (entries)))

/* ---- a store in one struct */

/* The buffers of a store. Make one by inarumpit_store_in, or set each field by its name; do not count on the order of the
   fields. A later version may lend a further buffer: it comes as a further field, the calls below stay as they are, and
   what is written on inarumpit_store_in and inarumpit_store_bytes needs no change at all. */
struct inarumpit_store {
    uint8_t *desk;
    size_t desk_len;
    uint8_t *table;
    size_t table_len;
    uint8_t *shelf;
    size_t shelf_len;
};

/* A store of T slots and R entries in one piece of memory, of at least inarumpit_store_bytes(slots, entries) bytes: desk,
   table, shelf, one behind the other. No byte of it is read or written: open the store, or go on with one that was saved as
   these bytes. If memory is NULL or too short, or a count out of range, the buffers are empty and every call answers 1. */
static inline struct inarumpit_store inarumpit_store_in(uint8_t *memory, size_t memory_len,
                                                        uint64_t slots, uint64_t entries)
{
    struct inarumpit_store store;
    size_t bytes = inarumpit_store_bytes(slots, entries);
    int fits = memory != NULL && bytes != 0 && memory_len >= bytes;
    store.desk_len = fits ? INARUMPIT_DESK_SIZE : 0;
    store.table_len = fits ? inarumpit_table_bytes(slots) : 0;
    store.shelf_len = fits ? inarumpit_shelf_bytes(entries) : 0;
    store.desk = fits ? memory : NULL;
    store.table = fits ? store.desk + store.desk_len : NULL;
    store.shelf = fits ? store.table + store.table_len : NULL;
    return store;
}

/* Whether two buffers share a byte: 1 or 0. They may be NULL or of length 0. */
static inline int inarumpit_overlap(const uint8_t *one, size_t one_len, const uint8_t *other, size_t other_len)
{
    uintptr_t a = INARUMPIT_ADDRESS(one), b = INARUMPIT_ADDRESS(other);
    return one_len > 0 && other_len > 0 && (a <= b ? b - a < one_len : a - b < other_len);
}

/* Whether any two of the store's buffers share a byte, or one of them with another buffer, such as a body (NULL and 0 for
   none): 1 or 0. The library cannot test that. For debug builds: with INARUMPIT_DEBUG defined before this file is included,
   every call on a store in a struct asserts that nothing overlaps. */
static inline int inarumpit_store_overlaps(const struct inarumpit_store *store, const uint8_t *other, size_t other_len)
{
    return inarumpit_overlap(store->desk, store->desk_len, store->table, store->table_len)
        || inarumpit_overlap(store->desk, store->desk_len, store->shelf, store->shelf_len)
        || inarumpit_overlap(store->table, store->table_len, store->shelf, store->shelf_len)
        || inarumpit_overlap(store->desk, store->desk_len, other, other_len)
        || inarumpit_overlap(store->table, store->table_len, other, other_len)
        || inarumpit_overlap(store->shelf, store->shelf_len, other, other_len);
}

/* ---- the calls on a store in a struct */

/* Each is the call of the same name above, with its answers. A body is a pointer to 52 bytes and a hand-out buffer a pointer
   to 56: gcc warns of an array that is shorter, and NULL is answered 1. */

#ifdef INARUMPIT_DEBUG
#define INARUMPIT_APART(store, other, other_len) assert(!inarumpit_store_overlaps(store, other, other_len))
#else
#define INARUMPIT_APART(store, other, other_len) INARUMPIT_AS(void, 0)
#endif

/* The buffers as every call takes them. */
#define INARUMPIT_LENT(store) \
    (store)->desk, (store)->desk_len, (store)->table, (store)->table_len, (store)->shelf, (store)->shelf_len

static inline uint64_t inarumpit_store_open(const struct inarumpit_store *store, uint32_t n)
{
    INARUMPIT_APART(store, NULL, 0);
    return inarumpit_open(INARUMPIT_LENT(store), n);
}

static inline uint64_t inarumpit_store_insert(const struct inarumpit_store *store, uint32_t number,
                                              const uint8_t body[INARUMPIT_BODY_SIZE])
{
    INARUMPIT_APART(store, body, INARUMPIT_BODY_SIZE);
    return inarumpit_insert(INARUMPIT_LENT(store), number, body, body == NULL ? 0 : INARUMPIT_BODY_SIZE);
}

static inline uint64_t inarumpit_store_modify(const struct inarumpit_store *store, uint32_t number,
                                              const uint8_t body[INARUMPIT_BODY_SIZE])
{
    INARUMPIT_APART(store, body, INARUMPIT_BODY_SIZE);
    return inarumpit_modify(INARUMPIT_LENT(store), number, body, body == NULL ? 0 : INARUMPIT_BODY_SIZE);
}

static inline uint64_t inarumpit_store_delete(const struct inarumpit_store *store, uint32_t number)
{
    INARUMPIT_APART(store, NULL, 0);
    return inarumpit_delete(INARUMPIT_LENT(store), number);
}

static inline uint64_t inarumpit_store_begin(const struct inarumpit_store *store)
{
    INARUMPIT_APART(store, NULL, 0);
    return inarumpit_begin(INARUMPIT_LENT(store));
}

static inline uint64_t inarumpit_store_next(const struct inarumpit_store *store, uint32_t ticket, uint32_t budget,
                                            uint8_t out[INARUMPIT_OUT_SIZE])
{
    INARUMPIT_APART(store, out, INARUMPIT_OUT_SIZE);
    return inarumpit_next(INARUMPIT_LENT(store), ticket, budget, out, out == NULL ? 0 : INARUMPIT_OUT_SIZE);
}

static inline uint64_t inarumpit_store_tally(const struct inarumpit_store *store)
{
    INARUMPIT_APART(store, NULL, 0);
    return inarumpit_tally(INARUMPIT_LENT(store));
}

static inline uint64_t inarumpit_store_owed(const struct inarumpit_store *store, uint32_t ticket)
{
    INARUMPIT_APART(store, NULL, 0);
    return inarumpit_owed(INARUMPIT_LENT(store), ticket);
}

/* ---- read by number */

/* The body of the record with this number as it stands in the table, 52 bytes of the table itself: the one that modify
   would replace, in the lowest slot that bears the number. NULL where there is none, so for number 0, and for a table of a
   wrong length. The desk is not looked at. It is good until the next call that changes the store; to change it call modify. */
static inline const uint8_t *inarumpit_store_read(const struct inarumpit_store *store, uint32_t number)
{
    size_t at;
    if (number == 0 || store->table_len % INARUMPIT_SLOT_SIZE != 0
        || inarumpit_table_bytes(store->table_len / INARUMPIT_SLOT_SIZE) == 0)
        return NULL;
    for (at = 0; at < store->table_len; at += INARUMPIT_SLOT_SIZE)
        if (inarumpit_number(store->table + at) == number)
            return inarumpit_body(store->table + at);
    return NULL;
}

/* ---- the desk */

/* A head of 64 bytes, then a card of 16 bytes for each of the 64 positions; the offsets are below. A scan that runs holds a
   position below N: bit i of a mask and card i belong to position i. */
#define INARUMPIT_DESK_N 0              /* the scans that may run at one time, 4 bytes */
#define INARUMPIT_DESK_T 4              /* the slots of the table, 4 bytes */
#define INARUMPIT_DESK_R 8              /* the entries of the shelf, 4 bytes */
#define INARUMPIT_DESK_LAST 12          /* the last ticket given, 4 bytes */
#define INARUMPIT_DESK_STABLE 16        /* the stable mask, 8 bytes: see below */
#define INARUMPIT_DESK_ACTIVE 24        /* the active mask, 8 bytes: a bit is 0 where a scan runs */
#define INARUMPIT_DESK_LOCAL 32         /* the local active mask, 8 bytes: a bit is 0 where a scan walks the table */
#define INARUMPIT_DESK_ZERO 40          /* 24 zero bytes */
#define INARUMPIT_DESK_CARDS 64         /* the cards: card i is at 64 + 16 * i */

/* A card, all zero where no scan runs. */
#define INARUMPIT_CARD_SIZE 16
#define INARUMPIT_CARD_TICKET 0         /* the ticket, 4 bytes; 0: no scan */
#define INARUMPIT_CARD_PLACE 4          /* the looks made, 4 bytes: below T the next slot, from T up T + the next entry */
#define INARUMPIT_CARD_HANDED 8         /* the records handed out, 4 bytes */
#define INARUMPIT_CARD_ZERO 12          /* 4 zero bytes */

/* The masks of slots and entries: a scan that walks the table has still to hand out the records whose bit, at its position,
   equals that of the stable mask; and every scan the versions on the shelf whose bit at its position is 0. */

/* A running scan, as its card has it. */
struct inarumpit_scan {
    uint32_t position;    /* from 0 to N - 1 */
    uint32_t ticket;      /* not 0 */
    uint32_t place;       /* the looks made, T + R at most: below T it walks the table, from T up the shelf */
    uint32_t handed;      /* the records handed out */
};

/* Lists the scans that run, by rising position, and returns how many; 0 for a desk of a wrong length. After a restart this
   gives their tickets: call next with each until it has finished. What the cards say is copied as it is: ask tally whether
   the desk is sound. */
static inline uint32_t inarumpit_store_running(const struct inarumpit_store *store,
                                               struct inarumpit_scan scans[INARUMPIT_SCANS_MAX])
{
    uint32_t i, count = 0;
    if (store->desk_len != INARUMPIT_DESK_SIZE)
        return 0;
    for (i = 0; i < INARUMPIT_SCANS_MAX; i++) {
        const uint8_t *card = store->desk + INARUMPIT_DESK_CARDS + INARUMPIT_CARD_SIZE * i;
        uint32_t ticket = inarumpit_get32(card + INARUMPIT_CARD_TICKET);
        if (ticket == 0)
            continue;
        scans[count].position = i;
        scans[count].ticket = ticket;
        scans[count].place = inarumpit_get32(card + INARUMPIT_CARD_PLACE);
        scans[count].handed = inarumpit_get32(card + INARUMPIT_CARD_HANDED);
        count++;
    }
    return count;
}

#undef INARUMPIT_AS
#undef INARUMPIT_ADDRESS
#undef INARUMPIT_APART
#undef INARUMPIT_LENT

#endif
