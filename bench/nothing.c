/* Calls that do nothing, in a file of their own so that no compiler sees it: what a call and putting back the bytes cost. */
#include "../second/store.h"

#define ALL_THREE (void)desk, (void)desk_len, (void)table, (void)table_len, (void)shelf, (void)shelf_len

uint64_t CALL(open)(LENT, uint32_t n) { return ALL_THREE, (void)n, 0; }
uint64_t CALL(delete)(LENT, uint32_t number) { return ALL_THREE, (void)number, 0; }
uint64_t CALL(begin)(LENT) { return ALL_THREE, 0; }
uint64_t CALL(tally)(SHOWN) { return ALL_THREE, 0; }
uint64_t CALL(owed)(SHOWN, uint32_t ticket) { return ALL_THREE, (void)ticket, 0; }

uint64_t CALL(insert)(LENT, uint32_t number, const uint8_t *body, size_t body_len)
{
    return ALL_THREE, (void)number, (void)body, (void)body_len, 0;
}

uint64_t CALL(modify)(LENT, uint32_t number, const uint8_t *body, size_t body_len)
{
    return ALL_THREE, (void)number, (void)body, (void)body_len, 0;
}

uint64_t CALL(next)(LENT, uint32_t ticket, uint32_t budget, uint8_t *out, size_t out_len)
{
    return ALL_THREE, (void)ticket, (void)budget, (void)out, (void)out_len, 0;
}
