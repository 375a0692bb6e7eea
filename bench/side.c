/* Built for each program: CALLS begins the names of its calls, SUBJECT is its own. */
#include "side.h"

const struct side SUBJECT = { CALL(open), CALL(insert), CALL(modify), CALL(delete),
                              CALL(begin), CALL(next), CALL(tally), CALL(owed) };
