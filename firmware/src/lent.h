/* What an entry of the list lends to a call, and the call by its number. */
#ifndef LENT_H
#define LENT_H

#include <stdbool.h>
#include <stdint.h>

struct slice {
    uint8_t *at;
    uint64_t len;
};

/* The bank of a call that changes one stands in `space`; a record that is offered to an edit, and a row of requests, stand in `request`, a row's
 * count in `place`. */
struct lent {
    uint32_t id;
    uint64_t place;
    struct slice policy, request, bytes, space, out;
};

/* What comes back where there is no such call: no refusal's word is so high. */
#define UNKNOWN_CALL UINT64_MAX

bool changes_bank(uint8_t call);
uint64_t called(uint8_t call, const struct lent *lent);

/* Whether the library tells the header's version: the one call that takes no bytes, and so has no entry. */
bool version_is_the_headers(void);

#endif
