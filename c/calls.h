/* What the fuzz target hands to the six calls. */
#ifndef CALLS_H
#define CALLS_H

#include <stddef.h>
#include <stdint.h>

#include "platelayer.h"

enum { LIMIT = 65535 }; /* the largest weight */

/* What a caller gives beside a book. */
struct head {
    uint8_t side[PLATELAYER_SIDE_BYTES];
    double a;
    double b;
    uint32_t module;
    uint32_t claim;
    int32_t number; /* changes the flow .. */
    uint16_t pin;   /* .. at this pin, if it is not 0 */
    uint8_t gate;
    uint8_t off[5];   /* how far near, far, flow, side and rows are from what is needed */
    uint32_t is_made; /* odd: the book is made from the bytes */
};
_Static_assert(sizeof(struct head) == 72, "bin/fuzz puts as many zeros before each book");

/* All six calls on a book of these bytes; ends the program where one does not answer as it must. */
void all_calls(const struct head *head, const uint8_t *data, size_t size);

#endif
