/* A libFuzzer target over all six calls (bin/fuzz runs it, and replay.c without a fuzzer).
 *
 * The bytes are taken apart into a head (what a caller gives beside a book, and how much longer or
 * shorter than needed each buffer is) and a book: the bytes as they are, or a fair book made from
 * them. A head of zeros asks for exact buffers and the open gate. */
#include <stdint.h>
#include <string.h>

#include "calls.h"
#include "platelayer.h"

/* The bytes that a fair book is made from, and the room that it is made in. */
struct making {
    const uint8_t *next;
    const uint8_t *end;
    uint8_t *book;
    size_t length;
};

static uint8_t take(struct making *making)
{
    return making->next < making->end ? *making->next++ : 0;
}

static void put(struct making *making, uint32_t number, size_t bytes)
{
    for (size_t i = 0; i < bytes; i++) {
        making->book[making->length++] = (uint8_t)(number >> (8 * i));
    }
}

/* Pins of one net, rising from a first module; answers how many. */
static size_t make_pins(struct making *making, uint16_t *pins, size_t modules)
{
    size_t wanted = 1 + take(making) % 6, made = 0;
    for (size_t m = take(making) % modules; m < modules && made < wanted; m += 1 + take(making) % 4) {
        pins[made++] = (uint16_t)m;
    }
    return made;
}

/* Makes a fair book; answers its length. Module 0 is a meter, the last one a maker. */
static size_t make_book(const uint8_t *data, size_t size, uint8_t *book)
{
    static uint16_t weights[PLATELAYER_NETS], counts[PLATELAYER_NETS], pins[PLATELAYER_PINS];
    struct making making = {data, data + size, book, 32};
    size_t modules = 2 + take(&making) % 40, nets = 0, all = 0;
    for (size_t m = 0; m < modules; m++) {
        uint8_t mark = take(&making);
        put(&making, 1 + mark / 8, 2);
        put(&making, m == 0 ? 1 : m + 1 == modules ? 2 : mark % 8 < 3 ? mark % 8 : 0, 2);
    }
    while (making.next < making.end && nets < PLATELAYER_NETS && all + 6 <= PLATELAYER_PINS) {
        uint8_t weight = take(&making);
        weights[nets] = weight < 192 ? 1 + weight % 5 : (uint16_t)(LIMIT - weight % 5);
        counts[nets] = (uint16_t)make_pins(&making, pins + all, modules);
        all += counts[nets++];
    }
    for (size_t n = 0; n < nets; n++) {
        put(&making, weights[n], 2);
        put(&making, counts[n], 2);
    }
    for (size_t p = 0; p < all; p++) {
        put(&making, pins[p], 2);
    }
    uint32_t starts[4] = {32, (uint32_t)(32 + 4 * modules), (uint32_t)(32 + 4 * (modules + nets)), (uint32_t)making.length};
    size_t length = making.length;
    making.length = 0;
    put(&making, 3, 2);
    for (uint32_t kind = 1; kind <= 3; kind++) {
        put(&making, kind, 2);
        put(&making, starts[kind - 1], 4);
        put(&making, starts[kind] - starts[kind - 1], 4);
    }
    return length;
}

int LLVMFuzzerTestOneInput(const uint8_t *data, size_t size);

int LLVMFuzzerTestOneInput(const uint8_t *data, size_t size)
{
    static uint8_t made[PLATELAYER_BOOK_BYTES];
    struct head head = {0};
    size_t taken = size < sizeof head ? size : sizeof head;
    memcpy(&head, data, taken);
    data += taken;
    size -= taken;
    if (head.is_made % 2) {
        size = make_book(data, size, made);
        data = made;
    }
    all_calls(&head, data, size);
    return 0;
}
