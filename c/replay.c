/* Runs the fuzz target without a fuzzer: on random inputs from a fixed seed.
 *
 *   replay COUNT
 *
 * Half of them are fair books, half of them any bytes behind the right contents. Prints the sum
 * over all answers and buffers: two libraries that print the same sum answered alike. */
#include <inttypes.h>
#include <stdint.h>
#include <stdio.h>
#include <stdlib.h>

enum { HEAD = 72, IS_MADE = 68, CONTENTS = 32, MOST = 1500 };

extern uint64_t seen;
int LLVMFuzzerTestOneInput(const uint8_t *data, size_t size);

/* SplitMix64. */
static uint64_t state = 1996;

static uint64_t roll(void)
{
    uint64_t z = state += 0x9E3779B97F4A7C15u;
    z = (z ^ (z >> 30)) * 0xBF58476D1CE4E5B9u;
    z = (z ^ (z >> 27)) * 0x94D049BB133111EBu;
    return z ^ (z >> 31);
}

static void put(uint8_t *place, uint32_t number, size_t bytes)
{
    for (size_t i = 0; i < bytes; i++) {
        place[i] = (uint8_t)(number >> (8 * i));
    }
}

/* Contents for bodies of random lengths that fill the rest; answers the length of it all. */
static size_t put_contents(uint8_t *book)
{
    static const uint32_t multiples[3] = {4, 4, 2}, counts[3] = {12, 6, 16};
    uint32_t start = CONTENTS;
    put(book, 3, 2);
    for (uint32_t kind = 1; kind <= 3; kind++) {
        uint8_t *entry = book + 2 + 10 * (kind - 1);
        uint32_t length = multiples[kind - 1] * (uint32_t)(roll() % counts[kind - 1]);
        put(entry, kind, 2);
        put(entry + 2, start, 4);
        put(entry + 6, length, 4);
        start += length;
    }
    return start;
}

/* One input: mostly small numbers, so that buffers, marks and gates come out right now and then. */
static size_t make_input(uint8_t *input)
{
    size_t most = roll() % 8 == 0 ? MOST - HEAD : 150;
    size_t size = HEAD + roll() % most;
    for (size_t i = 0; i < MOST; i++) {
        uint64_t any = roll();
        input[i] = (uint8_t)(any % 4 == 0 ? any >> 8 : any >> 8 & 3);
    }
    if (roll() % 2 == 0) {
        input[IS_MADE] |= 1;
        return size;
    }
    input[IS_MADE] &= 0xFE;
    return HEAD + put_contents(input + HEAD);
}

int main(int argc, char **argv)
{
    static uint8_t input[MOST];
    long count = argc == 2 ? strtol(argv[1], NULL, 10) : 0;
    if (count <= 0) {
        fprintf(stderr, "usage: replay COUNT\n");
        return 2;
    }
    for (long i = 0; i < count; i++) {
        size_t size = make_input(input);
        LLVMFuzzerTestOneInput(input, size);
    }
    printf("%ld inputs, sum %016" PRIx64 "\n", count, seen);
    return 0;
}
