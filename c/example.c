/* Splits a book, and checks the answer as a third party would.
 *
 *   example BOOK
 *
 * Prints the price, the near side and the far side. Ends with 0 if the checker accepts both sides,
 * 1 if the book is refused, 2 if the file cannot be read or the checker does not accept. */
#include <inttypes.h>
#include <stdint.h>
#include <stdio.h>
#include <stdlib.h>

#include "platelayer.h"

/* The book in a file: its bytes from malloc and their count, or null. */
static uint8_t *load(const char *name, size_t *length)
{
    /* One byte more than the largest book: a longer file is refused, and is read no further. */
    size_t room = PLATELAYER_BOOK_BYTES + 1;
    FILE *file = fopen(name, "rb");
    uint8_t *book = malloc(room);
    if (file != NULL && book != NULL) {
        *length = fread(book, 1, room, file);
        if (ferror(file) == 0) {
            fclose(file);
            return book;
        }
    }
    if (file != NULL) {
        fclose(file);
    }
    free(book);
    return NULL;
}

/* Memory for `count` elements; where there are none, still a pointer that is not null. */
static void *room_for(size_t count, size_t size)
{
    void *room = calloc(count + (count == 0), size);
    if (room == NULL) {
        fprintf(stderr, "no memory\n");
        exit(2);
    }
    return room;
}

static void print_side(const char *name, const uint8_t *side, size_t modules)
{
    printf("%s", name);
    for (size_t m = 0; m < modules; m++) {
        if (side[m / 8] >> (m % 8) & 1) {
            printf(" %zu", m);
        }
    }
    printf("\n");
}

/* Prints a refusal; answers whether there was one. */
static int refused(const int64_t answer[PLATELAYER_ANSWER])
{
    if (answer[PLATELAYER_NUMBER] == PLATELAYER_DONE) {
        return 0;
    }
    printf("refused %" PRId64 " at %" PRId64 "\n", answer[PLATELAYER_NUMBER], answer[PLATELAYER_PLACE]);
    return 1;
}

/* Splits a book that reads; answers how the program ends. */
static int split_and_check(const uint8_t *book, size_t length, size_t modules, size_t pins)
{
    int64_t answer[PLATELAYER_ANSWER];
    size_t bytes = (modules + 7) / 8;
    uint8_t *near = room_for(bytes, 1);
    uint8_t *far = room_for(bytes, 1);
    int32_t *flow = room_for(pins, sizeof *flow);
    int end = 0;

    platelayer_split(book, length, near, bytes, far, bytes, flow, pins, answer);
    if (refused(answer)) {
        end = 2;
    } else {
        uint32_t price = (uint32_t)answer[PLATELAYER_VALUE];
        printf("price %" PRIu32 "\n", price);
        print_side("near", near, modules);
        print_side("far", far, modules);
        platelayer_check(book, length, near, bytes, flow, pins, price, answer);
        end = refused(answer) ? 2 : end;
        platelayer_check(book, length, far, bytes, flow, pins, price, answer);
        end = refused(answer) ? 2 : end;
    }
    free(near);
    free(far);
    free(flow);
    return end;
}

int main(int argc, char **argv)
{
    int64_t answer[PLATELAYER_ANSWER];
    size_t length = 0;
    if (argc != 2) {
        fprintf(stderr, "usage: example BOOK\n");
        return 2;
    }
    uint8_t *book = load(argv[1], &length);
    if (book == NULL) {
        fprintf(stderr, "%s cannot be read\n", argv[1]);
        return 2;
    }
    platelayer_read(book, length, answer);
    int end = 1;
    if (!refused(answer)) {
        size_t modules = (size_t)answer[PLATELAYER_VALUE];
        size_t pins = (size_t)answer[PLATELAYER_VALUE + 2];
        end = split_and_check(book, length, modules, pins);
    }
    free(book);
    return end;
}
