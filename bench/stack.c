/* How much stack each exported call uses, on the book named: stack BOOK. The calls run on a thread whose stack was
 * painted; what is no longer painted afterwards was used. */
#include "platelayer.h"

#include <pthread.h>
#include <stdio.h>
#include <stdlib.h>
#include <string.h>

enum { STACK = 1 << 20, PAINT = 0xA5 };

static uint8_t book[PLATELAYER_BOOK_BYTES + 1], near[PLATELAYER_SIDE_BYTES], far[PLATELAYER_SIDE_BYTES];
static uint8_t side[PLATELAYER_SIDE_BYTES], rows[PLATELAYER_ROW_BYTES * (PLATELAYER_MODULES + 1)];
static int32_t flow[PLATELAYER_PINS];
static int64_t answer[PLATELAYER_ANSWER];
static size_t length;
static uint32_t price;

static void *call_none(void *none) { return none; }

static void *call_read(void *none) {
    platelayer_read(book, length, answer);
    return none;
}

static void *call_price(void *none) {
    platelayer_price(book, length, near, sizeof near, answer);
    return none;
}

static void *call_move(void *none) {
    platelayer_move(book, length, near, sizeof near, 1, answer);
    return none;
}

static void *call_split(void *none) {
    platelayer_split(book, length, near, sizeof near, far, sizeof far, flow, PLATELAYER_PINS, answer);
    price = (uint32_t)answer[PLATELAYER_VALUE];
    return none;
}

static void *call_check(void *none) {
    platelayer_check(book, length, near, sizeof near, flow, PLATELAYER_PINS, price, answer);
    return none;
}

static void *call_walk(void *none) {
    platelayer_walk(book, length, PLATELAYER_SHARE, 0.5, 0.001, side, sizeof side, rows, sizeof rows, answer);
    return none;
}

/* The bytes of a painted stack that a call no longer leaves painted. */
static size_t used(void *(*call)(void *)) {
    uint8_t *stack = aligned_alloc(4096, STACK);
    pthread_attr_t attributes;
    pthread_t thread;
    memset(stack, PAINT, STACK);
    pthread_attr_init(&attributes);
    if (pthread_attr_setstack(&attributes, stack, STACK) || pthread_create(&thread, &attributes, call, NULL)) exit(2);
    pthread_join(thread, NULL);
    size_t clean = 0;
    while (clean < STACK && stack[clean] == PAINT) clean++;
    free(stack);
    return STACK - clean;
}

int main(int count, char **words) {
    FILE *file = count == 2 ? fopen(words[1], "rb") : NULL;
    if (!file) return 2;
    length = fread(book, 1, sizeof book, file);
    fclose(file);
    static const struct {
        const char *name;
        void *(*call)(void *);
    } calls[] = {
        {"read", call_read},   {"split", call_split}, {"price", call_price},
        {"move", call_move},   {"check", call_check}, {"walk", call_walk},
    };
    size_t idle = used(call_none);
    for (size_t i = 0; i < sizeof calls / sizeof *calls; i++)
        printf("stack\t%s\tplatelayer\t%zu\n", calls[i].name, used(calls[i].call) - idle);
    return 0;
}
