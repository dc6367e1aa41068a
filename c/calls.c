/* All six calls on one book, and what must hold of their answers.
 *
 * Buffers come from malloc at their exact size, so that the address sanitizer sees any step
 * outside. What is checked besides: a refusal leaves every buffer as it was, tails are kept, the
 * checker accepts what the split answers and accepts nothing dearer, and the calls agree with each
 * other. */
#include <stdint.h>
#include <stdio.h>
#include <stdlib.h>
#include <string.h>

#include "calls.h"
#include "platelayer.h"

#define MUST(holds)                                                  \
    do {                                                             \
        if (!(holds)) {                                              \
            fprintf(stderr, "%s:%d: not so: %s\n", __FILE__, __LINE__, #holds); \
            abort();                                                 \
        }                                                            \
    } while (0)

/* A book that reads, or does not. */
struct book {
    const uint8_t *bytes;
    size_t length;
    int64_t read[PLATELAYER_ANSWER]; /* what the reader says of it */
    size_t side_bytes;
    size_t pins;
    size_t rows_bytes;
};

/* A buffer at its exact size, and what it held when it was lent. */
struct lent {
    void *held;
    void *was;
    size_t size;
};

/* What a book's split answers, in buffers of exact size. */
struct found {
    struct lent near;
    struct lent far;
    struct lent flow;
    uint32_t price;
};

/* A sum over every answer and every buffer that came back, so that two libraries can be compared. */
uint64_t seen = 14695981039346656037u;

static void note(const void *bytes, size_t size)
{
    for (size_t i = 0; i < size; i++) {
        seen = (seen ^ ((const uint8_t *)bytes)[i]) * 1099511628211u;
    }
}

static struct lent lend(const void *bytes, size_t size)
{
    struct lent lent = {malloc(size), malloc(size), size};
    MUST(lent.held != NULL && lent.was != NULL);
    if (bytes != NULL) {
        memcpy(lent.held, bytes, size);
    } else {
        memset(lent.held, 0xA5, size);
    }
    memcpy(lent.was, lent.held, size);
    return lent;
}

static void give_back(struct lent lent)
{
    note(lent.held, lent.size);
    free(lent.held);
    free(lent.was);
}

/* From this byte on the buffer is as it was. */
static int kept_from(struct lent lent, size_t start)
{
    return start >= lent.size || memcmp((char *)lent.held + start, (char *)lent.was + start, lent.size - start) == 0;
}

/* The size of a buffer that is up to three elements shorter or four longer than needed. */
static size_t size_of(size_t need, size_t element, uint8_t off)
{
    size_t longer = need + (off + 3) % 8 * element;
    return longer < 3 * element ? 0 : longer - 3 * element;
}

/* An answer with no places written but number and place, and values where there are any. */
static void must_be_clean(const int64_t *answer, size_t values)
{
    note(answer, PLATELAYER_ANSWER * sizeof *answer);
    MUST(answer[PLATELAYER_NUMBER] >= 0 && answer[PLATELAYER_NUMBER] <= PLATELAYER_STUCK);
    MUST(answer[PLATELAYER_PLACE] >= 0 && answer[PLATELAYER_SECOND] == 0);
    for (size_t i = PLATELAYER_VALUE; i < PLATELAYER_ANSWER; i++) {
        int is_value = answer[PLATELAYER_NUMBER] == 0 && i < PLATELAYER_VALUE + values;
        int is_rounds = answer[PLATELAYER_NUMBER] == PLATELAYER_STUCK && i == PLATELAYER_VALUE + 1;
        MUST(is_value || is_rounds || answer[i] == 0);
    }
}

/* A call on a book that does not read says what the reader says. */
static void must_agree(const struct book *book, const int64_t *answer)
{
    if (book->read[PLATELAYER_NUMBER] != 0) {
        MUST(memcmp(book->read, answer, sizeof book->read) == 0);
    } else {
        MUST(answer[PLATELAYER_NUMBER] == 0 || answer[PLATELAYER_NUMBER] > PLATELAYER_MARKS);
    }
}

static struct book read_book(const uint8_t *bytes, size_t length)
{
    struct book book = {bytes, length, {0}, 3, 7, 36};
    memset(book.read, 0x5A, sizeof book.read);
    platelayer_read(bytes, length, book.read);
    must_be_clean(book.read, 3);
    MUST(book.read[PLATELAYER_NUMBER] <= PLATELAYER_MARKS);
    if (book.read[PLATELAYER_NUMBER] == 0) {
        size_t modules = (size_t)book.read[PLATELAYER_VALUE];
        size_t rows = 1;
        MUST(modules >= 2 && modules <= PLATELAYER_MODULES && length <= PLATELAYER_BOOK_BYTES);
        for (size_t m = 0; m < modules; m++) {
            rows += bytes[32 + 4 * m + 2] == 0;
        }
        book.side_bytes = (modules + 7) / 8;
        book.pins = (size_t)book.read[PLATELAYER_VALUE + 2];
        book.rows_bytes = PLATELAYER_ROW_BYTES * rows;
    }
    return book;
}

/* The split with buffers of exact size: of a book that reads it is never refused. */
static struct found split_exactly(const struct book *book)
{
    int64_t answer[PLATELAYER_ANSWER];
    struct found found = {lend(NULL, book->side_bytes), lend(NULL, book->side_bytes), lend(NULL, 4 * book->pins), 0};
    memset(answer, 0x5A, sizeof answer);
    platelayer_split(book->bytes, book->length, found.near.held, book->side_bytes, found.far.held, book->side_bytes,
                     found.flow.held, book->pins, answer);
    must_be_clean(answer, 1);
    must_agree(book, answer);
    if (book->read[PLATELAYER_NUMBER] != 0) {
        MUST(kept_from(found.near, 0) && kept_from(found.far, 0) && kept_from(found.flow, 0));
        return found;
    }
    MUST(answer[PLATELAYER_NUMBER] == PLATELAYER_DONE);
    found.price = (uint32_t)answer[PLATELAYER_VALUE];
    for (size_t p = 0; p < book->pins; p++) {
        int32_t number = ((int32_t *)found.flow.held)[p];
        MUST(number >= -LIMIT && number <= LIMIT);
    }
    platelayer_check(book->bytes, book->length, found.near.held, book->side_bytes, found.flow.held, book->pins,
                     found.price, answer);
    MUST(answer[PLATELAYER_NUMBER] == PLATELAYER_DONE);
    platelayer_check(book->bytes, book->length, found.far.held, book->side_bytes, found.flow.held, book->pins,
                     found.price, answer);
    MUST(answer[PLATELAYER_NUMBER] == PLATELAYER_DONE);
    return found;
}

/* The split with buffers of any size: refused and nothing written, or the same as before. */
static void split_anyhow(const struct book *book, const struct head *head, const struct found *found)
{
    int64_t answer[PLATELAYER_ANSWER];
    struct lent near = lend(NULL, size_of(book->side_bytes, 1, head->off[0]));
    struct lent far = lend(NULL, size_of(book->side_bytes, 1, head->off[1]));
    struct lent flow = lend(NULL, size_of(4 * book->pins, 4, head->off[2]));
    int enough = near.size >= book->side_bytes && far.size >= book->side_bytes && flow.size >= 4 * book->pins;
    platelayer_split(book->bytes, book->length, near.held, near.size, far.held, far.size, flow.held, flow.size / 4,
                     answer);
    must_be_clean(answer, 1);
    must_agree(book, answer);
    if (answer[PLATELAYER_NUMBER] != PLATELAYER_DONE) {
        MUST(kept_from(near, 0) && kept_from(far, 0) && kept_from(flow, 0));
        MUST(answer[PLATELAYER_NUMBER] <= PLATELAYER_MARKS ||
             (answer[PLATELAYER_NUMBER] == PLATELAYER_BUFFER && !enough));
    } else {
        MUST(enough && answer[PLATELAYER_VALUE] == found->price);
        MUST(memcmp(near.held, found->near.held, book->side_bytes) == 0);
        MUST(memcmp(far.held, found->far.held, book->side_bytes) == 0);
        MUST(memcmp(flow.held, found->flow.held, 4 * book->pins) == 0);
        MUST(kept_from(near, book->side_bytes) && kept_from(far, book->side_bytes));
        MUST(kept_from(flow, 4 * book->pins));
    }
    give_back(near);
    give_back(far);
    give_back(flow);
}

/* Price and move on a given side: a move and its return add to 0, and prices agree with moves. */
static void price_and_move(const struct book *book, const struct head *head, const struct found *found)
{
    int64_t price[PLATELAYER_ANSWER], moved[PLATELAYER_ANSWER], after[PLATELAYER_ANSWER];
    size_t size = size_of(book->side_bytes, 1, head->off[3]);
    struct lent side = lend(head->side, size < sizeof head->side ? size : sizeof head->side);
    uint8_t *bits = side.held;
    platelayer_price(book->bytes, book->length, bits, side.size, price);
    uint32_t module = head->module % 2 ? head->module : head->module / 2 % 300;
    platelayer_move(book->bytes, book->length, bits, side.size, module, moved);
    must_be_clean(price, 1);
    must_be_clean(moved, 1);
    must_agree(book, price);
    must_agree(book, moved);
    MUST(kept_from(side, 0));
    MUST(price[PLATELAYER_NUMBER] != 0 || price[PLATELAYER_VALUE] >= found->price);
    if (moved[PLATELAYER_NUMBER] == 0) {
        bits[module / 8] ^= (uint8_t)(1u << (module % 8));
        platelayer_price(book->bytes, book->length, bits, side.size, after);
        MUST(after[PLATELAYER_NUMBER] == 0);
        MUST(after[PLATELAYER_VALUE] - price[PLATELAYER_VALUE] == moved[PLATELAYER_VALUE]);
        platelayer_move(book->bytes, book->length, bits, side.size, module, after);
        MUST(after[PLATELAYER_NUMBER] == 0 && after[PLATELAYER_VALUE] == -moved[PLATELAYER_VALUE]);
    }
    give_back(side);
}

static uint32_t u16_at(const uint8_t *bytes)
{
    return bytes[0] | (uint32_t)bytes[1] << 8;
}

/* Net rule and module rule, for the flow of a book that reads. */
static int is_fair(const struct book *book, const int32_t *flow)
{
    int64_t sums[PLATELAYER_MODULES] = {0};
    size_t modules = (size_t)book->read[PLATELAYER_VALUE], nets = (size_t)book->read[PLATELAYER_VALUE + 1];
    const uint8_t *net = book->bytes + 32 + 4 * modules, *pin = net + 4 * nets;
    for (size_t n = 0; n < nets; n++, net += 4) {
        int64_t sum = 0, sent = 0;
        for (uint32_t i = 0; i < u16_at(net + 2); i++, pin += 2, flow++) {
            sum += *flow;
            sent += *flow > 0 ? *flow : 0;
            sums[u16_at(pin)] += *flow;
        }
        if (sum != 0 || sent > u16_at(net)) {
            return 0;
        }
    }
    for (size_t m = 0; m < modules; m++) {
        if (u16_at(book->bytes + 32 + 4 * m + 2) == 0 && sums[m] != 0) {
            return 0;
        }
    }
    return 1;
}

/* Puts any number at a pin; or has it send one more and the next pin one less. */
static void change_flow(int32_t *flow, size_t pins, const struct head *head)
{
    size_t p = head->pin % pins;
    if (head->number % 2 == 0 || p + 1 == pins) {
        flow[p] = head->number;
    } else {
        flow[p]++;
        flow[p + 1]--;
    }
}

/* The checker on a flow that was changed: what it accepts is fair and worth the lowest price. */
static void check_anyhow(const struct book *book, const struct head *head, const struct found *found)
{
    int64_t answer[PLATELAYER_ANSWER];
    struct lent flow = lend(found->flow.held, found->flow.size);
    struct lent side = lend(head->claim % 2 ? found->near.held : head->side, found->near.size);
    size_t pins = flow.size / 4;
    uint32_t claim = head->claim % 4 < 2 ? found->price : head->claim;
    if (pins > 0 && head->pin != 0) {
        change_flow(flow.held, pins, head);
    }
    platelayer_check(book->bytes, book->length, side.held, side.size, flow.held, pins, claim, answer);
    must_be_clean(answer, 0);
    must_agree(book, answer);
    MUST(answer[PLATELAYER_NUMBER] != 0 || (claim == found->price && is_fair(book, flow.held)));
    platelayer_check(book->bytes, book->length, side.held, side.size, flow.held, pins - (pins > 0), claim, answer);
    must_be_clean(answer, 0);
    must_agree(book, answer);
    MUST(pins == 0 || book->read[PLATELAYER_NUMBER] != 0 || answer[PLATELAYER_NUMBER] == PLATELAYER_BUFFER);
    MUST(kept_from(side, 0));
    give_back(flow);
    give_back(side);
}

static uint32_t u32_at(const uint8_t *bytes)
{
    return u16_at(bytes) | u16_at(bytes + 2) << 16;
}

/* The rows of a walk: prices never fall, and only the last one stops or ends. */
static void must_be_rows(const uint8_t *rows, size_t rounds, uint32_t last_way)
{
    for (size_t i = 0; i < rounds; i++) {
        const uint8_t *row = rows + PLATELAYER_ROW_BYTES * i;
        uint32_t way = u16_at(row + 10);
        MUST(i == 0 || u32_at(row) >= u32_at(row - PLATELAYER_ROW_BYTES));
        MUST(i + 1 == rounds ? way == last_way : way == 1 || way == 2);
    }
}

/* The gate's two doubles: any at all, or such as make a good gate. */
static void gate_of(const struct head *head, double *a, double *b)
{
    uint16_t first, second;
    memcpy(&first, &head->a, sizeof first);
    memcpy(&second, &head->b, sizeof second);
    *a = head->a;
    *b = head->b;
    if (head->gate / 4 % 2 == 0 && head->gate % 4 == PLATELAYER_SHARE) {
        *a = (1 + first % 255) / 256.0;
        *b = second % 256 / 256.0;
    } else if (head->gate / 4 % 2 == 0) {
        *a = first;
        *b = *a + second % 64;
    }
}

static void walk_anyhow(const struct book *book, const struct head *head, const struct found *found)
{
    int64_t answer[PLATELAYER_ANSWER];
    double a, b;
    struct lent side = lend(NULL, size_of(book->side_bytes, 1, head->off[3]));
    struct lent rows = lend(NULL, size_of(book->rows_bytes, PLATELAYER_ROW_BYTES / 4, head->off[4]));
    int enough = side.size >= book->side_bytes && rows.size >= book->rows_bytes;
    gate_of(head, &a, &b);
    platelayer_walk(book->bytes, book->length, head->gate % 4, a, b, side.held, side.size, rows.held, rows.size,
                    answer);
    must_be_clean(answer, 2);
    must_agree(book, answer);
    if (answer[PLATELAYER_NUMBER] == PLATELAYER_DONE || answer[PLATELAYER_NUMBER] == PLATELAYER_STUCK) {
        int done = answer[PLATELAYER_NUMBER] == PLATELAYER_DONE;
        size_t rounds = (size_t)answer[PLATELAYER_VALUE + 1];
        size_t written = PLATELAYER_ROW_BYTES * rounds;
        MUST(enough && rounds >= 1 && written <= book->rows_bytes);
        MUST(kept_from(rows, written) && kept_from(side, done ? book->side_bytes : 0));
        must_be_rows(rows.held, rounds, done ? 0 : 3);
        MUST(u32_at(rows.held) == found->price);
        MUST(!done || u32_at((uint8_t *)rows.held + written - PLATELAYER_ROW_BYTES) == answer[PLATELAYER_VALUE]);
        if (head->gate % 4 == PLATELAYER_OPEN) {
            MUST(done && rounds == 1 && memcmp(side.held, found->near.held, book->side_bytes) == 0);
        }
    } else {
        MUST(kept_from(side, 0) && kept_from(rows, 0));
        MUST(answer[PLATELAYER_NUMBER] != PLATELAYER_BUFFER || !enough);
    }
    give_back(side);
    give_back(rows);
}

void all_calls(const struct head *head, const uint8_t *data, size_t size)
{
    struct lent bytes = lend(data, size);
    struct book book = read_book(bytes.held, bytes.size);
    MUST(head->is_made % 2 == 0 || book.read[PLATELAYER_NUMBER] == 0);
    struct found found = split_exactly(&book);
    split_anyhow(&book, head, &found);
    price_and_move(&book, head, &found);
    check_anyhow(&book, head, &found);
    walk_anyhow(&book, head, &found);
    MUST(kept_from(bytes, 0));
    give_back(found.near);
    give_back(found.far);
    give_back(found.flow);
    give_back(bytes);
}
