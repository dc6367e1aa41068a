/* Platelayer for C and C++: six calls, in the static library libdesk.a.
 *
 * A call takes any bytes as a book, any bytes as a side, any numbers as a flow, and always returns.
 * What it answers and what every lent buffer holds afterwards is proved.
 *
 * What a caller owes:
 * - Each pointer leads to as many elements as the length beside it says (book, side, near, far and
 *   rows are bytes, flow is int32_t), and `answer` to PLATELAYER_ANSWER numbers.
 * - Pointers are not null and are aligned for their elements. That holds for a length of 0 too,
 *   although nothing is read or written there.
 * - A buffer that is written (near, far, flow and rows, the side of a walk, and every answer)
 *   overlaps no other buffer of the call, and nothing else touches it while the call runs.
 *
 * A buffer may be longer than needed: the rest of it is neither read nor written. One that is
 * shorter than needed is refused with PLATELAYER_BUFFER. Where a call refuses, nothing is written
 * but the answer; with PLATELAYER_STUCK the rows are written too.
 */
#ifndef PLATELAYER_H
#define PLATELAYER_H

#include <stddef.h>
#include <stdint.h>

#ifdef __cplusplus
extern "C" {
#endif

/* The places of an answer. Every call writes all of them, 0 where nothing else is said. */
enum {
    PLATELAYER_NUMBER = 0, /* 0 done, else the number of the refusal */
    PLATELAYER_PLACE = 1,  /* where the fault is, or 0 */
    PLATELAYER_SECOND = 2, /* a second place; 0 in this version */
    PLATELAYER_VALUE = 3,  /* the first value of the call; further values follow it */
    PLATELAYER_ANSWER = 8  /* how many places there are */
};

/* When the desk says no. Checks run in rising number; the first fault in file order is named. */
enum platelayer_refusal {
    PLATELAYER_DONE = 0,         /* done */
    PLATELAYER_LAYOUT = 1,       /* contents, starts, lengths or end differ from the layout, or the book is cut short */
    PLATELAYER_COUNTS = 2,       /* a count of modules, nets or pins is outside the limits */
    PLATELAYER_MODULE = 3,       /* an area is 0 or a mark is above 2; place: module */
    PLATELAYER_NET = 4,          /* a weight or pin count is 0, place: net; or the pin counts don't add up, place: number of nets */
    PLATELAYER_PIN = 5,          /* a pin names no module, or doesn't rise within its net; place: index in the pin body */
    PLATELAYER_MARKS = 6,        /* no meter module or no maker module */
    PLATELAYER_GATE = 7,         /* the gate is bad */
    PLATELAYER_BUFFER = 8,       /* a lent buffer is shorter than the call needs */
    PLATELAYER_SIDE = 9,         /* a given side lacks a meter module, holds a maker module or has a spare bit set */
    PLATELAYER_MOVE = 10,        /* a move names no module or a marked one */
    PLATELAYER_NET_RULE = 11,    /* the flow breaks the net rule; place: net */
    PLATELAYER_MODULE_RULE = 12, /* the flow breaks the module rule; place: module */
    PLATELAYER_VALUES = 13,      /* flow value, price of the side and claimed price aren't all equal */
    PLATELAYER_STUCK = 14        /* the walk has no module left to pin */
};

/* The kinds of gate. Any other number is a bad gate. */
enum platelayer_gate {
    PLATELAYER_OPEN = 0,  /* any area will do; a and b are not looked at */
    PLATELAYER_SHARE = 1, /* a = r, b = e: 0 < r < 1 and 0 <= e < 1 */
    PLATELAYER_BOUNDS = 2 /* a = low, b = high: 0 <= low <= high <= 16777216 */
};

/* The limits of a book, and the bytes of a row. */
enum {
    PLATELAYER_MODULES = 256,
    PLATELAYER_NETS = 512,
    PLATELAYER_PINS = 2048,
    PLATELAYER_BOOK_BYTES = 7200,
    PLATELAYER_SIDE_BYTES = 32, /* enough for a side of any book: one bit a module */
    PLATELAYER_ROW_BYTES = 12
};

/* Reads a book: is it laid out as it should be, and how large is the card?
 * Values: modules, nets, pins. Refuses with 1 to 6. */
void platelayer_read(const uint8_t *book, size_t book_len, int64_t answer[PLATELAYER_ANSWER]);

/* What does this line cost? The summed weight of the nets with a pin inside and a pin outside.
 * Needs a bit a module of side. Value: the price. Refuses with 1 to 6, 8 and 9. */
void platelayer_price(const uint8_t *book, size_t book_len, const uint8_t *side, size_t side_len,
                      int64_t answer[PLATELAYER_ANSWER]);

/* What would moving one free module to the other side change? Below zero, the price falls.
 * Needs a bit a module of side. Value: the price after, less the price before. Refuses with 1 to 6
 * and 8 to 10. */
void platelayer_move(const uint8_t *book, size_t book_len, const uint8_t *side, size_t side_len,
                     uint32_t module, int64_t answer[PLATELAYER_ANSWER]);

/* Which line is cheapest? Writes the cheapest side that lies inside all cheapest ones (near), the
 * cheapest one that holds them all (far), and a flow of the same value, which proves to anyone
 * that no line is cheaper. Needs a bit a module of near and of far, and a number a pin of flow.
 * Value: the price. Refuses with 1 to 6 and 8. */
void platelayer_split(const uint8_t *book, size_t book_len, uint8_t *near, size_t near_len,
                      uint8_t *far, size_t far_len, int32_t *flow, size_t flow_len,
                      int64_t answer[PLATELAYER_ANSWER]);

/* Is this claim true? Accepts (number 0) exactly when the flow is fair, the side separates meter
 * from maker, and the flow's value, the side's price and the claimed price are equal, whoever made
 * them. Needs a bit a module of side and a number a pin of flow. No value. Refuses with 1 to 6, 8,
 * 9 and 11 to 13. */
void platelayer_check(const uint8_t *book, size_t book_len, const uint8_t *side, size_t side_len,
                      const int32_t *flow, size_t flow_len, uint32_t price,
                      int64_t answer[PLATELAYER_ANSWER]);

/* Which line is cheap and leaves the meter's chip an area within the gate? Pins modules round by
 * round until the near side's area is right. Writes that side and a row a round: price u32, area
 * u32, module taken u16 (65535 if none), way u16 (1 to meter, 2 to maker, 0 stopped, 3 ended with
 * 14), all little-endian. Needs a bit a module of side, and of rows 12 bytes for each free module
 * of the book and 12 more. Values: the last price, the count of rounds. With 14 the side is as it
 * was, the price is 0 and the count stands. Refuses with 1 to 8 and 14. */
void platelayer_walk(const uint8_t *book, size_t book_len, uint32_t gate, double a, double b,
                     uint8_t *side, size_t side_len, uint8_t *rows, size_t rows_len,
                     int64_t answer[PLATELAYER_ANSWER]);

#ifdef __cplusplus
}
#endif

#endif
