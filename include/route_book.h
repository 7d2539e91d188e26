/*
 * The route book for the automation host: two routes for a feed that share as little as the network allows.
 *
 * Link with libhost.a (tools/build host) and with the Rattle kit's C support (tools/build c-support prints its path).
 * docs/HOST.md, docs/IMAGE.md and docs/REFUSALS.md have the whole account.
 */
#ifndef ROUTE_BOOK_H
#define ROUTE_BOOK_H

#include <stddef.h>
#include <stdint.h>

#ifdef __cplusplus
extern "C" {
#endif

/* The size of an output buffer that always suffices, and the least that is accepted. */
#define ROUTE_BOOK_OUTPUT_SIZE 516

/* The most circuits of one route. */
#define ROUTE_BOOK_ROUTE_MAX 127

/* The largest rate, in kbit/s. */
#define ROUTE_BOOK_RATE_MAX 1000000

/* Modes. */
enum route_book_mode {
    ROUTE_BOOK_ONE_PLUS_ONE = 1, /* 1+1: both routes carry the feed at once */
    ROUTE_BOOK_ONE_FOR_ONE = 2   /* 1:1: one route carries it at a time */
};

/*
 * What route_book_safest returns: 0, or the number of the first check that failed. The entry itself never returns
 * 9 to 12 or 17, which are refusals of other calls on a book.
 */
enum route_book_result {
    ROUTE_BOOK_OK = 0,
    ROUTE_BOOK_SHORT = 1,      /* the image ends inside a record, or before its end record */
    ROUTE_BOOK_MARK = 2,       /* no known mark stands where a record should begin */
    ROUTE_BOOK_NAME = 3,       /* a name's length is not 1 to 16, or an earlier place has the same name */
    ROUTE_BOOK_ORDER = 4,      /* a place record stands after a circuit record */
    ROUTE_BOOK_ENDS = 5,       /* an end of a circuit is no place, or both its ends are the same place */
    ROUTE_BOOK_FIGURE = 6,     /* a bandwidth is not 1 to 64,000,000, or a cost is above 1,000,000 */
    ROUTE_BOOK_FULL = 7,       /* a 129th place or a 385th circuit */
    ROUTE_BOOK_TAIL = 8,       /* the end record counts wrong, or bytes follow it */
    ROUTE_BOOK_ZERO = 9,       /* a feed or notice number is 0 */
    ROUTE_BOOK_TAKEN = 10,     /* a feed or notice of that number stands already */
    ROUTE_BOOK_UNKNOWN = 11,   /* no feed or notice of that number stands, or there is no such circuit */
    ROUTE_BOOK_CROWDED = 12,   /* 32 feeds, or 32 notices, stand already */
    ROUTE_BOOK_PLACES = 13,    /* a place is unknown, or both places are the same */
    ROUTE_BOOK_RATE = 14,      /* the rate is 0 or above 1,000,000 */
    ROUTE_BOOK_LIST = 15,      /* the output buffer has fewer than 516 bytes */
    ROUTE_BOOK_NO_PAIR = 16,   /* no routes can carry the rate */
    ROUTE_BOOK_LIMIT = 17,     /* routes carry the rate, and none are within the limit */
    ROUTE_BOOK_MODE = 18,      /* the mode is neither 1 nor 2 */
    ROUTE_BOOK_NO_MEMORY = 255 /* there is no memory for the book */
};

/*
 * Loads the register image, finds the safest pair of routes between two of its places, and writes it to the output.
 *
 *   image, image_len     the register image, any bytes; only read, and not kept after the call
 *   output, output_len   where the answer goes; at least ROUTE_BOOK_OUTPUT_SIZE bytes
 *   from, to             the numbers of two places of the image
 *   rate                 in kbit/s, 1 to ROUTE_BOOK_RATE_MAX
 *   mode                 ROUTE_BOOK_ONE_PLUS_ONE or ROUTE_BOOK_ONE_FOR_ONE
 *
 * Neither pointer may be null, also where its length is 0, and the two buffers must not overlap. Any content of the
 * image and any number are fine: what is wrong with them is refused.
 *
 * Returns ROUTE_BOOK_OK with the answer at the start of the output, figures big-endian:
 *
 *   offset    size   content
 *   0         2      n, the number of circuits of the first route
 *   2         2      m, the number of circuits of the second route
 *   4         4      the shared cost: the costs of the circuits in both routes, added up
 *   8         2 n    the circuits of the first route, in its order
 *   8 + 2 n   2 m    the circuits of the second route, in its order
 *
 * Bytes after the answer keep their content. Any other result is a number of enum route_book_result, checked in this
 * order: mode (18), image (1 to 8), places (13), rate (14), output (15), routes (16). Nothing is written then.
 * ROUTE_BOOK_NO_MEMORY comes only once the image has loaded.
 *
 * The call keeps no state. It takes memory by malloc and frees it before it returns, so a signal handler must not
 * call it.
 */
uint32_t route_book_safest(const uint8_t *image, size_t image_len,
                           uint8_t *output, size_t output_len,
                           uint32_t from, uint32_t to, uint32_t rate, uint32_t mode);

#ifdef __cplusplus
}
#endif

#endif
