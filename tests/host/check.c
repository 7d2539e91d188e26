/*
 * Checks of the host's entry on known images. Each call has its image right before a page that cannot be read, and
 * its output between bytes that must not change. Prints the number of calls.
 */
#define _DEFAULT_SOURCE
#include "route_book.h"

#include <stdio.h>
#include <stdlib.h>
#include <string.h>
#include <sys/mman.h>
#include <unistd.h>

enum { ROOM = 16 * 1024, MARGIN = 64, CANARY = 0xA5 };

struct order {
    uint32_t from, to, rate, mode;
};

struct image {
    uint8_t bytes[ROOM];
    size_t len;
    unsigned records;
};

static unsigned calls;
static unsigned faults;

#define CHECK(truth)                                                               \
    do {                                                                           \
        if (!(truth)) {                                                            \
            fprintf(stderr, "check.c: line %d: not so: %s\n", line, #truth);       \
            faults++;                                                              \
        }                                                                          \
    } while (0)

/* ---- images */

static void byte(struct image *image, unsigned value)
{
    image->bytes[image->len++] = (uint8_t)value;
}

static void number(struct image *image, uint32_t value, int bytes)
{
    for (int shift = 8 * (bytes - 1); shift >= 0; shift -= 8)
        byte(image, value >> shift & 255);
}

static void mark(struct image *image, const char *text)
{
    byte(image, (unsigned char)text[0]);
    byte(image, (unsigned char)text[1]);
}

static void place(struct image *image, const char *name, unsigned len)
{
    mark(image, "PL");
    byte(image, len);
    for (unsigned i = 0; i < len; i++)
        byte(image, (unsigned char)name[i]);
    image->records++;
}

static void circuit(struct image *image, uint32_t from, uint32_t to, uint32_t bandwidth, uint32_t cost)
{
    mark(image, "CT");
    number(image, from, 2);
    number(image, to, 2);
    number(image, bandwidth, 4);
    number(image, cost, 4);
    image->records++;
}

static void end(struct image *image)
{
    mark(image, "EN");
    number(image, image->records, 2);
}

/* Places 0 up, each named by its number. */
static void places(struct image *image, unsigned count)
{
    char name[16];
    image->len = 0;
    image->records = 0;
    for (unsigned i = 0; i < count; i++)
        place(image, name, (unsigned)snprintf(name, sizeof name, "%u", i));
}

/* ---- calls */

/* So many bytes right before a page that can be neither read nor written. */
static uint8_t *fenced(size_t len)
{
    static uint8_t *fence;
    if (!fence) {
        size_t page = (size_t)sysconf(_SC_PAGESIZE);
        size_t room = (ROOM + page - 1) / page * page;
        uint8_t *start = mmap(NULL, room + page, PROT_READ | PROT_WRITE, MAP_PRIVATE | MAP_ANONYMOUS, -1, 0);
        if (start == MAP_FAILED || mprotect(start + room, page, PROT_NONE) != 0) {
            perror("check.c");
            exit(2);
        }
        fence = start + room;
    }
    return fence - len;
}

static uint8_t buffer[MARGIN + 2 * ROUTE_BOOK_OUTPUT_SIZE];
static uint8_t *const output = buffer + MARGIN;

/* Whether the buffer keeps its content but for so many bytes at the start of the output. */
static int kept(size_t written)
{
    for (size_t i = 0; i < sizeof buffer; i++)
        if ((i < MARGIN || i >= MARGIN + written) && buffer[i] != CANARY)
            return 0;
    return 1;
}

static uint32_t call(int line, const uint8_t *bytes, size_t len, size_t output_len, struct order order)
{
    uint8_t *image = fenced(len);
    if (len)
        memcpy(image, bytes, len);
    memset(buffer, CANARY, sizeof buffer);
    uint32_t result = route_book_safest(image, len, output, output_len, order.from, order.to, order.rate, order.mode);
    CHECK(len == 0 || memcmp(image, bytes, len) == 0);
    calls++;
    return result;
}

static void refused(int line, uint32_t number, const uint8_t *bytes, size_t len, size_t output_len, struct order order)
{
    uint32_t result = call(line, bytes, len, output_len, order);
    if (result != number)
        fprintf(stderr, "check.c: line %d: returned %u, not %u\n", line, (unsigned)result, (unsigned)number);
    CHECK(result == number);
    CHECK(kept(0));
}

static uint32_t read_number(size_t at, int bytes)
{
    uint32_t value = 0;
    while (bytes-- > 0)
        value = value << 8 | output[at++];
    return value;
}

static int stands_at(size_t at, const int *route, uint32_t len)
{
    for (uint32_t i = 0; i < len; i++)
        if (read_number(at + 2 * i, 2) != (uint32_t)route[i])
            return 0;
    return 1;
}

static uint32_t length(const int *route)
{
    uint32_t len = 0;
    while (route[len] >= 0)
        len++;
    return len;
}

/* The answer is these two routes, each ended by -1, either way around. */
static void answered(int line, const struct image *image, size_t output_len, struct order order, uint32_t cost,
                     const int *one, const int *other)
{
    uint32_t result = call(line, image->bytes, image->len, output_len, order);
    CHECK(result == ROUTE_BOOK_OK);
    if (result != ROUTE_BOOK_OK)
        return;
    uint32_t first = read_number(0, 2), second = read_number(2, 2);
    uint32_t len_one = length(one), len_other = length(other);
    CHECK(read_number(4, 4) == cost);
    CHECK((first == len_one && second == len_other && stands_at(8, one, first) && stands_at(8 + 2 * first, other, second)) ||
          (first == len_other && second == len_one && stands_at(8, other, first) && stands_at(8 + 2 * first, one, second)));
    CHECK(kept(8 + 2 * (first + second)));
}

#define ANSWERED(image, order, cost, one, other) answered(__LINE__, image, ROUTE_BOOK_OUTPUT_SIZE, order, cost, one, other)
#define REFUSED(number, image, order) \
    refused(__LINE__, number, (image)->bytes, (image)->len, ROUTE_BOOK_OUTPUT_SIZE, order)
#define ROUTE(...) ((const int[]){__VA_ARGS__, -1})
#define ORDER(from, to, rate, mode) ((struct order){from, to, rate, mode})

enum { BOTH = ROUTE_BOOK_ONE_PLUS_ONE, ONE = ROUTE_BOOK_ONE_FOR_ONE };

static struct image image;

/* The example of docs/IMAGE.md, and the same with its last byte changed. */
static void worked_image(void)
{
    static const uint8_t bytes[26] = {0x50, 0x4C, 0x01, 0x41, 0x50, 0x4C, 0x01, 0x42, 0x43, 0x54, 0x00, 0x00, 0x00,
                                      0x01, 0x00, 0x00, 0x00, 0x02, 0x00, 0x00, 0x00, 0x05, 0x45, 0x4E, 0x00, 0x03};
    memcpy(image.bytes, bytes, sizeof bytes);
    image.len = sizeof bytes;
    ANSWERED(&image, ORDER(0, 1, 1, BOTH), 5, ROUTE(0), ROUTE(0));
    ANSWERED(&image, ORDER(0, 1, 2, ONE), 5, ROUTE(0), ROUTE(0));
    REFUSED(ROUTE_BOOK_NO_PAIR, &image, ORDER(0, 1, 2, BOTH));
    REFUSED(ROUTE_BOOK_NO_PAIR, &image, ORDER(0, 1, 3, ONE));
    REFUSED(ROUTE_BOOK_NO_PAIR, &image, ORDER(1, 0, 1, ONE));
    image.bytes[25] = 2;
    REFUSED(ROUTE_BOOK_TAIL, &image, ORDER(0, 1, 1, BOTH));
}

/* The network of docs/BOOK.md. */
static void make_worked_network(void)
{
    places(&image, 4);
    circuit(&image, 0, 1, 40000, 3);
    circuit(&image, 0, 2, 30000, 5);
    circuit(&image, 1, 3, 20000, 2);
    circuit(&image, 2, 3, 50000, 4);
    circuit(&image, 1, 2, 25000, 1);
    end(&image);
}

static void worked_network(void)
{
    make_worked_network();
    ANSWERED(&image, ORDER(0, 3, 20000, ONE), 0, ROUTE(0, 2), ROUTE(1, 3));
    ANSWERED(&image, ORDER(0, 3, 20000, BOTH), 0, ROUTE(0, 2), ROUTE(1, 3));
    ANSWERED(&image, ORDER(0, 3, 21000, BOTH), 4, ROUTE(1, 3), ROUTE(0, 4, 3));
    ANSWERED(&image, ORDER(0, 3, 25000, BOTH), 4, ROUTE(1, 3), ROUTE(0, 4, 3));
    REFUSED(ROUTE_BOOK_NO_PAIR, &image, ORDER(0, 3, 25001, BOTH));
    ANSWERED(&image, ORDER(0, 3, 25001, ONE), 9, ROUTE(1, 3), ROUTE(1, 3));
    ANSWERED(&image, ORDER(0, 3, 30000, ONE), 9, ROUTE(1, 3), ROUTE(1, 3));
    REFUSED(ROUTE_BOOK_NO_PAIR, &image, ORDER(0, 3, 30001, ONE));
    REFUSED(ROUTE_BOOK_NO_PAIR, &image, ORDER(3, 0, 1, ONE));
}

/* The refusals of images. */
static void refused_images(void)
{
    struct order order = {0, 1, 1, BOTH};

    /* Short: no bytes at all, and any cut. */
    refused(__LINE__, ROUTE_BOOK_SHORT, NULL, 0, ROUTE_BOOK_OUTPUT_SIZE, order);
    make_worked_network();
    for (size_t len = 1; len < image.len; len++)
        refused(__LINE__, ROUTE_BOOK_SHORT, image.bytes, len, ROUTE_BOOK_OUTPUT_SIZE, order);

    places(&image, 2);
    mark(&image, "XX");
    REFUSED(ROUTE_BOOK_MARK, &image, order);

    places(&image, 2);
    place(&image, "", 0);
    end(&image);
    REFUSED(ROUTE_BOOK_NAME, &image, order);
    places(&image, 2);
    place(&image, "seventeen letters", 17);
    end(&image);
    REFUSED(ROUTE_BOOK_NAME, &image, order);
    places(&image, 2);
    place(&image, "0", 1);
    end(&image);
    REFUSED(ROUTE_BOOK_NAME, &image, order);
    places(&image, 2);
    place(&image, "sixteen letters!", 16);
    end(&image);
    REFUSED(ROUTE_BOOK_NO_PAIR, &image, order);

    places(&image, 2);
    circuit(&image, 0, 1, 2, 5);
    place(&image, "2", 1);
    end(&image);
    REFUSED(ROUTE_BOOK_ORDER, &image, order);

    static const struct {
        uint32_t from, to, bandwidth, cost, number;
    } figures[] = {
        {0, 0, 2, 5, ROUTE_BOOK_ENDS},          {0, 2, 2, 5, ROUTE_BOOK_ENDS},         {2, 1, 2, 5, ROUTE_BOOK_ENDS},
        {65535, 1, 0, 5, ROUTE_BOOK_ENDS},      {0, 1, 0, 5, ROUTE_BOOK_FIGURE},       {0, 1, 64000001, 5, ROUTE_BOOK_FIGURE},
        {0, 1, 2, 1000001, ROUTE_BOOK_FIGURE},  {0, 1, 2, 0xFFFFFFFF, ROUTE_BOOK_FIGURE},
        {0, 1, 64000000, 1000000, ROUTE_BOOK_OK},
    };
    for (size_t i = 0; i < sizeof figures / sizeof figures[0]; i++) {
        places(&image, 2);
        circuit(&image, figures[i].from, figures[i].to, figures[i].bandwidth, figures[i].cost);
        end(&image);
        if (figures[i].number == ROUTE_BOOK_OK)
            ANSWERED(&image, order, figures[i].cost, ROUTE(0), ROUTE(0));
        else
            REFUSED(figures[i].number, &image, order);
    }

    places(&image, 128);
    end(&image);
    REFUSED(ROUTE_BOOK_NO_PAIR, &image, order);
    places(&image, 129);
    end(&image);
    REFUSED(ROUTE_BOOK_FULL, &image, order);
    places(&image, 2);
    for (int i = 0; i < 385; i++)
        circuit(&image, 0, 1, 2, 5);
    end(&image);
    REFUSED(ROUTE_BOOK_FULL, &image, order);

    make_worked_network();
    byte(&image, 0);
    REFUSED(ROUTE_BOOK_TAIL, &image, order);
    make_worked_network();
    image.bytes[image.len - 1]++;
    REFUSED(ROUTE_BOOK_TAIL, &image, order);
    make_worked_network();
    image.bytes[image.len - 2]++;
    REFUSED(ROUTE_BOOK_TAIL, &image, order);

    places(&image, 0);
    end(&image);
    REFUSED(ROUTE_BOOK_PLACES, &image, order);
}

/* The refusals of orders. Each order here fails by every later check too. */
static void refused_orders(void)
{
    const size_t size = ROUTE_BOOK_OUTPUT_SIZE;
    make_worked_network();
    const uint8_t *bytes = image.bytes;
    size_t len = image.len;

    static const uint32_t modes[] = {0, 3, 257, 258, 65537, 0x80000001, 0xFFFFFFFF};
    for (size_t i = 0; i < sizeof modes / sizeof modes[0]; i++) {
        refused(__LINE__, ROUTE_BOOK_MODE, bytes, len, size, ORDER(0, 3, 20000, modes[i]));
        refused(__LINE__, ROUTE_BOOK_MODE, bytes, len - 1, 0, ORDER(4, 4, 0, modes[i]));
    }
    refused(__LINE__, ROUTE_BOOK_SHORT, bytes, len - 1, 0, ORDER(4, 4, 0, BOTH));

    static const uint32_t unknown[] = {4, 128, 256, 259, 65536, 65539, 0x80000003, 0xFFFFFFFF};
    for (size_t i = 0; i < sizeof unknown / sizeof unknown[0]; i++) {
        refused(__LINE__, ROUTE_BOOK_PLACES, bytes, len, size, ORDER(0, unknown[i], 20000, BOTH));
        refused(__LINE__, ROUTE_BOOK_PLACES, bytes, len, size, ORDER(unknown[i], 3, 20000, BOTH));
        refused(__LINE__, ROUTE_BOOK_PLACES, bytes, len, 0, ORDER(unknown[i], 0, 0, BOTH));
    }
    refused(__LINE__, ROUTE_BOOK_PLACES, bytes, len, size, ORDER(3, 3, 20000, BOTH));
    refused(__LINE__, ROUTE_BOOK_PLACES, bytes, len, 0, ORDER(3, 3, 0, BOTH));

    static const uint32_t rates[] = {0, 1000001, 0x10000, 0x80000000, 0xFFFFFFFF};
    for (size_t i = 0; i < sizeof rates / sizeof rates[0]; i++) {
        int in_range = rates[i] >= 1 && rates[i] <= ROUTE_BOOK_RATE_MAX;
        uint32_t number = in_range ? ROUTE_BOOK_NO_PAIR : ROUTE_BOOK_RATE;
        refused(__LINE__, number, bytes, len, size, ORDER(0, 3, rates[i], ONE));
        refused(__LINE__, in_range ? ROUTE_BOOK_LIST : number, bytes, len, 0, ORDER(0, 3, rates[i], ONE));
    }
    refused(__LINE__, ROUTE_BOOK_NO_PAIR, bytes, len, size, ORDER(0, 3, 1000000, ONE));

    for (size_t room = 0; room < size; room += room == 8 ? 507 : 1) {
        refused(__LINE__, ROUTE_BOOK_LIST, bytes, len, room, ORDER(0, 3, 20000, BOTH));
        refused(__LINE__, ROUTE_BOOK_LIST, bytes, len, room, ORDER(0, 3, 30001, BOTH));
    }
    answered(__LINE__, &image, size, ORDER(0, 3, 20000, BOTH), 0, ROUTE(0, 2), ROUTE(1, 3));
    answered(__LINE__, &image, size + 1, ORDER(0, 3, 20000, BOTH), 0, ROUTE(0, 2), ROUTE(1, 3));
    refused(__LINE__, ROUTE_BOOK_NO_PAIR, bytes, len, size, ORDER(0, 3, 30001, BOTH));
}

/* The longest answer fills all of 516 bytes: a chain of 128 places, and one of parallel circuits. */
static void longest(void)
{
    static int one[128], other[128];
    for (int i = 0; i < 127; i++)
        one[i] = i;
    one[127] = -1;
    places(&image, 128);
    for (uint32_t i = 0; i < 127; i++)
        circuit(&image, i, i + 1, 1000000, 1000000);
    end(&image);
    ANSWERED(&image, ORDER(0, 127, 500000, BOTH), 127000000, one, one);
    ANSWERED(&image, ORDER(0, 127, 1000000, ONE), 127000000, one, one);
    REFUSED(ROUTE_BOOK_NO_PAIR, &image, ORDER(0, 127, 500001, BOTH));
    REFUSED(ROUTE_BOOK_NO_PAIR, &image, ORDER(127, 0, 1, BOTH));

    /* Three circuits to each step; the middle one is too narrow, and they cost much. */
    for (int i = 0; i < 127; i++) {
        one[i] = 3 * i;
        other[i] = 3 * i + 2;
    }
    other[127] = -1;
    places(&image, 128);
    for (uint32_t i = 0; i < 381; i++)
        circuit(&image, i / 3, i / 3 + 1, i % 3 == 1 ? 499999 : 500000, 1000000);
    end(&image);
    uint32_t result = call(__LINE__, image.bytes, image.len, ROUTE_BOOK_OUTPUT_SIZE, ORDER(0, 127, 500000, BOTH));
    int line = __LINE__;
    CHECK(result == ROUTE_BOOK_OK);
    CHECK(read_number(0, 2) == 127 && read_number(2, 2) == 127 && read_number(4, 4) == 0);
    for (uint32_t i = 0; i < 127; i++) {
        uint32_t a = read_number(8 + 2 * i, 2), b = read_number(8 + 254 + 2 * i, 2);
        CHECK((a == (uint32_t)one[i] && b == (uint32_t)other[i]) || (a == (uint32_t)other[i] && b == (uint32_t)one[i]));
    }
    CHECK(kept(ROUTE_BOOK_OUTPUT_SIZE));
}

int main(void)
{
    worked_image();
    worked_network();
    refused_images();
    refused_orders();
    longest();
    if (faults) {
        fprintf(stderr, "check.c: %u faults in %u calls\n", faults, calls);
        return 1;
    }
    printf("%u\n", calls);
    return 0;
}
