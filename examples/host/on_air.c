/*
 * Asks the route book for the safest two routes and prints them.
 *
 *   on_air IMAGE FROM TO RATE MODE      MODE is 1+1 or 1:1
 *
 * Exit status: 0 with two routes, 1 with a refusal, 2 for wrong arguments or a file that cannot be read.
 */
#include "route_book.h"

#include <errno.h>
#include <stdio.h>
#include <stdlib.h>
#include <string.h>

/* The largest image has 128 places with names of 16 bytes, 384 circuits and the end. A longer file is refused alike
 * when it is cut one byte later. */
enum { IMAGE_MAX = 128 * 19 + 384 * 14 + 4 };

static const char *word_of(uint32_t number)
{
    switch (number) {
    case ROUTE_BOOK_SHORT: return "short";
    case ROUTE_BOOK_MARK: return "mark";
    case ROUTE_BOOK_NAME: return "name";
    case ROUTE_BOOK_ORDER: return "order";
    case ROUTE_BOOK_ENDS: return "ends";
    case ROUTE_BOOK_FIGURE: return "figure";
    case ROUTE_BOOK_FULL: return "full";
    case ROUTE_BOOK_TAIL: return "tail";
    case ROUTE_BOOK_PLACES: return "places";
    case ROUTE_BOOK_RATE: return "rate";
    case ROUTE_BOOK_LIST: return "list";
    case ROUTE_BOOK_NO_PAIR: return "no pair";
    case ROUTE_BOOK_MODE: return "mode";
    case ROUTE_BOOK_NO_MEMORY: return "no memory";
    default: return "unknown";
    }
}

static int read_number(const char *text, uint32_t *number)
{
    char *end;
    errno = 0;
    unsigned long long value = strtoull(text, &end, 10);
    if (text[0] < '0' || text[0] > '9' || *end != '\0' || errno != 0 || value > UINT32_MAX)
        return 0;
    *number = (uint32_t)value;
    return 1;
}

static uint32_t mode_of(const char *text)
{
    if (strcmp(text, "1+1") == 0)
        return ROUTE_BOOK_ONE_PLUS_ONE;
    if (strcmp(text, "1:1") == 0)
        return ROUTE_BOOK_ONE_FOR_ONE;
    return 0;
}

static unsigned short_at(const uint8_t *bytes)
{
    return (unsigned)bytes[0] << 8 | bytes[1];
}

static unsigned long long_at(const uint8_t *bytes)
{
    return (unsigned long)short_at(bytes) << 16 | short_at(bytes + 2);
}

static void print_route(const char *name, const uint8_t *circuits, unsigned count)
{
    printf("%s", name);
    for (unsigned i = 0; i < count; i++)
        printf(" %u", short_at(circuits + 2 * i));
    printf("\n");
}

int main(int argc, char **argv)
{
    uint32_t from, to, rate;
    if (argc != 6 || !read_number(argv[2], &from) || !read_number(argv[3], &to) || !read_number(argv[4], &rate)) {
        fprintf(stderr, "usage: on_air IMAGE FROM TO RATE MODE\n");
        return 2;
    }

    static uint8_t image[IMAGE_MAX + 1];
    FILE *file = fopen(argv[1], "rb");
    if (!file) {
        perror(argv[1]);
        return 2;
    }
    size_t image_len = fread(image, 1, sizeof image, file);
    int failed = ferror(file);
    fclose(file);
    if (failed) {
        fprintf(stderr, "%s: cannot be read\n", argv[1]);
        return 2;
    }

    uint8_t answer[ROUTE_BOOK_OUTPUT_SIZE];
    uint32_t result = route_book_safest(image, image_len, answer, sizeof answer, from, to, rate, mode_of(argv[5]));
    if (result != ROUTE_BOOK_OK) {
        printf("refused %lu %s\n", (unsigned long)result, word_of(result));
        return 1;
    }
    unsigned first = short_at(answer), second = short_at(answer + 2);
    print_route("first: ", answer + 8, first);
    print_route("second:", answer + 8 + 2 * first, second);
    printf("shared cost: %lu\n", long_at(answer + 4));
    return 0;
}
