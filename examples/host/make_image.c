/*
 * Writes a register image to the standard output: the network of docs/BOOK.md.
 */
#include <stdint.h>
#include <stdio.h>

static unsigned records;

static void put(uint32_t value, int bytes)
{
    for (int shift = 8 * (bytes - 1); shift >= 0; shift -= 8)
        putchar((int)(value >> shift & 255));
}

static void place(char name)
{
    printf("PL");
    put(1, 1);
    putchar(name);
    records++;
}

static void circuit(uint32_t from, uint32_t to, uint32_t bandwidth, uint32_t cost)
{
    printf("CT");
    put(from, 2);
    put(to, 2);
    put(bandwidth, 4);
    put(cost, 4);
    records++;
}

static void end(void)
{
    printf("EN");
    put(records, 2);
}

int main(void)
{
    for (char name = 'A'; name <= 'D'; name++)
        place(name);
    circuit(0, 1, 40000, 3);
    circuit(0, 2, 30000, 5);
    circuit(1, 3, 20000, 2);
    circuit(2, 3, 50000, 4);
    circuit(1, 2, 25000, 1);
    end();
    return fflush(stdout) == 0 ? 0 : 1;
}
