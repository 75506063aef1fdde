/* What a count means: at each element of a table, and to a meter that knows our own thermistor alone and cannot divide.
   meter [FILE]      what count 512 means at each element of FILE; without FILE of a table of its own, and our own thermistor at all counts.
   tools/archive && cc -std=c99 -I include examples/meter/meter.c target/archive/libesa.a -o meter */
#include <stdio.h>

#include "esa.h"

/* A case with our own thermistor (element 0), a current from 0 to 5 A, a voltage from 12 V down to 0, a fan with 2 pulses a turn, and zone 1. */
static const uint8_t own_table[107] = {
    0x01, 107, 0, 2, 0, 7, 0, 0, 0x80, 0xFF, 0xFF, 0xFF, 0, 0, 0, 0,
    0x02, 20, 0, 0, 0xFF, 0xFF, 0xFF, 1, 0x01, 0x14, 0x52, 0x03, 0xBC, 0x02, 0xF4, 0x01, 0x40, 0x01, 0xC8, 0x00,
    0x08, 14, 0, 0, 0xFF, 0xFF, 0xFF, 1, 0x15, 0, 0, 0, 50, 0,
    0x07, 11, 0, 0, 0xFF, 0xFF, 0xFF, 1, 0x16, 0, 120,
    0x03, 16, 0, 0, 0xFF, 0xFF, 0xFF, 1, 0x05, 0x06, 2, 0x2C, 0x01, 0xDC, 0x05, 0x40,
    0x0B, 30, 0, 1
};

/* The chip that this board carries. */
enum { CHIP = ESA_C8051F320 };

static void told(const char *what, uint64_t count, uint64_t answer)
{
    printf("%s, count %u: ", what, (unsigned)count);
    if (esa_number(answer) != ESA_GOOD)
        printf("refused, %u at %zu\n", esa_number(answer), esa_beside(answer));
    else if (esa_reading_kind(answer) == ESA_UNDER_0)
        printf("under 0\n");
    else if (esa_reading_kind(answer) == ESA_OVER_100)
        printf("over 100\n");
    else
        printf("%u\n", (unsigned)esa_reading_value(answer));
}

/* The answer of each element to a count. Gives 1 where the table is refused. */
static int at_each(const uint8_t *table, size_t length, uint64_t count)
{
    uint64_t answer = esa_check(table, length, CHIP);
    if (esa_number(answer) != ESA_GOOD) {
        printf("refused, %u at %zu: %s\n", esa_number(answer), esa_beside(answer), esa_words(esa_number(answer)));
        return 1;
    }
    for (size_t k = 0; k < esa_beside(answer); k++) {
        char what[32];
        snprintf(what, sizeof what, "element %zu", k);
        told(what, count, esa_reading(table, length, k, count, CHIP));
    }
    return 0;
}

/* Tenths of a degree at a count from 200 to 850, by the division that the meter lacks; halves go to the hotter side. */
static unsigned formula(unsigned count)
{
    static const unsigned points[5] = { 850, 700, 500, 320, 200 };
    unsigned j = 0;
    while (count < points[j + 1])
        j++;
    unsigned apart = points[j] - points[j + 1];
    return 250 * j + (500 * (points[j] - count) + apart) / (2 * apart);
}

/* The ready table beside the formula, and beside the table's own element at every count of the converter and past them. */
static void own(void)
{
    static const unsigned some[] = { 0, 199, 200, 698, 850, 851, 1023, 1024 };
    unsigned differ = 0;
    for (size_t i = 0; i < sizeof some / sizeof *some; i++)
        told("our own thermistor", some[i], esa_thermistor(some[i]));
    for (unsigned count = 200; count <= 850; count++)
        differ += esa_thermistor(count) != (uint64_t)formula(count) << 10;
    for (unsigned count = 0; count < 2000; count++)
        differ += esa_thermistor(count) != esa_reading(own_table, sizeof own_table, 0, count, CHIP);
    printf("%u differ\n", differ);
}

int main(int argc, char **argv)
{
    static uint8_t table[4097];
    size_t length;
    FILE *file;
    if (argc < 2) {
        own();
        return at_each(own_table, sizeof own_table, 512);
    }
    if (argc > 2 || !(file = fopen(argv[1], "rb")))
        return 2;
    length = fread(table, 1, sizeof table, file);
    if (ferror(file))
        return 2;
    return at_each(table, length, 512);
}
