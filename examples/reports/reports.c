/* A table in reports of 64 bytes, as a controller sends it over USB: one report and a state are all that is held.
   reports [FILE]      reads FILE so; without FILE it cuts a table of its own in several ways.
   tools/archive && cc -std=c99 -I include examples/reports/reports.c target/archive/libesa.a -o reports */
#include <stdio.h>

#include "esa.h"

/* A computer case with one fan in zone 1, as in examples/c/tour.c. */
static const uint8_t own_table[62] = {
    0x01, 62, 0, 2, 0, 7, 0, 0, 0x80, 0xFF, 0xFF, 0xFF, 0, 0, 0, 0,
    0x03, 16, 0, 0, 0xFF, 0xFF, 0xFF, 1, 0x05, 0x06, 2, 0x2C, 0x01, 0xDC, 0x05, 0x40,
    0x0B, 30, 0, 1
};

/* The chip that this board carries, and the bytes of a report. */
enum { CHIP = ESA_C8051F320, REPORT = 64 };

static void told(const char *what, uint64_t answer)
{
    unsigned number = esa_number(answer);
    if (number == ESA_GOOD)
        printf("%s: good, %zu elements\n", what, esa_beside(answer));
    else
        printf("%s: refused, %u at %zu: %s\n", what, number, esa_beside(answer), esa_words(number));
}

/* Reports from a file until it ends. Gives 0 if it cannot be read. */
static int receive(FILE *file, uint64_t *answer)
{
    struct esa_receiving state;
    uint8_t report[REPORT];
    size_t count;
    esa_receive_start(&state, CHIP);
    while ((count = fread(report, 1, sizeof report, file)) > 0)
        esa_receive_piece(&state, report, count);
    *answer = esa_receive_end(&state);
    return !ferror(file);
}

/* The front of a table in pieces of so many bytes. */
static uint64_t in_pieces(const uint8_t *table, size_t length, size_t size)
{
    struct esa_receiving state;
    esa_receive_start(&state, CHIP);
    for (size_t at = 0; at < length; at += size)
        esa_receive_piece(&state, table + at, size < length - at ? size : length - at);
    return esa_receive_end(&state);
}

/* The answer does not depend on the cuts; what is missing is seen at the end alone; and after the end nothing is taken. */
static void own(void)
{
    struct esa_receiving state;
    told("in one report", in_pieces(own_table, sizeof own_table, REPORT));
    told("in pieces of 7 bytes", in_pieces(own_table, sizeof own_table, 7));
    told("byte by byte", in_pieces(own_table, sizeof own_table, 1));
    told("without its last byte", in_pieces(own_table, sizeof own_table - 1, 7));
    told("nothing at all", in_pieces(NULL, 0, REPORT));
    esa_receive_start(&state, CHIP);
    printf("a piece that no table starts with: %u\n", esa_number(esa_receive_piece(&state, own_table + 16, 16)));
    told("its end", esa_receive_end(&state));
    told("a piece after the end", esa_receive_piece(&state, own_table, 16));
    told("the end once more", esa_receive_end(&state));
}

int main(int count, char **arguments)
{
    if (count < 2) {
        own();
        return 0;
    }
    uint64_t answer;
    FILE *file = fopen(arguments[1], "rb");
    if (!file || !receive(file, &answer)) {
        fprintf(stderr, "reports: cannot read %s\n", arguments[1]);
        return 2;
    }
    fclose(file);
    told("in reports of 64 bytes", answer);
    return esa_number(answer) == ESA_GOOD ? 0 : 1;
}
