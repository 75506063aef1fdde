/* What stands in a table, down to the registers: the description, the variable part of each element, the text of a string, and who has
   a pin. bindings/rust/examples/inside.rs says the same from Rust.
   inside [FILE]      without FILE it looks at a table that it writes itself.
   tools/archive && cc -std=c99 -I include examples/inside/inside.c target/archive/libesa.a -o inside */
#include <stdio.h>
#include <string.h>

#include "esa.h"

/* The chip that this board carries. */
enum { CHIP = ESA_C8051F320 };

static int refused(uint64_t answer)
{
    unsigned number = esa_number(answer);
    if (number != ESA_GOOD)
        printf("refused, %u at %zu: %s\n", number, esa_beside(answer), esa_words(number));
    return number != ESA_GOOD;
}

static void description(const uint8_t numbers[ESA_NUMBERS])
{
    printf("a device of type %u, serial number %lu", (unsigned)numbers[0], (unsigned long)esa_get32(numbers, 2));
    if (numbers[6])
        printf(", with a supply of its own\n");
    else
        printf(", %u mA from USB\n", 4u * numbers[7]);
}

static void pair(uint64_t answer)
{
    printf("    register %u: %u\n", (unsigned)esa_address(answer), (unsigned)esa_data(answer));
}

/* The speed blocks of an external PWM controller; the default block is the first. */
static void speeds(const uint8_t *part, size_t length)
{
    uint64_t block;
    for (size_t j = 0; esa_number(block = esa_block(part, length, j)) == ESA_GOOD; j++) {
        printf("  at %u RPM:\n", 100u * (unsigned)(esa_beside(block) & 0xFF));
        for (size_t i = 0; i < esa_beside(block) >> 8; i++)
            pair(esa_pair(part, length, j, i));
    }
}

/* The two blocks of an external tachometer. */
static void tachometer(const uint8_t *part, size_t length)
{
    static const char *const blocks[2] = {"to begin with", "for the status"};
    for (size_t w = 0; w < 2; w++) {
        printf("  %s:\n", blocks[w]);
        for (size_t i = 0; i < esa_beside(esa_entries(part, length, w)); i++)
            pair(esa_entry(part, length, w, i));
    }
}

/* A text, of which the lower halves of its units are shown. */
static void text(const uint8_t *table, size_t place, size_t length)
{
    printf("  says '");
    for (size_t i = 0; i < length; i += 2)
        putchar(table[place + i]);
    printf("'\n");
}

/* What a count of 40 means there: of a fan the pulses in one second. Most elements have no reading. */
static void reading(uint64_t answer)
{
    if (esa_number(answer) != ESA_GOOD)
        return;
    if (esa_reading_kind(answer) == ESA_READING)
        printf("  a count of 40 reads %lu\n", (unsigned long)esa_reading_value(answer));
    else
        printf("  a count of 40 reads %s\n", esa_reading_kind(answer) == ESA_UNDER_0 ? "under 0" : "over 100");
}

static void element(const uint8_t *table, size_t length, size_t k, unsigned id)
{
    size_t place = esa_place(esa_part(table, length, k, CHIP));
    size_t part_length = esa_part_length(table, length, k, CHIP);
    printf("element %zu, %s: a part of %zu bytes\n", k, esa_kind(id), part_length);
    reading(esa_reading(table, length, k, 40, CHIP));
    if (id == ESA_PWM_CONTROLLER)
        speeds(table + place, part_length);
    else if (id == ESA_TACHOMETER)
        tachometer(table + place, part_length);
    else if (id == ESA_STRING)
        text(table, esa_place(esa_text(table, length, k, CHIP)), esa_length(esa_text(table, length, k, CHIP)));
}

/* Who has a pin, by the sheet. */
static void whose(const uint16_t sheet[ESA_SHEET], unsigned port, unsigned pin)
{
    uint16_t number = sheet[esa_sheet_at(port, pin)];
    if (number == ESA_SHEET_FREE)
        printf("P%u.%u is free\n", port, pin);
    else if (number == ESA_SHEET_LED)
        printf("P%u.%u is the fault LED's\n", port, pin);
    else
        printf("P%u.%u is claimed at byte %u\n", port, pin, (unsigned)number);
}

/* Gives 1 where the table is refused. */
static int inside(const uint8_t *table, size_t length)
{
    uint8_t numbers[ESA_NUMBERS];
    uint16_t sheet[ESA_SHEET];
    size_t count = esa_beside(esa_check(table, length, CHIP));
    if (refused(esa_describe(table, length, CHIP, numbers)) || refused(esa_sheet(table, length, CHIP, sheet)))
        return 1;
    description(numbers);
    for (size_t k = 0; k < count; k++)
        element(table, length, k, (unsigned)esa_beside(esa_element(table, length, k, CHIP)));
    whose(sheet, 0, 3);
    whose(sheet, 1, 0);
    whose(sheet, 1, 3);
    whose(sheet, 3, 0);
    return 0;
}

/* A case with a fan, an external controller and its tachometer, a zone and a name. Gives 1 where the writer refuses. */
static int build(uint8_t *buffer, size_t length)
{
    static const uint8_t name[] = {1, 9, 4, 'Y', 0, 'a', 0, 'r', 0, 'd', 0};
    static const uint8_t speed_blocks[] = {5, 1, 7, 0, 12, 0, 12, 2, 7, 0, 40, 0, 8, 0, 1, 0};
    static const uint8_t two_blocks[] = {1, 3, 0, 255, 0, 1, 9, 0, 4, 0};
    uint8_t zone[27] = {1}, numbers[ESA_NUMBERS] = {2, 1};
    esa_put32(numbers, 2, 41);
    numbers[7] = 25;
    numbers[8] = esa_pin(3, 0);
    numbers[9] = numbers[10] = ESA_UNUSED_PIN;
    if (refused(esa_start(buffer, length, CHIP, numbers)))
        return 1;
    memset(numbers, 0, sizeof numbers);
    memset(numbers + 1, 0xFF, 3); /* the position is unknown */
    numbers[4] = 1;               /* zone 1 */
    numbers[5] = esa_pin(0, 5);
    numbers[6] = esa_pin(0, 6);
    numbers[7] = 2; /* pulses a turn */
    if (refused(esa_append(buffer, length, ESA_PWM_FAN, CHIP, numbers, NULL, 0)))
        return 1;
    numbers[5] = numbers[6] = 0; /* on I2C */
    numbers[7] = 0x20;           /* the bus address */
    return refused(esa_append(buffer, length, ESA_PWM_CONTROLLER, CHIP, numbers, speed_blocks, sizeof speed_blocks)) ||
           refused(esa_append(buffer, length, ESA_TACHOMETER, CHIP, numbers, two_blocks, sizeof two_blocks)) ||
           refused(esa_append(buffer, length, ESA_ZONE, CHIP, numbers, zone, sizeof zone)) ||
           refused(esa_append(buffer, length, ESA_STRING, CHIP, numbers, name, sizeof name));
}

int main(int count, char **arguments)
{
    static uint8_t table[ESA_LONGEST + 1]; /* one byte more tells a table from a longer file */
    size_t length;
    if (count < 2) {
        if (build(table, ESA_LONGEST))
            return 1;
        length = table[1] + 256u * table[2];
    } else {
        FILE *file = fopen(arguments[1], "rb");
        if (!file)
            return 2;
        length = fread(table, 1, sizeof table, file);
        int failed = ferror(file);
        fclose(file);
        if (failed)
            return 2;
    }
    return inside(table, length);
}
