/* A tour of the library from C: is a file a table, what stands in it, is there a fan in a zone, how a new one is written,
   which pins are taken, how it is written again and moved to Intel HEX and back; a lamp that one of the two chips has no pin for; an
   old sensor that the archive's rules alone take; a lamp of three colours on a chip of its own; what an element is called; how a
   part is taken out; what was altered in a table; and what can be saved of a damaged one.
   tour [FILE]      without FILE it looks at a table of its own.
   tools/archive && cc -std=c99 -I include examples/c/tour.c target/archive/libesa.a -o tour */
#include <stdio.h>
#include <string.h>

#include "esa.h"

/* A computer case with one fan in zone 1. */
static const uint8_t own_table[62] = {
    /* description: revision 0.90, 62 bytes, type 2, no string, serial number 7, own power, no hardware revision pins */
    0x01, 62, 0, 2, 0, 7, 0, 0, 0x80, 0xFF, 0xFF, 0xFF, 0, 0, 0, 0,
    /* PWM fan: 16 bytes, position unknown, zone 1, PWM on P0.5, tachometer on P0.6, 2 pulses, 300 to 1,500 RPM */
    0x03, 16, 0, 0, 0xFF, 0xFF, 0xFF, 1, 0x05, 0x06, 2, 0x2C, 0x01, 0xDC, 0x05, 0x40,
    /* zone descriptor: 30 bytes, zone 1; its curve is all zeros */
    0x0B, 30, 0, 1
};

/* The chip that this board carries. */
enum { CHIP = ESA_C8051F320 };

/* An answer in words. 'beside' says what stands beside 0. Gives 1 for success. */
static int told(const char *what, uint64_t answer, const char *beside)
{
    unsigned number = esa_number(answer);
    if (number == ESA_GOOD)
        printf("%s: good, %zu %s\n", what, esa_beside(answer), beside);
    else
        printf("%s: refused, %u at %zu: %s\n", what, number, esa_beside(answer), esa_words(number));
    return number == ESA_GOOD;
}

/* What stands in the numbers of a fan. */
static void fan(const uint8_t numbers[ESA_NUMBERS])
{
    printf("    in zone %u, %u to %u RPM\n", (unsigned)numbers[4], (unsigned)esa_get16(numbers, 8), (unsigned)esa_get16(numbers, 10));
}

/* The elements of an accepted table, each with its place and its variable part. */
static void walk(const uint8_t *table, size_t length, size_t count)
{
    size_t at = ESA_SHORTEST; /* the first element stands behind the description */
    for (size_t k = 0; k < count; k++) {
        uint8_t numbers[ESA_NUMBERS];
        size_t id = esa_beside(esa_fields(table, length, k, CHIP, numbers));
        uint64_t part = esa_part(table, length, k, CHIP);
        printf("  element %zu at %zu: %s, variable part of %zu bytes at %zu\n", k, at, esa_kind((unsigned)id), esa_length(part),
               esa_place(part));
        if (id == ESA_PWM_FAN)
            fan(numbers);
        at = esa_place(part) + esa_length(part); /* the part ends the element */
    }
    told("  one more", esa_element(table, length, count, CHIP), "");
}

/* The listing: a line for the table and one for each element, or the refusal. */
static void list(const uint8_t *table, size_t length, uint64_t settings)
{
    uint8_t text[ESA_LISTING];
    fwrite(text, 1, esa_list(table, length, settings, text), stdout);
}

/* Is there a fan in this zone? The walk ends at the first one. */
static void fan_in(const uint8_t *table, size_t length, uint8_t zone)
{
    uint64_t answer = esa_fan(table, length, zone, CHIP);
    if (esa_number(answer) != ESA_GOOD)
        told("a fan", answer, "");
    else
        printf("a fan in zone %u: %s, visited: %zu\n", (unsigned)zone, esa_fan_found(answer) ? "yes" : "no", esa_fan_visited(answer));
}

/* Which pins are taken, and by whom? The lines of the sheet's text that do not say that a pin is free. */
static void taken(const uint16_t sheet[ESA_SHEET])
{
    uint8_t text[ESA_SHEET_TEXT];
    size_t length = esa_sheet_text(sheet, CHIP, text);
    for (size_t start = 0, i = 0; i < length; i++) {
        if (text[i] != '\n')
            continue;
        if (text[i - 1] != '-')
            printf("  %.*s", (int)(i + 1 - start), (const char *)text + start);
        start = i + 1;
    }
}

/* A table with a fan and its zone; without the zone it is refused. Gives the length, or 0 if the writer refuses. */
static size_t build(uint8_t *buffer, size_t length)
{
    uint8_t description[ESA_NUMBERS] = { 2 };
    description[6] = 1; /* SPWR */
    esa_put32(description, 2, 7); /* serial number */
    memset(description + 8, ESA_UNUSED_PIN, 3);

    uint8_t fan[ESA_NUMBERS] = { 0, 0xFF, 0xFF, 0xFF, 1 }; /* no string, position unknown, zone 1 */
    fan[5] = esa_pin(0, 5);
    fan[6] = esa_pin(0, 6);
    fan[7] = 2;
    esa_put16(fan, 8, 300);
    esa_put16(fan, 10, 1500);
    fan[12] = 0x40;

    const uint8_t nothing[ESA_NUMBERS] = { 0 };
    const uint8_t zone[27] = { 1 }; /* all bytes after the header */

    if (!told("started", esa_start(buffer, length, CHIP, description), "bytes"))
        return 0;
    uint64_t answer = esa_append(buffer, length, ESA_PWM_FAN, CHIP, fan, NULL, 0);
    if (!told("fan appended", answer, "bytes"))
        return 0;
    told("is it a table", esa_check(buffer, esa_beside(answer), CHIP), "elements");
    answer = esa_append(buffer, length, ESA_ZONE, CHIP, nothing, zone, sizeof zone);
    return told("zone appended", answer, "bytes") ? esa_beside(answer) : 0;
}

/* A lamp on P2.7, which the smaller chip lacks: the table is good for the C8051F320 alone. A record is written for the chip
   that its byte 31 names, and for no other. Gives the length, or 0 if the writer refuses. */
static size_t lamp(uint8_t *buffer, size_t length)
{
    uint8_t numbers[ESA_NUMBERS] = { 0, 0xFF, 0xFF, 0xFF, 1, 0, 2, 1 }; /* zone 1, green, good */
    numbers[5] = esa_pin(2, 7);
    numbers[8] = numbers[11] = ESA_UNUSED_PIN;
    numbers[31] = ESA_C8051F321;
    told("a lamp for the 321 appended", esa_append(buffer, length, ESA_STATUS_LED, ESA_C8051F320, numbers, NULL, 0), "bytes");
    numbers[31] = ESA_C8051F320;
    uint64_t answer = esa_append(buffer, length, ESA_STATUS_LED, ESA_C8051F320, numbers, NULL, 0);
    if (!told("a lamp for the 320 appended", answer, "bytes"))
        return 0;
    told("is it a table for the 320", esa_check(buffer, esa_beside(answer), ESA_C8051F320), "elements");
    told("is it a table for the 321", esa_check(buffer, esa_beside(answer), ESA_C8051F321), "elements");
    return esa_beside(answer);
}

/* A sensor on SMBus block mode, which is retired: only a table of old has one, and only the archive's rules read it. */
static void sensor(uint8_t *buffer, size_t length, size_t written)
{
    uint8_t numbers[ESA_NUMBERS] = { 0, 0xFF, 0xFF, 0xFF, 1, 2, 0, 0x48 }; /* zone 1, block mode, bus address 48h */
    told("a sensor on block mode appended", esa_append(buffer, length, ESA_DIGITAL_SENSOR, CHIP, numbers, NULL, 0), "bytes");
    numbers[5] = 1; /* SMBus byte mode */
    uint64_t answer = esa_append(buffer, length, ESA_DIGITAL_SENSOR, CHIP, numbers, NULL, 0);
    if (!told("a sensor on byte mode appended", answer, "bytes"))
        return;
    buffer[written + 8] = 2; /* its bus type, as an old tool wrote it */
    told("is it a table in use", esa_check(buffer, esa_beside(answer), CHIP), "elements");
    told("is it a table of the archive", esa_check(buffer, esa_beside(answer), CHIP | ESA_ARCHIVE), "elements");
    list(buffer, esa_beside(answer), CHIP | ESA_ARCHIVE);
}

/* An RGB LED on a chip of its own, an NXP PCA9633 at the I2C address 62h. Its variable part has a block for each colour: the number
   of its register pairs, and the pairs, each an address and the data. */
static void colours(uint8_t *buffer, size_t length)
{
    static const char *const names[3] = { "red", "green", "blue" };
    const uint8_t numbers[ESA_NUMBERS] = { 0, 0xFF, 0xFF, 0xFF, 1, 0, 0, 0x62, 2 }; /* zone 1, I2C, bus address, the chip */
    const uint8_t part[15] = { 1, 2, 0, 0x40, 0, 2, 3, 0, 0x40, 0, 8, 0, 0xAA, 0, 0 };
    uint64_t answer = esa_append(buffer, length, ESA_EXTERNAL_RGB_LED, CHIP, numbers, part, sizeof part);
    if (!told("an RGB LED outside appended", answer, "bytes"))
        return;
    for (size_t w = 0; w < 3; w++) {
        size_t count = esa_beside(esa_colours(part, sizeof part, w));
        printf("  %s:", names[w]);
        for (size_t i = 0; i < count; i++) {
            uint64_t pair = esa_colour(part, sizeof part, w, i);
            printf(" register %u is %u%s", (unsigned)esa_address(pair), (unsigned)esa_data(pair), i + 1 < count ? "," : "");
        }
        printf(count ? "\n" : " no register\n");
    }
}

/* The label of element k: UTF-16 where it is a text of the table, of which the lower halves are shown; else the name as it is lent. */
static void label(const uint8_t *table, size_t length, size_t k)
{
    static const uint8_t name[] = "nameless";
    uint64_t answer = esa_label(table, length, k, CHIP, name, sizeof name - 1);
    if (esa_number(answer) != ESA_GOOD) {
        told("  label", answer, "");
        return;
    }
    const uint8_t *start = esa_label_start(answer, table, name);
    int lent = esa_which(answer) == ESA_OF_THE_NAME;
    printf("  element %zu is called ", k);
    for (size_t i = 0; i < esa_label_length(answer); i += lent ? 1 : 2)
        putchar(start[i]);
    if (lent)
        printf(", as no string says otherwise\n");
    else
        printf(", by byte %zu of the table\n", esa_label_place(answer));
}

/* A fan, its zone, which string 1 names, and that string; and a text that ends with half a character. */
static void names(uint8_t *buffer, size_t length)
{
    const uint8_t nothing[ESA_NUMBERS] = { 0 };
    const uint8_t zone[27] = { 1, 1 };
    const uint8_t text[13] = { 1, 9, 4, 'F', 0, 'r', 0, 'o', 0, 'n', 0, 't', 0 };
    const uint8_t half[5] = { 2, 9, 4, 0x3C, 0xD8 };
    memcpy(buffer, own_table, 32);
    buffer[1] = 32;
    esa_append(buffer, length, ESA_ZONE, CHIP, nothing, zone, sizeof zone);
    uint64_t answer = esa_append(buffer, length, ESA_STRING, CHIP, nothing, text, sizeof text);
    if (!told("a name appended", answer, "bytes"))
        return;
    for (size_t k = 0; k < 4; k++)
        label(buffer, esa_beside(answer), k);
    told("half a character appended", esa_append(buffer, length, ESA_STRING, CHIP, nothing, half, sizeof half), "bytes");
}

/* Somebody unplugs things. A zone that a fan still names cannot go; with the fan taken out first it can. */
static void take_out(uint8_t *table, size_t length)
{
    told("the zone taken out", esa_remove(table, length, 1, CHIP), "bytes");
    uint64_t answer = esa_remove(table, length, 0, CHIP);
    if (told("the fan taken out", answer, "bytes"))
        told("the zone taken out", esa_remove(table, esa_beside(answer), 0, CHIP), "bytes");
}

/* Writes a table again: the same table, but for its reserved places, which become zero. */
static void again(const uint8_t *table, size_t length)
{
    uint8_t out[ESA_LONGEST];
    if (!told("written again", esa_rewrite(table, length, CHIP, out, sizeof out), "bytes"))
        return;
    for (size_t i = 0; i < length; i++)
        if (out[i] != table[i])
            printf("  byte %zu: %02X, now %02X\n", i, (unsigned)table[i], (unsigned)out[i]);
}

/* The table as Intel HEX, which a programmer takes, and back; and what is said of the text without its last line. */
static void moved(const uint8_t *table, size_t length)
{
    uint8_t text[ESA_LONGEST_TEXT], back[ESA_LONGEST];
    uint64_t answer = esa_hex(table, length, CHIP, text, sizeof text);
    if (!told("as Intel HEX", answer, "characters"))
        return;
    fwrite(text, 1, esa_beside(answer), stdout);
    size_t last = strlen(":00000001FF\n");
    told("and back", esa_unhex(text, esa_beside(answer), CHIP, back, sizeof back), "bytes");
    told("without its last line", esa_unhex(text, esa_beside(answer) - last, CHIP, back, sizeof back), "bytes");
}

/* One byte more than the longest table tells a table from a file that is too long. Gives 0 if it cannot be read. */
static int read_file(const char *name, uint8_t *bytes, size_t most, size_t *length)
{
    FILE *file = fopen(name, "rb");
    if (!file)
        return 0;
    *length = fread(bytes, 1, most, file);
    int good = !ferror(file);
    fclose(file);
    return good;
}

/* Last month's table and this month's: the fan was moved to zone 2, and its zone with it; and a table that breaks a rule. */
static void side_by_side(uint8_t *other, size_t length)
{
    static uint8_t text[ESA_DIFF];
    other[23] = other[35] = 2;
    uint64_t answer = esa_diff(own_table, sizeof own_table, other, length, CHIP, text);
    told("what was altered", answer, "bytes of text");
    if (esa_number(answer) == ESA_GOOD)
        printf("%.*s", (int)esa_beside(answer), (const char *)text);
    other[23] = 3;
    answer = esa_diff(own_table, sizeof own_table, other, length, CHIP, text);
    printf("with no zone 3: table %u is refused, %u at %zu\n", esa_diff_table(answer), esa_number(answer), esa_place(answer));
}

/* A recording from the bench, cut in two: pulses of the fan twice, an element that is not there, the zone, which has no reading, and
   what is no line. The last line has no line feed, so it is answered at the end. */
static void recorded(void)
{
    static const char trace[] = "0\t0\t40\n0\t9\t1\n1\t1\t3\nno line\n2\t0\t25";
    static struct esa_trace state;
    static uint8_t text[ESA_TRACE_TEXT];
    const uint8_t *bytes = (const uint8_t *)trace;
    if (!told("a trace begins", esa_trace_start(&state, own_table, sizeof own_table, CHIP), "elements"))
        return;
    size_t length = esa_trace_piece(&state, bytes, 10, text);
    printf("%.*s", (int)length, (const char *)text);
    length = esa_trace_piece(&state, bytes + 10, sizeof trace - 11, text);
    printf("%.*s", (int)length, (const char *)text);
    length = esa_trace_end(&state, text);
    printf("%.*s", (int)length, (const char *)text);
}

/* A damaged table: the zone's identifier is lost, and with it the zone of the fan; then the device type too, and nothing can be saved. */
static void damaged(uint8_t *table, size_t length)
{
    static uint8_t lines[ESA_SALVAGE_LINES];
    uint8_t out[ESA_LONGEST];
    table[32] = 0x4B;
    uint64_t answer = esa_salvage(table, length, CHIP, out, sizeof out, lines);
    if (esa_number(answer) == ESA_GOOD)
        printf("what is left: %zu bytes\n%.*s", esa_place(answer), (int)esa_length(answer), (const char *)lines);
    table[3] = 9;
    told("with device type 9", esa_salvage(table, length, CHIP, out, sizeof out, lines), "bytes");
}

int main(int count, char **arguments)
{
    uint8_t table[ESA_LONGEST + 1];
    size_t length = sizeof own_table;
    memcpy(table, own_table, sizeof own_table);
    if (count > 1 && !read_file(arguments[1], table, sizeof table, &length)) {
        fprintf(stderr, "tour: cannot read %s\n", arguments[1]);
        return 2;
    }
    printf("a table of %zu bytes\n", length);
    uint64_t answer = esa_check(table, length, CHIP);
    int good = told("is it a table", answer, "elements");
    if (good)
        walk(table, length, esa_beside(answer));
    list(table, length, CHIP);
    fan_in(table, length, 1);
    fan_in(table, length, 2);

    printf("\na table of our own\n");
    uint8_t buffer[128];
    size_t written = build(buffer, sizeof buffer);
    told("is it a table", esa_check(buffer, written, CHIP), "elements");

    uint16_t sheet[ESA_SHEET];
    told("its sheet of pins", esa_sheet(buffer, written, CHIP, sheet), "elements");
    taken(sheet);

    printf("\nthe same with a reserved place in use\n");
    buffer[12] = 0xA5;
    again(buffer, written);
    moved(buffer, written);

    printf("\nthe same with a lamp on P2.7\n");
    written = lamp(buffer, sizeof buffer);
    told("the sheet brought forward for the 321", esa_sheet_forward(buffer, written, ESA_C8051F321, sheet), "elements");
    told("the sheet brought forward for the 320", esa_sheet_forward(buffer, written, ESA_C8051F320, sheet), "elements");
    taken(sheet);

    printf("\nthe same with an old sensor\n");
    sensor(buffer, sizeof buffer, written);

    printf("\nthe same with a lamp of three colours\n");
    colours(buffer, sizeof buffer);

    printf("\na table with a name\n");
    names(buffer, sizeof buffer);

    printf("\na table with parts taken out\n");
    memcpy(buffer, own_table, sizeof own_table);
    take_out(buffer, sizeof own_table);

    printf("\ntwo tables side by side\n");
    memcpy(buffer, own_table, sizeof own_table);
    side_by_side(buffer, sizeof own_table);

    printf("\na recording from the bench\n");
    recorded();

    printf("\na damaged table\n");
    memcpy(buffer, own_table, sizeof own_table);
    damaged(buffer, sizeof own_table);
    return good ? 0 : 1;
}
