/* The C face of the proved reader and writer of ESA configuration tables, revision 0.90 (target/archive/libesa.a, made by
   'tools/archive', for x86-64). C99, and C++. What each call below answers and leaves is proved of the library for every input;
   docs/CALLS.md has the theorem to each.

   WHAT A CALLER OWES. Nothing proves the C around the library, so these three are yours to keep:
   - Each pointer and the length behind it are memory that may be read, and of 'buffer', 'out', 'lines', 'numbers', 'table' and
     'sheet' that is not const also written, until the call returns; so is '*state'. An array in a call's declaration has the length
     that stands there: 32 bytes of 'numbers' in all calls but those on a state, whose parts the structs below have; 25 numbers of two
     bytes of 'sheet'; of 'out' 4,096 bytes for esa_list, 275 for esa_sheet_text, 65,536 for esa_diff and for a piece and an end of a
     trace; 32,768 of the 'lines' of esa_salvage. A bool is 0 or 1. With a length of 0 the pointer is not followed: NULL will do.
   - The places lent to one call do not overlap.
   - Nobody else writes to them before the call returns.
   No other condition is asked: any bytes, any lengths and any numbers have an answer; size_t must have 64 bits, as the library's
   lengths do. As the code stands (this is no theorem) no call keeps a pointer, allocates, or has a state of its own, so calls from
   several threads on places of their own are fine. */
#ifndef ESA_H
#define ESA_H

#include <stddef.h>
#include <stdint.h>
#ifndef __cplusplus
#include <stdbool.h>
#endif

#ifdef __cplusplus
extern "C" {
#endif

/* ANSWERS. One number: the number of the refusal in bits 7-0, 0 for success; and above them what stands beside it. Beside a
   refusal that is its place: the offset of the element in the table, or 0; of 21 the number of the line. Beside 0 it is what each
   call says. */

static inline unsigned esa_number(uint64_t answer)
{
    return (unsigned)(answer & 0xFF);
}

static inline size_t esa_beside(uint64_t answer)
{
    return (size_t)(answer >> 8);
}

/* The numbers, and after each its place. */
enum esa_numbers {
    ESA_GOOD = 0,
    ESA_UNDER_16_BYTES = 1,    /* fewer than 16 bytes; 0 */
    ESA_REVISION = 2,          /* byte 0 is not 01h; 0 */
    ESA_TABLE_LENGTH = 3,      /* the table's length differs from the bytes lent, or is over 4,096; 0. Of append: the length
                                  so far is under 16, over 4,096 or past the buffer; 0 */
    ESA_DEVICE_TYPE = 4,       /* device type not 1, 2 or 3; 0 */
    ESA_POWER = 5,             /* SPWR 0 and power units over 125; 0 */
    ESA_ELEMENT_LENGTH = 6,    /* no room for a header, or an element length under 3 or past the end; element */
    ESA_IDENTIFIER = 7,        /* not one of the fourteen identifiers; element. Of append: 0 */
    ESA_LAYOUT = 8,            /* the length differs from the layout, the blocks do not fill it, or 09h has over 6 of them
                                  or none; element */
    ESA_CODE = 9,              /* a reserved code, a number that may not stand in its field, or a text that is not well-formed
                                  UTF-16; element */
    ESA_PIN = 10,              /* a pin that does not exist, is not on the chip, is not permitted, or out of order, in its
                                  element or after the fan-list pins of those before; element, or 0. Of start and append also: a
                                  pin of the other chip; append does not look at the elements before */
    ESA_TOO_MANY = 11,         /* a 97th element, or a 13th zone; element */
    ESA_TWICE = 12,            /* a string or zone number a second time; element */
    ESA_NO_ZONE = 13,          /* the zone of an element has no descriptor; element */
    ESA_NO_STRING = 14,        /* a string index that is not 0 and has no string; element, or 0 */
    ESA_CLASH = 15,            /* a pin is claimed twice; element of the later claim, or 0 */
    ESA_NO_ROOM = 16,          /* writer: the new length passes the buffer or 4,096; 0. Of hex, unhex and salvage: what is to be
                                  written passes the buffer; 0 */
    ESA_PAST_THE_LAST = 17,    /* there is no element k; in a part, no such block or pair; 0, of a trace the line's number */
    ESA_NO_READING = 18,       /* the element has no reading for the count; 0, of a trace the line's number, from 1 */
    ESA_TRACE_LINE = 19,       /* pulses over 65,535; 0. Of a trace also a malformed line or one past 1,000,000; the line's number, from 1 */
    ESA_AFTER_THE_END = 20,    /* receiving: a piece or an end after the end; 0 */
    ESA_HEX = 21,              /* a line that is not Intel HEX as it is taken here; the line's number, from 1 */
    ESA_STILL_NAMED = 22,      /* remove: something still names the zone or string that was to go; element */
    ESA_RETIRED = 23,          /* bus type 2, SMBus block mode, by the ordinary rules; element. It stands between 9 and 10 */
    ESA_DESCRIPTION = 24,      /* salvage: the description itself breaks 1, 2, 4, 5 or 10, or its pins clash; 0 */
    ESA_TOO_LARGE = 25         /* writer: a number is too large for its field; 0 */
};

/* The same as a sentence. */
static inline const char *esa_words(unsigned number)
{
    switch (number) {
    case ESA_GOOD: return "good";
    case ESA_UNDER_16_BYTES: return "fewer than 16 bytes";
    case ESA_REVISION: return "the revision is not 0.90";
    case ESA_TABLE_LENGTH: return "the table's length is not that of the bytes, or not a length of a table";
    case ESA_DEVICE_TYPE: return "the device type is not 1, 2 or 3";
    case ESA_POWER: return "more than 125 power units without SPWR";
    case ESA_ELEMENT_LENGTH: return "an element is cut short, or its length is under 3 or past the end";
    case ESA_IDENTIFIER: return "the identifier is none of the fourteen";
    case ESA_LAYOUT: return "the length of an element is not that of its layout, or its blocks do not fill it, or are too many or none";
    case ESA_CODE: return "a reserved code, a number that may not stand there, or a text that is not well-formed";
    case ESA_PIN: return "a pin that does not exist, is not on the chip, is not permitted there, or stands out of order";
    case ESA_TOO_MANY: return "more than 96 elements or 12 zones";
    case ESA_TWICE: return "a string or zone number a second time";
    case ESA_NO_ZONE: return "the zone of an element has no descriptor";
    case ESA_NO_STRING: return "a string index has no string";
    case ESA_CLASH: return "a pin is claimed a second time";
    case ESA_NO_ROOM: return "no room for it";
    case ESA_PAST_THE_LAST: return "there is no such element, block or pair";
    case ESA_NO_READING: return "the element has no reading for this count";
    case ESA_TRACE_LINE: return "a line of a trace that is malformed, past 1,000,000, or has too many pulses";
    case ESA_AFTER_THE_END: return "the end has been called, and nothing more is received";
    case ESA_HEX: return "a line that is not Intel HEX as it is taken here";
    case ESA_STILL_NAMED: return "something still names it";
    case ESA_RETIRED: return "a bus type that is retired";
    case ESA_DESCRIPTION: return "the description itself cannot be saved";
    case ESA_TOO_LARGE: return "a number is too large for its field";
    default: return "a number that no call gives";
    }
}

/* SETTINGS. One number, behind the other plain numbers of a call: which chip the board carries, and by which rules is read. Bit 0
   set is the C8051F321, which lacks P2.4 to P2.7. Bit 1 set (add ESA_ARCHIVE) are the archive's rules, which still have SMBus block
   mode, bus type 2; else the ordinary ones, which refuse it (23). All other bits are ignored. No table names its chip. */
enum { ESA_C8051F320 = 0, ESA_C8051F321 = 1, ESA_ARCHIVE = 2 };

/* NUMBERS. A record is handed over as 32 bytes, 'numbers': each number as wide as its bytes below, lowest byte first. Byte 31
   names the chip of the record's pins: 0 the C8051F320, any other number the C8051F321; read, it is the chip of the settings, 0
   or 1, and of 0Bh and 0Ch 0. start and append refuse a pin of another chip than that of their settings, even one that both
   chips have. The other bytes that a kind does not name are ignored when a record is written, and 0 when one is read.

   description       0 device type, 1 string, 2-5 serial number, 6 SPWR (0 is no; read as 0 or 1), 7 power units (4 mA each),
                     8, 9, 10 hardware revision pins
   all but 0Bh, 0Ch  0 string, 1 x, 2 y, 3 z (centimetres; FFh in all three: unknown), 4 zone, and then
     01h             5 bus type, 6 kind of address (0 bus address, else chip select pin; read as 0 or 1), 7 address,
                     8-9 LSB register, 10-11 MSB register, 12-13 minimum value, 14 minimum temperature, 15-16 maximum value,
                     17 maximum temperature
     02h             5 thermal type, 6 pin, 7-8, 9-10, 11-12, 13-14, 15-16 counts at 0, 25, 50, 75, 100 degrees
     03h, 06h        5 PWM pin, 6 tachometer pin, 7 PPR, 8-9 minimum RPM, 10-11 maximum RPM, 12 minimum duty cycle
     04h             5 pin, 6 colour, 7 purpose of the first lamp; 8, 9, 10 of the second; 11, 12, 13 of the third
     05h             5 pin, 6-7 FULL, 8-9 EMPTY, 10-11 WARNING (counts)
     07h             5 pin, 6 VMAX, 7 VMIN (decivolts)
     08h             5 pin, 6-7 IMIN, 8-9 IMAX (deciamps)
     09h, 0Ah        5 bus type, 6 kind of address, 7 address
     0Dh             5 bus type, 6 kind of address, 7 address, 8 chip identifier
     0Eh             5 red pin, 6 green pin, 7 blue pin
   0Bh, 0Ch          none when written: their part is the whole record. Read: of 0Bh 0 the zone's number, 1 its string;
                     of 0Ch 0 the string's number */
enum { ESA_NUMBERS = 32 };

/* READING. The table is read only; no byte of it can alter. Every call that takes a table checks the whole of it first, for the
   chip and by the rules of its settings. What is accepted for the C8051F321 is accepted for the C8051F320 too; and whenever the
   answer by the ordinary rules is not 23, it is the archive's as well. */

/* Is it a table? 0, and beside it the number of elements, exactly when the bytes keep every rule; otherwise the first rule
   that they break (1 to 15, or 23) and its place. */
uint64_t esa_check(const uint8_t *table, size_t length, uint64_t settings);

/* What does the description say? 0, and beside it 0, with the description in 'numbers'; or the table's own refusal as esa_check
   gives it, and then no byte of 'numbers' alters. */
uint64_t esa_describe(const uint8_t *table, size_t length, uint64_t settings, uint8_t numbers[ESA_NUMBERS]);

/* Of which kind is element k, counted from 0? 0, and beside it its identifier; the table's own refusal as esa_check gives
   it; or 17 at 0 when the table has no element k. */
uint64_t esa_element(const uint8_t *table, size_t length, size_t k, uint64_t settings);

/* What does element k say? The answer of esa_element, and with 0 the element in 'numbers': esa_append takes it as it stands (but
   for block mode, read with ESA_ARCHIVE: it is 23 there). With
   a refusal no byte of 'numbers' alters. */
uint64_t esa_fields(const uint8_t *table, size_t length, size_t k, uint64_t settings, uint8_t numbers[ESA_NUMBERS]);

/* How long is the variable part of element k? These are the last bytes of the element: the blocks of 09h, 0Ah and 0Dh, all bytes
   after the header of a string or a zone descriptor, none of the others. 0 also where esa_element refuses. */
size_t esa_part_length(const uint8_t *table, size_t length, size_t k, uint64_t settings);

/* Where does it stand? 0, and beside it the place of the part in the table and its length, which esa_place and esa_length take
   apart; the place is behind the element's fixed fields also where the part is empty. Element 0 starts at 16, and each next one at the
   place + the length of the part before it. Or the refusal of esa_element. */
uint64_t esa_part(const uint8_t *table, size_t length, size_t k, uint64_t settings);

/* The same of the text of a string, which is its part from byte 3 on, well-formed UTF-16 with the low byte first. 0, and beside it
   0, for an element that is no string. */
uint64_t esa_text(const uint8_t *table, size_t length, size_t k, uint64_t settings);

static inline size_t esa_place(uint64_t answer)
{
    return (size_t)(answer >> 8 & 0xFFFF);
}

static inline size_t esa_length(uint64_t answer)
{
    return (size_t)(answer >> 24);
}

/* What is element k called? The text of the string that its index names; of a string its own text; 'name', which the caller lends,
   where the index is 0. No byte is copied: 0, and beside it which of the two lent places has the label (esa_which), where it starts
   there (esa_label_place) and its length in bytes (esa_label_length); esa_label_start makes a pointer of them. A text of the table is
   well-formed UTF-16, low byte first; 'name' may be any bytes and comes back as it is, whole (of one of 16,777,216 bytes or more the
   length is said as 16,777,215). Or the refusal of esa_element; then there is no label. */
uint64_t esa_label(const uint8_t *table, size_t length, size_t k, uint64_t settings, const uint8_t *name, size_t name_length);
enum { ESA_OF_THE_TABLE = 0, ESA_OF_THE_NAME = 1 };

static inline unsigned esa_which(uint64_t answer)
{
    return (unsigned)(answer >> 8 & 0xFF);
}

static inline size_t esa_label_place(uint64_t answer)
{
    return (size_t)(answer >> 16 & 0xFFFFFF);
}

static inline size_t esa_label_length(uint64_t answer)
{
    return (size_t)(answer >> 40);
}

static inline const uint8_t *esa_label_start(uint64_t answer, const uint8_t *table, const uint8_t *name)
{
    return (esa_which(answer) == ESA_OF_THE_NAME ? name : table) + esa_label_place(answer);
}

/* Is there a fan in this zone, any number from 0 to 255? A PWM fan (03h) or a PWM pump (06h) whose zone identifier it is. 0, and
   beside it whether there is one (esa_fan_found) and how many elements were visited to find out (esa_fan_visited): those up to and
   with the first such element, or all where there is none, zone descriptors and strings counted. Of a zone that nothing declares
   the answer is no, after all; of a table without elements no, after 0. Or the table's own refusal as esa_check gives it. */
uint64_t esa_fan(const uint8_t *table, size_t length, uint8_t zone, uint64_t settings);

/* 1 for yes and 0 for no; 0 also with a refusal. */
static inline int esa_fan_found(uint64_t answer)
{
    return esa_number(answer) == ESA_GOOD && (answer >> 8 & 1) != 0;
}

/* 0 with a refusal. */
static inline size_t esa_fan_visited(uint64_t answer)
{
    return esa_number(answer) == ESA_GOOD ? (size_t)(answer >> 9) : 0;
}

/* What does a count mean at element k? Of a fan (03h) or a pump (06h) it is the pulses in one second, of an analogue thermal sensor (02h), a
   voltage (07h) or a current (08h) the converter's count. 0, and beside it the reading (esa_reading_value) in RPM, tenths of a degree,
   decivolts or deciamps, or 'under 0' or 'over 100' degrees (esa_reading_kind). Or the table's own refusal as esa_check gives it; 17 at 0
   where there is no element k; 19 at 0 for pulses over 65,535; 18 at 0 for an element of another kind, PPR 0, a calibration that does not
   rise or fall strictly, and a count over 1023. */
uint64_t esa_reading(const uint8_t *table, size_t length, size_t k, uint64_t count, uint64_t settings);

/* The same answer of our own thermistor (calibration 850, 700, 500, 320, 200) to a count, from a ready table: for a meter that has no table
   at hand and no divide instruction. 0, and beside it what esa_reading has there, or 18 at 0 for a count over 1023. */
uint64_t esa_thermistor(uint64_t count);

enum { ESA_READING = 0, ESA_UNDER_0 = 1, ESA_OVER_100 = 2 };

/* Of an answer that is no refusal: ESA_READING, ESA_UNDER_0 or ESA_OVER_100. */
static inline unsigned esa_reading_kind(uint64_t answer)
{
    return (unsigned)(answer >> 8 & 3);
}

/* 0 unless there is a reading. */
static inline uint64_t esa_reading_value(uint64_t answer)
{
    return esa_number(answer) == ESA_GOOD ? answer >> 10 : 0;
}

/* Inside a part, which may be any bytes: 17 at 0 where no such block or pair stands whole in it. Of the part of 09h: the speed of
   speed block j in units of 100 RPM, and 256 times its number of register pairs; and of its register pair i the address, and
   65,536 times the data. Blocks and pairs are counted from 0; block 0 is the default block. */
uint64_t esa_block(const uint8_t *part, size_t length, size_t j);
uint64_t esa_pair(const uint8_t *part, size_t length, size_t j, size_t i);

/* Of the part of 0Ah: the number of register pairs of block w, 0 for the initialisation block and 1 for the status block; and of
   its register pair i the address, and 65,536 times the data. */
uint64_t esa_entries(const uint8_t *part, size_t length, size_t w);
uint64_t esa_entry(const uint8_t *part, size_t length, size_t w, size_t i);

/* The same of the part of 0Dh, whose block w is 0 for red, 1 for green and 2 for blue. */
uint64_t esa_colours(const uint8_t *part, size_t length, size_t w);
uint64_t esa_colour(const uint8_t *part, size_t length, size_t w, size_t i);

static inline uint16_t esa_address(uint64_t answer)
{
    return (uint16_t)(answer >> 8 & 0xFFFF);
}

static inline uint16_t esa_data(uint64_t answer)
{
    return (uint16_t)(answer >> 24 & 0xFFFF);
}

/* The listing of a table, as text: one record a line, fields parted by tabs, each line ended by a line feed. It is put at the
   front of 'out'; the answer is its length in bytes, and the bytes behind it are as they were. Of a refused table the text is
   the one line R, number, place. By the archive's rules the line of an element on SMBus block mode has a last field, retired. Every
   listing fits into 'out', and none is ended by a zero. */
enum { ESA_LISTING = 4096 };
size_t esa_list(const uint8_t *table, size_t length, uint64_t settings, uint8_t out[ESA_LISTING]);

/* THE PIN SHEET. Which pin is free? A sheet is an array of 25 numbers that the caller lends, one for each pin in the order P0.0 to
   P0.7, P1.0 to P1.7, P2.0 to P2.7, P3.0 (esa_sheet_at): the offset of the element that claims the pin first, in the order of the
   claims, and 0 where it is the description (a hardware revision pin); ESA_SHEET_LED for the fault LED, always on P1.0; ESA_SHEET_FREE
   where no claim names the pin. The pins that a bus, a reference voltage or a chip select shares have the earliest element that
   claims them. Of the C8051F321 the four pins that it lacks, P2.4 to P2.7, are ESA_SHEET_FREE always. A sheet speaks only for the
   table that it was made from. The tables are read by the ordinary rules: bit 1 of the settings is ignored. */
enum { ESA_SHEET = 25, ESA_SHEET_LED = 0xFFFE, ESA_SHEET_FREE = 0xFFFF, ESA_SHEET_TEXT = 275 };

/* Makes the sheet afresh. 0, and beside it the number of elements, with all 25 numbers in 'sheet'; or the table's own refusal as
   esa_check gives it, and then no number of 'sheet' alters. */
uint64_t esa_sheet(const uint8_t *table, size_t length, uint64_t settings, uint16_t sheet[ESA_SHEET]);

/* Brings a sheet forward after an append: it is lent the new table, which is checked first, and the sheet of the table before. 0, and
   beside it the number of elements: the place of the last element is then beside each pin that this element claims and that was
   ESA_SHEET_FREE, and all other numbers are as they were, whatever they are; without elements all are. Or the new table's own
   refusal, and then no number of 'sheet' alters. After an append to an accepted table that leaves it accepted this is the sheet that
   esa_sheet makes of the new table. */
uint64_t esa_sheet_forward(const uint8_t *table, size_t length, uint64_t settings, uint16_t sheet[ESA_SHEET]);

/* The text of a sheet, of whatever numbers: a line for each pin of the chip from P0.0 up, 25 of them, or the 21 that the C8051F321
   has: the pin, a tab, L for ESA_SHEET_LED, - for ESA_SHEET_FREE or else the number in decimals, and a line feed. It is put at the
   front of 'out'; the answer is its length in bytes, and the bytes behind it are as they were. Every text fits into 'out', and none
   is ended by a zero. */
size_t esa_sheet_text(const uint16_t sheet[ESA_SHEET], uint64_t settings, uint8_t out[ESA_SHEET_TEXT]);

/* Where P1.3 stands in a sheet: esa_sheet_at(1, 3). */
static inline size_t esa_sheet_at(unsigned port, unsigned pin)
{
    return 8 * (size_t)port + pin;
}

/* RECEIVING. A table that comes in pieces, as over USB in reports of 64 bytes. Wherever it is cut, the end gives the answer that
   esa_check gives to all its bytes together, and nothing is told before. No copy of the table is needed on either side: a piece may
   be overwritten as soon as its call returns. What must be known of the bytes gone by is kept in 'state', which the caller lends to
   each call and else leaves alone: numbers of the description, of the one element under way, of zones, strings and pins. A state
   has the same size whatever the table's; it may be copied and moved, and several tables may be received at a time, each with a
   state of its own. What comes of a state that no start gave stands in docs/CALLS.md. */
enum { ESA_RECEIVING = 2240 };

struct esa_receiving {
    size_t numbers[16];
    uint16_t zone_places[256], string_places[256];
    bool zones[256], strings[256], named_zones[256], named_strings[256];
    uint8_t description[30], element[30];
};
typedef char esa_receiving_is_so_long[sizeof(struct esa_receiving) == ESA_RECEIVING ? 1 : -1];

/* The library's calls, to which a state is lent part by part; those to use stand below. */
uint64_t esa_receiving_start(size_t numbers[16], uint8_t description[30], uint8_t element[30], size_t settings);
uint64_t esa_receiving_piece(size_t numbers[16], uint8_t description[30], uint8_t element[30], bool zones[256], bool strings[256],
                             bool named_zones[256], bool named_strings[256], uint16_t zone_places[256],
                             uint16_t string_places[256], const uint8_t *piece, size_t length);
uint64_t esa_receiving_end(size_t numbers[16], const uint8_t description[30], const bool zones[256], const bool strings[256],
                           const bool named_zones[256], const bool named_strings[256], const uint16_t zone_places[256],
                           const uint16_t string_places[256]);

/* Begins with no byte, for the chip and by the rules of the settings, whatever stood in 'state'. Always 0, and beside it 0. (The flags are
   set here only to be 0 or 1, as a bool of C is: memory that was never written may hold anything.) */
static inline uint64_t esa_receive_start(struct esa_receiving *state, uint64_t settings)
{
    for (size_t i = 0; i < 256; i++)
        state->zones[i] = state->strings[i] = state->named_zones[i] = state->named_strings[i] = false;
    return esa_receiving_start(state->numbers, state->description, state->element, (size_t)settings);
}

/* Takes the next bytes, however many; a piece of none changes nothing. 0, and beside it 0, also where the table is lost already. Or 20
   at 0 after the end, and then no byte of 'state' alters. */
static inline uint64_t esa_receive_piece(struct esa_receiving *state, const uint8_t *piece, size_t length)
{
    return esa_receiving_piece(state->numbers, state->description, state->element, state->zones, state->strings,
                               state->named_zones, state->named_strings, state->zone_places, state->string_places, piece, length);
}

/* No more bytes come: what esa_check answers to those that came. Or 20 at 0 after the end, and then no byte of 'state' alters. */
static inline uint64_t esa_receive_end(struct esa_receiving *state)
{
    return esa_receiving_end(state->numbers, state->description, state->zones, state->strings, state->named_zones,
                             state->named_strings, state->zone_places, state->string_places);
}

/* TRACES. Raw counts from the bench, run through a table. A line is second of day (0 to 86,399), element number and count (of a fan or pump the
   pulses in one second), three numbers of 1 to 9 digits parted by tabs, and ends in a line feed. Its output line is the reading in plain
   decimals (tenths of a degree, deciamps, decivolts, RPM), 'under 0', 'over 100', or 'R', number, line number by tabs: 19, 17 or 18. A
   line of tallies is element number, least, greatest and number of the readings, under 0, over 100. The state has the same size whatever
   the trace; it may be copied and moved. What comes of a state that no start gave stands in docs/DECISIONS.md. */
enum { ESA_TRACE_PIECE = 2048, ESA_TRACE_TEXT = 65536 };

struct esa_trace {
    uint64_t numbers[7];
    uint32_t tallies[480];
    uint16_t sensors[576];
};

/* The library's calls, to which a state is lent part by part; those to use stand below. */
uint64_t esa_tracing_start(uint64_t numbers[7], uint16_t sensors[576], uint32_t tallies[480], const uint8_t *table, size_t length,
                           uint64_t settings);
size_t esa_tracing_piece(uint64_t numbers[7], const uint16_t sensors[576], uint32_t tallies[480], const uint8_t *piece, size_t length,
                         uint8_t out[ESA_TRACE_TEXT]);
size_t esa_tracing_end(const uint64_t numbers[7], const uint16_t sensors[576], const uint32_t tallies[480],
                       uint8_t out[ESA_TRACE_TEXT]);

/* Begins: checks the table by the ordinary rules (bit 1 of the settings is ignored). 0, and beside it the number of elements: no line has
   come and every tally is 0. Or the table's own refusal as esa_check gives it, and then no byte of 'state' alters. */
static inline uint64_t esa_trace_start(struct esa_trace *state, const uint8_t *table, size_t length, uint64_t settings)
{
    return esa_tracing_start(state->numbers, state->sensors, state->tallies, table, length, settings);
}

/* The next bytes of the trace, cut anywhere: takes the first ESA_TRACE_PIECE of them at most; hand the rest of a longer piece over by
   the next call. The length of the text that is put at the
   front of 'out': an output line for each line that was ended by a line feed. The bytes behind it are as they were. */
static inline size_t esa_trace_piece(struct esa_trace *state, const uint8_t *piece, size_t length, uint8_t out[ESA_TRACE_TEXT])
{
    return esa_tracing_piece(state->numbers, state->sensors, state->tallies, piece, length, out);
}

/* No more comes: the output line of a last line without a line feed, unless it is empty, and a line of tallies for every element of the
   table in order. The length of the text; the bytes of 'out' behind it are as they were. 'state' is only read. */
static inline size_t esa_trace_end(const struct esa_trace *state, uint8_t out[ESA_TRACE_TEXT])
{
    return esa_tracing_end(state->numbers, state->sensors, state->tallies, out);
}

/* Two tables side by side: in which fields do their records differ? Both are read for the chip of the settings and always by the
   archive's rules (bit 1 is ignored). 0, and beside it the length of the text that is put at the front of 'out'; the bytes behind it
   are as they were. The length is 0 exactly when the records are equal: reserved places, offsets and the table's length are no part
   of them. A line for each field that differs, first of the description, then of the elements paired by their numbers, each in the
   layout's order: D, the offset in the first table, that in the second, the field's name, its first content, its second, parted by
   tabs and ended by a line feed. The description's offset is 0. Contents are decimal, pins as in the listing or -, variable parts
   whole in hex. Two elements of different kinds, or one without a partner, have one line: the field kind, identifiers as contents,
   and - for the offset and the content that are missing. With the tables exchanged each line has its two sides exchanged.
   Or the refusal of the first table, or else of the second, as esa_check gives it by the archive's rules: its place is esa_place, and
   esa_diff_table says of which table, 1 or 2; then no byte of 'out' alters. Every text fits into 'out', and none is ended by a zero. */
enum { ESA_DIFF = 65536 };
uint64_t esa_diff(const uint8_t *one, size_t one_length, const uint8_t *two, size_t two_length, uint64_t settings,
                  uint8_t out[ESA_DIFF]);

/* 1 or 2 with a refusal; 0 without. */
static inline unsigned esa_diff_table(uint64_t answer)
{
    return esa_number(answer) == ESA_GOOD ? 0 : (unsigned)(answer >> 24 & 3);
}

/* SALVAGE. What can be saved of a damaged table, for the chip of the settings and by the ordinary rules (bit 1 is ignored). Only
   the first 4,096 bytes of 'file' are looked at; what bytes 1-2 say is not. Elements are kept in order, up to where esa_check would
   say 6 or until 96 are kept; each that breaks 7 to 12 or 23, against those kept so far, is left out. Then elements with an
   undeclared zone are left out (13), missing string indexes set to 0, the description's first (14), and elements whose pins clash
   with those still kept left out (15).
   0, and beside it the length of the new table, which esa_place takes out, and that of the text of the lines, which esa_length
   does: the table stands at the front of 'out', the text at the front of 'lines', and the bytes behind both are as they were. The
   table is always accepted; one that is accepted already comes out with its reserved places at zero, and no lines. A line for each
   change, in the order made: the offset in 'file' (of the description 0), the number of the rule, 'left out' or 'cleared', parted
   by tabs and ended by a line feed. Where it stopped has no line, so no lines does not mean that nothing was lost: esa_check of 'file'
   tells whether it was whole.
   Or 24 at 0, where nothing can be saved; or 16 at 0 where 'room' is under the new table's length. With a refusal no byte of 'out'
   or 'lines' alters. No table needs more room than 4,096 bytes; every text fits into 'lines', and none is ended by a zero. */
enum { ESA_SALVAGE_LINES = 32768 };
uint64_t esa_salvage(const uint8_t *file, size_t length, uint64_t settings, uint8_t *out, size_t room,
                     uint8_t lines[ESA_SALVAGE_LINES]);

/* WRITING. A table is started in a buffer and each element appended to it; bytes 1-2 of the buffer hold the length so far.
   With a refusal no byte of the buffer alters. A table that is still being written may break rules over the whole of it (11
   to 15, and 10 where the fan list runs from element to element): ask esa_check, with the same settings, when it is done.
   There is no archive's writer: bit 1 of the settings is ignored. */

/* Starts a table with the description in the numbers. 0, and beside it 16, the length, with the description in the first 16
   bytes; or, in this order, 1 (a buffer under 16 bytes), 25, 4, 5, 10, all at 0. */
uint64_t esa_start(uint8_t *buffer, size_t length, uint64_t settings, const uint8_t numbers[ESA_NUMBERS]);

/* Appends the element of this identifier in the numbers, with its variable part. 0, and beside it the new length; only bytes
   1-2 and those of the new element alter. Or, in this order, 7 at 0 (an identifier of no kind); 1 at 0 (a buffer under 16
   bytes); 3 at 0; 25 at 0; 8, 9, 23, 10 at the length so far; 16 at 0. A part beside a kind that has none is 8. */
uint64_t esa_append(uint8_t *buffer, size_t length, uint8_t id, uint64_t settings, const uint8_t numbers[ESA_NUMBERS],
                    const uint8_t *part, size_t part_length);

/* Reads the records of a table and writes them again. 0, and beside it the table's length: the front of 'out' is then that
   table with its reserved places at zero, and the bytes behind are as they were. Or the table's own refusal as esa_check
   gives it by the ordinary rules, or 16 at 0 when 'room' is under the table's length; with either no byte of 'out' alters. */
uint64_t esa_rewrite(const uint8_t *table, size_t length, uint64_t settings, uint8_t *out, size_t room);

/* Takes element k, counted from 0, out of a table. 'table' is lent whole and no byte more. 0, and beside it the new length: the bytes
   behind the element are closed up as they stand, reserved places too, and bytes 1-2 hold the new length; it is again a table, with
   the other elements in their order, and the bytes from the new length on are what they were. Or, in this order, the table's own
   refusal as esa_check gives it by the ordinary rules; 17 at 0 when there is no element k; 22 at the element when something still
   names it: of a zone an element, by its zone identifier; of a string the description, an element or a zone descriptor, by its
   string index. Elements of the other kinds are never named, and always go. With a refusal no byte alters. */
uint64_t esa_remove(uint8_t *table, size_t length, size_t k, uint64_t settings);

/* MOVING. A raw table as Intel HEX, the text that a programmer takes, and back: the same bytes, reserved places as they stand. Both
   ways the table is judged by the archive's rules, and bit 1 of the settings is ignored. The bytes of 'out' behind what is written
   are as they were; with a refusal no byte of it alters. */

/* The text of a table: data records of 16 bytes from address 0, the last one shorter if need be, in capitals, each line closed by
   one line feed; then the line :00000001FF. 0, and beside it the length of the text, which no zero ends: 2 for each byte of the
   table, 12 for each record and 12 for the last line, so at most ESA_LONGEST_TEXT. Or the table's own refusal as esa_check gives it
   with ESA_ARCHIVE; or 16 at 0 when 'room' is under the length of the text. */
enum { ESA_LONGEST_TEXT = 11276 };
uint64_t esa_hex(const uint8_t *table, size_t length, uint64_t settings, uint8_t *out, size_t room);

/* The table of a text. Data records of 1 to 255 bytes are taken, each at the address at which the one before it ends, the first at
   0, and else written as above. 0, and beside it the table's length. Or, in this order: 21 with the number of the first bad line,
   counted from 1: a bad character, length, sum, address or type, a line that no line feed closes, the end record missing (the line
   after the last) or anything after it (the line after it); the table's own refusal as esa_check gives it with ESA_ARCHIVE; 16 at 0
   when 'room' is under the table's length. */
uint64_t esa_unhex(const uint8_t *text, size_t length, uint64_t settings, uint8_t *out, size_t room);

/* NAMES. The fourteen identifiers, the bounds, and how a pin and a number of two or four bytes are put. */
enum esa_identifiers {
    ESA_DIGITAL_SENSOR = 0x01,
    ESA_ANALOGUE_SENSOR = 0x02,
    ESA_PWM_FAN = 0x03,
    ESA_STATUS_LED = 0x04,
    ESA_WATER_LEVEL = 0x05,
    ESA_PWM_PUMP = 0x06,
    ESA_VOLTAGE = 0x07,
    ESA_CURRENT = 0x08,
    ESA_PWM_CONTROLLER = 0x09,
    ESA_TACHOMETER = 0x0A,
    ESA_ZONE = 0x0B,
    ESA_STRING = 0x0C,
    ESA_EXTERNAL_RGB_LED = 0x0D,
    ESA_RGB_LED = 0x0E
};
enum { ESA_SHORTEST = 16, ESA_LONGEST = 4096, ESA_UNUSED_PIN = 0xFF };

static inline const char *esa_kind(unsigned id)
{
    switch (id) {
    case ESA_DIGITAL_SENSOR: return "digital thermal sensor";
    case ESA_ANALOGUE_SENSOR: return "analogue thermal sensor";
    case ESA_PWM_FAN: return "PWM fan";
    case ESA_STATUS_LED: return "status LED";
    case ESA_WATER_LEVEL: return "water level sensor";
    case ESA_PWM_PUMP: return "PWM pump";
    case ESA_VOLTAGE: return "voltage sensor";
    case ESA_CURRENT: return "current sensor";
    case ESA_PWM_CONTROLLER: return "external PWM controller";
    case ESA_TACHOMETER: return "external tachometer";
    case ESA_ZONE: return "zone descriptor";
    case ESA_STRING: return "string";
    case ESA_EXTERNAL_RGB_LED: return "external RGB LED";
    case ESA_RGB_LED: return "RGB LED";
    default: return "no element";
    }
}

/* P1.3 is esa_pin(1, 3). */
static inline uint8_t esa_pin(unsigned port, unsigned pin)
{
    return (uint8_t)(port << 4 | pin);
}

static inline void esa_put16(uint8_t numbers[ESA_NUMBERS], size_t at, uint16_t value)
{
    numbers[at] = (uint8_t)(value & 0xFF);
    numbers[at + 1] = (uint8_t)(value >> 8);
}

static inline uint16_t esa_get16(const uint8_t numbers[ESA_NUMBERS], size_t at)
{
    return (uint16_t)(numbers[at] + 256u * numbers[at + 1]);
}

static inline void esa_put32(uint8_t numbers[ESA_NUMBERS], size_t at, uint32_t value)
{
    esa_put16(numbers, at, (uint16_t)(value & 0xFFFF));
    esa_put16(numbers, at + 2, (uint16_t)(value >> 16));
}

static inline uint32_t esa_get32(const uint8_t numbers[ESA_NUMBERS], size_t at)
{
    return esa_get16(numbers, at) + 65536u * esa_get16(numbers, at + 2);
}

#ifdef __cplusplus
}
#endif

#endif
