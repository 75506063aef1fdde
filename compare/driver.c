/* Answers calls of the proved library over a pipe. README.md has the form of requests and answers.
   The kit has a C library for x86-64 but no headers, so what is used of it is declared here. */
typedef unsigned char byte;
typedef unsigned long number; /* 64 bits */

long read(int file, void *to, number most);
long write(int file, const void *from, number count);
void *mmap(void *where, number length, int access, int kind, int file, long offset);
void *memcpy(void *to, const void *from, number count);
void *memmove(void *to, const void *from, number count);
void *memset(void *to, int value, number count);
int memcmp(const void *one, const void *other, number count);
void _exit(int status);

/* Settings are one number: bit 0 set is the 321, bit 1 the archive's rules; start, append, rewrite, remove, diff, salvage and
   the calls on sheets, on HEX and on traces ignore bit 1. */
number esa_check(const byte *table, number length, number settings);
/* Weak, so that an archive without them links too: their modes then answer NO_SUCH_CALL. */
__attribute__((weak)) number esa_element(const byte *table, number length, number k, number settings);
__attribute__((weak)) number esa_part_length(const byte *table, number length, number k, number settings);
__attribute__((weak)) number esa_start(byte *buffer, number length, number settings, const byte *numbers);
__attribute__((weak)) number esa_append(byte *buffer, number length, byte id, number settings, const byte *numbers,
                                        const byte *part, number part_length);
__attribute__((weak)) number esa_rewrite(const byte *table, number length, number settings, byte *out, number room);
__attribute__((weak)) number esa_list(const byte *table, number length, number settings, byte *out);
__attribute__((weak)) number esa_describe(const byte *table, number length, number settings, byte *numbers);
__attribute__((weak)) number esa_fields(const byte *table, number length, number k, number settings, byte *numbers);
__attribute__((weak)) number esa_part(const byte *table, number length, number k, number settings);
__attribute__((weak)) number esa_text(const byte *table, number length, number k, number settings);
__attribute__((weak)) number esa_block(const byte *part, number length, number j);
__attribute__((weak)) number esa_pair(const byte *part, number length, number j, number i);
__attribute__((weak)) number esa_entries(const byte *part, number length, number w);
__attribute__((weak)) number esa_entry(const byte *part, number length, number w, number i);
__attribute__((weak)) number esa_colours(const byte *part, number length, number w);
__attribute__((weak)) number esa_colour(const byte *part, number length, number w, number i);
__attribute__((weak)) number esa_label(const byte *table, number length, number k, number settings, const byte *name,
                                       number name_length);
__attribute__((weak)) number esa_fan(const byte *table, number length, byte zone, number settings);
__attribute__((weak)) number esa_remove(byte *table, number length, number k, number settings);
__attribute__((weak)) number esa_sheet(const byte *table, number length, number settings, unsigned short *sheet);
__attribute__((weak)) number esa_sheet_forward(const byte *table, number length, number settings, unsigned short *sheet);
__attribute__((weak)) number esa_sheet_text(const unsigned short *sheet, number settings, byte *out);
__attribute__((weak)) number esa_hex(const byte *table, number length, number settings, byte *out, number room);
__attribute__((weak)) number esa_unhex(const byte *text, number length, number settings, byte *out, number room);
/* A state, as the header has it. 'build' takes STATE from ESA_RECEIVING of the header. */
struct state {
    number numbers[16];
    unsigned short places[2][256];
    _Bool flags[4][256];
    byte described[30], under[30];
};
_Static_assert(sizeof(struct state) == STATE, "a state is as long as the header says");
__attribute__((weak)) number esa_receiving_start(number *numbers, byte *described, byte *under, number settings);
__attribute__((weak)) number esa_receiving_piece(number *numbers, byte *described, byte *under, _Bool *zones, _Bool *strings,
                                                 _Bool *named_zones, _Bool *named_strings, unsigned short *zone_places,
                                                 unsigned short *string_places, const byte *piece, number length);
__attribute__((weak)) number esa_receiving_end(number *numbers, const byte *described, const _Bool *zones, const _Bool *strings,
                                               const _Bool *named_zones, const _Bool *named_strings,
                                               const unsigned short *zone_places, const unsigned short *string_places);
/* The calls on traces by way of traces.c, which knows the header's state; a state has so many bytes. */
__attribute__((weak)) extern const number trace_state;
__attribute__((weak)) number trace_start(byte *state, const byte *table, number length, number settings);
__attribute__((weak)) number trace_piece(byte *state, const byte *piece, number length, byte *out);
__attribute__((weak)) number trace_end(const byte *state, byte *out);
__attribute__((weak)) number esa_reading(const byte *table, number length, number k, number count, number settings);
__attribute__((weak)) number esa_diff(const byte *one, number one_length, const byte *two, number two_length, number settings, byte *out);
__attribute__((weak)) number esa_salvage(const byte *file, number length, number settings, byte *out, number room, byte *lines);

static number esa_receive_start(byte *state, number settings)
{
    struct state *s = (struct state *)(void *)state;
    return esa_receiving_start(s->numbers, s->described, s->under, settings);
}

static number esa_receive_piece(byte *state, const byte *piece, number length)
{
    struct state *s = (struct state *)(void *)state;
    return esa_receiving_piece(s->numbers, s->described, s->under, s->flags[0], s->flags[1], s->flags[2], s->flags[3],
                               s->places[0], s->places[1], piece, length);
}

static number esa_receive_end(byte *state)
{
    struct state *s = (struct state *)(void *)state;
    return esa_receiving_end(s->numbers, s->described, s->flags[0], s->flags[1], s->flags[2], s->flags[3], s->places[0],
                             s->places[1]);
}

enum { CHECK = 0, ELEMENT = 1, PART = 2, START = 3, APPEND = 4, REWRITE = 5, LIST = 6, READINGS = 7, RECEIVE = 8, FANS = 9 };
enum { SHEETS = 12, REMOVALS = 13 };
enum { HEX = 21, UNHEX = 22, LONGEST_TEXT = 1000000, UNWRITTEN = 0xA5 }; /* a table there, and a text back */
/* exit status; TOUCHED: bytes in front of the buffer, the numbers, the state, or of what is lent to be read, have changed */
enum { BROKEN_REQUEST = 3, NO_INPUT_OR_OUTPUT = 4, NO_MEMORY = 5, TOUCHED = 6 };
enum { HEADER = 21, NUMBERS = 32, LISTING = 4096, LONGEST = 70000, READING = 17, MOST_READINGS = 1 << 15, MOST_ZONES = 256 };
enum { MOST_REMOVALS = 128 };
enum { SHEET = 50, SHEET_TEXT = 275, SHEET_CALL = 1 + SHEET, MOST_SHEETS = 256 }; /* in bytes, but for the last */
/* A lent name is no well-formed text: it comes back as it is. A piece is gone when its call returns. */
enum { FRONT = 256, FRONT_BYTE = 0xC3, NAME_BYTE = 0xD8, GONE_BYTE = 0x5A, ROOM = 1 << 20, GUARD = 1 << 16 };
enum { STEP = 9, MOST_STEPS = 1 << 16, REPORT = 64 };
enum { PAIR = 15, DIFF = 65536 };
enum { TRACE = 30, COUNTS = 31, TRACE_PIECE = 2048, TRACE_TEXT = DIFF, LONGEST_TRACE = 1 << 18, LONGEST_TRACE_STATE = 1 << 16 };
enum { GATHERED = 1 << 23, COUNT_ASKED = 16, MOST_COUNTS = 1 << 16 }; /* a byte of trace gives at most 32 of text */
enum { SALVAGE = 14, LINES = 32768 };
#define NO_SUCH_CALL (~0UL)
#define STATE_CHANGED (~1UL) /* by a call that was to keep it */
#define OUT_CHANGED (~2UL)   /* behind the text of a trace */
#define NOT_THE_SAME (~2UL)  /* what was saved, when it is saved once more */

static byte input[1 << 21];
static byte output[1 << 16];
static number waiting; /* bytes of output */
/* Of nine guarded places; the last three: the lines of a pair or of a trace, a trace's state, the lines of what is saved. */
static byte *table_end, *numbers_end, *part_end, *text_end, *name_end, *state_end, *lines_end, *tracing_end, *told_end;
static byte front[FRONT];
/* What the buffer of a listing or of lines, and the numbers of a reading, hold before the call: no byte of a text, no zero. */
static union {
    byte bytes[DIFF];
    number words[DIFF / 8];
} pattern;

static void flush(void)
{
    number done = 0;
    while (done < waiting) {
        long wrote = write(1, output + done, waiting - done);
        if (wrote <= 0) _exit(NO_INPUT_OR_OUTPUT);
        done += (number)wrote;
    }
    waiting = 0;
}

static void put(const void *from, number count)
{
    number done = 0;
    while (done < count) {
        if (waiting == sizeof output) flush();
        number piece = sizeof output - waiting;
        if (piece > count - done) piece = count - done;
        memcpy(output + waiting, (const byte *)from + done, piece);
        waiting += piece;
        done += piece;
    }
}

/* The end of a place for bytes that are lent. Nothing behind it can be read: a call that tries ends this program. */
static byte *guarded_end(void)
{
    enum { NO_ACCESS = 0, READ_AND_WRITE = 3, PRIVATE = 2, FIXED = 16, ANONYMOUS = 32 };
    byte *room = mmap(0, ROOM + GUARD, READ_AND_WRITE, PRIVATE | ANONYMOUS, -1, 0);
    if (room == (byte *)-1L) _exit(NO_MEMORY);
    byte *end = room + ROOM;
    if (mmap(end, GUARD, NO_ACCESS, PRIVATE | ANONYMOUS | FIXED, -1, 0) != end) _exit(NO_MEMORY);
    return end;
}

static number call(byte mode, const byte *table, number length, number k, number settings)
{
    switch (mode) {
    case CHECK: return esa_check(table, length, settings);
    case ELEMENT: return esa_element ? esa_element(table, length, k, settings) : NO_SUCH_CALL;
    /* a length alone, packed as the number 0 and what stands beside it */
    case PART: return esa_part_length ? 256 * esa_part_length(table, length, k, settings) : NO_SUCH_CALL;
    default: return NO_SUCH_CALL;
    }
}

static number write_call(byte mode, byte id, number settings, byte *buffer, number length, const byte *numbers,
                         number part_length)
{
    if (mode == START) return esa_start ? esa_start(buffer, length, settings, numbers) : NO_SUCH_CALL;
    const byte *part = part_end - part_length;
    if (mode == REWRITE) return esa_rewrite ? esa_rewrite(part, part_length, settings, buffer, length) : NO_SUCH_CALL;
    return esa_append ? esa_append(buffer, length, id, settings, numbers, part, part_length) : NO_SUCH_CALL;
}

/* A call of the writer: body is the buffer, the numbers and the part (of a rewriting, the table in the part's stead). The
   answer goes out, and then the buffer. */
static void answer_writer(byte mode, byte id, number settings, const byte *body, number length, number part_length)
{
    byte *buffer = table_end - length;
    byte *numbers = numbers_end - NUMBERS;
    byte *part = part_end - part_length;
    memcpy(buffer - FRONT, front, FRONT);
    memcpy(buffer, body, length);
    memcpy(numbers, body + length, NUMBERS);
    memcpy(part, body + length + NUMBERS, part_length);
    number value = write_call(mode, id, settings, buffer, length, numbers, part_length);
    if (memcmp(buffer - FRONT, front, FRONT) || memcmp(numbers, body + length, NUMBERS) ||
        memcmp(part, body + length + NUMBERS, part_length))
        _exit(TOUCHED);
    put(&value, 8);
    put(buffer, length);
}

static void answer_reader(byte mode, const byte *body, number length, number k, number settings)
{
    byte *table = table_end - length;
    memcpy(table, body, length);
    number value = call(mode, table, length, k, settings);
    put(&value, 8);
}

/* The number of bytes of a text's buffer up to the last that is not as it was, or the answered length if that is more.
   By words, as an emulator takes its time over memcmp. */
static number altered(const byte *buffer, number room, number answered)
{
    const number *words = (const number *)buffer;
    number from = answered < room ? answered : room;
    number end = room;
    while (end >= from + 8 && words[end / 8 - 1] == pattern.words[end / 8 - 1]) end -= 8;
    while (end > from && buffer[end - 1] == pattern.bytes[end - 1]) end--;
    return end;
}

/* The length goes out, packed as that of a part; then the number of bytes that altered tells of, and these bytes. The buffer
   is the pattern again for the next call. */
static void answer_list(const byte *body, number length, number settings)
{
    byte *buffer = text_end - LISTING;
    byte *table = table_end - length;
    memcpy(table, body, length);
    number answered = esa_list ? esa_list(table, length, settings, buffer) : 0;
    if (memcmp(buffer - FRONT, front, FRONT) || memcmp(table, body, length)) _exit(TOUCHED);
    number value = esa_list ? 256 * answered : NO_SUCH_CALL;
    number count = altered(buffer, LISTING, answered);
    put(&value, 8);
    put(&count, 8);
    put(buffer, count);
    memcpy(buffer, pattern.bytes, count);
}

/* The label of element k, with a lent name of so many bytes. */
static number label(const byte *table, number length, number k, number settings, number name_length)
{
    if (name_length > LONGEST) _exit(BROKEN_REQUEST);
    const byte *name = name_end - name_length;
    number value = esa_label ? esa_label(table, length, k, settings, name, name_length) : NO_SUCH_CALL;
    for (number i = 0; i < name_length; i += 1 + i / 64)
        if (name[i] != NAME_BYTE) _exit(TOUCHED);
    return value;
}

/* One call of those that read. Those with numbers write them to 'numbers'; those on a part take no settings. */
static number reading(byte which, const byte *lent, number length, number a, number b, number settings, byte *numbers)
{
    switch (which) {
    case 0: return esa_describe ? esa_describe(lent, length, settings, numbers) : NO_SUCH_CALL;
    case 1: return esa_fields ? esa_fields(lent, length, a, settings, numbers) : NO_SUCH_CALL;
    case 2: return esa_part ? esa_part(lent, length, a, settings) : NO_SUCH_CALL;
    case 3: return esa_text ? esa_text(lent, length, a, settings) : NO_SUCH_CALL;
    case 4: return esa_block ? esa_block(lent, length, a) : NO_SUCH_CALL;
    case 5: return esa_pair ? esa_pair(lent, length, a, b) : NO_SUCH_CALL;
    case 6: return esa_entries ? esa_entries(lent, length, a) : NO_SUCH_CALL;
    case 7: return esa_entry ? esa_entry(lent, length, a, b) : NO_SUCH_CALL;
    case 8: return esa_colours ? esa_colours(lent, length, a) : NO_SUCH_CALL;
    case 9: return esa_colour ? esa_colour(lent, length, a, b) : NO_SUCH_CALL;
    case 10: return label(lent, length, a, settings, b);
    default: return NO_SUCH_CALL;
    }
}

/* Many calls on the same bytes, a table or a part. The answer to each goes out, and after those of esa_describe and
   esa_fields the numbers, which hold the pattern before each call. */
static void answer_readings(const byte *body, number length, number count, number settings)
{
    byte *lent = table_end - length;
    byte *numbers = numbers_end - NUMBERS;
    memcpy(lent, body, length);
    memcpy(numbers - FRONT, front, FRONT);
    for (number at = 0; at < count; at++) {
        const byte *asked = body + length + at * READING;
        number a, b;
        memcpy(&a, asked + 1, 8);
        memcpy(&b, asked + 9, 8);
        memcpy(numbers, pattern.bytes, NUMBERS);
        number value = reading(asked[0], lent, length, a, b, settings, numbers);
        put(&value, 8);
        if (asked[0] <= 1) put(numbers, NUMBERS);
    }
    if (memcmp(numbers - FRONT, front, FRONT) || memcmp(lent, body, length)) _exit(TOUCHED);
}

/* Is there a fan in this zone? Asked of one table with many zones, a byte each behind it; the answer to each goes out. */
static void answer_fans(const byte *body, number length, number count, number settings)
{
    byte *table = table_end - length;
    memcpy(table, body, length);
    for (number at = 0; at < count; at++) {
        number value = esa_fan ? esa_fan(table, length, body[length + at], settings) : NO_SUCH_CALL;
        put(&value, 8);
    }
    if (memcmp(table, body, length)) _exit(TOUCHED);
}

/* Taking a part out, asked of one table with many k, 8 bytes each behind it; before each call the table is as it came. The answer
   goes out, and then the lent bytes as the call leaves them. */
static void answer_removals(const byte *body, number length, number count, number settings)
{
    byte *table = table_end - length;
    memcpy(table - FRONT, front, FRONT);
    for (number at = 0; at < count; at++) {
        number k;
        memcpy(&k, body + length + 8 * at, 8);
        memcpy(table, body, length);
        number value = esa_remove ? esa_remove(table, length, k, settings) : NO_SUCH_CALL;
        put(&value, 8);
        put(table, length);
    }
    if (memcmp(table - FRONT, front, FRONT)) _exit(TOUCHED);
}

/* One call on a sheet: 0 made afresh, 1 brought forward, 2 its text, which takes no table. */
static number sheet_call(byte which, const byte *table, number length, number settings, byte *sheet, byte *text)
{
    unsigned short *numbers = (unsigned short *)sheet; /* at an even address */
    switch (which) {
    case 0: return esa_sheet ? esa_sheet(table, length, settings, numbers) : NO_SUCH_CALL;
    case 1: return esa_sheet_forward ? esa_sheet_forward(table, length, settings, numbers) : NO_SUCH_CALL;
    /* a length alone, packed as the number 0 and what stands beside it */
    case 2: return esa_sheet_text ? 256 * esa_sheet_text(numbers, settings, text) : NO_SUCH_CALL;
    default: return NO_SUCH_CALL;
    }
}

/* Many calls on sheets beside one table: which, and the sheet as it is lent. The answer to each goes out, and then the sheet as it
   is left; of a text the whole buffer, which held the pattern. */
static void answer_sheets(const byte *body, number length, number count, number settings)
{
    byte *table = table_end - length;
    byte *sheet = numbers_end - SHEET;
    byte *text = part_end - SHEET_TEXT;
    memcpy(table, body, length);
    memcpy(sheet - FRONT, front, FRONT);
    memcpy(text - FRONT, front, FRONT);
    for (number at = 0; at < count; at++) {
        const byte *asked = body + length + at * SHEET_CALL;
        memcpy(sheet, asked + 1, SHEET);
        if (asked[0] == 2) memcpy(text, pattern.bytes, SHEET_TEXT);
        number value = sheet_call(asked[0], table, length, settings, sheet, text);
        int of_text = asked[0] == 2;
        if (of_text && memcmp(sheet, asked + 1, SHEET)) _exit(TOUCHED);
        put(&value, 8);
        put(of_text ? text : sheet, of_text ? SHEET_TEXT : SHEET);
    }
    if (memcmp(sheet - FRONT, front, FRONT) || memcmp(text - FRONT, front, FRONT) || memcmp(table, body, length)) _exit(TOUCHED);
}

/* A table to its text or a text to its table, into a buffer of 'room' bytes. The answer goes out, and then the buffer, whole. */
static void answer_moved(byte mode, const byte *body, number length, number room, number settings)
{
    byte *lent = part_end - length;
    byte *out = table_end - room;
    memcpy(out - FRONT, front, FRONT);
    memset(out, UNWRITTEN, room);
    memcpy(lent, body, length);
    number value = NO_SUCH_CALL;
    if (mode == HEX && esa_hex) value = esa_hex(lent, length, settings, out, room);
    if (mode == UNHEX && esa_unhex) value = esa_unhex(lent, length, settings, out, room);
    if (memcmp(out - FRONT, front, FRONT) || memcmp(lent, body, length)) _exit(TOUCHED);
    put(&value, 8);
    put(out, room);
}

/* The calls that receive, on the one state, which stays from request to request. ended: after an end without a start. */
static byte kept_state[STATE];
static int ended;

/* The answer, if the state is as it was where the call was to keep it. */
static number if_kept(number value, int keeps)
{
    return keeps && memcmp(kept_state, state_end - STATE, STATE) ? STATE_CHANGED : value;
}

static number receive_end(void)
{
    byte *state = state_end - STATE;
    int keeps = ended;
    if (keeps) memcpy(kept_state, state, STATE);
    ended = 1;
    return if_kept(esa_receive_end(state), keeps);
}

/* A few bytes at the end of their memory one by one: memcmp may take its time over what it must not read there. */
static int differ(const byte *one, const byte *other, number count)
{
    if (count > REPORT) return memcmp(one, other, count);
    for (number i = 0; i < count; i++)
        if (one[i] != other[i]) return 1;
    return 0;
}

/* So many times the same piece. It ends where its memory ends. */
static number receive_piece(const byte *from, number length, number times)
{
    byte *state = state_end - STATE, *piece = table_end - length;
    int keeps = ended || length == 0;
    number value = 0;
    if (keeps) memcpy(kept_state, state, STATE);
    memcpy(piece, from, length);
    for (number i = 0; i < times && value == 0; i++) value = if_kept(esa_receive_piece(state, piece, length), keeps);
    if (differ(piece, from, length)) _exit(TOUCHED);
    memset(piece, GONE_BYTE, length);
    return value;
}

/* The bytes in pieces of so many, the last one fewer: the first answer that is not 0. */
static number receive_reports(const byte *bytes, number length, number size)
{
    number value = 0;
    for (number at = 0; at < length && value == 0; at += size)
        value = receive_piece(bytes + at, size < length - at ? size : length - at, 1);
    return value;
}

/* A flag is 0 or 1, as a bool of C is. */
static void plain_flags(byte *state)
{
    byte *flags = (byte *)((struct state *)(void *)state)->flags;
    for (int i = 0; i < 4 * 256; i++) flags[i] &= 1;
}

/* A state that no start gave: whatever it answers first, a second end is 20 and keeps it. */
static number receive_wild(const byte *bytes, number length, number seed, number size)
{
    byte *state = state_end - STATE;
    for (int i = 0; i < STATE; i++) {
        seed = seed * 6364136223846793005UL + 1442695040888963407UL;
        state[i] = (byte)(seed >> 56);
    }
    plain_flags(state);
    ended = 0;
    for (number at = 0; at < length; at += size) receive_piece(bytes + at, size < length - at ? size : length - at, 1);
    receive_end();
    return receive_end();
}

static number receive_step(byte which, const byte *bytes, number length, unsigned a, unsigned b, number settings)
{
    byte *state = state_end - STATE;
    if (!esa_receiving_start || !esa_receiving_piece || !esa_receiving_end) return NO_SUCH_CALL;
    switch (which) {
    case 0:
        if (a < 256) {
            memset(state, (int)a, STATE);
            plain_flags(state);
        }
        ended = 0;
        return esa_receive_start(state, settings);
    case 1: return a > length || b > length - a ? NO_SUCH_CALL : receive_piece(bytes + a, b, 1);
    case 2: return a > length || b == 0 ? NO_SUCH_CALL : receive_reports(bytes + a, length - a, b);
    case 3: return a > length ? NO_SUCH_CALL : receive_piece(bytes, a, b);
    case 4: return receive_end();
    case 5: return b == 0 ? NO_SUCH_CALL : receive_wild(bytes, length, a, b);
    default: return NO_SUCH_CALL;
    }
}

static void answer_receive(const byte *body, number length, number count, number settings)
{
    memcpy(state_end - STATE - FRONT, front, FRONT);
    for (number at = 0; at < count; at++) {
        const byte *step = body + length + at * STEP;
        unsigned a, b;
        memcpy(&a, step + 1, 4);
        memcpy(&b, step + 5, 4);
        number value = receive_step(step[0], body, length, a, b, settings);
        put(&value, 8);
    }
    if (memcmp(state_end - STATE - FRONT, front, FRONT)) _exit(TOUCHED);
}

/* Two tables side by side, the second in the part's place. The answer goes out, then the number of bytes that altered tells of, and
   these bytes; with a refusal all that are not as they were. The buffer is the pattern again for the next call. */
static void answer_pair(const byte *body, number length, number two_length, number settings)
{
    byte *one = table_end - length, *two = part_end - two_length, *out = lines_end - DIFF;
    memcpy(one, body, length);
    memcpy(two, body + length, two_length);
    number value = esa_diff ? esa_diff(one, length, two, two_length, settings, out) : NO_SUCH_CALL;
    if (memcmp(out - FRONT, front, FRONT) || memcmp(one, body, length) || memcmp(two, body + length, two_length)) _exit(TOUCHED);
    number count = altered(out, DIFF, value & 0xFF ? 0 : value >> 8);
    put(&value, 8);
    put(&count, 8);
    put(out, count);
    memcpy(out, pattern.bytes, count);
}

/* The calls on traces, on a state of their own, which stays from request to request. The buffer is that of a pair's lines. */
static byte kept_tracing[LONGEST_TRACE_STATE];
static byte gathered[GATHERED];

/* The table is gone when the call returns. A refusal keeps the state. */
static number tracing_start(const byte *bytes, number length, unsigned fill, number settings)
{
    byte *state = tracing_end - trace_state, *table = table_end - length;
    if (fill < 256) memset(state, (int)fill, trace_state);
    memcpy(kept_tracing, state, trace_state);
    memcpy(table, bytes, length);
    number value = trace_start(state, table, length, settings);
    if (differ(table, bytes, length)) _exit(TOUCHED);
    memset(table, GONE_BYTE, length);
    return value & 0xFF && memcmp(kept_tracing, state, trace_state) ? STATE_CHANGED : value;
}

/* The length of the text of one piece, which ends where its memory ends and is gone when the call returns. */
static number tracing_piece(const byte *from, number length)
{
    byte *piece = part_end - length;
    memcpy(piece, from, length);
    number answered = trace_piece(tracing_end - trace_state, piece, length, lines_end - TRACE_TEXT);
    if (differ(piece, from, length)) _exit(TOUCHED);
    memset(piece, GONE_BYTE, length);
    if (answered > TRACE_TEXT) _exit(TOUCHED);
    return answered;
}

/* Takes the text of the last call to the others, and has the pattern in its place again. */
static number gather(number so_far, number answered)
{
    byte *out = lines_end - TRACE_TEXT;
    if (answered > GATHERED - so_far) _exit(BROKEN_REQUEST);
    memcpy(gathered + so_far, out, answered);
    memcpy(out, pattern.bytes, answered);
    return so_far + answered;
}

/* All bytes in pieces of so many, of which each takes 2,048 at most: all their texts together. */
static number tracing_reports(const byte *bytes, number length, number size)
{
    number most = size < TRACE_PIECE ? size : TRACE_PIECE, all = 0;
    for (number at = 0; at < length; at += most) {
        number left = length - at;
        all = gather(all, tracing_piece(bytes + at, size < left ? size : left));
    }
    return all;
}

/* The same piece so many times: the last text alone. */
static number tracing_again(const byte *bytes, number length, number times)
{
    number all = 0;
    for (number i = 0; i < times; i++) all = gather(0, tracing_piece(bytes, length));
    return all;
}

static number tracing_stop(void)
{
    number answered = trace_end(tracing_end - trace_state, lines_end - TRACE_TEXT);
    if (answered > TRACE_TEXT) _exit(TOUCHED);
    return gather(0, answered);
}

/* A state that no start gave: whatever it says, it is text in the buffer. */
static void tracing_wild(const byte *bytes, number length, number seed, number size)
{
    byte *state = tracing_end - trace_state;
    for (number i = 0; i < trace_state; i++) {
        seed = seed * 6364136223846793005UL + 1442695040888963407UL;
        state[i] = (byte)(seed >> 56);
    }
    tracing_reports(bytes, length, size);
    tracing_stop();
}

/* The length of the text that is gathered. A piece of no bytes and an end keep the state. */
static number tracing_text(byte which, const byte *trace, number length, unsigned a, unsigned b, number *value)
{
    byte *state = tracing_end - trace_state;
    int keeps = which == 4 || (which == 1 && b == 0);
    number all = 0;
    if (a > length && which != 5) _exit(BROKEN_REQUEST);
    if (keeps) memcpy(kept_tracing, state, trace_state);
    if (which == 1 && b <= length - a) all = gather(0, tracing_piece(trace + a, b));
    else if (which == 2 && b) all = tracing_reports(trace + a, length - a, b);
    else if (which == 3) all = tracing_again(trace, a, b);
    else if (which == 4) all = tracing_stop();
    else if (which == 5 && b) tracing_wild(trace, length, a, b);
    else _exit(BROKEN_REQUEST);
    *value = keeps && memcmp(kept_tracing, state, trace_state) ? STATE_CHANGED : 256 * all;
    if (altered(lines_end - TRACE_TEXT, TRACE_TEXT, 0)) *value = OUT_CHANGED;
    return all;
}

static void answer_trace(const byte *body, number length, number trace_length, number count, number settings)
{
    const byte *trace = body + length;
    int lacks = !trace_start || !trace_piece || !trace_end || trace_state > LONGEST_TRACE_STATE;
    if (!lacks) memcpy(tracing_end - trace_state - FRONT, front, FRONT);
    for (number at = 0; at < count; at++) {
        const byte *step = trace + trace_length + at * STEP;
        unsigned a, b;
        memcpy(&a, step + 1, 4);
        memcpy(&b, step + 5, 4);
        number value = NO_SUCH_CALL, all = 0;
        if (!lacks && step[0] == 0) value = tracing_start(body, length, a, settings);
        else if (!lacks) all = tracing_text(step[0], trace, trace_length, a, b, &value);
        put(&value, 8);
        put(&all, 8);
        put(gathered, all);
    }
    if (lacks) return;
    if (memcmp(tracing_end - trace_state - FRONT, front, FRONT) || memcmp(lines_end - TRACE_TEXT - FRONT, front, FRONT)) _exit(TOUCHED);
}

/* What does a count mean? Asked of one table with many elements and counts, 8 bytes each behind it; the answer to each goes out. */
static void answer_counts(const byte *body, number length, number count, number settings)
{
    byte *table = table_end - length;
    memcpy(table, body, length);
    for (number at = 0; at < count; at++) {
        const byte *asked = body + length + at * COUNT_ASKED;
        number k, of;
        memcpy(&k, asked, 8);
        memcpy(&of, asked + 8, 8);
        number value = esa_reading ? esa_reading(table, length, k, of, settings) : NO_SUCH_CALL;
        put(&value, 8);
    }
    if (memcmp(table, body, length)) _exit(TOUCHED);
}

/* Saves a file once more that was saved already: its answer, if it comes out as it is and without a line. */
static number saved_again(const byte *file, number length, number settings)
{
    byte *out = table_end - length, *lines = told_end - LINES;
    memset(out, UNWRITTEN, length);
    number value = esa_salvage(file, length, settings, out, length, lines);
    number count = altered(lines, LINES, 0);
    memcpy(lines, pattern.bytes, count);
    return count || memcmp(out, file, length) ? NOT_THE_SAME : value;
}

/* What can be saved of a file, into a buffer of 'room' bytes. The answer goes out, and then the buffer, whole; then the number of
   bytes that altered tells of the lines, and these bytes; then, with 0, what esa_check says of the new table by the ordinary
   rules, and what comes when it is saved once more. The lines are the pattern again for the next call. */
static void answer_salvage(const byte *body, number length, number room, number settings)
{
    byte *file = part_end - length, *out = table_end - room, *lines = told_end - LINES;
    memcpy(out - FRONT, front, FRONT);
    memset(out, UNWRITTEN, room);
    memcpy(file, body, length);
    number value = esa_salvage ? esa_salvage(file, length, settings, out, room, lines) : NO_SUCH_CALL;
    if (memcmp(out - FRONT, front, FRONT) || memcmp(lines - FRONT, front, FRONT) || memcmp(file, body, length)) _exit(TOUCHED);
    number good = (value & 0xFF) == 0, saved = value >> 8 & 0xFFFF, checked = 0, again = 0;
    number count = altered(lines, LINES, good ? value >> 24 : 0);
    put(&value, 8);
    put(out, room);
    put(&count, 8);
    put(lines, count);
    memcpy(lines, pattern.bytes, count);
    if (good && saved <= room) {
        file = part_end - saved;
        memcpy(file, out, saved);
        checked = esa_check(file, saved, settings & ~2UL);
        again = saved_again(file, saved, settings);
    }
    put(&checked, 8);
    put(&again, 8);
}

/* Answers the whole requests among the bytes held, and gives the number of bytes that they took. */
static number answer_all(number held)
{
    number used = 0;
    while (held - used >= HEADER) {
        const byte *request = input + used;
        byte mode = request[0];
        int writes = mode == START || mode == APPEND || mode == REWRITE;
        int moves = mode == HEX || mode == UNHEX;
        unsigned length;
        number k, settings;
        memcpy(&length, request + 1, 4);
        memcpy(&k, request + 5, 8);
        memcpy(&settings, request + 13, 8);
        number part_length = writes ? k >> 8 : 0;
        number readings = mode == READINGS ? k : 0, zones = mode == FANS ? k : 0, removals = mode == REMOVALS ? k : 0;
        number sheets = mode == SHEETS ? k : 0, steps = mode == RECEIVE ? k : mode == TRACE ? k >> 32 : 0;
        number two_length = mode == PAIR ? k : 0, trace_length = mode == TRACE ? k & 0xFFFFFFFF : 0, counts = mode == COUNTS ? k : 0;
        if (length > (moves ? LONGEST_TEXT : LONGEST) || (moves && k > LONGEST_TEXT)) _exit(BROKEN_REQUEST);
        if (mode == SALVAGE && k > LONGEST) _exit(BROKEN_REQUEST);
        if (part_length > LONGEST || two_length > LONGEST || readings > MOST_READINGS || zones > MOST_ZONES) _exit(BROKEN_REQUEST);
        if (removals > MOST_REMOVALS || sheets > MOST_SHEETS || steps > MOST_STEPS) _exit(BROKEN_REQUEST);
        if (trace_length > LONGEST_TRACE || counts > MOST_COUNTS) _exit(BROKEN_REQUEST);
        number asked = readings * READING + zones + 8 * removals + sheets * SHEET_CALL + steps * STEP + two_length;
        asked += trace_length + counts * COUNT_ASKED;
        number size = HEADER + (number)length + (writes ? NUMBERS + part_length : asked);
        if (held - used < size) break;
        if (writes) answer_writer(mode, (byte)k, settings, request + HEADER, length, part_length);
        else if (mode == LIST) answer_list(request + HEADER, length, settings);
        else if (mode == READINGS) answer_readings(request + HEADER, length, readings, settings);
        else if (mode == FANS) answer_fans(request + HEADER, length, zones, settings);
        else if (mode == REMOVALS) answer_removals(request + HEADER, length, removals, settings);
        else if (mode == SHEETS) answer_sheets(request + HEADER, length, sheets, settings);
        else if (moves) answer_moved(mode, request + HEADER, length, k, settings);
        else if (mode == RECEIVE) answer_receive(request + HEADER, length, steps, settings);
        else if (mode == PAIR) answer_pair(request + HEADER, length, two_length, settings);
        else if (mode == TRACE) answer_trace(request + HEADER, length, trace_length, steps, settings);
        else if (mode == COUNTS) answer_counts(request + HEADER, length, counts, settings);
        else if (mode == SALVAGE) answer_salvage(request + HEADER, length, k, settings);
        else answer_reader(mode, request + HEADER, length, k, settings);
        used += size;
    }
    return used;
}

int main(void)
{
    table_end = guarded_end();
    numbers_end = guarded_end();
    part_end = guarded_end();
    memset(front, FRONT_BYTE, FRONT);
    text_end = guarded_end();
    name_end = guarded_end();
    state_end = guarded_end();
    memset(name_end - LONGEST, NAME_BYTE, LONGEST);
    for (int i = 0; i < DIFF; i++) pattern.bytes[i] = (byte)(0x80 + i % 127);
    memcpy(text_end - LISTING - FRONT, front, FRONT);
    memcpy(text_end - LISTING, pattern.bytes, LISTING);
    tracing_end = guarded_end();
    lines_end = guarded_end();
    memcpy(lines_end - DIFF - FRONT, front, FRONT);
    memcpy(lines_end - DIFF, pattern.bytes, DIFF);
    told_end = guarded_end();
    memcpy(told_end - LINES - FRONT, front, FRONT);
    memcpy(told_end - LINES, pattern.bytes, LINES);
    number held = 0;
    for (;;) {
        long got = read(0, input + held, sizeof input - held);
        if (got < 0) return NO_INPUT_OR_OUTPUT;
        if (got == 0) return held == 0 ? 0 : BROKEN_REQUEST;
        held += (number)got;
        number used = answer_all(held);
        memmove(input, input + used, held - used);
        held -= used;
        flush();
    }
}
