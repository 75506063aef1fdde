/* The calls on traces as include/esa.h gives them to a caller in C, under names of their own for driver.c and bench/: what a state
   is made of is the header's affair, and here it is so many bytes. */
#include "esa.h"

const size_t trace_state = sizeof(struct esa_trace);

uint64_t trace_start(void *state, const uint8_t *table, size_t length, uint64_t settings)
{
    return esa_trace_start(state, table, length, settings);
}

size_t trace_piece(void *state, const uint8_t *piece, size_t length, uint8_t *out)
{
    return esa_trace_piece(state, piece, length, out);
}

size_t trace_end(const void *state, uint8_t *out)
{
    return esa_trace_end(state, out);
}
