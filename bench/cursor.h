// A place in a question, for peers that note its formulas in the pass that reads.
#pragma once
#include "peer.h"
#include <stdbool.h>

typedef struct {
    const uint8_t *bytes;
    size_t length, at;
    uint32_t connectives, number;
} cursor;

static inline bool refuse(cursor *c, uint32_t number, size_t place)
{
    c->number = number;
    c->at = place;
    return false;
}

// A side's command and count.
static inline bool read_head(cursor *c, uint8_t command, uint32_t *count)
{
    if (c->at == c->length)
        return refuse(c, CUT, c->length);
    if (c->bytes[c->at] != command)
        return refuse(c, WRONG_COMMAND, c->at);
    if (++c->at == c->length)
        return refuse(c, CUT, c->length);
    *count = c->bytes[c->at];
    if (*count > MOST_A_SIDE)
        return refuse(c, MANY_FORMULAS, c->at);
    c->at++;
    return true;
}
