// A question's standard spelling: its formulas are noted while it is read, sorted on each side, and copied.
#include "cursor.h"
#include <stdlib.h>
#include <string.h>

typedef struct {
    const uint8_t *bytes;
    size_t length;
} formula;

typedef struct {
    formula formulas[MOST_A_SIDE];
    uint32_t count;
} side;

static inline bool read_formula(cursor *c)
{
    for (uint32_t due = 1; due > 0;) {
        if (c->at == c->length)
            return refuse(c, CUT, c->length);
        uint8_t command = c->bytes[c->at++];
        if (command == LETTER) {
            if (c->at == c->length)
                return refuse(c, CUT, c->length);
            if (c->bytes[c->at++] >= LETTERS)
                return refuse(c, NO_SUCH_LETTER, c->at - 1);
            due--;
        } else if (command >= NOT && command <= EQUIV) {
            if (c->connectives++ == MOST_CONNECTIVES)
                return refuse(c, MANY_CONNECTIVES, c->at - 1);
            due += command != NOT;
        } else {
            return refuse(c, WRONG_COMMAND, c->at - 1);
        }
    }
    return true;
}

static inline bool read_side(cursor *c, uint8_t command, side *s)
{
    if (!read_head(c, command, &s->count))
        return false;
    for (uint32_t i = 0; i < s->count; i++) {
        size_t start = c->at;
        if (!read_formula(c))
            return false;
        s->formulas[i] = (formula){ c->bytes + start, c->at - start };
    }
    return true;
}

// Document 01's reader. The answer is the refusal's number.
static inline uint32_t read_sides(const uint8_t *question, size_t length, side sides[2], uint64_t out[1])
{
    cursor c = { .bytes = question, .length = length };
    if (length > MOST_BYTES)
        refuse(&c, TOO_LONG, MOST_BYTES);
    else if (read_side(&c, LEFT_SIDE, &sides[0]) && read_side(&c, RIGHT_SIDE, &sides[1]) && c.at != length)
        refuse(&c, LEFT_OVER, c.at);
    out[0] = c.at;
    return c.number;
}

static inline uint8_t *put_side(uint8_t *to, uint8_t command, const side *s)
{
    *to++ = command;
    *to++ = s->count;
    for (uint32_t i = 0; i < s->count; i++) {
        memcpy(to, s->formulas[i].bytes, s->formulas[i].length);
        to += s->formulas[i].length;
    }
    return to;
}

static inline uint32_t write_sides(const side sides[2], uint8_t *buffer, size_t room, uint64_t out[1])
{
    out[0] = 4;
    for (int k = 0; k < 2; k++)
        for (uint32_t i = 0; i < sides[k].count; i++)
            out[0] += sides[k].formulas[i].length;
    if (room < out[0])
        return NO_SPACE;
    put_side(put_side(buffer, LEFT_SIDE, &sides[0]), RIGHT_SIDE, &sides[1]);
    return 0;
}

static size_t lesser(size_t a, size_t b) { return a < b ? a : b; }

// No formula begins with another one, so those that agree as far as both go are equal.
static int by_bytes(const void *a, const void *b)
{
    const formula *f = a, *g = b;
    return memcmp(f->bytes, g->bytes, lesser(f->length, g->length));
}

static void sort(side *s)
{
    uint32_t kept = 1;
    if (s->count < 2)
        return;
    qsort(s->formulas, s->count, sizeof *s->formulas, by_bytes);
    for (uint32_t i = 1; i < s->count; i++)
        if (by_bytes(&s->formulas[kept - 1], &s->formulas[i]))
            s->formulas[kept++] = s->formulas[i];
    s->count = kept;
}

uint32_t peer_sorted_spell(const uint8_t *question, size_t length, uint8_t *buffer, size_t room, uint64_t out[1])
{
    side sides[2];
    uint32_t number = read_sides(question, length, sides, out);
    if (number)
        return number;
    sort(&sides[0]);
    sort(&sides[1]);
    return write_sides(sides, buffer, room, out);
}

// The same order, byte by byte in place.
static inline int order(const formula *f, const formula *g)
{
    size_t last = lesser(f->length, g->length) - 1, i = 0;
    while (i < last && f->bytes[i] == g->bytes[i])
        i++;
    return f->bytes[i] - g->bytes[i];
}

// Each formula goes before the greater ones of those kept so far, unless its equal is among them.
static void insert_each(side *s)
{
    uint32_t kept = 0;
    for (uint32_t i = 0; i < s->count; i++) {
        formula f = s->formulas[i];
        uint32_t place = kept;
        int over = 1;
        while (place > 0 && (over = order(&f, &s->formulas[place - 1])) < 0)
            place--;
        if (over == 0)
            continue;
        for (uint32_t k = kept++; k > place; k--)
            s->formulas[k] = s->formulas[k - 1];
        s->formulas[place] = f;
    }
    s->count = kept;
}

uint32_t peer_insertion_spell(const uint8_t *question, size_t length, uint8_t *buffer, size_t room, uint64_t out[1])
{
    side sides[2];
    uint32_t number = read_sides(question, length, sides, out);
    if (number)
        return number;
    insert_each(&sides[0]);
    insert_each(&sides[1]);
    return write_sides(sides, buffer, room, out);
}
