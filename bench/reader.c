// Document 01's reader with refusals 1 to 7.
#include "peer.h"
#include <string.h>

typedef struct {
    const uint8_t *bytes;
    uint32_t length, at, number;
    uint64_t letters, again; // those read so far, and those read more than once
} cursor;

static int refuse(cursor *c, uint32_t number, uint32_t place)
{
    c->number = number;
    c->at = place;
    return 0;
}

// One command with an operand, as 10 n and 20 n.
static int read_head(cursor *c, uint8_t command, uint32_t *count)
{
    if (c->at == c->length)
        return refuse(c, CUT, c->length);
    if (c->bytes[c->at] != command)
        return refuse(c, WRONG_COMMAND, c->at);
    if (++c->at == c->length)
        return refuse(c, CUT, c->length);
    *count = c->bytes[c->at];
    if (*count > MOST_A_SIDE)
        return refuse(c, MANY_FORMULAS, c->at);
    c->at++;
    return 1;
}

// The formulas of a side. `due` are those still expected, parts too; `waiting` the side's own not yet begun.
static int read_side(cursor *c, int side, reading *r)
{
    uint32_t due, waiting;
    if (!read_head(c, side ? RIGHT_SIDE : LEFT_SIDE, &due))
        return 0;
    r->formulas[side] = waiting = due;
    while (due > 0) {
        if (c->at == c->length)
            return refuse(c, CUT, c->length);
        if (due == waiting)
            r->starts[side][r->formulas[side] - waiting--] = c->at;
        uint8_t command = c->bytes[c->at];
        r->command[r->commands++] = c->at;
        if (command == LETTER) {
            if (c->at + 1 == c->length)
                return refuse(c, CUT, c->length);
            if (c->bytes[c->at + 1] >= LETTERS)
                return refuse(c, NO_SUCH_LETTER, c->at + 1);
            uint64_t letter = 1ull << c->bytes[c->at + 1];
            c->again |= c->letters & letter;
            c->letters |= letter;
            c->at += 2;
            due--;
        } else if (command >= NOT && command <= EQUIV) {
            if (r->connectives == MOST_CONNECTIVES)
                return refuse(c, MANY_CONNECTIVES, c->at);
            r->connectives++;
            c->at++;
            due += command != NOT;
        } else {
            return refuse(c, WRONG_COMMAND, c->at);
        }
    }
    return 1;
}

uint32_t peer_read(const uint8_t *question, size_t length, reading *r)
{
    r->number = TOO_LONG;
    r->place = MOST_BYTES;
    r->commands = r->connectives = 0;
    if (length > MOST_BYTES)
        return TOO_LONG;
    cursor c = { question, length, 0, 0, 0, 0 };
    if (read_side(&c, 0, r) && read_side(&c, 1, r) && c.at != length)
        refuse(&c, LEFT_OVER, c.at);
    r->place = c.at;
    r->again = c.again;
    return r->number = c.number;
}

static uint32_t stop(uint64_t out[2], uint32_t number, uint64_t place)
{
    out[0] = place;
    out[1] = 0;
    return number;
}

uint32_t peer_scan(const uint8_t *question, size_t length, uint64_t out[2])
{
    size_t at = 0;
    uint32_t connectives = 0;
    if (length > MOST_BYTES)
        return stop(out, TOO_LONG, MOST_BYTES);
    for (int side = 0; side < 2; side++) {
        if (at == length)
            return stop(out, CUT, length);
        if (question[at] != (side ? RIGHT_SIDE : LEFT_SIDE))
            return stop(out, WRONG_COMMAND, at);
        if (++at == length)
            return stop(out, CUT, length);
        uint32_t due = question[at];
        if (due > MOST_A_SIDE)
            return stop(out, MANY_FORMULAS, at);
        for (at++; due > 0;) {
            if (at == length)
                return stop(out, CUT, length);
            uint8_t command = question[at++];
            if (command == LETTER) {
                if (at == length)
                    return stop(out, CUT, length);
                if (question[at++] >= LETTERS)
                    return stop(out, NO_SUCH_LETTER, at - 1);
                due--;
            } else if (command >= NOT && command <= EQUIV) {
                if (connectives++ == MOST_CONNECTIVES)
                    return stop(out, MANY_CONNECTIVES, at - 1);
                due += command != NOT;
            } else {
                return stop(out, WRONG_COMMAND, at - 1);
            }
        }
    }
    return at == length ? stop(out, 0, 0) : stop(out, LEFT_OVER, at);
}

// From the last command back, with the starts of the formulas that wait for their connective.
void second_parts(const uint8_t *question, const reading *r, uint8_t second[MOST_BYTES])
{
    uint8_t starts[MOST_BYTES];
    uint32_t top = 0;
    for (int i = r->commands - 1; i >= 0; i--) {
        uint8_t at = r->command[i], command = question[at];
        if (command >= AND) {
            second[at] = starts[top - 2];
            top--;
        } else if (command == LETTER) {
            top++;
        }
        starts[top - 1] = at;
    }
}

enum { SLOTS = 128 };

// The compounds met so far, each once and numbered from 1 on.
typedef struct {
    uint8_t slot[SLOTS];                 // by hash: a number, or 0
    uint32_t node[MOST_CONNECTIVES + 1]; // the connective with the names of its parts
    uint8_t first[MOST_CONNECTIVES + 1]; // where it was met first
    uint32_t count;
} compounds;

static inline uint32_t number_of(compounds *c, uint32_t node, uint8_t at)
{
    uint32_t slot = node * 0x9e3779b1u >> 25;
    while (c->slot[slot] && c->node[c->slot[slot]] != node)
        slot = (slot + 1) % SLOTS;
    if (c->slot[slot])
        return c->slot[slot];
    c->slot[slot] = ++c->count;
    c->node[c->count] = node;
    c->first[c->count] = at;
    return c->count;
}

_Static_assert(MOST_AGAIN + MOST_SHARED <= 64, "the marks of 40 letters and 24 compounds fit one word");

// The letters met so far. Those that stand more than once are numbered from 0 on as they are met.
typedef struct {
    uint64_t met;
    uint8_t number[LETTERS];
    uint32_t count;
} letters;

// The letter's mark. There is no branch: which letters stand more than once is hard to foretell.
static inline uint64_t mark_of(letters *l, uint8_t letter, uint64_t again)
{
    uint32_t first = ~l->met >> letter & 1;
    uint64_t marked = again >> letter & 1;
    l->number[letter] |= -first & l->count;
    l->count += first & marked;
    l->met |= 1ull << letter;
    return marked << l->number[letter];
}

// As second_parts, with the names of the formulas that wait: a letter's own number, or LETTERS and a compound's number.
uint32_t parts_and_marks(const uint8_t *question, const reading *r, uint8_t second[MOST_BYTES], uint64_t mark[MOST_BYTES])
{
    compounds c;
    letters l = { 0 };
    uint8_t starts[MOST_BYTES], names[MOST_BYTES];
    uint32_t top = 0, shared = 0;
    memset(c.slot, 0, sizeof c.slot);
    c.count = 0;
    for (int i = r->commands - 1; i >= 0; i--) {
        uint8_t at = r->command[i], command = question[at];
        if (command == LETTER) {
            starts[top] = at;
            names[top++] = question[at + 1];
            mark[at] = mark_of(&l, question[at + 1], r->again);
            continue;
        }
        uint32_t node = command | names[top - 1] << 8;
        if (command != NOT) {
            second[at] = starts[top - 2];
            node |= names[top - 2] << 16;
            top--;
        }
        uint32_t number = number_of(&c, node, at);
        uint8_t first = c.first[number];
        if (first != at && !mark[first])
            mark[first] = 1ull << (MOST_AGAIN + shared++);
        mark[at] = first == at ? 0 : mark[first];
        starts[top - 1] = at;
        names[top - 1] = LETTERS + number;
    }
    return shared;
}
