// Clauses decided by unit clauses alone: each is two words, and a round goes over all of them.
#include "cursor.h"

typedef struct {
    uint64_t under, head; // its letters under NOT, and the one without, if there is one
} clause;

// The formulas of a side: where the first starts and, with its number, the first that is not a clause of the profile.
typedef struct {
    clause clauses[MOST_A_SIDE];
    uint32_t count, number;
    size_t start, place;
} side;

static inline void note(side *s, size_t start, clause c, uint32_t heads, bool other)
{
    s->clauses[s->count++] = c;
    if (s->number == 0 && (other || heads > 1)) {
        s->number = other ? NOT_CLAUSE : MANY_POSITIVE;
        s->place = start;
    }
}

static uint32_t refused(uint32_t number, uint64_t place, uint64_t out[3])
{
    out[0] = place;
    out[1] = out[2] = 0;
    return number;
}

static inline uint64_t is_met(clause c, uint64_t state) { return (c.under & ~state) == 0; }

static uint32_t run_rounds(const side *s, uint64_t out[3])
{
    uint64_t state = 0, next = 0, rounds = 0, fails = 0;
    for (;; state = next, rounds++) {
        for (uint32_t i = 0; i < s->count; i++)
            next |= s->clauses[i].head & -is_met(s->clauses[i], state);
        if (next == state)
            break;
    }
    for (uint32_t i = 0; i < s->count; i++)
        fails |= (s->clauses[i].head == 0) & is_met(s->clauses[i], state);
    out[0] = !fails;
    out[1] = fails ? 0 : state;
    out[2] = rounds;
    return 0;
}

static uint32_t answer(const side *left, const side *right, uint64_t out[3])
{
    if (right->count > 0)
        return refused(RIGHT_FORMULA, right->start, out);
    if (left->number)
        return refused(left->number, left->place, out);
    return run_rounds(left, out);
}

// Notes the formula at a place of an accepted question. The answer is where it ends.
static size_t walk(const uint8_t *question, size_t start, side *s)
{
    clause c = { 0, 0 };
    uint32_t heads = 0;
    bool other = false;
    size_t at = start;
    for (uint32_t due = 1; due > 0;) {
        uint8_t command = question[at++];
        if (command == LETTER) {
            c.head |= 1ull << question[at++];
            heads++;
            due--;
        } else if (command == NOT && question[at] == LETTER) {
            c.under |= 1ull << question[at + 1];
            at += 2;
            due--;
        } else {
            other |= command != OR;
            due += command != NOT;
        }
    }
    note(s, start, c, heads, other);
    return at;
}

uint32_t peer_units_clauses(const uint8_t *question, size_t length, uint64_t out[3])
{
    side left, right;
    size_t at = 2;
    uint32_t number = peer_scan(question, length, out);
    if (number)
        return refused(number, out[0], out);
    left.count = left.number = 0;
    while (left.count < question[1])
        at = walk(question, at, &left);
    right.count = question[at + 1];
    right.start = at + 2;
    return answer(&left, &right, out);
}

static inline bool read_letter(cursor *c, uint64_t *letters)
{
    if (c->at == c->length)
        return refuse(c, CUT, c->length);
    if (c->bytes[c->at] >= LETTERS)
        return refuse(c, NO_SUCH_LETTER, c->at);
    *letters |= 1ull << c->bytes[c->at++];
    return true;
}

// Reads a formula and notes it, NOT of a letter in one step.
static inline bool read_formula(cursor *c, side *s)
{
    clause noted = { 0, 0 };
    uint32_t heads = 0;
    bool other = false;
    size_t start = c->at;
    for (uint32_t due = 1; due > 0;) {
        if (c->at == c->length)
            return refuse(c, CUT, c->length);
        uint8_t command = c->bytes[c->at++];
        if (command == LETTER) {
            if (!read_letter(c, &noted.head))
                return false;
            heads++;
            due--;
        } else if (command < NOT || command > EQUIV) {
            return refuse(c, WRONG_COMMAND, c->at - 1);
        } else if (c->connectives++ == MOST_CONNECTIVES) {
            return refuse(c, MANY_CONNECTIVES, c->at - 1);
        } else if (command == NOT && c->at < c->length && c->bytes[c->at] == LETTER) {
            c->at++;
            if (!read_letter(c, &noted.under))
                return false;
            due--;
        } else {
            other |= command != OR;
            due += command != NOT;
        }
    }
    note(s, start, noted, heads, other);
    return true;
}

static inline bool read_side(cursor *c, uint8_t command, side *s)
{
    uint32_t formulas;
    if (!read_head(c, command, &formulas))
        return false;
    s->count = s->number = 0;
    s->start = c->at;
    while (s->count < formulas)
        if (!read_formula(c, s))
            return false;
    return true;
}

uint32_t peer_onepass_clauses(const uint8_t *question, size_t length, uint64_t out[3])
{
    side left, right;
    cursor c = { .bytes = question, .length = length };
    if (length > MOST_BYTES)
        refuse(&c, TOO_LONG, MOST_BYTES);
    else if (read_side(&c, LEFT_SIDE, &left) && read_side(&c, RIGHT_SIDE, &right) && c.at != length)
        refuse(&c, LEFT_OVER, c.at);
    return c.number ? refused(c.number, c.at, out) : answer(&left, &right, out);
}
