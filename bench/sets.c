// Document 01's tree, closed on equal formulas as 02's c asks, with the running sequent as sets of connectives: nothing is
// copied from list to list.
//
// Number the connectives of the question by place. Letters matter only as the set of each side, so a side is a list of
// compound formulas, each named by its connective's number. On the left that list is always in rising order: parts that
// keep their side take their formula's place, and a formula comes to the left only while no compound is there, one at a
// time. So the left is a set of 64 bits whose lowest is due. The right is such a set too, what is left of its first
// formula, and after it a queue. A premise writes only behind the queue's end, so what waits for its turn stays as it was.
// Beside them each side has the marks of the letters and compounds that stand on it, and the left its letters.
#include "peer.h"
#include <stdbool.h>
#include <string.h>

typedef struct {
    uint64_t left, first;       // compound formulas: of the left, and of the right before the queue
    uint64_t letters;           // of the left: the state, if the sequent is open
    uint64_t marks[2];          // of the formulas that stand on each side; it closes where they meet
    uint8_t from, to;           // the queue's bounds
} sequent;

typedef struct {
    uint64_t left, first, letters;
    uint64_t marks[2];
    uint8_t behind[2], count; // to the queue
} placements;

typedef struct {
    placements premise[2];
    uint64_t mark; // the reduced formula's
    uint8_t premises;
} rule;

typedef struct {
    sequent reduced;
    const placements *second;
} pending;

typedef struct {
    const uint8_t *question;
    uint8_t second[MOST_BYTES], number[MOST_BYTES];
    uint64_t mark[MOST_BYTES], equal[MOST_SHARED]; // by place; and by a compound's mark the connectives that have it
    rule rules[MOST_CONNECTIVES][2];
    uint8_t queue[MOST_BYTES];
} tables;

// Where a part goes: left, right in the reduced formula's place, or the right's end.
enum { TO_LEFT, TO_RIGHT, TO_END };

static inline void put(const tables *t, placements *p, uint8_t f, int where)
{
    p->marks[where != TO_LEFT] |= t->mark[f];
    if (t->question[f] == LETTER) {
        if (where == TO_LEFT)
            p->letters |= 1ull << t->question[f + 1];
    } else if (where == TO_LEFT) {
        p->left |= 1ull << t->number[f];
    } else if (where == TO_RIGHT) {
        p->first |= 1ull << t->number[f];
    } else {
        p->behind[p->count++] = t->number[f];
    }
}

static inline void begin(rule *x, uint64_t mark)
{
    x->premise[0] = x->premise[1] = (placements){ 0 };
    x->mark = mark;
    x->premises = 1;
}

static void rules_of(tables *t, uint8_t at)
{
    rule *l = &t->rules[t->number[at]][0], *r = &t->rules[t->number[at]][1];
    uint8_t f = at + 1, g = t->second[at];
    begin(l, t->mark[at]);
    begin(r, t->mark[at]);
    switch (t->question[at]) {
    case NOT:
        put(t, &l->premise[0], f, TO_END);
        put(t, &r->premise[0], f, TO_LEFT);
        break;
    case AND:
        put(t, &l->premise[0], f, TO_LEFT), put(t, &l->premise[0], g, TO_LEFT);
        put(t, &r->premise[0], f, TO_RIGHT), put(t, &r->premise[1], g, TO_RIGHT);
        r->premises = 2;
        break;
    case OR:
        put(t, &l->premise[0], f, TO_LEFT), put(t, &l->premise[1], g, TO_LEFT);
        put(t, &r->premise[0], f, TO_RIGHT), put(t, &r->premise[0], g, TO_RIGHT);
        l->premises = 2;
        break;
    case IMPLIES:
        put(t, &l->premise[0], g, TO_LEFT), put(t, &l->premise[1], f, TO_END);
        put(t, &r->premise[0], f, TO_LEFT), put(t, &r->premise[0], g, TO_RIGHT);
        l->premises = 2;
        break;
    default:
        put(t, &l->premise[0], f, TO_LEFT), put(t, &l->premise[0], g, TO_LEFT);
        put(t, &l->premise[1], f, TO_END), put(t, &l->premise[1], g, TO_END);
        put(t, &r->premise[0], f, TO_LEFT), put(t, &r->premise[0], g, TO_RIGHT);
        put(t, &r->premise[1], g, TO_LEFT), put(t, &r->premise[1], f, TO_RIGHT);
        l->premises = r->premises = 2;
    }
}

static inline sequent placed(tables *t, sequent s, const placements *p)
{
    s.left |= p->left;
    s.first |= p->first;
    s.letters |= p->letters;
    s.marks[0] |= p->marks[0];
    s.marks[1] |= p->marks[1];
    t->queue[s.to] = p->behind[0];
    t->queue[s.to + 1] = p->behind[1];
    s.to += p->count;
    return s;
}

// The connectives that have the mark of the formula reduced.
static inline uint64_t equal_to(const tables *t, const rule *due)
{
    return t->equal[__builtin_ctzll(due->mark) - MOST_AGAIN];
}

// Whether one of these connectives is in the queue.
static bool queued(const tables *t, int from, int to, uint64_t connectives)
{
    while (from < to && !(connectives >> t->queue[from] & 1))
        from++;
    return from < to;
}

// Takes the due formula out of the sequent and answers its rule, or none if the sequent is open. Its mark goes with it
// unless an equal formula still stands on that side.
static inline const rule *due_rule(const tables *t, sequent *s)
{
    const rule *due;
    if (s->left) {
        due = &t->rules[__builtin_ctzll(s->left)][0];
        s->left &= s->left - 1;
        if (due->mark && !(s->left & equal_to(t, due)))
            s->marks[0] ^= due->mark;
        return due;
    }
    if (s->first) {
        due = &t->rules[__builtin_ctzll(s->first)][1];
        s->first &= s->first - 1;
    } else if (s->from < s->to) {
        due = &t->rules[t->queue[s->from++]][1];
    } else {
        return 0;
    }
    if (due->mark && !(s->first & equal_to(t, due)) && !queued(t, s->from, s->to, equal_to(t, due)))
        s->marks[1] ^= due->mark;
    return due;
}

static uint32_t prove(tables *t, sequent s, uint64_t budget, uint64_t out[4])
{
    pending waiting[MOST_CONNECTIVES];
    uint32_t depth = 0, number = 0;
    uint64_t reductions = 0, closings = 0;
    for (;;) {
        if (s.marks[0] & s.marks[1]) {
            closings++;
            if (depth == 0)
                break;
            depth--;
            s = placed(t, waiting[depth].reduced, waiting[depth].second);
            continue;
        }
        const rule *due = due_rule(t, &s);
        if (!due) {
            out[0] = 1, out[1] = s.letters;
            break;
        }
        if (reductions == budget) {
            number = SPENT;
            break;
        }
        reductions++;
        if (due->premises == 2)
            waiting[depth++] = (pending){ s, &due->premise[1] };
        s = placed(t, s, &due->premise[0]);
    }
    out[2] = reductions;
    out[3] = closings;
    return number;
}

static sequent root(tables *t, const reading *read)
{
    placements p = { 0 };
    for (int i = 0; i < read->formulas[0]; i++)
        put(t, &p, read->starts[0][i], TO_LEFT);
    for (int i = 0; i < read->formulas[1]; i++)
        put(t, &p, read->starts[1][i], TO_RIGHT);
    return placed(t, (sequent){ 0 }, &p);
}

// The connectives of the formula at a place.
static int connectives_at(const uint8_t *question, uint8_t at)
{
    int connectives = 0;
    for (int due = 1; due > 0; at++) {
        if (question[at] == LETTER) {
            at++;
            due--;
        } else {
            connectives++;
            due += question[at] != NOT;
        }
    }
    return connectives;
}

// Numbers the connectives and notes which have the same mark; a compound with fewer connectives than `least` loses its own.
static inline void number_connectives(tables *t, const reading *read, int least)
{
    for (int i = 0, n = 0; i < read->commands; i++) {
        uint8_t at = read->command[i];
        if (t->question[at] == LETTER)
            continue;
        if (least > 0 && t->mark[at] && connectives_at(t->question, at) < least)
            t->mark[at] = 0;
        if (t->mark[at])
            t->equal[__builtin_ctzll(t->mark[at]) - MOST_AGAIN] |= 1ull << n;
        t->number[at] = n++;
    }
}

uint32_t peer_sets_closing(const uint8_t *question, size_t length, uint64_t budget, int least, uint64_t out[4])
{
    reading read;
    tables t;
    out[0] = out[1] = out[2] = out[3] = 0;
    if (peer_read(question, length, &read)) {
        out[0] = read.place;
        return read.number;
    }
    t.question = question;
    uint32_t shared = parts_and_marks(question, &read, t.second, t.mark);
    memset(t.equal, 0, shared * sizeof *t.equal);
    number_connectives(&t, &read, least);
    for (int i = 0; i < read.commands; i++)
        if (question[read.command[i]] != LETTER)
            rules_of(&t, read.command[i]);
    return prove(&t, root(&t, &read), budget, out);
}

uint32_t peer_sets_decide(const uint8_t *question, size_t length, uint64_t budget, uint64_t out[4])
{
    return peer_sets_closing(question, length, budget, 0, out);
}
