// The run of the library in plain C, written by hand and unproved: the names of a sequent's formulas are lent in one
// list, and each premise is made in one pass into a new list, each of its places stored once.
#include "peer.h"
#include <stdbool.h>
#include <string.h>

// Which parts of the reduced compound go to a side: F is its first part, G its second.
enum { NONE, F, G, BOTH };

// The parts that go left in a premise, and those that go right.
typedef struct {
    uint8_t left, right;
} placing;

// The premises of each connective on the left and on the right. Where there is no second one, no part goes anywhere.
static const placing RULES[EQUIV + 1][2][2] = {
    [NOT] = { { { NONE, F } }, { { F, NONE } } },
    [AND] = { { { BOTH, NONE } }, { { NONE, F }, { NONE, G } } },
    [OR] = { { { F, NONE }, { G, NONE } }, { { NONE, BOTH } } },
    [IMPLIES] = { { { G, NONE }, { NONE, F } }, { { F, G } } },
    [EQUIV] = { { { BOTH, NONE }, { NONE, BOTH } }, { { F, G }, { G, F } } },
};

// The halves of a running sequent: how many formulas stand on each side, the letters among them, and the compounds that
// stand there or did, a bit each. The names of its formulas are lent beside it, those of the left first.
typedef struct {
    uint32_t count[2];
    uint64_t letters[2], compounds[2];
} sequent;

// The compound that is reduced: its place in the list, and the names of its parts.
typedef struct {
    uint32_t at;
    uint8_t f, g;
} reduction;

// A letter is named by itself, a compound by its node, above the letters, so that equal formulas have one name. A node
// is the connective with the names of its parts.
typedef struct {
    const uint8_t *question;
    size_t at; // what is named next
    uint32_t nodes[MOST_CONNECTIVES], count;
    uint64_t unspent, closings, state;
    uint32_t number;
    bool refuted;
} run;

static inline void mark(sequent *s, int side, uint8_t name)
{
    uint64_t bit = 1ull << name % LETTERS;
    if (name < LETTERS)
        s->letters[side] |= bit;
    else
        s->compounds[side] |= bit;
}

// Whether a compound stands on both sides.
static bool finds_twins(const sequent *s, const uint8_t *names)
{
    uint32_t all = s->count[0] + s->count[1];
    for (uint32_t i = 0; i < s->count[0]; i++)
        for (uint32_t j = s->count[0]; names[i] >= LETTERS && j < all; j++)
            if (names[i] == names[j])
                return true;
    return false;
}

// Where the sets of compounds meet, the compound may be gone from a side.
static inline bool closes(const sequent *s, const uint8_t *names)
{
    return (s->letters[0] & s->letters[1]) || ((s->compounds[0] & s->compounds[1]) && finds_twins(s, names));
}

static inline uint8_t *copy(uint8_t *to, const uint8_t *from, const uint8_t *end)
{
    memcpy(to, from, end - from);
    return to + (end - from);
}

static inline uint8_t *put(sequent *s, int side, uint8_t *to, uint8_t parts, reduction x)
{
    if (parts & F) {
        *to++ = x.f;
        mark(s, side, x.f);
    }
    if (parts & G) {
        *to++ = x.g;
        mark(s, side, x.g);
    }
    return to;
}

// Makes a premise of s, and its names from the old ones. The parts that stay on the compound's side take its place, the
// others go to the end of the other side.
static inline void premise_left(sequent *s, const uint8_t *old, uint8_t *new, placing p, reduction x)
{
    const uint8_t *end = old + s->count[0] + s->count[1];
    uint8_t *to = put(s, 0, copy(new, old, old + x.at), p.left, x);
    uint32_t lefts = to - new + s->count[0] - x.at - 1;
    to = put(s, 1, copy(to, old + x.at + 1, end), p.right, x);
    s->count[0] = lefts;
    s->count[1] = to - new - lefts;
}

static inline void premise_right(sequent *s, const uint8_t *old, uint8_t *new, placing p, reduction x)
{
    const uint8_t *right = old + s->count[0], *end = right + s->count[1];
    uint8_t *to = put(s, 0, copy(new, old, right), p.left, x);
    uint32_t lefts = to - new;
    to = put(s, 1, copy(to, right, old + x.at), p.right, x);
    to = copy(to, old + x.at + 1, end);
    s->count[0] = lefts;
    s->count[1] = to - new - lefts;
}

// All formulas are letters; those on the left are true.
static bool open_sequent(run *r, const sequent *s)
{
    r->refuted = true;
    r->state = s->letters[0];
    return false;
}

// The test before a reduction: SPENT.
static inline bool may_reduce(run *r)
{
    if (r->unspent == 0) {
        r->number = SPENT;
        return false;
    }
    r->unspent--;
    return true;
}

// Whether every sequent from s on closes. Before place `from` of the list stand letters alone.
static bool prove(run *r, const sequent *s, const uint8_t *names, uint32_t from)
{
    if (closes(s, names)) {
        r->closings++;
        return true;
    }
    uint32_t all = s->count[0] + s->count[1], at = from;
    while (at < all && names[at] < LETTERS)
        at++;
    if (at == all)
        return open_sequent(r, s);
    if (!may_reduce(r))
        return false;
    uint32_t node = r->nodes[names[at] - LETTERS];
    reduction x = { at, node >> 8, node >> 16 };
    bool right = at >= s->count[0];
    const placing *rule = RULES[node & 0xff][right];
    for (int k = 0; k < 2 && (rule[k].left | rule[k].right); k++) {
        uint8_t new[MOST_FORMULAS];
        sequent p = *s;
        if (right)
            premise_right(&p, names, new, rule[k], x);
        else
            premise_left(&p, names, new, rule[k], x);
        if (!prove(r, &p, new, right ? s->count[0] : at))
            return false;
    }
    return true;
}

// The name of the next formula, with the nodes of its compounds noted.
static uint8_t name(run *r)
{
    uint8_t command = r->question[r->at++];
    if (command == LETTER)
        return r->question[r->at++];
    uint8_t f = name(r), g = command == NOT ? f : name(r);
    uint32_t node = command | f << 8 | g << 16, i = 0;
    while (i < r->count && r->nodes[i] != node)
        i++;
    if (i == r->count)
        r->nodes[r->count++] = node;
    return LETTERS + i;
}

static void begin(run *r, sequent *s, uint8_t *names)
{
    uint32_t all = 0;
    for (int side = 0; side < 2; side++) {
        r->at++;
        s->count[side] = r->question[r->at++];
        for (uint32_t i = 0; i < s->count[side]; i++) {
            names[all] = name(r);
            mark(s, side, names[all++]);
        }
    }
}

uint32_t peer_premises_decide(const uint8_t *question, size_t length, uint64_t budget, uint64_t out[4])
{
    out[2] = out[3] = 0;
    uint32_t refusal = peer_scan(question, length, out);
    if (refusal)
        return refusal;
    run r;
    r.question = question;
    r.at = r.count = 0;
    r.unspent = budget;
    r.closings = r.state = r.number = r.refuted = 0;
    sequent s = { 0 };
    uint8_t names[MOST_FORMULAS];
    begin(&r, &s, names);
    prove(&r, &s, names, 0);
    out[0] = r.refuted;
    out[1] = r.state;
    out[2] = budget - r.unspent;
    out[3] = r.closings;
    return r.number;
}
