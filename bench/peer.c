// Document 01's tree, closed on equal formulas as 02's c asks, written by hand and unproved, twice over the same running
// sequent: `peer_value` copies it for each premise; `peer_best` changes it in place, copies only where a rule has two
// premises, and carries along how far each side is letters only.
#include "peer.h"
#include <stdbool.h>
#include <string.h>

// Formulas are start places in the question: the left side from the front, the right side from the back.
typedef struct {
    uint8_t items[MOST_FORMULAS];
    uint64_t marks[2]; // of the formulas that stand on each side; it closes where they meet
    uint8_t left, right;
    uint8_t left_letters_to, right_letters_to; // peer_best only: all before these places are letters
} sequent;

typedef struct {
    const uint8_t *question;
    uint8_t second[MOST_BYTES];
    uint64_t mark[MOST_BYTES];
    uint64_t budget, reductions, closings, state;
    uint32_t number;
    bool refuted;
} run;

static inline void mark(const run *r, sequent *s, int side, uint8_t f) { s->marks[side] |= r->mark[f]; }

static inline void append_left(const run *r, sequent *s, uint8_t f)
{
    s->items[s->left++] = f;
    mark(r, s, 0, f);
}

static inline void append_right(const run *r, sequent *s, uint8_t f)
{
    s->items[MOST_FORMULAS - 1 - s->right++] = f;
    mark(r, s, 1, f);
}

static inline void replace_left(const run *r, sequent *s, int at, uint8_t f)
{
    s->items[at] = f;
    mark(r, s, 0, f);
}

static inline void replace_right(const run *r, sequent *s, int at, uint8_t f)
{
    s->items[MOST_FORMULAS - 1 - at] = f;
    mark(r, s, 1, f);
}

static inline void replace_two_left(const run *r, sequent *s, int at, uint8_t f, uint8_t g)
{
    uint8_t *p = s->items + at;
    memmove(p + 2, p + 1, s->left - at - 1);
    s->left++;
    replace_left(r, s, at, f);
    replace_left(r, s, at + 1, g);
}

static inline void replace_two_right(const run *r, sequent *s, int at, uint8_t f, uint8_t g)
{
    uint8_t *last = s->items + MOST_FORMULAS - s->right;
    memmove(last - 1, last, s->right - at - 1);
    s->right++;
    replace_right(r, s, at, f);
    replace_right(r, s, at + 1, g);
}

static inline void remove_left(sequent *s, int at)
{
    uint8_t *p = s->items + at;
    memmove(p, p + 1, s->left - at - 1);
    s->left--;
}

static inline void remove_right(sequent *s, int at)
{
    uint8_t *last = s->items + MOST_FORMULAS - s->right;
    memmove(last + 1, last, s->right - at - 1);
    s->right--;
}

static inline int first_compound_left(const run *r, const sequent *s, int from)
{
    while (from < s->left && r->question[s->items[from]] == LETTER)
        from++;
    return from;
}

static inline int first_compound_right(const run *r, const sequent *s, int from)
{
    while (from < s->right && r->question[s->items[MOST_FORMULAS - 1 - from]] == LETTER)
        from++;
    return from;
}

// The first premise of the reduction of x at its place, or the second.
static inline void premise_left(const run *r, sequent *s, int at, uint8_t x, bool second)
{
    uint8_t f = x + 1, g = r->second[x];
    switch (r->question[x]) {
    case NOT:
        remove_left(s, at);
        append_right(r, s, f);
        break;
    case AND:
        replace_two_left(r, s, at, f, g);
        break;
    case OR:
        replace_left(r, s, at, second ? g : f);
        break;
    case IMPLIES:
        if (!second) {
            replace_left(r, s, at, g);
        } else {
            remove_left(s, at);
            append_right(r, s, f);
        }
        break;
    default:
        if (!second) {
            replace_two_left(r, s, at, f, g);
        } else {
            remove_left(s, at);
            append_right(r, s, f);
            append_right(r, s, g);
        }
    }
}

static inline void premise_right(const run *r, sequent *s, int at, uint8_t x, bool second)
{
    uint8_t f = x + 1, g = r->second[x];
    switch (r->question[x]) {
    case NOT:
        remove_right(s, at);
        append_left(r, s, f);
        break;
    case AND:
        replace_right(r, s, at, second ? g : f);
        break;
    case OR:
        replace_two_right(r, s, at, f, g);
        break;
    case IMPLIES:
        append_left(r, s, f);
        replace_right(r, s, at, g);
        break;
    default:
        append_left(r, s, second ? g : f);
        replace_right(r, s, at, second ? f : g);
    }
}

static bool stands_again(const run *r, const sequent *s, int side, int at, uint64_t mark)
{
    int count = side ? s->right : s->left;
    while (++at < count)
        if (r->mark[s->items[side ? MOST_FORMULAS - 1 - at : at]] == mark)
            return true;
    return false;
}

// The mark that goes with x, the first compound of its side, when it is reduced: none if an equal one stands there too.
static inline uint64_t leaving(const run *r, const sequent *s, int side, int at, uint8_t x)
{
    uint64_t mark = r->mark[x];
    return mark && !stands_again(r, s, side, at, mark) ? mark : 0;
}

static inline bool two_premises(uint8_t connective, int side)
{
    return connective == EQUIV || connective == (side ? AND : OR) || (connective == IMPLIES && !side);
}

// All formulas are letters; those on the left are true.
static bool open_sequent(run *r, const sequent *s)
{
    r->refuted = true;
    for (int i = 0; i < s->left; i++)
        r->state |= 1ull << r->question[s->items[i] + 1];
    return false;
}

// The test before a reduction: SPENT.
static inline bool may_reduce(run *r)
{
    if (r->reductions == r->budget) {
        r->number = SPENT;
        return false;
    }
    r->reductions++;
    return true;
}

// Whether every sequent from s on closes.
static bool prove_value(run *r, const sequent *s)
{
    if (s->marks[0] & s->marks[1]) {
        r->closings++;
        return true;
    }
    int at = first_compound_left(r, s, 0), side = at == s->left;
    if (side)
        at = first_compound_right(r, s, 0);
    if (side && at == s->right)
        return open_sequent(r, s);
    uint8_t x = s->items[side ? MOST_FORMULAS - 1 - at : at], connective = r->question[x];
    if (!may_reduce(r))
        return false;
    uint64_t leaves = leaving(r, s, side, at, x);
    for (int second = 0; second <= two_premises(connective, side); second++) {
        sequent p = *s;
        p.marks[side] ^= leaves;
        if (side)
            premise_right(r, &p, at, x, second);
        else
            premise_left(r, &p, at, x, second);
        if (!prove_value(r, &p))
            return false;
    }
    return true;
}

static bool prove_best(run *r, sequent *s)
{
    for (;;) {
        if (s->marks[0] & s->marks[1]) {
            r->closings++;
            return true;
        }
        int at = s->left_letters_to = first_compound_left(r, s, s->left_letters_to), side = at == s->left;
        if (side)
            at = s->right_letters_to = first_compound_right(r, s, s->right_letters_to);
        if (side && at == s->right)
            return open_sequent(r, s);
        uint8_t x = s->items[side ? MOST_FORMULAS - 1 - at : at], connective = r->question[x];
        if (!may_reduce(r))
            return false;
        bool two = two_premises(connective, side);
        s->marks[side] ^= leaving(r, s, side, at, x);
        if (two) {
            sequent p = *s;
            if (side)
                premise_right(r, &p, at, x, false);
            else
                premise_left(r, &p, at, x, false);
            if (!prove_best(r, &p))
                return false;
        }
        if (side)
            premise_right(r, s, at, x, two);
        else
            premise_left(r, s, at, x, two);
    }
}

static uint32_t begin(const uint8_t *question, size_t length, uint64_t budget, uint64_t out[4], run *r, sequent *s)
{
    reading read;
    out[0] = out[1] = out[2] = out[3] = 0;
    if (peer_read(question, length, &read)) {
        out[0] = read.place;
        return read.number;
    }
    r->question = question;
    r->budget = budget;
    r->reductions = r->closings = 0;
    r->number = r->state = r->refuted = 0;
    parts_and_marks(question, &read, r->second, r->mark);
    memset(s, 0, sizeof *s);
    for (int i = 0; i < read.formulas[0]; i++)
        append_left(r, s, read.starts[0][i]);
    for (int i = 0; i < read.formulas[1]; i++)
        append_right(r, s, read.starts[1][i]);
    return 0;
}

static uint32_t answer(const run *r, uint64_t out[4])
{
    out[0] = r->refuted;
    out[1] = r->state;
    out[2] = r->reductions;
    out[3] = r->closings;
    return r->number;
}

uint32_t peer_value_decide(const uint8_t *question, size_t length, uint64_t budget, uint64_t out[4])
{
    run r;
    sequent s;
    uint32_t refusal = begin(question, length, budget, out, &r, &s);
    if (refusal)
        return refusal;
    prove_value(&r, &s);
    return answer(&r, out);
}

uint32_t peer_best_decide(const uint8_t *question, size_t length, uint64_t budget, uint64_t out[4])
{
    run r;
    sequent s;
    uint32_t refusal = begin(question, length, budget, out, &r, &s);
    if (refusal)
        return refusal;
    prove_best(&r, &s);
    return answer(&r, out);
}
