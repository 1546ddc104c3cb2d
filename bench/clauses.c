// gekunday_clauses beside its peers and gekunday_decide: whether all agree, then their times.
#include "bench.h"
#include <gekunday.h>
#include <stdlib.h>
#include <string.h>

#ifdef WITH_CLANG
clauses peer_units_clauses_clang, peer_onepass_clauses_clang;
#endif

#ifdef WITH_BEFORE
clauses before_clauses;
#endif

static const struct {
    const char *name;
    clauses *clauses; // none for gekunday_decide
    int who;          // a peer in one of its builds, OURS, BEFORE or DECIDE_CALL
} deciders[] = {
    { "gekunday", gekunday_clauses, OURS },
    { "peer_units (" CC_NAME ")", peer_units_clauses, UNITS },
#ifdef WITH_BEFORE
    { "before", before_clauses, BEFORE },
#endif
    { "gekunday_decide", 0, DECIDE_CALL },
    { "peer_onepass (" CC_NAME ")", peer_onepass_clauses, ONEPASS },
#ifdef WITH_CLANG
    { "peer_units (clang)", peer_units_clauses_clang, UNITS },
    { "peer_onepass (clang)", peer_onepass_clauses_clang, ONEPASS },
#endif
};
enum { DECIDERS = sizeof deciders / sizeof *deciders };

// Agreement

typedef struct {
    uint32_t number;
    uint64_t words[3];
} answer;

static void write_answer(const char *before, const answer *a)
{
    fprintf(stderr, "%s %u", before, a->number);
    for (int i = 0; i < 3; i++)
        fprintf(stderr, " %llu", (unsigned long long)a->words[i]);
}

static void disagree(const char *name, const question *q, const answer *given, const answer *due)
{
    fprintf(stderr, "bench: DISAGREEMENT of %s on clauses:", name);
    write_answer("", given);
    write_answer(", due", due);
    fprintf(stderr, "\nquestion:");
    write_bytes(stderr, q);
    exit(1);
}

static answer ask(clauses *f, const uint8_t *bytes, size_t length)
{
    answer a = { 0, { 7, 7, 7 } };
    a.number = f(bytes, length, a.words);
    return a;
}

// Number and all words.
static void hold_bytes(const uint8_t *bytes, size_t length, const answer *due, const question *shown)
{
    for (int k = 0; k < DECIDERS; k++) {
        if (!deciders[k].clauses)
            continue;
        answer given = ask(deciders[k].clauses, bytes, length);
        if (given.number != due->number || memcmp(given.words, due->words, sizeof due->words))
            disagree(deciders[k].name, shown, &given, due);
    }
}

static void hold(const question *q, const answer *due) { hold_bytes(q->bytes, q->length, due, q); }

// gekunday_decide has the same verdict, and in its state each letter of the least one is true.
static void check_decide(const question *q, const answer *due)
{
    uint64_t size[2], out[4];
    gekunday_width(q->bytes, q->length, size);
    uint32_t number = gekunday_decide(q->bytes, q->length, size[0] * size[1], out);
    answer given = { number, { out[0], out[1] } };
    if (number || out[0] != due->words[0] || (due->words[1] & ~out[1]))
        disagree("gekunday_decide", q, &given, due);
}

// With at most 16 letters: the least state is the first of all that refute, and in each of them its letters are true.
static void check_least(const question *q, const answer *due)
{
    static uint64_t states[MOST_STATES];
    uint64_t count[1], common = ~0ull;
    if (peer_levels_states(q->bytes, q->length, states, MOST_STATES, count))
        return;
    for (uint64_t i = 0; i < count[0]; i++)
        common &= states[i];
    answer given = { 0, { count[0] > 0, count[0] > 0 ? states[0] : 0 } };
    if (given.words[0] != due->words[0] || given.words[1] != due->words[1] || (count[0] > 0 && common != states[0]))
        disagree("the list of states", q, &given, due);
}

// All answer what peer_units does and, if the clauses are decided, what the tree and all states say.
static void check_question(const question *q)
{
    answer due = ask(peer_units_clauses, q->bytes, q->length);
    hold(q, &due);
    if (due.number)
        return;
    check_decide(q, &due);
    check_least(q, &due);
}

// Some cases worked out by hand.
static void check_cases(void)
{
    static const struct {
        question question;
        answer due;
    } cases[] = {
        { { { 0x10, 0, 0x20, 0 }, 4 }, { 0, { 1, 0, 0 } } },
        { { { 0x10, 1, 1, 63, 0x20, 0 }, 6 }, { 0, { 1, 1ull << 63, 1 } } },
        { { { 0x10, 1, 2, 1, 5, 0x20, 0 }, 7 }, { 0, { 1, 0, 0 } } },
        { { { 0x10, 2, 1, 5, 2, 1, 5, 0x20, 0 }, 9 }, { 0, { 0, 0, 1 } } },
        { { { 0x10, 1, 4, 2, 1, 5, 1, 5, 0x20, 0 }, 10 }, { 0, { 1, 0, 0 } } },
        // One letter from the other, in both orders: a round goes by the letters that were true before it.
        { { { 0x10, 2, 4, 2, 1, 0, 1, 37, 1, 0, 0x20, 0 }, 12 }, { 0, { 1, 1ull << 37 | 1, 2 } } },
        { { { 0x10, 2, 1, 0, 4, 2, 1, 0, 1, 37, 0x20, 0 }, 12 }, { 0, { 1, 1ull << 37 | 1, 2 } } },
        // A letter that is there already, and one that does not follow.
        { { { 0x10, 4, 1, 0, 1, 0, 4, 1, 0, 2, 1, 0, 4, 2, 1, 2, 1, 1, 0x20, 0 }, 20 }, { 0, { 1, 1, 1 } } },
        // Two letters under NOT: both are needed.
        { { { 0x10, 2, 4, 4, 2, 1, 0, 2, 1, 1, 1, 2, 1, 0, 0x20, 0 }, 16 }, { 0, { 1, 1, 1 } } },
        { { { 0x10, 3, 4, 4, 2, 1, 0, 2, 1, 1, 1, 2, 1, 0, 1, 1, 0x20, 0 }, 18 }, { 0, { 1, 7, 2 } } },
        // The rounds go on where a clause is false after the first.
        { { { 0x10, 4, 1, 0, 2, 1, 0, 4, 2, 1, 0, 1, 1, 4, 1, 2, 2, 1, 1, 0x20, 0 }, 21 }, { 0, { 0, 0, 3 } } },
        { { { 0x10, 2, 4, 2, 1, 9, 2, 1, 9, 1, 9, 0x20, 0 }, 13 }, { 0, { 0, 0, 1 } } },
        // Refusals, and which comes first.
        { { { 0x10, 0, 0x20, 1, 1, 0 }, 6 }, { RIGHT_FORMULA, { 4 } } },
        { { { 0x10, 1, 2, 2, 1, 0, 0x20, 2, 1, 1, 1, 2 }, 12 }, { RIGHT_FORMULA, { 8 } } },
        { { { 0x10, 2, 1, 0, 3, 1, 0, 1, 1, 0x20, 0 }, 11 }, { NOT_CLAUSE, { 4 } } },
        { { { 0x10, 2, 1, 0, 4, 1, 7, 1, 7, 0x20, 0 }, 11 }, { MANY_POSITIVE, { 4 } } },
        { { { 0x10, 2, 4, 1, 0, 1, 1, 2, 2, 1, 0, 0x20, 0 }, 13 }, { MANY_POSITIVE, { 2 } } },
        { { { 0x10, 2, 2, 2, 1, 0, 4, 1, 0, 1, 1, 0x20, 0 }, 13 }, { NOT_CLAUSE, { 2 } } },
        { { { 0x10, 1, 2, 2, 1, 64, 0x20, 0 }, 8 }, { NO_SUCH_LETTER, { 5 } } },
        { { { 0x10, 0, 0x20, 1, 1, 0, 1 }, 7 }, { LEFT_OVER, { 6 } } },
        { { { 0x10, 17, 0x20, 0 }, 4 }, { MANY_FORMULAS, { 1 } } },
        { { { 0 }, 0 }, { CUT, { 0 } } },
    };
    for (size_t i = 0; i < sizeof cases / sizeof *cases; i++)
        hold(&cases[i].question, &cases[i].due);
}

// One byte more than a question can have.
static void check_too_long(void)
{
    static const uint8_t bytes[MOST_BYTES + 1];
    static const question shown = { { 0 }, MOST_BYTES };
    static const answer due = { TOO_LONG, { MOST_BYTES } };
    hold_bytes(bytes, sizeof bytes, &due, &shown);
}

// Formulas that are not clauses of the profile, with the number due.
typedef struct {
    uint32_t number;
    int length;
    uint8_t bytes[10];
} miss;

static const miss misses[] = {
    { NOT_CLAUSE, 4, { 2, 2, 1, 5 } },
    { NOT_CLAUSE, 5, { 3, 1, 5, 1, 9 } },
    { NOT_CLAUSE, 6, { 5, 1, 5, 2, 1, 9 } },
    { NOT_CLAUSE, 5, { 6, 1, 5, 1, 5 } },
    { NOT_CLAUSE, 6, { 2, 4, 1, 5, 1, 9 } },
    { NOT_CLAUSE, 7, { 4, 1, 5, 2, 2, 1, 9 } },
    { NOT_CLAUSE, 10, { 4, 2, 1, 5, 3, 2, 1, 9, 1, 9 } },
    { NOT_CLAUSE, 10, { 4, 4, 1, 5, 1, 9, 2, 2, 1, 5 } }, // and two letters without NOT
    { MANY_POSITIVE, 5, { 4, 1, 5, 1, 5 } },
    { MANY_POSITIVE, 5, { 4, 1, 63, 1, 5 } },
    { MANY_POSITIVE, 9, { 4, 4, 2, 1, 5, 1, 5, 1, 9 } },
    { MANY_POSITIVE, 9, { 4, 1, 5, 4, 2, 1, 9, 1, 5 } },
};
enum { MISSES = sizeof misses / sizeof *misses };

// The question with a miss in place of its bytes from a start to an end.
static question replaced(const question *q, int start, int end, const miss *m)
{
    question other = { .length = q->length - (end - start) + m->length };
    memcpy(other.bytes, q->bytes, start);
    memcpy(other.bytes + start, m->bytes, m->length);
    memcpy(other.bytes + start + m->length, q->bytes + end, q->length - end);
    return other;
}

// The number and place due, unless a connective too many is read before.
static void hold_refusal(const question *q, uint32_t number, uint64_t place)
{
    uint64_t out[2];
    uint32_t refusal = peer_scan(q->bytes, q->length, out);
    answer due = { refusal ? refusal : number, { refusal ? out[0] : place } };
    hold(q, &due);
}

// The same with a letter on the right, where there was none: this comes first.
static void hold_misses(const question *q, uint32_t number, uint64_t place)
{
    question right = *q;
    hold_refusal(q, number, place);
    right.bytes[right.length - 1] = 1;
    right.bytes[right.length++] = LETTER;
    right.bytes[right.length++] = place % LETTERS;
    hold_refusal(&right, RIGHT_FORMULA, q->length);
}

// A miss in the last formula's place, then one more before it: the first decides.
static void check_misses(const question *q, int i)
{
    reading r;
    peer_read(q->bytes, q->length, &r);
    int last = r.formulas[0] - 1, place = i % last;
    int behind = r.starts[0][last], start = r.starts[0][place], end = r.starts[0][place + 1];
    for (int m = 0; m < MISSES; m++) {
        const miss *first = &misses[m], *second = &misses[(m + i) % MISSES];
        question one = replaced(q, behind, q->length - 2, second), two = replaced(&one, start, end, first);
        hold_misses(&one, second->number, behind);
        hold_misses(&two, first->number, start);
    }
}

// Each question, with misses, and with one byte changed.
static void check_clauses_set(const question_set *set)
{
    for (int i = 0; i < set->count; i++) {
        question q = set->questions[i];
        check_question(&q);
        check_misses(&q, i);
        q.bytes[i * 7 % q.length] = i * 37 % DAMAGES;
        check_question(&q);
    }
}

// The other sets: each question has a formula on the right.
static void check_other_set(const question_set *set)
{
    for (int i = 0; i < set->count; i++) {
        const question *q = &set->questions[i];
        reading r;
        peer_read(q->bytes, q->length, &r);
        hold_refusal(q, RIGHT_FORMULA, r.starts[1][0]);
    }
}

void check_clauses(const results *r)
{
    check_cases();
    check_too_long();
    for (int s = 0; s < CLAUSES_SETS; s++)
        check_clauses_set(&r->clauses[s]);
    for (int s = 0; s < SPELLED_SETS; s++)
        check_other_set(r->spelled[s]);
}

// Timing

static int pass(int k, const question_set *set)
{
    clauses *f = deciders[k].clauses;
    for (int i = 0; i < set->count; i++) {
        const question *q = &set->questions[i];
        uint64_t out[4];
        if (f)
            f(q->bytes, q->length, out);
        else
            gekunday_decide(q->bytes, q->length, BUDGET, out);
    }
    return deciders[k].who;
}

void time_clauses(results *r)
{
    for (int s = 0; s < CLAUSES_SETS; s++)
        r->clauses_times[s] = time_passes(pass, DECIDERS, &r->clauses[s], r->rounds);
}
