// How deep the library's calls go: on a thread whose stack is painted below the caller's frame.
#define _GNU_SOURCE
#include "bench.h"
#include <gekunday.h>
#include <pthread.h>
#include <stdlib.h>
#include <string.h>
#include <sys/mman.h>

enum { STACK = 1 << 20, PAINT = 0xa5, ROOM = 1 << 21 };

typedef enum { DECIDE, DERIVE, CHECK, WIDTH, STATES, SPELL, CLAUSES } call;

typedef struct {
    call call;
    const question *question;
    uint8_t *stack, *buffer;
    uint8_t spelling[MOST_BYTES];
    uint64_t *states;
    size_t length, depth;
} probe;

static void run_call(probe *p)
{
    uint64_t out[4];
    const uint8_t *bytes = p->question->bytes;
    size_t length = p->question->length;
    switch (p->call) {
    case DECIDE: gekunday_decide(bytes, length, BUDGET, out); break;
    case DERIVE: p->length = gekunday_derive(bytes, length, BUDGET, p->buffer, ROOM, out) ? 0 : out[0]; break;
    case CHECK: gekunday_check(bytes, length, p->buffer, p->length, out); break;
    case WIDTH: gekunday_width(bytes, length, out); break;
    case STATES: gekunday_states(bytes, length, p->states, MOST_STATES, out); break;
    case SPELL: gekunday_spell(bytes, length, p->spelling, MOST_BYTES, out); break;
    case CLAUSES: gekunday_clauses(bytes, length, out); break;
    }
}

static void *painted(void *argument)
{
    probe *p = argument;
    uint8_t *frame = __builtin_frame_address(0);
    volatile uint8_t *below = p->stack;
    while (below < frame - LEAST_DEPTH)
        *below++ = PAINT;
    run_call(p);
    below = p->stack;
    while (below < frame - LEAST_DEPTH && *below == PAINT)
        below++;
    p->depth = frame - (uint8_t *)below;
    return 0;
}

static size_t depth_of(probe *p)
{
    pthread_attr_t attributes;
    pthread_t thread;
    pthread_attr_init(&attributes);
    pthread_attr_setstack(&attributes, p->stack, STACK);
    if (pthread_create(&thread, &attributes, painted, p)) {
        fprintf(stderr, "bench: no thread for the stack probe\n");
        exit(1);
    }
    pthread_join(thread, 0);
    return p->depth;
}

static void note(stack_use *use, probe *p, call c)
{
    p->call = c;
    size_t depth = depth_of(p);
    use->questions++;
    if (depth > use->bytes)
        use->bytes = depth;
}

static void probe_question(probe *p, const question *q, stack_use stacks[CALLS])
{
    p->question = q;
    p->length = 0;
    note(&stacks[DECIDE], p, DECIDE);
    note(&stacks[DERIVE], p, DERIVE);
    if (p->length > 0)
        note(&stacks[CHECK], p, CHECK);
    note(&stacks[WIDTH], p, WIDTH);
    note(&stacks[STATES], p, STATES);
    note(&stacks[SPELL], p, SPELL);
    note(&stacks[CLAUSES], p, CLAUSES);
}

static void probe_call(probe *p, const question *q, call c, stack_use stacks[CALLS])
{
    p->question = q;
    note(&stacks[c], p, c);
}

static bool has_most_connectives(const question *q)
{
    reading r;
    return peer_read(q->bytes, q->length, &r) == 0 && r.connectives == MOST_CONNECTIVES;
}

static void probe_set(probe *p, const question_set *set, stack_use stacks[CALLS])
{
    for (int i = 0; i < set->count; i++)
        if (has_most_connectives(&set->questions[i]))
            probe_question(p, &set->questions[i], stacks);
}

static void put_literal(question *q, bool negated, int letter)
{
    if (negated)
        q->bytes[q->length++] = NOT;
    q->bytes[q->length++] = LETTER;
    q->bytes[q->length++] = letter;
}

// Connectives nested so deep, in the first part or the last, with a letter of their own innermost. The others can be under
// NOT.
static void put_nested(question *q, int connective, bool last, bool negated, int deep, int innermost)
{
    for (int i = 0; i < deep; i++) {
        q->bytes[q->length++] = connective;
        if (last && connective != NOT)
            put_literal(q, negated, i % 8);
    }
    put_literal(q, false, innermost);
    for (int i = 0; i < deep && !last && connective != NOT; i++)
        put_literal(q, negated, i % 8);
}

// 48 connectives nested as deep as they go: in one formula on the right, or 24 on each side. These two have different
// letters innermost, so that no compound stands in both, and both letters stand on the left too, so that it is a theorem.
static question nested(int connective, bool last, bool both)
{
    question q = { .length = 0 };
    q.bytes[q.length++] = LEFT_SIDE;
    q.bytes[q.length++] = both ? 3 : 0;
    if (both) {
        put_literal(&q, false, 8);
        put_literal(&q, false, 9);
        put_nested(&q, connective, last, false, MOST_CONNECTIVES / 2, 8);
    }
    q.bytes[q.length++] = RIGHT_SIDE;
    q.bytes[q.length++] = 1;
    put_nested(&q, connective, last, false, both ? MOST_CONNECTIVES / 2 : MOST_CONNECTIVES, 9);
    return q;
}

// OR nested on the left alone: 24 deep with NOT, which is a clause of 48 connectives, or 48 deep.
static question nested_clause(bool last, bool negated)
{
    question q = { { LEFT_SIDE, 1 }, 2 };
    put_nested(&q, OR, last, negated, negated ? MOST_CONNECTIVES / 2 : MOST_CONNECTIVES, 9);
    q.bytes[q.length++] = RIGHT_SIDE;
    q.bytes[q.length++] = 0;
    return q;
}

static void probe_clauses(probe *p, const results *r, stack_use stacks[CALLS])
{
    for (int way = 0; way < 4; way++) {
        question q = nested_clause(way & 1, way & 2);
        probe_call(p, &q, CLAUSES, stacks);
    }
    for (int s = 0; s < CLAUSES_SETS; s++)
        for (int i = 0; i < r->clauses[s].count; i += 19)
            probe_call(p, &r->clauses[s].questions[i], CLAUSES, stacks);
}

void probe_stacks(results *r)
{
    static const char *const names[] = { "gekunday_decide", "gekunday_derive", "gekunday_check", "gekunday_width",
                                         "gekunday_states", "gekunday_spell", "gekunday_clauses" };
    const question_set *listed = &r->listed, *longest = &r->longest, *repeats = &r->repeats;
    stack_use *stacks = r->stacks;
    probe p = { .stack = mmap(0, STACK, PROT_READ | PROT_WRITE, MAP_PRIVATE | MAP_ANONYMOUS, -1, 0),
                .buffer = malloc(ROOM), .states = malloc(MOST_STATES * sizeof(uint64_t)) };
    for (int i = 0; i < CALLS; i++)
        stacks[i] = (stack_use){ .call = names[i] };
    for (int connective = NOT; connective <= EQUIV; connective++)
        for (int way = 0; way < 4; way++) {
            question q = nested(connective, way & 1, way & 2);
            probe_question(&p, &q, stacks);
        }
    probe_set(&p, &r->sets[LIMITS], stacks);
    probe_set(&p, &r->sets[CONDITIONS], stacks);
    for (int i = 0; i < listed->count; i++)
        if (has_most_connectives(&listed->questions[i]))
            probe_call(&p, &listed->questions[i], STATES, stacks);
    for (int i = 0; i < longest->count; i += 20)
        probe_question(&p, &longest->questions[i], stacks);
    for (int i = 0; i < repeats->count; i += 20)
        probe_call(&p, &repeats->questions[i], SPELL, stacks);
    probe_clauses(&p, r, stacks);
    free(p.buffer);
    free(p.states);
    munmap(p.stack, STACK);
}
