// gekunday_states beside its peers: whether all agree, then their times.
#include "bench.h"
#include <gekunday.h>
#include <stdlib.h>
#include <string.h>

#ifdef WITH_CLANG
list_states peer_each_states_clang, peer_table_states_clang, peer_words_states_clang, peer_levels_states_clang;
#endif

#ifdef WITH_BEFORE
list_states before_states;
#endif

enum { FILL = 0xa5 };

static void add(results *r, const char *name, const char *note, list_states *f, bool slow)
{
    r->listers[r->listers_count++] = (lister){ .name = name, .note = note, .states = f, .slow = slow };
}

void add_listers(results *r)
{
    add(r, "gekunday", "the library, proved", gekunday_states, false);
#ifdef WITH_BEFORE
    add(r, "before", "the archive in GEKUNDAY_BEFORE", before_states, false);
#endif
    add(r, "peer_each (" CC_NAME ")", "C, state by state", peer_each_states, true);
#ifdef WITH_CLANG
    add(r, "peer_each (clang)", "the same", peer_each_states_clang, true);
#endif
    add(r, "peer_table (" CC_NAME ")", "C, 64 states a word", peer_table_states, false);
#ifdef WITH_CLANG
    add(r, "peer_table (clang)", "the same", peer_table_states_clang, false);
#endif
    add(r, "peer_words (" CC_NAME ")", "C, the same over a list of steps", peer_words_states, false);
#ifdef WITH_CLANG
    add(r, "peer_words (clang)", "the same", peer_words_states_clang, false);
#endif
    add(r, "peer_levels (" CC_NAME ")", "C, 16 words at a time, by levels of letters", peer_levels_states, false);
#ifdef WITH_CLANG
    add(r, "peer_levels (clang)", "the same", peer_levels_states_clang, false);
#endif
}

// Agreement

typedef struct {
    uint32_t number;
    uint64_t word;
    uint64_t states[MOST_STATES];
} listing;

static void ask(list_states *f, const question *q, size_t room, listing *a)
{
    uint64_t out[1] = { 7 };
    memset(a->states, FILL, sizeof a->states);
    a->number = f(q->bytes, q->length, a->states, room, out);
    a->word = out[0];
}

static void disagree(const char *name, const question *q, size_t room, const listing *given, const listing *due)
{
    int at = 0;
    while (at < MOST_STATES - 1 && given->states[at] == due->states[at])
        at++;
    fprintf(stderr, "bench: DISAGREEMENT of %s, room %zu: %u %llu, due %u %llu\n", name, room, given->number,
            (unsigned long long)given->word, due->number, (unsigned long long)due->word);
    fprintf(stderr, "state at place %d: %016llx, due %016llx\nquestion:", at, (unsigned long long)given->states[at],
            (unsigned long long)due->states[at]);
    write_bytes(stderr, q);
    exit(1);
}

// Number, word and every place of the buffer, those behind the list too.
static void compare(const lister *l, const question *q, size_t room, const listing *due)
{
    static listing given;
    ask(l->states, q, room, &given);
    if (given.number != due->number || given.word != due->word || memcmp(given.states, due->states, sizeof due->states))
        disagree(l->name, q, room, &given, due);
}

// All answer what the plain loop does. The answer's word is handed back.
static uint64_t agree(const results *r, const question *q, size_t room)
{
    static listing due;
    ask(peer_each_states, q, room, &due);
    for (int k = 0; k < r->listers_count; k++)
        if (r->listers[k].states != peer_each_states)
            compare(&r->listers[k], q, room, &due);
    return due.word;
}

// Some cases worked out by hand.
static void check_cases(const results *r)
{
    static const struct {
        question question;
        size_t room;
        uint32_t number, word;
        uint64_t states[3];
    } cases[] = {
        { { { 0x10, 0, 0x20, 0 }, 4 }, 1, 0, 1, { 0 } },
        { { { 0x10, 0, 0x20, 0 }, 4 }, 0, NO_SPACE, 1, { 0 } },
        { { { 0x10, 1, 1, 0, 0x20, 1, 1, 0 }, 8 }, 0, 0, 0, { 0 } },
        { { { 0x10, 1, 4, 1, 0, 1, 1, 0x20, 1, 1, 0 }, 11 }, 1, 0, 1, { 2 } },
        { { { 0x10, 1, 4, 1, 63, 1, 5, 0x20, 0 }, 9 }, 3, 0, 3, { 1ull << 5, 1ull << 63, 1ull << 63 | 1ull << 5 } },
        { { { 0x10, 1, 4, 1, 63, 1, 5, 0x20, 0 }, 9 }, 2, NO_SPACE, 3, { 0 } },
        { { { 0x10, 0, 0x20, 1, 6, 1, 9, 1, 7 }, 9 }, 9, 0, 2, { 1ull << 7, 1ull << 9 } },
        { { { 0x10, 0, 0x20, 1, 6, 1, 39, 1, 7 }, 9 }, 9, 0, 2, { 1ull << 7, 1ull << 39 } },
        { { { 0x10, 2, 1, 62, 1, 33, 0x20, 1, 1, 48 }, 10 }, 1, 0, 1, { 1ull << 62 | 1ull << 33 } },
        { { { 0x10, 1, 1, 64, 0x20, 0 }, 6 }, 9, NO_SUCH_LETTER, 3, { 0 } },
        { { { 0 }, 0 }, 9, CUT, 0, { 0 } },
    };
    static listing due;
    for (size_t i = 0; i < sizeof cases / sizeof *cases; i++) {
        memset(&due, FILL, sizeof due);
        due.number = cases[i].number;
        due.word = cases[i].word;
        if (due.number == 0)
            memcpy(due.states, cases[i].states, due.word * sizeof *due.states);
        for (int k = 0; k < r->listers_count; k++)
            compare(&r->listers[k], &cases[i].question, cases[i].room, &due);
    }
}

// A side of letters from the first on, joined to one formula as far as there are connectives, the rest a formula each.
static void put_letters(question *q, int connective, int first, int count)
{
    int joined = count <= MOST_CONNECTIVES ? count : MOST_CONNECTIVES + 1;
    q->bytes[q->length++] = count - joined + 1;
    for (int k = 0; k < count; k++) {
        if (k + 1 < joined)
            q->bytes[q->length++] = connective;
        q->bytes[q->length++] = LETTER, q->bytes[q->length++] = first + k;
    }
}

static void check_letters(const results *r, const question *q, int count, uint64_t state)
{
    static listing due;
    memset(&due, FILL, sizeof due);
    due.number = count > MOST_VARIED ? MANY_LETTERS : 0;
    due.word = count > MOST_VARIED ? count : 1;
    if (due.number == 0)
        due.states[0] = state;
    for (int k = 0; k < r->listers_count; k++)
        compare(&r->listers[k], q, MOST_STATES, &due);
}

// So many lowest letters on the right: false only where all are. The highest on the left: false only where all are true.
static void check_counts(const results *r)
{
    for (int count = 1; count <= LETTERS; count++) {
        question low = { { LEFT_SIDE, 0, RIGHT_SIDE }, 3 }, high = { { LEFT_SIDE }, 1 };
        put_letters(&low, OR, 0, count);
        check_letters(r, &low, count, 0);
        put_letters(&high, AND, LETTERS - count, count);
        high.bytes[high.length++] = RIGHT_SIDE, high.bytes[high.length++] = 0;
        check_letters(r, &high, count, ~0ull << (LETTERS - count));
    }
}

// Each question of a set, with one byte changed, and every fifth with just the room it needs and one less.
static void check_set(const results *r, const question_set *set)
{
    for (int i = 0; i < set->count; i++) {
        question q = set->questions[i];
        uint64_t states = agree(r, &q, MOST_STATES);
        if (i / 5 % 5 == 0 && states > 0) {
            agree(r, &q, states);
            agree(r, &q, states - 1);
        }
        q.bytes[i * 7 % q.length] = i * 37 % DAMAGES;
        agree(r, &q, MOST_STATES);
    }
}

void check_listing(const results *r)
{
    check_cases(r);
    check_counts(r);
    for (int s = 0; s < SETS; s++)
        check_set(r, &r->sets[s]);
    check_set(r, &r->listed);
}

// Timing

static double pass(const results *r, const lister *l, int times)
{
    static uint64_t states[MOST_STATES];
    const question_set *set = &r->listed;
    double start = now();
    while (times-- > 0)
        for (int i = 0; i < set->count; i++) {
            uint64_t out[1];
            l->states(set->questions[i].bytes, set->questions[i].length, states, MOST_STATES, out);
        }
    return now() - start;
}

static double sample(const results *r, const lister *l, int round)
{
    SHIFT_STACK(round);
    return pass(r, l, l->passes) / l->passes / r->listed.count;
}

void time_listing(results *r)
{
    static double samples[MOST_LISTERS][MOST_ROUNDS];
    int taken[MOST_LISTERS] = { 0 };
    for (int k = 0; k < r->listers_count; k++) {
        lister *l = &r->listers[k];
        l->passes = 1;
        if (l->slow)
            continue;
        pass(r, l, 1);
        l->passes = 1 + 20e6 / pass(r, l, 1);
    }
    for (int round = 0; round < r->rounds; round++)
        for (int k = 0; k < r->listers_count; k++)
            if (round % 5 == 0 || !r->listers[k].slow)
                samples[k][taken[k]++] = sample(r, &r->listers[k], round);
    for (int k = 0; k < r->listers_count; k++)
        sum_up(samples[k], taken[k], &r->listers[k].best, &r->listers[k].median);
}
