// gekunday_derive and gekunday_check on the theorems of the sets: whether what is written passes, then their times.
#include "bench.h"
#include <gekunday.h>
#include <stdlib.h>
#include <string.h>

typedef uint32_t derive(const uint8_t *question, size_t length, uint64_t budget, uint8_t *buffer, size_t room,
                        uint64_t out[3]);
typedef uint32_t check(const uint8_t *question, size_t length, const uint8_t *derivation, size_t derivation_length,
                       uint64_t out[1]);

#ifdef WITH_BEFORE
derive before_derive;
check before_check;
#else
#define before_derive gekunday_derive
#define before_check gekunday_check
#endif

enum { ROOM = 1 << 21 };

typedef struct {
    uint8_t *bytes;
    size_t length;
} derivation;

typedef struct {
    const question *question;
    derivation ours, before;
} theorem;

typedef enum { DECIDE, DERIVE, DERIVE_BEFORE, CHECK, CHECK_BEFORE, TIMED } timed;

static uint8_t buffer[ROOM];

static void refuse(const question *q, const char *what)
{
    fprintf(stderr, "bench: %s\nquestion:", what);
    write_bytes(stderr, q);
    exit(1);
}

// The derivation that an archive writes, after its checker has passed it.
static derivation written(const question *q, derive *derive, check *check)
{
    uint64_t out[4];
    if (derive(q->bytes, q->length, BUDGET, buffer, ROOM, out))
        refuse(q, "a theorem is not written");
    derivation d = { malloc(out[0]), out[0] };
    memcpy(d.bytes, buffer, d.length);
    if (check(q->bytes, q->length, d.bytes, d.length, out))
        refuse(q, "a derivation does not pass");
    return d;
}

// The theorems of a set with their derivations by each archive. What the one before wrote passes the library's checker too.
static int theorems_of(const question_set *set, theorem *theorems)
{
    int count = 0;
    for (int i = 0; i < set->count; i++) {
        const question *q = &set->questions[i];
        uint64_t out[1];
        if (set->answers[i][0])
            continue;
        theorem *t = &theorems[count++];
        t->question = q;
        t->ours = written(q, gekunday_derive, gekunday_check);
        t->before = written(q, before_derive, before_check);
        if (gekunday_check(q->bytes, q->length, t->before.bytes, t->before.length, out))
            refuse(q, "a derivation of the archive before does not pass");
    }
    return count;
}

// Some cases worked out by hand. With number 0 the derivation is the one that is written; else its first command does not
// pass.
static void check_cases(void)
{
    static const struct {
        question question;
        uint8_t bytes[4];
        size_t length;
        uint32_t number;
    } cases[] = {
        { { { 0x10, 1, 1, 63, 0x20, 1, 1, 63 }, 8 }, { 0x41, 63 }, 2, 0 },
        { { { 0x10, 0, 0x20, 1, 5, 1, 63, 1, 63 }, 9 }, { 0x65, 0, 0x41, 63 }, 4, 0 },
        { { { 0x10, 2, 1, 63, 1, 37, 0x20, 2, 1, 37, 1, 63 }, 12 }, { 0x41, 37 }, 2, 0 },
        { { { 0x10, 2, 1, 5, 1, 63, 0x20, 2, 1, 37, 1, 63 }, 12 }, { 0x41, 63 }, 2, 0 },
        { { { 0x10, 2, 1, 5, 1, 63, 0x20, 2, 1, 37, 1, 63 }, 12 }, { 0x41, 5 }, 2, GEKUNDAY_CHECK_NOT_CLOSED },
        { { { 0x10, 2, 1, 5, 1, 63, 0x20, 2, 1, 37, 1, 63 }, 12 }, { 0x41, 37 }, 2, GEKUNDAY_CHECK_NOT_CLOSED },
        { { { 0x10, 1, 1, 5, 0x20, 1, 1, 5 }, 8 }, { 0x41, 5 + 64 }, 2, GEKUNDAY_CHECK_NOT_CLOSED },
    };
    for (size_t i = 0; i < sizeof cases / sizeof *cases; i++) {
        const question *q = &cases[i].question;
        uint64_t out[4] = { 0 };
        if (gekunday_check(q->bytes, q->length, cases[i].bytes, cases[i].length, out) != cases[i].number || out[0])
            refuse(q, "a derivation worked out by hand does not pass, or passes");
        if (cases[i].number)
            continue;
        derivation d = written(q, gekunday_derive, gekunday_check);
        if (d.length != cases[i].length || memcmp(d.bytes, cases[i].bytes, d.length))
            refuse(q, "the derivation written is not the one worked out by hand");
        free(d.bytes);
    }
}

// Theorems of the sets are written and checked when they are timed; those with letters over all LETTERS here.
void check_derivations(const results *r)
{
    check_cases();
    for (int i = 0; i < r->spread.count; i++)
        if (!r->spread.answers[i][0])
            free(written(&r->spread.questions[i], gekunday_derive, gekunday_check).bytes);
}

static void call(timed what, const theorem *t)
{
    const question *q = t->question;
    uint64_t out[4];
    switch (what) {
    case DECIDE: gekunday_decide(q->bytes, q->length, BUDGET, out); break;
    case DERIVE: gekunday_derive(q->bytes, q->length, BUDGET, buffer, ROOM, out); break;
    case DERIVE_BEFORE: before_derive(q->bytes, q->length, BUDGET, buffer, ROOM, out); break;
    case CHECK: gekunday_check(q->bytes, q->length, t->ours.bytes, t->ours.length, out); break;
    case CHECK_BEFORE: before_check(q->bytes, q->length, t->before.bytes, t->before.length, out); break;
    case TIMED: break;
    }
}

static double pass(timed what, const theorem *theorems, int count, int times)
{
    double start = now();
    for (int k = 0; k < times; k++)
        for (int i = 0; i < count; i++)
            call(what, &theorems[i]);
    return (now() - start) / times / count;
}

static derivation_time time_set(const question_set *set, int rounds)
{
    static theorem theorems[EDITOR_QUESTIONS];
    int count = theorems_of(set, theorems), times[TIMED];
    double best[TIMED];
    for (int k = 0; k < TIMED; k++) {
        best[k] = 1e18;
        times[k] = 1 + 20e6 / (count * pass(k, theorems, count, 1));
    }
    for (int round = 0; round < rounds; round++)
        for (int k = 0; k < TIMED; k++) {
            double time = pass(k, theorems, count, times[k]);
            best[k] = time < best[k] ? time : best[k];
        }
    for (int i = 0; i < count; i++) {
        free(theorems[i].ours.bytes);
        free(theorems[i].before.bytes);
    }
    return (derivation_time){ set->title, count, best[DECIDE], best[DERIVE], best[CHECK], best[DERIVE_BEFORE],
                              best[CHECK_BEFORE] };
}

void time_derivations(results *r)
{
    for (int s = 0; s < SETS; s++)
        r->derivations[s] = time_set(&r->sets[s], r->rounds);
    for (int s = 0; s < DISTINCT_SETS; s++)
        r->derivations[SETS + s] = time_set(&r->distinct[s], r->rounds);
}
