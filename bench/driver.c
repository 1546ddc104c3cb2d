// Checks that all agree, then times them in turn and writes the times into the directory given. The driver of the last
// link order then writes the table and the plot.
#include "bench.h"
#include "lisp.h"
#include <gekunday.h>
#include <stdlib.h>
#include <string.h>
#include <time.h>

enum { ROUNDS = 6 }; // in each link order, unless BENCH_ROUNDS is set

typedef uint32_t read_call(const uint8_t *question, size_t length, uint64_t out[2]);

#ifdef WITH_BEFORE
decide before_decide;
#else
#define before_decide gekunday_decide
#endif
#ifdef WITH_CLANG
decide peer_value_decide_clang, peer_premises_decide_clang, peer_best_decide_clang, peer_sets_decide_clang;
read_call peer_scan_clang;
#else
#define peer_value_decide_clang peer_value_decide
#define peer_scan_clang peer_scan
#endif

double now(void)
{
    struct timespec t;
    clock_gettime(CLOCK_MONOTONIC, &t);
    return t.tv_sec * 1e9 + t.tv_nsec;
}

static void add(results *r, const char *name, const char *note, decide *f, agreement agrees)
{
    r->implementations[r->count++] = (implementation){ .name = name, .note = note, .decide = f, .agrees = agrees };
}

static void list_implementations(results *r, bool lisp)
{
    add(r, "gekunday", "the library, proved", gekunday_decide, TREE);
#ifdef WITH_BEFORE
    add(r, "before", "the archive in GEKUNDAY_BEFORE", before_decide, TREE);
#endif
    add(r, "peer_value (" CC_NAME ")", "C, sequent copied for each premise", peer_value_decide, TREE);
#ifdef WITH_CLANG
    add(r, "peer_value (clang)", "the same", peer_value_decide_clang, TREE);
#endif
    add(r, "peer_premises (" CC_NAME ")", "C, each premise in one pass, as the library", peer_premises_decide, TREE);
#ifdef WITH_CLANG
    add(r, "peer_premises (clang)", "the same", peer_premises_decide_clang, TREE);
#endif
    add(r, "peer_best (" CC_NAME ")", "C, in place, copied at two premises only", peer_best_decide, TREE);
#ifdef WITH_CLANG
    add(r, "peer_best (clang)", "the same", peer_best_decide_clang, TREE);
#endif
    add(r, "peer_sets (" CC_NAME ")", "C, sequent as sets of connectives", peer_sets_decide, TREE);
#ifdef WITH_CLANG
    add(r, "peer_sets (clang)", "the same", peer_sets_decide_clang, TREE);
#endif
    if (lisp)
        add(r, "DR 34 (SBCL)", "the report's LISP program, question already read", 0, VERDICT);
    else
        printf("bench: sbcl is absent, DR 34's program is skipped\n");
#ifdef WITH_CADICAL
    add(r, "CaDiCaL", "Tseitin encoding, a fresh solver each", cadical_decide, VERDICT);
#else
    printf("bench: libcadical-dev is absent, CaDiCaL is skipped\n");
#endif
    add(r, "truth table", "64 states a word", truth_table_decide, VERDICT);
}

// Agreement

static void disagree(const char *name, const question *q, uint64_t budget, uint32_t number, const uint64_t out[4],
                     uint32_t due, const uint64_t due_out[4])
{
    fprintf(stderr, "bench: DISAGREEMENT of %s, budget %llu: %u", name, (unsigned long long)budget, number);
    for (int i = 0; i < 4; i++)
        fprintf(stderr, " %llu", (unsigned long long)out[i]);
    fprintf(stderr, ", due %u", due);
    for (int i = 0; i < 4; i++)
        fprintf(stderr, " %llu", (unsigned long long)due_out[i]);
    fprintf(stderr, "\nquestion:");
    write_bytes(stderr, q);
    exit(1);
}

static void agree(const implementation *m, const question *q, uint64_t budget, uint32_t due, const uint64_t due_out[4])
{
    uint64_t out[4] = { 7, 7, 7, 7 };
    uint32_t number = m->decide(q->bytes, q->length, budget, out);
    if (number != due || memcmp(out, due_out, m->agrees * sizeof *out))
        disagree(m->name, q, budget, number, out, due, due_out);
}

// Holds the peers to the papers by some of document 01's cases, two more with equal formulas and some with high letters.
// Where an equal formula is taken apart before its equal comes to the other side, they do not close; where a third still
// stands beside it, that one does.
static void check_cases(const results *r)
{
    static const struct {
        question question;
        uint64_t budget;
        uint32_t number;
        uint64_t out[4];
    } cases[] = {
        { { { 0x10, 0, 0x20, 0 }, 4 }, BUDGET, 0, { 1, 0, 0, 0 } },
        { { { 0x10, 1, 1, 0, 0x20, 1, 1, 0 }, 8 }, BUDGET, 0, { 0, 0, 0, 1 } },
        { { { 0x10, 1, 2, 4, 1, 0, 1, 1, 0x20, 1, 2, 1, 0 }, 13 }, BUDGET, 0, { 0, 0, 3, 1 } },
        { { { 0x10, 0, 0x20, 1, 5, 3, 2, 1, 0, 2, 1, 1, 6, 1, 0, 1, 1 }, 17 }, BUDGET, 0, { 0, 0, 5, 2 } },
        { { { 0x10, 1, 4, 1, 0, 1, 1, 0x20, 1, 1, 0 }, 11 }, BUDGET, 0, { 1, 2, 1, 1 } },
        { { { 0x10, 0, 0x20, 1, 6, 1, 0, 1, 0 }, 9 }, BUDGET, 0, { 0, 0, 1, 2 } },
        { { { 0x10, 1, 6, 1, 0, 1, 0, 0x20, 0 }, 9 }, BUDGET, 0, { 1, 1, 1, 0 } },
        { { { 0x10, 0, 0x20, 1, 5, 3, 5, 1, 0, 4, 1, 1, 1, 2, 5, 1, 2, 1, 3, 5, 3, 1, 0, 1, 1, 1, 3 }, 27 }, 8, 0,
          { 1, 3, 8, 1 } },
        { { { 0x10, 0, 0x20, 1, 5, 3, 5, 1, 0, 4, 1, 1, 1, 2, 5, 1, 2, 1, 3, 5, 3, 1, 0, 1, 1, 1, 3 }, 27 }, 7, SPENT,
          { 0, 0, 7, 1 } },
        { { { 0x10, 1, 3, 1, 0, 1, 1, 0x20, 1, 3, 1, 0, 1, 1 }, 14 }, BUDGET, 0, { 0, 0, 0, 1 } },
        { { { 0x10, 1, 3, 1, 0, 1, 1, 0x20, 1, 2, 2, 3, 1, 0, 1, 1 }, 16 }, BUDGET, 0, { 0, 0, 4, 2 } },
        { { { 0x10, 0, 0x20, 3, 4, 1, 0, 1, 1, 2, 4, 1, 0, 1, 1, 4, 1, 0, 1, 1 }, 20 }, BUDGET, 0, { 0, 0, 2, 1 } },
        { { { 0x10, 1, 1, 64, 0x20, 0 }, 6 }, BUDGET, NO_SUCH_LETTER, { 3, 0, 0, 0 } },
        { { { 0x10, 1, 1, 63, 0x20, 0 }, 6 }, BUDGET, 0, { 1, 1ull << 63, 0, 0 } },
        { { { 0x10, 1, 1, 63, 0x20, 1, 1, 63 }, 8 }, BUDGET, 0, { 0, 0, 0, 1 } },
        { { { 0x10, 1, 1, 5, 0x20, 1, 1, 37 }, 8 }, BUDGET, 0, { 1, 1ull << 5, 0, 0 } },
        { { { 0x10, 1, 1, 37, 0x20, 1, 1, 5 }, 8 }, BUDGET, 0, { 1, 1ull << 37, 0, 0 } },
        { { { 0x10, 1, 4, 1, 40, 1, 63, 0x20, 1, 1, 40 }, 11 }, BUDGET, 0, { 1, 1ull << 63, 1, 1 } },
        { { { 0x10, 17, 0x20, 0 }, 4 }, BUDGET, MANY_FORMULAS, { 1, 0, 0, 0 } },
        { { { 0 }, 0 }, BUDGET, CUT, { 0, 0, 0, 0 } },
    };
    for (size_t k = 0; k < sizeof cases / sizeof *cases; k++)
        for (int i = 0; i < r->count; i++)
            if (r->implementations[i].decide && (r->implementations[i].agrees == TREE || cases[k].number != SPENT))
                agree(&r->implementations[i], &cases[k].question, cases[k].budget, cases[k].number, cases[k].out);
}

// As many letters and compounds as can stand more than once, 40 and 24: each formula stands twice on its side. All 48
// connectives are reduced, and the 20 letters of the left are true.
static void check_most_marks(const results *r)
{
    static const uint64_t due[4] = { 1, ~0ull << (LETTERS - 20), MOST_CONNECTIVES, 0 };
    question q = { .length = 0 };
    int letters = LETTERS;
    for (int side = 0; side < 2; side++) {
        q.bytes[q.length++] = side ? RIGHT_SIDE : LEFT_SIDE;
        q.bytes[q.length++] = MOST_A_SIDE;
        for (int i = 0; i < MOST_A_SIDE; i++) {
            int connectives = 1 + i / 2 % 2;
            for (int k = 0; k < connectives; k++)
                q.bytes[q.length++] = side ? OR : AND;
            for (int k = 1; k <= connectives + 1; k++)
                q.bytes[q.length++] = LETTER, q.bytes[q.length++] = letters - k;
            letters -= i % 2 ? connectives + 1 : 0;
        }
    }
    for (int k = 0; k < r->count; k++)
        if (r->implementations[k].agrees == TREE)
            agree(&r->implementations[k], &q, BUDGET, 0, due);
}

// Each question with one byte changed: refusals, or another question.
static void check_damaged(const results *r, const question_set *set)
{
    for (int i = 0; i < set->count; i++) {
        question q = set->questions[i];
        uint64_t out[4];
        q.bytes[i * 7 % q.length] = i * 37 % DAMAGES;
        uint32_t number = peer_value_decide(q.bytes, q.length, 1000, out);
        uint64_t scanned[4] = { 0 };
        uint32_t refusal = peer_scan(q.bytes, q.length, scanned);
        if (refusal != (number <= LEFT_OVER ? number : 0) || (refusal && scanned[0] != out[0]))
            disagree("peer_scan", &q, 0, refusal, scanned, number, out);
        for (int k = 0; k < r->count; k++)
            if (r->implementations[k].agrees == TREE)
                agree(&r->implementations[k], &q, 1000, number, out);
    }
}

static void check_lisp(const question_set *set, int number)
{
    char line[EDITOR_QUESTIONS + LIMITS_QUESTIONS + 2];
    lisp_verdicts(number, line, sizeof line);
    for (int i = 0; i < set->count; i++) {
        uint64_t out[4] = { line[i] - '0' };
        if (out[0] != set->answers[i][0])
            disagree("DR 34", &set->questions[i], BUDGET, 0, out, 0, set->answers[i]);
    }
}

static void check_set(const results *r, const question_set *set)
{
    for (int k = 0; k < r->count; k++) {
        const implementation *m = &r->implementations[k];
        for (int i = 0; m->decide && i < set->count; i++)
            agree(m, &set->questions[i], BUDGET, 0, set->answers[i]);
    }
    for (int i = 0; i < set->count; i++) {
        const question *q = &set->questions[i];
        uint64_t out[4], budget = set->answers[i][2];
        if (budget-- == 0)
            continue;
        peer_value_decide(q->bytes, q->length, budget, out);
        for (int k = 0; k < r->count; k++)
            if (r->implementations[k].agrees == TREE)
                agree(&r->implementations[k], q, budget, SPENT, out);
    }
    check_damaged(r, set);
}

// Other letters change neither verdict nor counts.
static void check_spread(const results *r)
{
    const question_set *spread = &r->spread, *plain = &r->sets[EDITOR];
    for (int i = 0; i < spread->count; i++) {
        uint64_t due[4];
        memcpy(due, plain->answers[i], sizeof due);
        due[1] = spread->answers[i][1];
        if (memcmp(spread->answers[i], due, sizeof due))
            disagree("peer_value", &spread->questions[i], BUDGET, 0, spread->answers[i], 0, due);
    }
    check_set(r, spread);
}

static void check_all(const results *r, bool lisp)
{
    check_cases(r);
    check_most_marks(r);
    for (int s = 0; s < SETS; s++) {
        check_set(r, &r->sets[s]);
        if (lisp)
            check_lisp(&r->sets[s], s);
    }
    check_spread(r);
    check_listing(r);
    check_spelling(r);
    check_clauses(r);
    check_formulas(r);
    check_derivations(r);
    printf("bench: all agree\n\n");
}

// Timing

static double decide_pass(decide *f, const question_set *set, int times)
{
    double start = now();
    while (times-- > 0)
        for (int i = 0; i < set->count; i++) {
            uint64_t out[4];
            f(set->questions[i].bytes, set->questions[i].length, BUDGET, out);
        }
    return now() - start;
}

static double pass(const results *r, const implementation *m, int set, int times)
{
    return m->decide ? decide_pass(m->decide, &r->sets[set], times) : lisp_pass(set, times);
}

static double sample(const results *r, const implementation *m, int set, int round)
{
    SHIFT_STACK(round);
    return pass(r, m, set, m->passes[set]) / m->passes[set] / r->sets[set].count;
}

static int ascending(const void *a, const void *b)
{
    double x = *(const double *)a, y = *(const double *)b;
    return (x > y) - (x < y);
}

void sum_up(double *samples, int count, double *best, double *median)
{
    qsort(samples, count, sizeof *samples, ascending);
    *best = samples[0];
    *median = samples[count / 2];
}

// Each sample is so many passes that it takes 20 ms or more. Implementations take turns within a round.
static void time_all(results *r)
{
    static double samples[MOST_IMPLEMENTATIONS][SETS][MOST_ROUNDS];
    for (int k = 0; k < r->count; k++)
        for (int s = 0; s < SETS; s++) {
            implementation *m = &r->implementations[k];
            pass(r, m, s, 1);
            m->passes[s] = 1 + 20e6 / pass(r, m, s, 1);
        }
    for (int round = 0; round < r->rounds; round++)
        for (int s = 0; s < SETS; s++)
            for (int k = 0; k < r->count; k++)
                samples[k][s][round] = sample(r, &r->implementations[k], s, round);
    for (int k = 0; k < r->count; k++)
        for (int s = 0; s < SETS; s++) {
            implementation *m = &r->implementations[k];
            sum_up(samples[k][s], r->rounds, &m->best[s], &m->median[s]);
        }
}

static double lesser(double a, double b) { return a < b ? a : b; }

static double sample_passes(set_pass *pass, int kind, const question_set *set, int times, int round, int *who)
{
    SHIFT_STACK(round);
    double start = now();
    for (int k = 0; k < times; k++)
        *who = pass(kind, set);
    return (now() - start) / times;
}

peers_time time_passes(set_pass *pass, int kinds, const question_set *set, int rounds)
{
    peers_time t = { set, { 1e18, 1e18, 1e18, 1e18, 1e18 } };
    int times[MOST_KINDS], who;
    for (int k = 0; k < kinds; k++) {
        pass(k, set);
        times[k] = 1 + 20e6 / sample_passes(pass, k, set, 1, 0, &who);
    }
    for (int round = 0; round < rounds; round++)
        for (int k = 0; k < kinds; k++) {
            double time = sample_passes(pass, k, set, times[k], round, &who) / set->count;
            t.best[who] = lesser(t.best[who], time);
        }
    return t;
}

// The library, the archive before and peer_value on questions without equal compounds.
static void time_distinct(distinct_time *t, const question_set *set, int rounds)
{
    int times = 1 + 20e6 / decide_pass(peer_value_decide, set, 1);
    *t = (distinct_time){ set, 1e18, 1e18, 1e18 };
    for (int round = 0; round < rounds; round++) {
        t->ours = lesser(t->ours, decide_pass(gekunday_decide, set, times) / times / set->count);
        t->before = lesser(t->before, decide_pass(before_decide, set, times) / times / set->count);
        t->peer = lesser(t->peer, decide_pass(peer_value_decide, set, times) / times / set->count);
        t->peer = lesser(t->peer, decide_pass(peer_value_decide_clang, set, times) / times / set->count);
    }
}

// The library and peer_value on questions with letters over all LETTERS, and the library on them with the letters they had.
// A peer's turn lies between the library's two: right behind the first the second is faster, with the same letters too.
static void time_spread(spread_time *t, const question_set *set, const question_set *low, int rounds)
{
    int times = 1 + 20e6 / decide_pass(peer_value_decide, set, 1);
    *t = (spread_time){ set, 1e18, 1e18, 1e18 };
    for (int round = 0; round < rounds; round++) {
        t->ours = lesser(t->ours, decide_pass(gekunday_decide, set, times) / times / set->count);
        t->peer = lesser(t->peer, decide_pass(peer_value_decide, set, times) / times / set->count);
        t->low = lesser(t->low, decide_pass(gekunday_decide, low, times) / times / low->count);
        t->peer = lesser(t->peer, decide_pass(peer_value_decide_clang, set, times) / times / set->count);
    }
}

// No formula stands at place 99, so this reads the whole question and hands out nothing.
static uint32_t read_whole(const uint8_t *question, size_t length, uint64_t out[2])
{
    return gekunday_formula(question, length, 0, 99, out);
}

static double reading_pass(read_call *read, const question_set *set, int times)
{
    double start = now();
    for (int k = 0; k < times; k++)
        for (int i = 0; i < set->count; i++) {
            uint64_t out[2];
            read(set->questions[i].bytes, set->questions[i].length, out);
        }
    return (now() - start) / times / set->count;
}

static void time_reading(reading_time *t, const question_set *set, int rounds)
{
    int times = 1 + 20e6 / (set->count * reading_pass(peer_scan, set, 10));
    *t = (reading_time){ set->title, 1e18, 1e18 };
    for (int round = 0; round < rounds; round++) {
        t->ours = lesser(t->ours, reading_pass(read_whole, set, times));
        t->peer = lesser(t->peer, reading_pass(peer_scan, set, times));
        t->peer = lesser(t->peer, reading_pass(peer_scan_clang, set, times));
    }
}

static FILE *open_out(const char *directory, const char *name)
{
    char path[512];
    snprintf(path, sizeof path, "%s/%s", directory, name);
    FILE *file = fopen(path, "w");
    if (!file)
        perror(path), exit(1);
    return file;
}

static void make_sets(results *r)
{
    r->sets[EDITOR] = editor_set();
    r->sets[LIMITS] = limits_set();
    r->sets[CONDITIONS] = conditions_set();
    r->distinct[EDITOR] = distinct_of(&r->sets[EDITOR], "Editor-size, no equal compounds");
    r->distinct[LIMITS] = distinct_of(&r->sets[LIMITS], "Near the limits, no equal compounds");
    r->spread = spread_of(&r->sets[EDITOR], "Editor-size, letters renamed");
    question_set low = states_set();
    r->listed = spread_of(&low, low.title);
    r->repeats = repeats_set();
    r->longest = long_set();
    for (int s = 0; s < SETS; s++)
        r->spelled[s] = &r->sets[s];
    r->spelled[REPEATS] = &r->repeats;
    r->spelled[LONGEST] = &r->longest;
    r->clauses[FEW_CLAUSES] = few_clauses_set();
    r->clauses[MANY_CLAUSES] = many_clauses_set();
    r->clauses[CHAINS] = chains_set();
}

static void time_calls(results *r)
{
    time_all(r);
    for (int s = 0; s < DISTINCT_SETS; s++)
        time_distinct(&r->distincts[s], &r->distinct[s], r->rounds);
    time_spread(&r->spread_time, &r->spread, &r->sets[EDITOR], r->rounds);
    for (int s = 0; s < SETS; s++)
        time_reading(&r->readings[s], &r->sets[s], r->rounds);
    time_reading(&r->readings[SETS], &r->longest, r->rounds);
    time_formulas(r);
    time_derivations(r);
    time_listing(r);
    time_spelling(r);
    time_clauses(r);
}

static void report(results *r, const char *out, int orders)
{
    take_means(r, out, orders);
    probe_stacks(r);
    FILE *table = open_out(out, "table.md"), *plot = open_out(out, "plot.svg");
    write_table(table, r);
    write_table(stdout, r);
    write_plot(plot, r);
    fclose(table);
    fclose(plot);
}

// The directory, which of the link orders this is, and how many there are.
int main(int count, char **arguments)
{
    static results r;
    const char *out = count > 1 ? arguments[1] : ".", *rounds = getenv("BENCH_ROUNDS");
    int order = count > 2 ? atoi(arguments[2]) : 1, orders = count > 3 ? atoi(arguments[3]) : order;
    if (order < 1 || order > orders || orders > MOST_ORDERS) {
        fprintf(stderr, "bench: there can be 1 to %d link orders\n", MOST_ORDERS);
        return 1;
    }
    setvbuf(stdout, 0, _IOLBF, 0);
    r.rounds = rounds ? atoi(rounds) : ROUNDS;
    if (r.rounds < 1 || r.rounds > MOST_ROUNDS)
        r.rounds = ROUNDS;
    make_sets(&r);
    bool lisp = lisp_start(out, r.sets, SETS);
    list_implementations(&r, lisp);
    add_listers(&r);
    check_all(&r, lisp);
    time_calls(&r);
    if (lisp)
        lisp_stop();
    write_times(&r, out, order);
    if (order == orders)
        report(&r, out, orders);
    return 0;
}
