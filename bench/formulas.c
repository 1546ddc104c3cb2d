// gekunday_formula, asked for one formula of a question after the other: whether it finds them, then its time.
#include "bench.h"
#include <gekunday.h>
#include <stdlib.h>

typedef uint32_t find(const uint8_t *question, size_t length, uint32_t side, size_t place, uint64_t out[2]);

#ifdef WITH_BEFORE
find before_formula;
#else
#define before_formula gekunday_formula
#endif

static void hold(const char *name, find *find, const question *q, int side, int place, uint64_t start, uint64_t count)
{
    uint64_t out[2] = { 7, 7 };
    uint32_t number = find(q->bytes, q->length, side, place, out);
    if (number == 0 && out[0] == start && out[1] == count)
        return;
    fprintf(stderr, "bench: DISAGREEMENT of %s, side %d, place %d: %u %llu %llu, due 0 %llu %llu\nquestion:", name, side,
            place, number, (unsigned long long)out[0], (unsigned long long)out[1], (unsigned long long)start,
            (unsigned long long)count);
    write_bytes(stderr, q);
    exit(1);
}

// Each formula ends where the next one starts, those of the left two bytes before the right's. There is none behind them.
static void check_question(const char *name, find *find, const question *q)
{
    reading r;
    int end = q->length;
    bool accepted = peer_read(q->bytes, q->length, &r) == 0;
    for (int side = 1; side >= 0; side--) {
        int count = accepted ? r.formulas[side] : 0;
        hold(name, find, q, side, count, 0, 0);
        for (int place = count - 1; place >= 0; place--) {
            int start = r.starts[side][place];
            hold(name, find, q, side, place, start, end - start);
            end = start;
        }
        end -= 2;
    }
}

// Each question of the sets, and with one byte changed.
void check_formulas(const results *r)
{
    for (int s = 0; s < SPELLED_SETS; s++)
        for (int i = 0; i < r->spelled[s]->count; i++) {
            question q = r->spelled[s]->questions[i];
            for (int changed = 0; changed < 2; changed++) {
                check_question("gekunday_formula", gekunday_formula, &q);
                check_question("before", before_formula, &q);
                q.bytes[i * 7 % q.length] = i * 37 % DAMAGES;
            }
        }
}

// On each side from the first place on until there is no formula. The time is that of a call.
static double pass(find *find, const question_set *set, int times)
{
    double start = now(), calls = 0;
    for (int k = 0; k < times; k++)
        for (int i = 0; i < set->count; i++)
            for (int side = 0; side < 2; side++) {
                uint64_t out[2] = { 0, 1 };
                for (size_t place = 0; out[1] > 0; place++, calls++)
                    find(set->questions[i].bytes, set->questions[i].length, side, place, out);
            }
    return (now() - start) / calls;
}

void time_formulas(results *r)
{
    for (int s = 0; s < SPELLED_SETS; s++) {
        const question_set *set = r->spelled[s];
        formula_time *t = &r->formulas[s];
        double begun = now();
        pass(gekunday_formula, set, 1);
        int times = 1 + 20e6 / (now() - begun);
        *t = (formula_time){ set, 1e18, 1e18 };
        for (int round = 0; round < r->rounds; round++) {
            double ours = pass(gekunday_formula, set, times), before = pass(before_formula, set, times);
            t->ours = ours < t->ours ? ours : t->ours;
            t->before = before < t->before ? before : t->before;
        }
    }
}
