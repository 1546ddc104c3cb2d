// The driver is linked in several orders. Each of them writes its times to a file, and the last takes the means of all.
#include "bench.h"
#include <stdlib.h>

enum { MOST_TIMES = 512 };

typedef struct {
    double *all[MOST_TIMES];
    int count;
} times;

static void note(times *t, double *first, int count)
{
    for (int i = 0; i < count; i++)
        t->all[t->count++] = &first[i];
}

static void note_decide(times *t, results *r)
{
    for (int k = 0; k < r->count; k++) {
        note(t, r->implementations[k].best, SETS);
        note(t, r->implementations[k].median, SETS);
    }
    for (int s = 0; s < DISTINCT_SETS; s++) {
        note(t, &r->distincts[s].ours, 1);
        note(t, &r->distincts[s].before, 1);
        note(t, &r->distincts[s].peer, 1);
    }
    note(t, &r->spread_time.ours, 1);
    note(t, &r->spread_time.peer, 1);
    note(t, &r->spread_time.low, 1);
}

static void note_derivations(times *t, results *r)
{
    for (int s = 0; s < SETS + DISTINCT_SETS; s++) {
        note(t, &r->derivations[s].decide, 1);
        note(t, &r->derivations[s].derive, 1);
        note(t, &r->derivations[s].check, 1);
        note(t, &r->derivations[s].derive_before, 1);
        note(t, &r->derivations[s].check_before, 1);
    }
}

static void note_other_calls(times *t, results *r)
{
    for (int k = 0; k < r->listers_count; k++) {
        note(t, &r->listers[k].best, 1);
        note(t, &r->listers[k].median, 1);
    }
    for (int s = 0; s < CLAUSES_SETS; s++)
        note(t, r->clauses_times[s].best, TIMES);
    for (int s = 0; s < SPELLED_SETS; s++) {
        note(t, r->spellings[s].best, TIMES);
        note(t, &r->formulas[s].ours, 1);
        note(t, &r->formulas[s].before, 1);
    }
    for (int i = 0; i <= SETS; i++) {
        note(t, &r->readings[i].ours, 1);
        note(t, &r->readings[i].peer, 1);
    }
}

// Every time of the results, in a fixed order.
static times times_of(results *r)
{
    times t = { .count = 0 };
    note_decide(&t, r);
    note_derivations(&t, r);
    note_other_calls(&t, r);
    return t;
}

static FILE *open_times(const char *directory, int order, const char *mode)
{
    char path[512];
    snprintf(path, sizeof path, "%s/times.%d", directory, order);
    FILE *file = fopen(path, mode);
    if (!file)
        perror(path), exit(1);
    return file;
}

void write_times(results *r, const char *directory, int order)
{
    FILE *file = open_times(directory, order, "w");
    times t = times_of(r);
    for (int i = 0; i < t.count; i++)
        fprintf(file, "%.3f\n", *t.all[i]);
    fclose(file);
}

static void read_times(results *r, const char *directory, int order)
{
    FILE *file = open_times(directory, order, "r");
    times t = times_of(r);
    for (int i = 0; i < t.count; i++)
        if (fscanf(file, "%lf", t.all[i]) != 1) {
            fprintf(stderr, "bench: times are missing of order %d\n", order);
            exit(1);
        }
    fclose(file);
}

void take_means(results *r, const char *directory, int count)
{
    static results orders[MOST_ORDERS];
    times means = times_of(r);
    for (int i = 0; i < means.count; i++)
        *means.all[i] = 0;
    for (int k = 0; k < count; k++) {
        orders[k] = *r;
        read_times(&orders[k], directory, k + 1);
        times t = times_of(&orders[k]);
        for (int i = 0; i < means.count; i++)
            *means.all[i] += *t.all[i] / count;
    }
    r->orders = orders;
    r->orders_count = count;
}
