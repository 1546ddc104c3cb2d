// The table in Markdown and the plot in SVG.
#include "bench.h"
#include <math.h>
#include <string.h>

static void format_time(char *text, int room, double ns)
{
    if (ns < 1e3)
        snprintf(text, room, ns < 10 ? "%.2f ns" : ns < 100 ? "%.1f ns" : "%.0f ns", ns);
    else if (ns < 1e6)
        snprintf(text, room, ns < 1e4 ? "%.2f µs" : ns < 1e5 ? "%.1f µs" : "%.0f µs", ns / 1e3);
    else
        snprintf(text, room, ns < 1e7 ? "%.2f ms" : "%.1f ms", ns / 1e6);
}

// One of the results' times in a link order: it stands at the same place of that order's results.
static double in_order(const results *r, int order, const double *time)
{
    return *(const double *)((const char *)&r->orders[order] + ((const char *)time - (const char *)r));
}

// The ratio of two times, between marks, and the range of what it is in each link order if there are several.
static void write_ratio(FILE *file, const results *r, const double *ours, const double *theirs, const char *mark)
{
    double least = INFINITY, greatest = 0;
    for (int k = 0; k < r->orders_count; k++) {
        double ratio = in_order(r, k, ours) / in_order(r, k, theirs);
        least = fmin(least, ratio);
        greatest = fmax(greatest, ratio);
    }
    fprintf(file, "%s%.2f%s", mark, *ours / *theirs, mark);
    if (r->orders_count > 1 && ours != theirs)
        fprintf(file, " (%.2f to %.2f)", least, greatest);
}

static void write_set(FILE *file, const results *r, int s)
{
    const question_set *set = &r->sets[s];
    fprintf(file, "## %s\n\n", set->title);
    fprintf(file, "%d questions, %d of them refuted; %.0f reductions a question on average, ", set->count,
            (int)set->refuted, (double)set->reductions / set->count);
    fprintf(file, "%.0f if only letters closed.\n\n", (double)set->only_letters / set->count);
    fprintf(file, "| implementation | what | a question | a reduction | median | gekunday / it |\n");
    fprintf(file, "|---|---|---:|---:|---:|---:|\n");
    for (int k = 0; k < r->count; k++) {
        const implementation *m = &r->implementations[k];
        char best[32], median[32], reduction[32] = "";
        format_time(best, sizeof best, m->best[s]);
        format_time(median, sizeof median, m->median[s]);
        if (m->agrees == TREE)
            format_time(reduction, sizeof reduction, m->best[s] * set->count / set->reductions);
        fprintf(file, "| %s | %s | %s | %s | %s | ", m->name, m->note, best, reduction, median);
        write_ratio(file, r, &r->implementations[0].best[s], &m->best[s], "");
        fprintf(file, " |\n");
    }
    fprintf(file, "\n");
}

// The time of a peer's faster build.
static const double *faster(const results *r, int s, const char *peer)
{
    const double *least = 0;
    for (int k = 0; k < r->count; k++) {
        const double *time = &r->implementations[k].best[s];
        if (!strncmp(r->implementations[k].name, peer, strlen(peer)) && (!least || *time < *least))
            least = time;
    }
    return least;
}

static const double *faster_lister(const results *r, const char *peer)
{
    const double *least = 0;
    for (int k = 0; k < r->listers_count; k++) {
        const double *time = &r->listers[k].best;
        if (!strncmp(r->listers[k].name, peer, strlen(peer)) && (!least || *time < *least))
            least = time;
    }
    return least;
}

static const char *const spell_peers[PEERS] = { [SORTED] = "peer_sorted", [INSERTION] = "peer_insertion" };
static const char *const clauses_peers[PEERS] = { [UNITS] = "peer_units", [ONEPASS] = "peer_onepass" };

// The library's time over each peer's, set by set.
static void write_peers(FILE *file, const results *r, const char *const names[PEERS], const peers_time *times, int sets,
                        const char *const where[])
{
    for (int i = 0; i < PEERS; i++) {
        fprintf(file, "- %s:", names[i]);
        for (int s = 0; s < sets; s++) {
            fprintf(file, s ? ", " : " ");
            write_ratio(file, r, &times[s].best[OURS], &times[s].best[i], "**");
            fprintf(file, " %s", where[s]);
        }
        fprintf(file, "\n");
    }
}

// The library's time over each peer's that decides, set by set.
static void write_deciders(FILE *file, const results *r)
{
    static const char *const peers[] = { "peer_value", "peer_premises", "peer_best", "peer_sets" };
    static const char *const where[SETS] = { "on editor-size questions", "near the limits", "on equal conditions" };
    for (size_t i = 0; i < sizeof peers / sizeof *peers; i++) {
        fprintf(file, "- %s:", peers[i]);
        for (int s = 0; s < SETS; s++) {
            fprintf(file, s ? ", " : " ");
            write_ratio(file, r, &r->implementations[0].best[s], faster(r, s, peers[i]), "**");
            fprintf(file, " %s", where[s]);
        }
        fprintf(file, "\n");
    }
}

static void write_headline(FILE *file, const results *r)
{
    static const char *const listers[] = { "peer_each", "peer_table", "peer_words", "peer_levels" };
    static const char *const spelled[] = { "on spelling editor-size questions", "near the limits", "on equal conditions",
                                           "with repeats", "with 212 bytes" };
    static const char *const clauses[] = { "on editor-size clauses", "near the limits", "on chains" };
    fprintf(file, "Against the faster build of each C peer:\n\n");
    write_deciders(file, r);
    for (int i = 0; i < 4; i++) {
        fprintf(file, "- %s: ", listers[i]);
        write_ratio(file, r, &r->listers[0].best, faster_lister(r, listers[i]), "**");
        fprintf(file, " on listing the states\n");
    }
    write_peers(file, r, spell_peers, r->spellings, SPELLED_SETS, spelled);
    write_peers(file, r, clauses_peers, r->clauses_times, CLAUSES_SETS, clauses);
    fprintf(file, "\n");
}

static void write_listing(FILE *file, const results *r)
{
    const question_set *set = &r->listed;
    fprintf(file, "## Listing the states\n\n");
    fprintf(file, "%d questions with 16 letters, %d of them refuted; %.0f states listed a question on average.\n\n",
            set->count, (int)set->refuted, (double)set->states / set->count);
    fprintf(file, "| implementation | what | a question | median | gekunday / it |\n|---|---|---:|---:|---:|\n");
    for (int k = 0; k < r->listers_count; k++) {
        const lister *l = &r->listers[k];
        char best[32], median[32];
        format_time(best, sizeof best, l->best);
        format_time(median, sizeof median, l->median);
        fprintf(file, "| %s | %s | %s | %s | ", l->name, l->note, best, median);
        write_ratio(file, r, &r->listers[0].best, &l->best, "");
        fprintf(file, " |\n");
    }
    fprintf(file, "\n");
}

static void write_spread(FILE *file, const results *r)
{
    const spread_time *t = &r->spread_time;
    char ours[32], peer[32], low[32];
    format_time(ours, sizeof ours, t->ours);
    format_time(peer, sizeof peer, t->peer);
    format_time(low, sizeof low, t->low);
    fprintf(file, "## Letters over all %d\n\n| questions | gekunday | peer_value, faster build | ", LETTERS);
    fprintf(file, "gekunday / peer_value | gekunday, low letters | high / low |\n|---|---:|---:|---:|---:|---:|\n");
    fprintf(file, "| %s (%d) | %s | %s | ", t->set->title, t->set->count, ours, peer);
    write_ratio(file, r, &t->ours, &t->peer, "");
    fprintf(file, " | %s | %.2f |\n\n", low, t->ours / t->low);
}

// The line below a table's head, for so many columns of numbers.
static void write_rule(FILE *file, int numbers)
{
    fprintf(file, "\n|---|");
    while (numbers-- > 0)
        fprintf(file, "---:|");
    fprintf(file, "\n");
}

// The end of a head with so many columns of numbers, and of a row: two more columns if there is an archive before.
static void end_head(FILE *file, int numbers)
{
#ifdef WITH_BEFORE
    fprintf(file, " before | gekunday / before |");
    numbers += 2;
#endif
    write_rule(file, numbers);
}

static void end_row(FILE *file, const results *r, const double *ours, const double *before)
{
#ifdef WITH_BEFORE
    char text[32];
    format_time(text, sizeof text, *before);
    fprintf(file, " %s | ", text);
    write_ratio(file, r, ours, before, "");
    fprintf(file, " |");
#else
    (void)r, (void)ours, (void)before;
#endif
    fprintf(file, "\n");
}

static void write_distinct(FILE *file, const results *r)
{
    fprintf(file, "## Without equal compounds\n\n");
    fprintf(file, "| questions | gekunday | peer_value, faster build | gekunday / peer_value |");
    end_head(file, 3);
    for (int s = 0; s < DISTINCT_SETS; s++) {
        const distinct_time *t = &r->distincts[s];
        char ours[32], peer[32];
        format_time(ours, sizeof ours, t->ours);
        format_time(peer, sizeof peer, t->peer);
        fprintf(file, "| %s (%d) | %s | %s | ", t->set->title, t->set->count, ours, peer);
        write_ratio(file, r, &t->ours, &t->peer, "");
        fprintf(file, " |");
        end_row(file, r, &t->ours, &t->before);
    }
    fprintf(file, "\n");
}

static void begin_peers_head(FILE *file, const char *const names[PEERS])
{
    fprintf(file, "| questions | gekunday |");
    for (int i = 0; i < PEERS; i++)
        fprintf(file, " %s, faster build | gekunday / %s |", names[i], names[i]);
}

static void begin_peers_row(FILE *file, const results *r, const peers_time *t)
{
    char time[32];
    format_time(time, sizeof time, t->best[OURS]);
    fprintf(file, "| %s (%d) | %s |", t->set->title, t->set->count, time);
    for (int i = 0; i < PEERS; i++) {
        format_time(time, sizeof time, t->best[i]);
        fprintf(file, " %s | ", time);
        write_ratio(file, r, &t->best[OURS], &t->best[i], "");
        fprintf(file, " |");
    }
}

static void write_spelling(FILE *file, const results *r)
{
    fprintf(file, "## Spelling\n\n");
    begin_peers_head(file, spell_peers);
    end_head(file, 1 + 2 * PEERS);
    for (int s = 0; s < SPELLED_SETS; s++) {
        const peers_time *t = &r->spellings[s];
        begin_peers_row(file, r, t);
        end_row(file, r, &t->best[OURS], &t->best[BEFORE]);
    }
    fprintf(file, "\n");
}

static void write_clauses(FILE *file, const results *r)
{
    fprintf(file, "## Clauses\n\n");
    begin_peers_head(file, clauses_peers);
    fprintf(file, " gekunday_decide | decide / gekunday | rounds | reductions |");
    end_head(file, 5 + 2 * PEERS);
    for (int s = 0; s < CLAUSES_SETS; s++) {
        const peers_time *t = &r->clauses_times[s];
        const question_set *set = t->set;
        char decide[32];
        begin_peers_row(file, r, t);
        format_time(decide, sizeof decide, t->best[DECIDE_CALL]);
        fprintf(file, " %s | %.1f | %.1f | %.1f |", decide, t->best[DECIDE_CALL] / t->best[OURS],
                (double)set->rounds / set->count, (double)set->reductions / set->count);
        end_row(file, r, &t->best[OURS], &t->best[BEFORE]);
    }
    fprintf(file, "\n");
}

static void write_readings(FILE *file, const results *r)
{
    fprintf(file, "## Reading\n\n| questions | gekunday_formula, place 99 | peer's reader | ratio | share of decide |\n");
    fprintf(file, "|---|---:|---:|---:|---:|\n");
    for (int i = 0; i <= SETS; i++) {
        const reading_time *t = &r->readings[i];
        char ours[32], peer[32], share[32] = "";
        format_time(ours, sizeof ours, t->ours);
        format_time(peer, sizeof peer, t->peer);
        if (i < SETS)
            snprintf(share, sizeof share, "%.1f %%", 100 * t->ours / r->implementations[0].best[i]);
        fprintf(file, "| %s | %s | %s | ", t->set, ours, peer);
        write_ratio(file, r, &t->ours, &t->peer, "");
        fprintf(file, " | %s |\n", share);
    }
}

static void write_formulas(FILE *file, const results *r)
{
    fprintf(file, "\n## Handing out formulas\n\n| questions | gekunday_formula, a call |");
    end_head(file, 1);
    for (int s = 0; s < SPELLED_SETS; s++) {
        const formula_time *t = &r->formulas[s];
        char ours[32];
        format_time(ours, sizeof ours, t->ours);
        fprintf(file, "| %s (%d) | %s |", t->set->title, t->set->count, ours);
        end_row(file, r, &t->ours, &t->before);
    }
}

static void write_derivations(FILE *file, const results *r)
{
    fprintf(file, "\n## Derivations\n\n| theorems of | decide | derive | derive / decide | check | check / decide |");
#ifdef WITH_BEFORE
    fprintf(file, " derive / before | check / before |");
#endif
    fprintf(file, "\n|---|---:|---:|---:|---:|---:|");
#ifdef WITH_BEFORE
    fprintf(file, "---:|---:|");
#endif
    fprintf(file, "\n");
    for (int s = 0; s < SETS + DISTINCT_SETS; s++) {
        const derivation_time *t = &r->derivations[s];
        char decide[32], derive[32], check[32];
        format_time(decide, sizeof decide, t->decide);
        format_time(derive, sizeof derive, t->derive);
        format_time(check, sizeof check, t->check);
        fprintf(file, "| %s (%d) | %s | %s | %.2f | %s | %.2f |", t->set, t->theorems, decide, derive,
                t->derive / t->decide, check, t->check / t->decide);
#ifdef WITH_BEFORE
        fprintf(file, " ");
        write_ratio(file, r, &t->derive, &t->derive_before, "");
        fprintf(file, " | ");
        write_ratio(file, r, &t->check, &t->check_before, "");
        fprintf(file, " |");
#endif
        fprintf(file, "\n");
    }
}

void write_table(FILE *file, const results *r)
{
    fprintf(file, "# Time of a decision\n\n");
    fprintf(file, "Best of %d rounds (and the median)", r->rounds);
    if (r->orders_count > 1)
        fprintf(file, ", the mean over %d link orders; behind a ratio its range over them", r->orders_count);
    fprintf(file, "; below 1.00 gekunday is the faster.\n\n");
    write_headline(file, r);
    for (int s = 0; s < SETS; s++)
        write_set(file, r, s);
    write_distinct(file, r);
    write_spread(file, r);
    write_listing(file, r);
    write_spelling(file, r);
    write_clauses(file, r);
    write_readings(file, r);
    write_formulas(file, r);
    write_derivations(file, r);
    fprintf(file, "\n## Stack\n\n| call | greatest depth | questions tried |\n|---|---:|---:|\n");
    for (int i = 0; i < CALLS; i++) {
        const stack_use *u = &r->stacks[i];
        if (u->questions)
            fprintf(file, "| %s | %s%zu bytes | %d |\n", u->call, u->bytes > LEAST_DEPTH ? "" : "at most ", u->bytes,
                    u->questions);
        else
            fprintf(file, "| %s | not measured | 0 |\n", u->call);
    }
}

enum { WIDTH = 860, LABELS = 190, PLOT = 560, ROW = 24, HEAD = 64, GAP = 38 };

typedef struct {
    double low, high; // powers of ten
} scale;

// Each set has its own: theirs are far apart.
static scale scale_of(const results *r, int s)
{
    double low = INFINITY, high = 0;
    for (int k = 0; k < r->count; k++) {
        low = fmin(low, r->implementations[k].best[s]);
        high = fmax(high, r->implementations[k].best[s]);
    }
    return (scale){ floor(log10(low)), ceil(log10(high)) };
}

static double x_of(scale c, double ns) { return LABELS + PLOT * (log10(ns) - c.low) / (c.high - c.low); }

static void write_line(FILE *file, const char *class, double x, double top, double bottom)
{
    fprintf(file, "<line class='%s' x1='%.1f' y1='%.1f' x2='%.1f' y2='%.1f'/>\n", class, x, top, x, bottom);
}

static void write_axis(FILE *file, scale c, double top, double bottom)
{
    for (double e = c.low; e <= c.high; e++) {
        double x = x_of(c, pow(10, e)), value = pow(10, e - 3 * floor(e / 3));
        const char *unit = e < 3 ? "ns" : e < 6 ? "µs" : e < 9 ? "ms" : "s";
        write_line(file, "grid", x, top, bottom);
        fprintf(file, "<text class='tick' x='%.1f' y='%.1f'>%.0f %s</text>\n", x, bottom + 16, value, unit);
        for (int k = 2; k <= 9 && e < c.high; k++)
            write_line(file, "fine", x_of(c, k * pow(10, e)), top, bottom);
    }
}

static void write_bars(FILE *file, const results *r, int s, scale c, double top)
{
    for (int k = 0; k < r->count; k++) {
        const implementation *m = &r->implementations[k];
        const char *class = k == 0 ? "ours" : m->agrees == TREE ? "tree" : "other";
        double y = top + k * ROW, x = x_of(c, m->best[s]);
        char text[32];
        format_time(text, sizeof text, m->best[s]);
        fprintf(file, "<text class='label%s' x='%d' y='%.1f'>%s</text>\n", k == 0 ? " first" : "", LABELS - 10, y + 16,
                m->name);
        fprintf(file, "<rect class='%s' x='%d' y='%.1f' width='%.1f' height='%d' rx='2'/>\n", class, LABELS, y + 4,
                fmax(1, x - LABELS), ROW - 8);
        fprintf(file, "<text class='value' x='%.1f' y='%.1f'>%s</text>\n", x + 6, y + 16, text);
    }
}

static void write_legend(FILE *file, double y)
{
    static const char *const class[] = { "ours", "tree", "other" };
    static const char *const text[] = { "gekunday", "the same tree", "other methods" };
    static const int x[] = { LABELS, LABELS + 110, LABELS + 240 };
    for (int i = 0; i < 3; i++) {
        fprintf(file, "<rect class='%s' x='%d' y='%.1f' width='12' height='12' rx='2'/>\n", class[i], x[i], y - 10);
        fprintf(file, "<text class='key' x='%d' y='%.1f'>%s</text>\n", x[i] + 18, y, text[i]);
    }
}

void write_plot(FILE *file, const results *r)
{
    double chart = r->count * ROW + 2 * GAP, height = HEAD + SETS * chart + 16;
    fprintf(file, "<svg xmlns='http://www.w3.org/2000/svg' viewBox='0 0 %d %.0f' width='%d' height='%.0f'>\n", WIDTH,
            height, WIDTH, height);
    fprintf(file, "<style>text{font-family:'DejaVu Sans',Helvetica,Arial,sans-serif;font-size:12px;fill:#222}"
                  ".title{font-size:17px;font-weight:bold}.chart{font-size:14px;font-weight:bold}"
                  ".label{text-anchor:end}.first{font-weight:bold}.tick{text-anchor:middle;fill:#666;font-size:11px}"
                  ".value{font-size:11px;paint-order:stroke;stroke:#fff;stroke-width:4px}"
                  ".key{fill:#444}.grid{stroke:#ccc}.fine{stroke:#eee}"
                  ".ours{fill:#c0392b}.tree{fill:#2f6690}.other{fill:#9aa5ad}</style>\n");
    fprintf(file, "<rect width='100%%' height='100%%' fill='#fff'/>\n");
    fprintf(file, "<text class='title' x='20' y='30'>Time to decide one question (log scale, shorter is faster)</text>\n");
    write_legend(file, 54);
    for (int s = 0; s < SETS; s++) {
        double top = HEAD + s * chart + GAP - 4;
        scale c = scale_of(r, s);
        fprintf(file, "<text class='chart' x='%d' y='%.1f'>%s</text>\n", LABELS, top - 8, r->sets[s].title);
        write_axis(file, c, top, top + r->count * ROW);
        write_bars(file, r, s, c, top);
    }
    fprintf(file, "</svg>\n");
}
