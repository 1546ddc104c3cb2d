// What the driver measures and the report shows.
#pragma once
#include "questions.h"
#include <stdbool.h>

enum { EDITOR, LIMITS, CONDITIONS, SETS, DISTINCT_SETS = 2 };
enum { REPEATS = SETS, LONGEST, SPELLED_SETS };
enum { FEW_CLAUSES, MANY_CLAUSES, CHAINS, CLAUSES_SETS };
enum { SORTED, INSERTION, UNITS = 0, ONEPASS, PEERS }; // those that spell, and those that decide clauses
enum { OURS = PEERS, BEFORE, DECIDE_CALL, TIMES }; // ours, the archive's before, and gekunday_decide's on clauses
enum { CALLS = 7, MOST_IMPLEMENTATIONS = 16, MOST_LISTERS = 16, MOST_KINDS = 16, MOST_ROUNDS = 101, MOST_ORDERS = 16 };
enum { DAMAGES = LETTERS + 16 }; // a changed byte is below this: a command, a letter, or one too high

// How many words of the answer, beside its number, must be the same as peer_value's.
typedef enum { VERDICT = 1, TREE = 4 } agreement;

typedef struct {
    const char *name, *note;
    decide *decide; // none for the LISP process
    agreement agrees;
    int passes[SETS];
    double best[SETS], median[SETS]; // nanoseconds a question
} implementation;

typedef struct {
    const char *name, *note;
    list_states *states;
    bool slow; // takes its turn in every fifth round only
    int passes;
    double best, median; // nanoseconds a question
} lister;

typedef struct {
    const char *set;
    double ours, peer; // nanoseconds a question
} reading_time;

typedef struct {
    const question_set *set;
    double ours, before; // nanoseconds a call
} formula_time;

typedef struct {
    const question_set *set;
    double ours, before, peer; // nanoseconds a question
} distinct_time;

typedef struct {
    const question_set *set;
    double ours, peer, low; // nanoseconds a question; low is ours with the letters that the questions had
} spread_time;

typedef struct {
    const question_set *set;
    double best[TIMES]; // nanoseconds a question, a peer's in its faster build
} peers_time;

typedef struct {
    const char *set;
    int theorems;
    double decide, derive, check; // nanoseconds a theorem
    double derive_before, check_before;
} derivation_time;

typedef struct {
    const char *call;
    size_t bytes;
    int questions;
} stack_use;

typedef struct results results;
struct results {
    question_set sets[SETS];
    implementation implementations[MOST_IMPLEMENTATIONS]; // the first is the library under test
    int count, rounds;
    question_set listed;
    lister listers[MOST_LISTERS]; // the first is the library under test
    int listers_count;
    question_set distinct[DISTINCT_SETS]; // those of the first two sets without equal compounds
    distinct_time distincts[DISTINCT_SETS];
    question_set spread; // those of the first set with letters over all LETTERS
    spread_time spread_time;
    question_set repeats, longest;
    const question_set *spelled[SPELLED_SETS]; // the first sets and these two
    peers_time spellings[SPELLED_SETS];
    question_set clauses[CLAUSES_SETS];
    peers_time clauses_times[CLAUSES_SETS];
    reading_time readings[SETS + 1];
    formula_time formulas[SPELLED_SETS];
    derivation_time derivations[SETS + DISTINCT_SETS];
    stack_use stacks[CALLS];
    const results *orders; // those of each link order; then all times here are the means over them
    int orders_count;
};

double now(void); // nanoseconds
void sum_up(double *samples, int count, double *best, double *median);

// Each round begins at another stack address, so that no single layout decides.
#define SHIFT_STACK(round) (*(volatile char *)__builtin_alloca(16 + (round) * 208 % 1024) = 0)

// So many kinds of pass over a set take turns within a round. A pass answers whose it is: a peer's, OURS, BEFORE or DECIDE_CALL.
typedef int set_pass(int kind, const question_set *set);
peers_time time_passes(set_pass *pass, int kinds, const question_set *set, int rounds);

// Listing states: who takes part, whether all agree (the run stops if not), and how long they take.
void add_listers(results *r);
void check_listing(const results *r);
void time_listing(results *r);

// Spelling: whether all agree, and how long they take.
void check_spelling(const results *r);
void time_spelling(results *r);

// Clauses: whether all agree, with gekunday_decide too, and how long they take.
void check_clauses(const results *r);
void time_clauses(results *r);

// Handing out formulas: whether the right ones, and how long it takes the library and the archive before, if one is given.
void check_formulas(const results *r);
void time_formulas(results *r);

// Writing and checking derivations of the theorems, by the library and by the archive before, if one is given.
void check_derivations(const results *r);
void time_derivations(results *r);

// Writes the times of a link order to a file in the directory. Reads those of so many: all times become the means.
void write_times(results *r, const char *directory, int order);
void take_means(results *r, const char *directory, int count);

void write_table(FILE *file, const results *r);
void write_plot(FILE *file, const results *r);

// The greatest stack depth of each call of the library: over deeply nested questions of 48 connectives, those near the
// limits and with equal conditions that have 48, and some of the longest; gekunday_states also over those of 16 letters that
// have 48, gekunday_spell over some with repeats, gekunday_clauses over some of its sets and OR nested on the left alone.
// Depths up to LEAST_DEPTH, the probe's own frame with them, are not told apart.
enum { LEAST_DEPTH = 256 };
void probe_stacks(results *r);
