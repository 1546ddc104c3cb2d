// The benchmark's questions: the same ones on every run and every machine.
#pragma once
#include "peer.h"
#include <stdio.h>

enum { BUDGET = 1000000, EDITOR_QUESTIONS = 400, LIMITS_QUESTIONS = 200, CONDITION_QUESTIONS = 200 };
enum { LONG_QUESTIONS = 1000, STATES_QUESTIONS = 200, REPEATS_QUESTIONS = 1000, CLAUSES_QUESTIONS = 1000 };

// Letters from this one on count as high. The sets below have none, long_set and those of clauses apart.
enum { HIGH_LETTER = 32 };

typedef struct {
    uint8_t bytes[MOST_BYTES];
    uint8_t length;
} question;

typedef struct {
    const char *name, *title;
    int count;
    question *questions;
    uint64_t (*answers)[4]; // by peer_value, with budget BUDGET
    uint64_t reductions, refuted, states; // of all questions together; states only in states_set
    uint64_t only_letters;                // the reductions in all if only letters closed
    uint64_t rounds;                      // of all together, in sets of clauses
} question_set;

question_set editor_set(void); // 6 to 14 connectives
question_set limits_set(void); // 36 to 48 connectives, large trees
question_set conditions_set(void); // 24 to 48 connectives, a long condition on both sides, closed on as a whole
question_set long_set(void);   // 212 bytes, for reading; their trees can be too large to decide
question_set states_set(void); // 16 letters, 40 to 48 connectives, for listing; the same holds of their trees
question_set repeats_set(void); // 4 to 16 formulas a side, a third of them repeats, for spelling
question_set few_clauses_set(void);  // 3 to 8 clauses, 4 to 20 connectives
question_set many_clauses_set(void); // 16 clauses, 44 to 48 connectives
question_set chains_set(void);       // 16 clauses, 12 to 16 rounds

// The questions of a set in which no compound stands twice.
question_set distinct_of(const question_set *set, const char *title);

// The questions of a set with their letters renamed, in any order, to some of all LETTERS, at least one of them high.
question_set spread_of(const question_set *set, const char *title);

// The question's bytes in hexadecimal.
void write_bytes(FILE *file, const question *q);

// The question as DR 34 writes it: (ARROW (...) (...)).
void write_lisp(FILE *file, const question *q);
