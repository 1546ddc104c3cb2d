// What the peers share: the reader, and one signature each for everything that decides, lists, spells or decides clauses.
#pragma once
#include <stddef.h>
#include <stdint.h>

#ifdef __cplusplus
extern "C" {
#endif

enum { MOST_BYTES = 212, MOST_CONNECTIVES = 48, MOST_A_SIDE = 16, MOST_FORMULAS = 80, LETTERS = 64 };
enum { MOST_AGAIN = (MOST_CONNECTIVES + 2 * MOST_A_SIDE) / 2 }; // letters that stand more than once, of 80 places
enum { MOST_SHARED = MOST_CONNECTIVES / 2 };                    // compounds that stand more than once
enum { MOST_VARIED = 16, MOST_STATES = 1 << MOST_VARIED };
enum { LEFT_SIDE = 0x10, RIGHT_SIDE = 0x20, LETTER = 1, NOT = 2, AND = 3, OR = 4, IMPLIES = 5, EQUIV = 6 };
enum { TOO_LONG = 1, CUT, WRONG_COMMAND, MANY_FORMULAS, NO_SUCH_LETTER, MANY_CONNECTIVES, LEFT_OVER };
enum { SPENT = 9, NO_SPACE = 11, MANY_LETTERS, RIGHT_FORMULA, NOT_CLAUSE, MANY_POSITIVE };

// A question as read: where its commands and the formulas of each side start, and which letters stand more than once.
typedef struct {
    uint32_t number, place; // the refusal, 0 for none
    uint8_t commands, connectives, formulas[2];
    uint8_t starts[2][MOST_A_SIDE];
    uint8_t command[MOST_BYTES];
    uint64_t again; // bit k for letter k
} reading;

// Document 01's reader. The answer is the refusal's number.
uint32_t peer_read(const uint8_t *question, size_t length, reading *r);

// Document 01's reader with nothing kept, for the reading benchmark.
uint32_t peer_scan(const uint8_t *question, size_t length, uint64_t out[2]);

// The start of the second part of each connective with two parts.
void second_parts(const uint8_t *question, const reading *r, uint8_t second[MOST_BYTES]);

// The same, and each formula's mark, one bit, the same for equal formulas. Each letter that stands more than once in the
// question has its own, and so has each compound that does; what stands once has none, since it cannot come to both sides.
// So one word holds them all: its first MOST_AGAIN bits are for letters, the MOST_SHARED bits behind them for compounds. The
// answer is how many compounds have one, equal ones counted once.
uint32_t parts_and_marks(const uint8_t *question, const reading *r, uint8_t second[MOST_BYTES], uint64_t mark[MOST_BYTES]);

// The truth table's program, and the states of a word in which the sequent is false.
typedef struct {
    uint8_t operation[128], letter[128];
    int count;
} truth_program;
void truth_compile(const uint8_t *question, const reading *r, const uint8_t index[LETTERS], truth_program *p);
uint64_t truth_falsified(const truth_program *p, const reading *r, const uint64_t value[LETTERS]);

// As gekunday_decide. Those that build no tree leave the state and both counts 0.
typedef uint32_t decide(const uint8_t *question, size_t length, uint64_t budget, uint64_t out[4]);
decide peer_value_decide, peer_premises_decide, peer_best_decide, peer_sets_decide, truth_table_decide, cadical_decide;

// As peer_sets_decide, but a compound closes only if it has at least so many connectives; with ONLY_LETTERS none does, as
// before document 02's c. To choose questions by, and to count what the closing saves.
enum { ONLY_LETTERS = MOST_CONNECTIVES + 1 };
uint32_t peer_sets_closing(const uint8_t *question, size_t length, uint64_t budget, int least, uint64_t out[4]);

// As gekunday_states.
typedef uint32_t list_states(const uint8_t *question, size_t length, uint64_t *states, size_t room, uint64_t out[1]);
list_states peer_each_states, peer_table_states, peer_words_states, peer_levels_states;

// As gekunday_spell.
typedef uint32_t spell(const uint8_t *question, size_t length, uint8_t *buffer, size_t room, uint64_t out[1]);
spell peer_sorted_spell, peer_insertion_spell;

// As gekunday_clauses.
typedef uint32_t clauses(const uint8_t *question, size_t length, uint64_t out[3]);
clauses peer_units_clauses, peer_onepass_clauses;

#ifdef __cplusplus
}
#endif
