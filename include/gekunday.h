/*
 * gekunday.h: decide propositional sequents by Wang's method.
 *
 * A question is a sequent: a left side and a right side, each a list of formulas.  In a state (which letters are true)
 * it is true if some left formula is false or some right formula is true.  A question that is true in every state is a
 * theorem; every other one is refuted, and the library names a state that makes each left formula true and each right
 * formula false, or all such states.  Questions that differ only in the order of a side's formulas, or in how often one
 * stands there, have one standard spelling.  Questions whose formulas are clauses alone ("if these letters, then that
 * letter") are decided without a budget, and the state that refutes one is the least.
 *
 * THE BYTES OF A QUESTION (hexadecimal)
 *
 *   10 n   the left side, n formulas follow (n from 0 to 16)
 *   20 m   the right side, m formulas follow (m from 0 to 16)
 *   01 k   the letter k (0 to 63)
 *   02     NOT, one formula follows
 *   03     AND      \
 *   04     OR        | two formulas follow
 *   05     IMPLIES   |
 *   06     EQUIV    /
 *
 * A question is 10 with its formulas, then 20 with its formulas, and nothing more.  It has at most 48 connectives
 * (02 to 06) over both sides, so at most 212 bytes.  "P implies P", with P the letter 0: 10 00 20 01 05 01 00 01 00.
 *
 * STATES
 *
 * A state is a 64-bit number: bit k is set exactly if letter k is true in it.  A stored 32-bit state, from when letters
 * went to 31, reads as the same number: assign the uint32_t to a uint64_t, and letters 32 to 63 are false in it.  Never
 * take it through a signed type: where letter 31 is true, letters 32 to 63 would become true, too.
 *
 * WHAT HOLDS OF EVERY CALL
 *
 *   - It returns a number: 0 where there is no refusal, otherwise one of the GEKUNDAY_... numbers below.
 *   - It writes every word of `out`.  Words that the comment at the call does not name are 0.
 *   - It uses no heap, no globals and no files; calls from several threads do not disturb each other.
 *   - It changes no lent byte but those of the derivation that gekunday_derive writes, of the states that
 *     gekunday_states lists, and of the spelling that gekunday_spell writes, when it returns 0.  A refused call leaves
 *     each lent byte as it was.
 *   - It ends, for all bytes and all lengths.  There is nothing that the caller must check first: only that each pointer
 *     is good for the length or room that goes with it (for 0, any pointer that is not null will do) and that `out` has
 *     the words its type says.  A question or derivation may share bytes with another one, but not with the buffer of a
 *     derivation, of states or of a spelling, or with `out`; nor may such a buffer share any with `out`.
 *
 * HOW LONG A CALL CAN TAKE
 *
 * gekunday_width answers the width W and the connectives c without deciding, in one walk over the bytes.  Then
 *
 *   reductions <= c * W;
 *   closings <= W (closings + 1 <= W for a refuted question);
 *   a derivation has 2 bytes for each reduction and each closing on a letter, and 3 for each closing on equal formulas;
 *   one that gekunday_derive writes has at most 2 * (c * W + W): GEKUNDAY_DERIVATION_MAX(W, c).
 *
 * W is at most 2 to the power c, so these bounds fit 64 bits.  A budget of c * W is never spent.
 *
 * gekunday_states has no budget.  It tries the states of the letters that occur, at most 65,536, whatever W is.
 *
 * gekunday_spell has no budget, either.  It puts the formulas of each side in order, at most 16, whatever W is.
 *
 * Nor has gekunday_clauses.  It goes over at most 16 clauses in each round.  The rounds that make a letter true are at
 * most as many as the clauses, and as the different letters, whatever W is; the round after them is the last.
 */
#ifndef GEKUNDAY_H
#define GEKUNDAY_H

#include <stddef.h>
#include <stdint.h>

#ifdef __cplusplus
extern "C" {
#endif

/* ---- limits ------------------------------------------------------------------------------------------------------ */

#define GEKUNDAY_QUESTION_MAX 212    /* bytes of a question */
#define GEKUNDAY_FORMULAS_MAX 16     /* formulas on one side */
#define GEKUNDAY_CONNECTIVES_MAX 48  /* connectives over both sides */
#define GEKUNDAY_LETTERS 64          /* letters are numbered 0 to 63 */
#define GEKUNDAY_VARIED_MAX 16       /* different letters that a question may have for its states to be listed */
#define GEKUNDAY_STATES_MAX 65536    /* states in a list: a buffer of so many is never too short */

/* The longest derivation, in bytes, that is written for width W and c connectives (both as gekunday_width answers). */
#define GEKUNDAY_DERIVATION_MAX(W, c) (2u * ((uint64_t)(c) * (uint64_t)(W) + (uint64_t)(W)))

/* ---- the bytes of a question ------------------------------------------------------------------------------------- */

#define GEKUNDAY_BYTE_LETTER 0x01
#define GEKUNDAY_BYTE_NOT 0x02
#define GEKUNDAY_BYTE_AND 0x03
#define GEKUNDAY_BYTE_OR 0x04
#define GEKUNDAY_BYTE_IMPLIES 0x05
#define GEKUNDAY_BYTE_EQUIV 0x06
#define GEKUNDAY_BYTE_LEFT 0x10
#define GEKUNDAY_BYTE_RIGHT 0x20

/* ---- sides, for gekunday_formula --------------------------------------------------------------------------------- */

#define GEKUNDAY_LEFT 0
#define GEKUNDAY_RIGHT 1

/* ---- out[0] of gekunday_decide and of gekunday_clauses when they return 0 ---------------------------------------- */

#define GEKUNDAY_THEOREM 0
#define GEKUNDAY_REFUTED 1

/* ---- numbers returned -------------------------------------------------------------------------------------------- */

#define GEKUNDAY_OK 0

/* A refused question.  TOO_LONG comes before all; otherwise the earliest, reading from the first byte on, decides. */
#define GEKUNDAY_TOO_LONG 1         /* it has more than 212 bytes; place 212 */
#define GEKUNDAY_CUT 2              /* it ends where a command or operand is due; place: its length */
#define GEKUNDAY_WRONG_COMMAND 3    /* a byte that may not come there; place: the byte's */
#define GEKUNDAY_MANY_FORMULAS 4    /* a side's count is over 16; place: the operand's */
#define GEKUNDAY_NO_SUCH_LETTER 5   /* a letter over 63; place: the operand's */
#define GEKUNDAY_MANY_CONNECTIVES 6 /* the 49th connective; place: the command's */
#define GEKUNDAY_LEFT_OVER 7        /* bytes follow the last formula; place: the first such byte's */

/* A run that came to no verdict, or a derivation that was not written; looked for in this order.  8 is not used again. */
#define GEKUNDAY_SPENT 9            /* the budget is below the reductions that the question takes */
#define GEKUNDAY_NOT_PROVED 10      /* a derivation is asked of a refuted question */
#define GEKUNDAY_NO_SPACE 11        /* the buffer is shorter than the derivation, the list of states or the spelling */

/* States that were not listed; looked for before NO_SPACE. */
#define GEKUNDAY_MANY_LETTERS 12    /* more than 16 different letters occur in the question */

/* A question that is read, but is not made of clauses alone: 1 to 7 come before these.  RIGHT_FORMULA comes first; then
 * the earliest left formula decides, and at one formula NOT_CLAUSE comes first.  The place is that of the formula's first
 * byte. */
#define GEKUNDAY_RIGHT_FORMULA 13   /* the right side has a formula; place: its first one's */
#define GEKUNDAY_NOT_CLAUSE 14      /* a left formula that is not built from letters, NOT of a letter and OR alone */
#define GEKUNDAY_MANY_POSITIVE 15   /* a left formula with two or more letters without NOT, counted by occurrence */

/* A derivation that does not pass; at each command looked for in this order.  The place counts from the derivation's
 * first byte: it is the command's, for LEFT_OVER that of the first byte left over. */
#define GEKUNDAY_CHECK_CUT 20             /* fewer than two bytes left while a sequent waits; for 42, fewer than three */
#define GEKUNDAY_CHECK_UNKNOWN_COMMAND 21 /* not 41, 42, 52 to 56 or 62 to 66 */
#define GEKUNDAY_CHECK_NO_FORMULA 22      /* no formula at that place of that side; for 42, at one of the two */
#define GEKUNDAY_CHECK_OTHER_FORMULA 23   /* the formula there is a letter or has another connective */
#define GEKUNDAY_CHECK_NOT_CLOSED 24      /* the letter does not stand on both sides */
#define GEKUNDAY_CHECK_LEFT_OVER 25       /* bytes after a complete derivation */
#define GEKUNDAY_CHECK_NOT_EQUAL 26       /* the two formulas that 42 names differ or are letters */

/* ---- calls ------------------------------------------------------------------------------------------------------- */

/*
 * Decides a question, with at most `budget` reductions (0 is allowed).
 *
 *   0: out = {0 theorem or 1 refuted, state, reductions, closings}; 9: {0, 0, reductions, closings}; 1 to 7: {place}
 *
 * The state has bit k set exactly if letter k is true in it; it is 0 for a theorem.  9 (SPENT) exactly if the question
 * takes more reductions than the budget; it then reports the budget as reductions.
 */
uint32_t gekunday_decide(const uint8_t *question, size_t length, uint64_t budget, uint64_t out[4]);

/*
 * Works out the width W and counts the connectives c, without deciding.
 *
 *   0: out = {W, c}; 1 to 7: {place}
 */
uint32_t gekunday_width(const uint8_t *question, size_t length, uint64_t out[2]);

/*
 * Finds a formula of the question: `side` is GEKUNDAY_LEFT or GEKUNDAY_RIGHT, `place` counts from 0 on that side.
 *
 *   always 0: out = {where the formula's bytes start, how many}; {0, 0} where refused, no such place or no such side
 *
 * A formula has at least two bytes, so out[1] tells whether there is one.
 */
uint32_t gekunday_formula(const uint8_t *question, size_t length, uint32_t side /* 0 left, 1 right */, size_t place,
                          uint64_t out[2]);

/*
 * Decides a question like gekunday_decide and, if it is a theorem, writes its derivation to the first bytes of `buffer`,
 * which has `room` bytes.  The bytes behind the derivation keep their content.
 *
 *   0: out = {length, reductions, closings}; 9: {reductions, closings}; 10: {state, reductions, closings};
 *   11: {length needed}; 1 to 7: {place}
 *
 * Under any number but 0 the whole buffer keeps its content.  A buffer of GEKUNDAY_DERIVATION_MAX(W, c) bytes is never
 * too short; with a room of 0 the call answers, for a theorem, how long the derivation is.
 *
 * A derivation is commands with operands of one byte: 52 to 56 reduce NOT to EQUIV on the left, 62 to 66 on the right,
 * followed by the formula's place on that side; 41 closes on a letter of both sides, followed by the letter; 42 closes
 * on equal formulas with a connective, followed by the left place and the right place.  After a reduction with two
 * premises comes the whole derivation of the first premise, then that of the second.
 *
 * A sequent is closed by its lowest letter on both sides.  If there is none, it is closed by the lowest left place whose
 * formula has an equal on the right, with the lowest such right place.
 */
uint32_t gekunday_derive(const uint8_t *question, size_t length, uint64_t budget, uint8_t *buffer, size_t room,
                         uint64_t out[3]);

/*
 * Checks a derivation of a question, ours or another's: it may reduce in any order.
 *
 *   0: it passes; 1 to 7, 20 to 26: {place}
 *
 * With 1 to 7 the place is the question's, with 20 to 26 the derivation's.  A derivation that passes shows that the
 * question is a theorem.
 */
uint32_t gekunday_check(const uint8_t *question, size_t length, const uint8_t *derivation, size_t derivation_length,
                        uint64_t out[1]);

/*
 * Lists every state that makes a question false, ascending as numbers, each once, in the first places of `states`, which
 * has room for `room` of them.  The places behind the list keep their content.
 *
 *   0: out = {number of states}; 12: {number of different letters}; 11: {number of states}; 1 to 7: {place}
 *
 * A state has bit k set exactly if letter k is true in it.  Only letters that occur in the question vary; all others are
 * false in every state listed.  For a theorem the list is empty.  12 (MANY_LETTERS) if more than 16 different letters
 * occur.
 *
 * Under any number but 0 the whole buffer keeps its content.  A buffer of GEKUNDAY_STATES_MAX is never too short; with a
 * room of 0 the call answers how many states there are.
 */
uint32_t gekunday_states(const uint8_t *question, size_t length, uint64_t *states, size_t room, uint64_t out[1]);

/*
 * Writes the standard spelling of a question to the first bytes of `buffer`, which has `room` bytes: on each side the
 * formulas ascend by their bytes, compared from the first, and equal ones are written once.  The bytes behind the
 * spelling keep their content.
 *
 *   0: out = {length}; 11: {length needed}; 1 to 7: {place}
 *
 * Two accepted questions get the same spelling exactly if each side has the same set of formulas.  A spelling is an
 * accepted question, and its spelling is itself.  It is true in exactly the states in which the question is: a theorem
 * stays a theorem, a refuted one stays refuted, and gekunday_states answers the same.  What need not stay: which of the
 * refuting states gekunday_decide names, the reductions and closings, the width, and the places of formulas.  So a
 * derivation of the question need not pass for its spelling.
 *
 * Under any number but 0 the whole buffer keeps its content.  A spelling is never longer than its question, so a buffer
 * of `length` bytes, or of GEKUNDAY_QUESTION_MAX, is never too short; with a room of 0 the call answers how long the
 * spelling is.
 */
uint32_t gekunday_spell(const uint8_t *question, size_t length, uint8_t *buffer, size_t room, uint64_t out[1]);

/*
 * Decides a question that is made of clauses alone (Horn clauses, by unit propagation): the right side is empty, and
 * each left formula is a letter, NOT of a letter, or OR of such formulas, with at most one letter that stands without
 * NOT, counted by occurrence.  Each is a rule: NOT a OR NOT b OR c is "if a and b, then c", NOT a OR NOT b is "not both a
 * and b", and c alone is "c".
 *
 *   0: out = {0 theorem or 1 refuted, state, rounds}; 13, 14, 15: {place}; 1 to 7: {place}
 *
 * All letters start false.  A round makes true every false letter that is the letter without NOT of a clause whose
 * letters under NOT are all true when the round starts.  Rounds go on until one makes no letter true; then the question
 * is a theorem exactly if some clause is false.  `rounds` is the number of rounds that made a letter true: at most the
 * number of different letters in the question.
 *
 * The state of a refuted question is the least one: each letter true in it is true in every state that refutes.  It is
 * 0 for a theorem.  There is no budget: the verdict is that of gekunday_decide wherever that does not end with 9.  The
 * state that gekunday_decide names need not be the least.
 *
 * A question without any formula is made of clauses alone: it is refuted, with state 0 and 0 rounds.  NOT NOT a is no
 * clause (14), and a OR a has two letters without NOT (15).
 */
uint32_t gekunday_clauses(const uint8_t *question, size_t length, uint64_t out[3]);

#ifdef __cplusplus
}
#endif

#endif /* GEKUNDAY_H */
