// gekunday_spell beside its peers: whether all agree, then their times.
#include "bench.h"
#include <gekunday.h>
#include <stdlib.h>
#include <string.h>

#ifdef WITH_CLANG
spell peer_sorted_spell_clang, peer_insertion_spell_clang;
#endif

#ifdef WITH_BEFORE
spell before_spell;
#endif

enum { FILL = 0xa5, BUFFER = MOST_BYTES + 44 }; // the buffer goes on behind the room

static const struct {
    const char *name;
    spell *spell;
    int who; // a peer in one of its builds, OURS or BEFORE
} spellers[] = {
    { "gekunday", gekunday_spell, OURS },
    { "peer_sorted (" CC_NAME ")", peer_sorted_spell, SORTED },
#ifdef WITH_BEFORE
    { "before", before_spell, BEFORE },
#endif
    { "peer_insertion (" CC_NAME ")", peer_insertion_spell, INSERTION },
#ifdef WITH_CLANG
    { "peer_sorted (clang)", peer_sorted_spell_clang, SORTED },
    { "peer_insertion (clang)", peer_insertion_spell_clang, INSERTION },
#endif
};
enum { SPELLERS = sizeof spellers / sizeof *spellers };

// Agreement

typedef struct {
    uint32_t number;
    uint64_t word;
    uint8_t bytes[BUFFER];
} spelling;

static void ask(spell *f, const question *q, size_t room, spelling *a)
{
    uint64_t out[1] = { 7 };
    memset(a->bytes, FILL, sizeof a->bytes);
    a->number = f(q->bytes, q->length, a->bytes, room, out);
    a->word = out[0];
}

static void disagree(const char *name, const question *q, size_t room, const spelling *given, const spelling *due)
{
    int at = 0;
    while (at < BUFFER - 1 && given->bytes[at] == due->bytes[at])
        at++;
    fprintf(stderr, "bench: DISAGREEMENT of %s, room %zu: %u %llu, due %u %llu\n", name, room, given->number,
            (unsigned long long)given->word, due->number, (unsigned long long)due->word);
    fprintf(stderr, "byte at place %d: %02x, due %02x\nquestion:", at, given->bytes[at], due->bytes[at]);
    write_bytes(stderr, q);
    exit(1);
}

// Number, word and every byte of the buffer, those behind the spelling and behind the room too.
static void hold(const question *q, size_t room, const spelling *due)
{
    for (int k = 0; k < SPELLERS; k++) {
        spelling given;
        ask(spellers[k].spell, q, room, &given);
        if (given.number != due->number || given.word != due->word || memcmp(given.bytes, due->bytes, BUFFER))
            disagree(spellers[k].name, q, room, &given, due);
    }
}

// All answer what peer_sorted does. Its answer is handed back.
static spelling agree(const question *q, size_t room)
{
    spelling due;
    ask(peer_sorted_spell, q, room, &due);
    hold(q, room, &due);
    return due;
}

// Room enough and none, just the room needed and one byte less; then the spelling, which is spelled as itself.
static void check_question(const question *q)
{
    spelling due = agree(q, MOST_BYTES);
    question spelled = { .length = due.word };
    agree(q, 0);
    if (due.number)
        return;
    agree(q, due.word);
    agree(q, due.word - 1);
    memcpy(spelled.bytes, due.bytes, due.word);
    hold(&spelled, MOST_BYTES, &due);
}

// Some cases worked out by hand.
static void check_cases(void)
{
    static const struct {
        question question;
        size_t room;
        uint32_t number, word;
        uint8_t bytes[20];
    } cases[] = {
        { { { 0x10, 0, 0x20, 0 }, 4 }, 4, 0, 4, { 0x10, 0, 0x20, 0 } },
        { { { 0x10, 0, 0x20, 0 }, 4 }, 3, NO_SPACE, 4, { 0 } },
        { { { 0x10, 2, 1, 63, 1, 5, 0x20, 0 }, 8 }, 8, 0, 8, { 0x10, 2, 1, 5, 1, 63, 0x20, 0 } },
        { { { 0x10, 3, 1, 5, 1, 3, 1, 5, 0x20, 2, 1, 5, 1, 5 }, 14 }, 10, 0, 10, { 0x10, 2, 1, 3, 1, 5, 0x20, 1, 1, 5 } },
        { { { 0x10, 3, 1, 5, 1, 3, 1, 5, 0x20, 2, 1, 5, 1, 5 }, 14 }, 9, NO_SPACE, 10, { 0 } },
        { { { 0x10, 0, 0x20, 3, 3, 1, 0, 1, 0, 2, 1, 9, 1, 9 }, 14 }, 99, 0, 14,
          { 0x10, 0, 0x20, 3, 1, 9, 2, 1, 9, 3, 1, 0, 1, 0 } },
        { { { 0x10, 2, 5, 1, 1, 1, 0, 5, 1, 0, 4, 1, 2, 1, 1, 0x20, 0 }, 17 }, 99, 0, 17,
          { 0x10, 2, 5, 1, 0, 4, 1, 2, 1, 1, 5, 1, 1, 1, 0, 0x20, 0 } },
        { { { 0x10, 1, 1, 64, 0x20, 0 }, 6 }, 0, NO_SUCH_LETTER, 3, { 0 } },
        { { { 0x10, 0, 0x20, 1, 1, 0, 1 }, 7 }, 99, LEFT_OVER, 6, { 0 } },
        { { { 0 }, 0 }, 99, CUT, 0, { 0 } },
    };
    for (size_t i = 0; i < sizeof cases / sizeof *cases; i++) {
        spelling due = { .number = cases[i].number, .word = cases[i].word };
        memset(due.bytes, FILL, sizeof due.bytes);
        if (due.number == 0)
            memcpy(due.bytes, cases[i].bytes, due.word);
        hold(&cases[i].question, cases[i].room, &due);
    }
}

// One byte more than a question can have.
static void check_too_long(void)
{
    static const uint8_t bytes[MOST_BYTES + 1];
    for (int k = 0; k < SPELLERS; k++) {
        uint8_t buffer[1] = { FILL };
        uint64_t out[1] = { 7 };
        uint32_t number = spellers[k].spell(bytes, sizeof bytes, buffer, sizeof buffer, out);
        if (number == TOO_LONG && out[0] == MOST_BYTES && buffer[0] == FILL)
            continue;
        fprintf(stderr, "bench: DISAGREEMENT of %s on %zu bytes: %u %llu\n", spellers[k].name, sizeof bytes, number,
                (unsigned long long)out[0]);
        exit(1);
    }
}

// Each question of a set, and with one byte changed.
static void check_set(const question_set *set)
{
    for (int i = 0; i < set->count; i++) {
        question q = set->questions[i];
        check_question(&q);
        q.bytes[i * 7 % q.length] = i * 37 % DAMAGES;
        check_question(&q);
    }
}

void check_spelling(const results *r)
{
    check_cases();
    check_too_long();
    for (int s = 0; s < SPELLED_SETS; s++)
        check_set(r->spelled[s]);
}

// Timing

static int pass(int k, const question_set *set)
{
    spell *f = spellers[k].spell;
    uint8_t buffer[MOST_BYTES];
    for (int i = 0; i < set->count; i++) {
        uint64_t out[1];
        f(set->questions[i].bytes, set->questions[i].length, buffer, MOST_BYTES, out);
    }
    return spellers[k].who;
}

void time_spelling(results *r)
{
    for (int s = 0; s < SPELLED_SETS; s++)
        r->spellings[s] = time_passes(pass, SPELLERS, r->spelled[s], r->rounds);
}
