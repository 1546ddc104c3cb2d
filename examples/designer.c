/*
 * A designer's question: in which states of its lamps does a cart wall break the house rule?
 *
 * What the wires of the wall make sure of stands on the left, the house rule on the right.  Such a question is false in
 * exactly the states that the wires let happen and the rule forbids.  One of them tells the designer that the wall is
 * not right yet; the list of all tells what is left to do.  When the list is empty, the wall keeps the rule.
 *
 * The frame has two rows: lamps 0 to 31, and lamps 32 to 63.  An earlier program knew only the first row and stored its
 * states as 32-bit numbers; they are read here beside today's.
 */
#include <gekunday.h>

#include <inttypes.h>
#include <stdio.h>
#include <stdlib.h>

/* ---- the lamps of this wall -------------------------------------------------------------------------------------- */

enum { ON_AIR, MIC, JINGLE, SPONSOR, REPLAY = 32 /* in the second row */ };

static const struct {
    uint8_t number;
    const char *name;
} lamps[] = {{ON_AIR, "on air"}, {MIC, "mic"}, {JINGLE, "jingle"}, {SPONSOR, "sponsor"}, {REPLAY, "replay"}};

/* The names of the lamps that are lit in a state. */
static void print_lit(uint64_t state)
{
    int lit = 0;
    for (size_t i = 0; i < sizeof lamps / sizeof *lamps; i++)
        if ((state >> lamps[i].number) & 1)
            printf("%s%s", lit++ ? ", " : "", lamps[i].name);
    if (lit == 0)
        printf("no lamp");
}

/* ---- building a question ----------------------------------------------------------------------------------------- */

typedef struct {
    uint8_t bytes[GEKUNDAY_QUESTION_MAX];
    size_t length;
} question;

static void put(question *q, uint8_t byte)
{
    if (q->length < sizeof q->bytes) /* a question that did not fit is cut, and the library refuses it */
        q->bytes[q->length++] = byte;
}

static void left(question *q, uint8_t formulas) { put(q, GEKUNDAY_BYTE_LEFT), put(q, formulas); }
static void right(question *q, uint8_t formulas) { put(q, GEKUNDAY_BYTE_RIGHT), put(q, formulas); }
static void letter(question *q, uint8_t k) { put(q, GEKUNDAY_BYTE_LETTER), put(q, k); }
static void not(question *q) { put(q, GEKUNDAY_BYTE_NOT); }
static void and(question *q) { put(q, GEKUNDAY_BYTE_AND); }
static void or(question *q) { put(q, GEKUNDAY_BYTE_OR); }
static void implies(question *q) { put(q, GEKUNDAY_BYTE_IMPLIES); }

/* Each connective comes before its parts. */
static void mic_is_on_air(question *q) { implies(q), letter(q, MIC), letter(q, ON_AIR); }
static void sponsor_closes_mic(question *q) { implies(q), letter(q, SPONSOR), not(q), letter(q, MIC); }

static void closed_mic_starts_cart(question *q)
{
    implies(q), and(q), letter(q, ON_AIR), not(q), letter(q, MIC);
    or(q), letter(q, JINGLE), letter(q, SPONSOR);
}

static void replay_closes_mic(question *q) { implies(q), letter(q, REPLAY), not(q), letter(q, MIC); }

/* On air something is heard, and the sponsor is never heard beside the mic. */
static void house_rule(question *q)
{
    and(q);
    implies(q), letter(q, ON_AIR), or(q), letter(q, MIC), or(q), letter(q, JINGLE), letter(q, SPONSOR);
    not(q), and(q), letter(q, SPONSOR), letter(q, MIC);
}

/* The replay is never heard beside the mic. */
static void replay_rule(question *q) { not(q), and(q), letter(q, REPLAY), letter(q, MIC); }

static const struct {
    const char *name;
    void (*put)(question *q);
} wires[] = {
    {"the mic opens only on air", mic_is_on_air},
    {"the sponsor closes the mic", sponsor_closes_mic},
    {"on air, a closed mic starts a cart", closed_mic_starts_cart},
    {"the replay closes the mic", replay_closes_mic},
};

enum { FIRST_ROW_WIRES = 3, WIRES = sizeof wires / sizeof *wires };

/* The first wires on the left, a rule on the right. */
static question wall(uint8_t count, void (*rule)(question *q))
{
    question q = {.length = 0};
    left(&q, count);
    for (uint8_t i = 0; i < count; i++)
        wires[i].put(&q);
    right(&q, 1);
    rule(&q);
    return q;
}

/* A large wall with no wire, and the rule that some lamp is lit. */
static question large_wall(uint8_t count)
{
    question q = {.length = 0};
    left(&q, 0);
    right(&q, 1);
    for (uint8_t k = 0; k + 1 < count; k++)
        or(&q), letter(&q, k);
    letter(&q, count - 1);
    return q;
}

/* ---- one state, and all ------------------------------------------------------------------------------------------ */

/* Lists all states that break the rule.  With a room of 0 the first call only answers how many there are. */
static void list_all(const question *q, uint64_t example)
{
    uint64_t none;
    uint64_t count[1];
    uint32_t number = gekunday_states(q->bytes, q->length, &none, 0, count);
    if (number == GEKUNDAY_MANY_LETTERS) {
        printf("  not listed: %" PRIu64 " lamps are more than %d\n", count[0], GEKUNDAY_VARIED_MAX);
        return;
    }
    printf("  states that break the rule: %" PRIu64 "\n", count[0]);
    if (number != GEKUNDAY_NO_SPACE) /* there is none, so the empty list had room */
        return;

    uint64_t *states = malloc(count[0] * sizeof *states);
    if (states == NULL || gekunday_states(q->bytes, q->length, states, count[0], count) != GEKUNDAY_OK) {
        free(states);
        return;
    }
    for (uint64_t i = 0; i < count[0]; i++) {
        printf("    ");
        print_lit(states[i]);
        printf("%s\n", states[i] == example ? " (the example)" : "");
    }
    free(states);
}

/* Decides first: that names one state that breaks the rule, or says that there is none.  Then lists all. */
static void ask(question q)
{
    uint64_t size[2], verdict[4];
    if (gekunday_width(q.bytes, q.length, size) != GEKUNDAY_OK) {
        printf("  refused at byte %" PRIu64 "\n", size[0]);
        return;
    }
    gekunday_decide(q.bytes, q.length, size[0] * size[1], verdict);
    if (verdict[0] == GEKUNDAY_REFUTED) {
        printf("  the rule is broken, for example with ");
        print_lit(verdict[1]);
        printf(" lit\n");
    } else {
        printf("  the rule is kept in every state\n");
    }
    list_all(&q, verdict[1]);
}

/* ---- a state that was stored ------------------------------------------------------------------------------------- */

enum { FIRST_ROW_STATES = 16 }; /* the states of four lamps */

/* Reads a state that the earlier program stored, and looks for it among those that break the house rule today. */
static void look_for(uint32_t stored)
{
    uint64_t state = stored; /* the same number: the lamps of the second row are dark */
    uint64_t states[FIRST_ROW_STATES], count[1];

    printf("A state stored with 32 bits: ");
    print_lit(state);
    printf("\n");
    for (uint8_t i = 1; i <= FIRST_ROW_WIRES; i++) {
        question q = wall(i, house_rule);
        if (gekunday_states(q.bytes, q.length, states, FIRST_ROW_STATES, count) != GEKUNDAY_OK)
            return;
        uint64_t place = 0;
        while (place < count[0] && states[place] != state)
            place++;
        printf("  after \"%s\" it %s the rule\n", wires[i - 1].name, place < count[0] ? "breaks" : "does not break");
    }
}

int main(void)
{
    /* The example is the same for the first two walls.  Only the list shows what the second wire does. */
    for (uint8_t i = 0; i < FIRST_ROW_WIRES; i++) {
        printf("One wire%s: %s\n", i ? " more" : "", wires[i].name);
        ask(wall(i + 1, house_rule));
    }
    /* The earlier program stored this state when the wall had one wire. */
    look_for(1u << ON_AIR | 1u << MIC | 1u << SPONSOR);

    printf("A second row, and the rule: the replay is never heard beside the mic\n");
    ask(wall(FIRST_ROW_WIRES, replay_rule));
    printf("One wire more: %s\n", wires[FIRST_ROW_WIRES].name);
    ask(wall(WIRES, replay_rule));

    printf("A wall with 17 lamps and no wire\n");
    ask(large_wall(17));
    return EXIT_SUCCESS;
}
