/*
 * House rules written as "if these lamps, then that lamp": which lamps must be lit when a presenter presses some?
 *
 * Each rule is a clause: OR of NOT of each lamp after "if" and of the lamp after "then".  Without a lamp after "then" it
 * says that those after "if" are never lit together; without one after "if" it says that its lamp is lit.  The rules
 * stand on the left with what the presenter wants, and the right side is empty.  Such a question is refuted exactly if
 * all of that can be, and then gekunday_clauses names the least state: the lamps that must be lit, while every other one
 * can stay dark.  A theorem says that the rules exclude what the presenter wants.
 *
 * A rule with two lamps after "then", or one that says "exactly if", is no such clause.  The call refuses it with the
 * place where it starts, and gekunday_decide takes over: its state is one that can be, but not always the least.
 */
#include <gekunday.h>

#include <inttypes.h>
#include <stdbool.h>
#include <stdio.h>
#include <stdlib.h>

/* ---- the lamps of this wall -------------------------------------------------------------------------------------- */

enum { ON_AIR, MIC, RED_LIGHT, DOOR, JINGLE, SPONSOR, LOG, REPLAY = 32 /* in the second row */ };

static const struct {
    uint8_t number;
    const char *name;
} lamps[] = {{ON_AIR, "on air"}, {MIC, "mic"},         {RED_LIGHT, "red light"}, {DOOR, "door lock"},
             {JINGLE, "jingle"}, {SPONSOR, "sponsor"}, {LOG, "log"},             {REPLAY, "replay"}};

/* The names of the lamps that are lit in a state. */
static void print_lit(uint64_t state)
{
    int lit = 0;
    for (size_t i = 0; i < sizeof lamps / sizeof *lamps; i++)
        if ((state >> lamps[i].number) & 1)
            printf("%s%s", lit++ ? ", " : "", lamps[i].name);
    if (lit == 0)
        printf("no lamp");
}

/* ---- rules ------------------------------------------------------------------------------------------------------- */

enum { IFS_MAX = 2, THENS_MAX = 2 };

typedef struct {
    const char *name;
    uint8_t ifs, if_lamp[IFS_MAX];
    uint8_t thens, then_lamp[THENS_MAX]; /* with two of them: one or the other, which is no clause */
    bool exactly;                        /* exactly if, of one lamp and one lamp: no clause, either */
} rule;

static const rule house[] = {
    {"the mic opens only on air", 1, {MIC}, 1, {ON_AIR}, false},
    {"on air, the red light is lit", 1, {ON_AIR}, 1, {RED_LIGHT}, false},
    {"the red light beside the mic locks the door", 2, {RED_LIGHT, MIC}, 1, {DOOR}, false},
    {"a replay on air is logged", 2, {REPLAY, ON_AIR}, 1, {LOG}, false},
    {"the sponsor is logged", 1, {SPONSOR}, 1, {LOG}, false},
    {"the sponsor is never heard beside the mic", 2, {SPONSOR, MIC}, 0, {0}, false},
};

/* What a presenter wants is written as rules, too. */
static const rule press_mic = {"the mic is pressed", 0, {0}, 1, {MIC}, false};
static const rule press_on_air = {"on air is pressed", 0, {0}, 1, {ON_AIR}, false};
static const rule press_sponsor = {"the sponsor is pressed", 0, {0}, 1, {SPONSOR}, false};
static const rule press_replay = {"the replay is pressed", 0, {0}, 1, {REPLAY}, false};
static const rule open_door = {"the door stays open", 1, {DOOR}, 0, {0}, false};

/* Rules that are not clauses, and the second one as two that are. */
static const rule something_is_heard = {"on air, the mic or the jingle is heard", 1, {ON_AIR}, 2, {MIC, JINGLE}, false};
static const rule door_by_light = {"the door is locked exactly if the light is red", 1, {RED_LIGHT}, 1, {DOOR}, true};
static const rule light_locks_door = {"the red light locks the door", 1, {RED_LIGHT}, 1, {DOOR}, false};
static const rule lock_needs_light = {"the lock lights the red light", 1, {DOOR}, 1, {RED_LIGHT}, false};

enum { HOUSE = sizeof house / sizeof *house, MORE_MAX = 3 };

/* The house rules, then what is said beside them. */
typedef struct {
    uint8_t count;
    const rule *more[MORE_MAX];
} wall;

static const rule *rule_at(const wall *w, size_t place)
{
    return place < HOUSE ? &house[place] : w->more[place - HOUSE];
}

/* ---- building a question ----------------------------------------------------------------------------------------- */

typedef struct {
    uint8_t bytes[GEKUNDAY_QUESTION_MAX];
    size_t length;
} question;

static void put(question *q, uint8_t byte)
{
    if (q->length < sizeof q->bytes) /* a question that did not fit is cut, and the library refuses it */
        q->bytes[q->length++] = byte;
}

static void letter(question *q, uint8_t k) { put(q, GEKUNDAY_BYTE_LETTER), put(q, k); }

/* OR comes before its two parts, so it stands before each part but the last. */
static void put_rule(question *q, const rule *r)
{
    if (r->exactly) {
        put(q, GEKUNDAY_BYTE_EQUIV), letter(q, r->then_lamp[0]), letter(q, r->if_lamp[0]);
        return;
    }
    uint8_t parts = r->ifs + r->thens;
    for (uint8_t i = 0; i < parts; i++) {
        if (i + 1 < parts)
            put(q, GEKUNDAY_BYTE_OR);
        if (i < r->ifs)
            put(q, GEKUNDAY_BYTE_NOT), letter(q, r->if_lamp[i]);
        else
            letter(q, r->then_lamp[i - r->ifs]);
    }
}

static question question_of(const wall *w)
{
    question q = {.length = 0};
    uint8_t count = HOUSE + w->count;
    put(&q, GEKUNDAY_BYTE_LEFT), put(&q, count);
    for (uint8_t i = 0; i < count; i++)
        put_rule(&q, rule_at(w, i));
    put(&q, GEKUNDAY_BYTE_RIGHT), put(&q, 0);
    return q;
}

/* ---- asking ------------------------------------------------------------------------------------------------------ */

/* The rule whose bytes start at a place of the question. */
static const char *name_at(const wall *w, const question *q, uint64_t place)
{
    for (size_t i = 0; i < (size_t)HOUSE + w->count; i++) {
        uint64_t formula[2];
        gekunday_formula(q->bytes, q->length, GEKUNDAY_LEFT, i, formula);
        if (formula[0] == place)
            return rule_at(w, i)->name;
    }
    return "?";
}

/* Takes any rules, but it can take longer, and the state is just one that can be. */
static void decide(const question *q)
{
    uint64_t size[2], verdict[4];
    gekunday_width(q->bytes, q->length, size); /* it was read before, so it is not refused */
    gekunday_decide(q->bytes, q->length, size[0] * size[1], verdict);
    if (verdict[0] == GEKUNDAY_THEOREM) {
        printf("  the rules exclude it\n");
        return;
    }
    printf("  it can be, for example with ");
    print_lit(verdict[1]);
    printf(" lit\n");
}

static void ask(wall w)
{
    question q = question_of(&w);
    uint64_t out[3];
    uint32_t number = gekunday_clauses(q.bytes, q.length, out);

    printf("House rules");
    for (uint8_t i = 0; i < w.count; i++)
        printf("; %s", w.more[i]->name);
    printf("\n");

    if (number == GEKUNDAY_NOT_CLAUSE || number == GEKUNDAY_MANY_POSITIVE) {
        printf("  not a clause: \"%s\" %s\n", name_at(&w, &q, out[0]),
               number == GEKUNDAY_NOT_CLAUSE ? "is not \"if, then\"" : "has two lamps after \"then\"");
        decide(&q);
    } else if (number != GEKUNDAY_OK) {
        printf("  refused, number %" PRIu32 " at byte %" PRIu64 "\n", number, out[0]);
    } else if (out[0] == GEKUNDAY_THEOREM) {
        printf("  the rules exclude it (rounds: %" PRIu64 ")\n", out[2]);
    } else {
        printf("  lamps that must be lit: ");
        print_lit(out[1]);
        printf(" (rounds: %" PRIu64 ")\n", out[2]);
    }
}

int main(void)
{
    ask((wall){0, {NULL}});
    ask((wall){1, {&press_mic}});
    ask((wall){2, {&press_on_air, &press_replay}});
    ask((wall){2, {&press_mic, &press_sponsor}});
    /* Three house rules lead from the mic to the lock, none from the replay. */
    ask((wall){2, {&press_mic, &open_door}});
    ask((wall){2, {&press_replay, &open_door}});

    ask((wall){2, {&press_on_air, &something_is_heard}});
    ask((wall){3, {&press_on_air, &open_door, &door_by_light}});
    /* "Exactly if" is "if, then" both ways. */
    ask((wall){3, {&press_on_air, &light_locks_door, &lock_needs_light}});
    return EXIT_SUCCESS;
}
