/*
 * An editor's question: do the rules of a page exclude two conditions at once?
 *
 * The rules stand on the left, the two conditions beside them, and the right side is empty.  Such a question is true in
 * every state exactly if no state fulfils all of the left: the rules exclude that both conditions hold.  The editor
 * keeps the derivation; whoever opens the page later checks it, without trusting the editor.
 *
 * Where the rules do not exclude it, the refuting state is one that fulfils the rules and both conditions.
 *
 * A rule that is to be added may stand on the page already.  Then it is on both sides of the question whether it
 * follows, and the derivation says where, without a reduction.
 */
#include <gekunday.h>

#include <inttypes.h>
#include <stdio.h>
#include <stdlib.h>
#include <string.h>

/* ---- the letters of this page ------------------------------------------------------------------------------------ */

enum { DRAFT, PUBLIC, REVIEWED, LOCKED, PAGE_LETTERS };

static const char *const names[PAGE_LETTERS] = {"draft", "public", "reviewed", "locked"};

/* ---- building a question ----------------------------------------------------------------------------------------- */

typedef struct {
    uint8_t bytes[GEKUNDAY_QUESTION_MAX];
    size_t length;
} question;

static void put(question *q, uint8_t byte)
{
    if (q->length < sizeof q->bytes) /* a question that did not fit is cut, and the library refuses it */
        q->bytes[q->length++] = byte;
}

static void left(question *q, uint8_t formulas) { put(q, GEKUNDAY_BYTE_LEFT), put(q, formulas); }
static void right(question *q, uint8_t formulas) { put(q, GEKUNDAY_BYTE_RIGHT), put(q, formulas); }
static void letter(question *q, uint8_t k) { put(q, GEKUNDAY_BYTE_LETTER), put(q, k); }
static void not(question *q) { put(q, GEKUNDAY_BYTE_NOT); }
static void implies(question *q) { put(q, GEKUNDAY_BYTE_IMPLIES); }
static void equiv(question *q) { put(q, GEKUNDAY_BYTE_EQUIV); }

/* Each connective comes before its parts. */
static void rule_public_is_reviewed(question *q) { implies(q), letter(q, PUBLIC), letter(q, REVIEWED); }
static void rule_locked_is_public(question *q) { equiv(q), letter(q, LOCKED), letter(q, PUBLIC); }
static void rule_draft_is_not_reviewed(question *q) { implies(q), letter(q, DRAFT), not(q), letter(q, REVIEWED); }

static void (*const page[])(question *) = {rule_public_is_reviewed, rule_locked_is_public, rule_draft_is_not_reviewed};

enum { RULES = sizeof page / sizeof *page };

/* The page's rules, from one of them on. */
static void rules(question *q, size_t first)
{
    for (size_t i = 0; i < RULES; i++)
        page[(first + i) % RULES](q);
}

/* The rules and the conditions a and b on the left, nothing on the right. */
static question excluded(uint8_t a, uint8_t b)
{
    question q = {.length = 0};
    left(&q, RULES + 2);
    rules(&q, 0);
    letter(&q, a);
    letter(&q, b);
    right(&q, 0);
    return q;
}

/* The rules on the left, from one of them on, and on the right a rule that is to be added. */
static question follows(size_t first, void (*rule)(question *))
{
    question q = {.length = 0};
    left(&q, RULES);
    rules(&q, first);
    right(&q, 1);
    rule(&q);
    return q;
}

/* ---- a derivation that is kept ----------------------------------------------------------------------------------- */

typedef struct {
    uint8_t *bytes;
    size_t length;
} derivation;

static void print_bytes(const uint8_t *bytes, uint64_t length)
{
    for (uint64_t i = 0; i < length; i++)
        printf(" %02x", bytes[i]);
    printf("\n");
}

/* Asks one question.  Where the rules exclude it, the derivation is handed back, to be kept. */
static derivation ask(uint8_t a, uint8_t b)
{
    const derivation none = {NULL, 0};
    question q = excluded(a, b);
    uint64_t size[2], verdict[4], written[3];

    printf("Can a page be %s and %s?\n", names[a], names[b]);

    /* The width tells what it can cost, before anything is decided. */
    if (gekunday_width(q.bytes, q.length, size) != GEKUNDAY_OK) {
        printf("  refused at byte %" PRIu64 "\n", size[0]);
        return none;
    }
    uint64_t budget = size[0] * size[1];
    uint64_t room = GEKUNDAY_DERIVATION_MAX(size[0], size[1]);
    printf("  at most %" PRIu64 " reductions, at most %" PRIu64 " bytes of derivation\n", budget, room);

    /* With this budget the call is never SPENT. */
    gekunday_decide(q.bytes, q.length, budget, verdict);
    if (verdict[0] == GEKUNDAY_REFUTED) {
        printf("  yes, for example when it is");
        for (int k = 0; k < PAGE_LETTERS; k++)
            printf("%s %s%s", k ? "," : "", (verdict[1] >> k) & 1 ? "" : "not ", names[k]);
        printf("\n");
        return none;
    }

    uint8_t *buffer = malloc(room);
    if (buffer == NULL || gekunday_derive(q.bytes, q.length, budget, buffer, room, written) != GEKUNDAY_OK) {
        free(buffer);
        return none;
    }
    printf("  no: the rules exclude it (%" PRIu64 " reductions, %" PRIu64 " closings)\n ", written[1], written[2]);
    print_bytes(buffer, written[0]);
    return (derivation){buffer, written[0]};
}

/* Later: the question is built anew, and only the kept bytes are at hand. */
static void check_question(question q, const uint8_t *bytes, size_t length)
{
    uint64_t place[1];
    uint32_t number = gekunday_check(q.bytes, q.length, bytes, length, place);

    if (number == GEKUNDAY_OK)
        printf("passes\n");
    else
        printf("fails, number %" PRIu32 " at byte %" PRIu64 "\n", number, place[0]);
}

static void check_later(uint8_t a, uint8_t b, const uint8_t *bytes, size_t length)
{
    printf("Kept derivation for %s and %s: ", names[a], names[b]);
    check_question(excluded(a, b), bytes, length);
}

/* A rule that the page has already takes no reduction, however long it is, and three bytes: 42 and the two places. */
static void add_rule(void)
{
    question q = follows(0, rule_draft_is_not_reviewed);
    uint8_t bytes[3];
    uint64_t written[3];

    printf("Is it a rule already that a draft is not reviewed?\n");
    if (gekunday_derive(q.bytes, q.length, 0, bytes, sizeof bytes, written) != GEKUNDAY_OK) {
        printf("  not in these words\n");
        return;
    }
    printf("  yes:");
    print_bytes(bytes, written[0]);
    printf("Kept derivation for the rule: ");
    check_question(q, bytes, written[0]);
    printf("Kept derivation for the rule, on a page with its rules in another order: ");
    check_question(follows(1, rule_draft_is_not_reviewed), bytes, written[0]);
}

int main(void)
{
    /* The rules exclude a page that is a draft and locked; they do not exclude one that is locked and reviewed. */
    derivation kept = ask(DRAFT, LOCKED);
    ask(REVIEWED, LOCKED);
    if (kept.bytes == NULL)
        return EXIT_FAILURE;

    check_later(DRAFT, LOCKED, kept.bytes, kept.length);
    check_later(REVIEWED, LOCKED, kept.bytes, kept.length);     /* not a derivation of this question */
    check_later(DRAFT, LOCKED, kept.bytes, kept.length - 2);    /* someone lost the end */
    free(kept.bytes);

    add_rule();
    return EXIT_SUCCESS;
}
