/*
 * An editor's store: it keeps one copy of a question, in whatever order its formulas come.
 *
 * Each page brings its rules on the left and, on the right, a rule that is to follow from them.  Pages list the same
 * rules in another order, or one of them twice, and so bring the same question in other bytes.  The store keeps standard
 * spellings.  Two questions have the same one exactly if each side has the same set of formulas, so the store finds a
 * question that it has by comparing bytes.
 *
 * A spelling is true in exactly the states in which its question is.  So what is kept is decided once, for all pages
 * that brought it.  (A derivation of it is one of the kept bytes; it need not pass for those that a page brought.)
 */
#include <gekunday.h>

#include <inttypes.h>
#include <stdio.h>
#include <stdlib.h>
#include <string.h>

/* ---- the letters of a page --------------------------------------------------------------------------------------- */

enum { DRAFT, PUBLIC, REVIEWED, LOCKED, PAGE_LETTERS };

static const char *const names[PAGE_LETTERS] = {"draft", "public", "reviewed", "locked"};

/* ---- building a question ----------------------------------------------------------------------------------------- */

typedef struct {
    uint8_t bytes[GEKUNDAY_QUESTION_MAX];
    size_t length;
} question;

static void put(question *q, uint8_t byte)
{
    if (q->length < sizeof q->bytes) /* a question that did not fit is cut, and the library refuses it */
        q->bytes[q->length++] = byte;
}

static void left(question *q, uint8_t formulas) { put(q, GEKUNDAY_BYTE_LEFT), put(q, formulas); }
static void right(question *q, uint8_t formulas) { put(q, GEKUNDAY_BYTE_RIGHT), put(q, formulas); }
static void letter(question *q, uint8_t k) { put(q, GEKUNDAY_BYTE_LETTER), put(q, k); }
static void not(question *q) { put(q, GEKUNDAY_BYTE_NOT); }
static void implies(question *q) { put(q, GEKUNDAY_BYTE_IMPLIES); }
static void equiv(question *q) { put(q, GEKUNDAY_BYTE_EQUIV); }

/* Each connective comes before its parts. */
static void public_is_reviewed(question *q) { implies(q), letter(q, PUBLIC), letter(q, REVIEWED); }
static void locked_is_public(question *q) { equiv(q), letter(q, LOCKED), letter(q, PUBLIC); }
static void public_is_locked(question *q) { equiv(q), letter(q, PUBLIC), letter(q, LOCKED); }
static void draft_is_not_reviewed(question *q) { implies(q), letter(q, DRAFT), not(q), letter(q, REVIEWED); }
static void draft_is_not_locked(question *q) { implies(q), letter(q, DRAFT), not(q), letter(q, LOCKED); }

enum { RULES_MAX = 4, FOLLOWS_MAX = 2 };

typedef struct {
    const char *name;
    uint8_t rules;
    void (*rule[RULES_MAX])(question *q);
    uint8_t follows;
    void (*follow[FOLLOWS_MAX])(question *q);
} page;

static const page pages[] = {
    {"news", 3, {public_is_reviewed, locked_is_public, draft_is_not_reviewed}, 1, {draft_is_not_locked}},
    /* the same in another order; the same with repeats, on both sides */
    {"sport", 3, {draft_is_not_reviewed, public_is_reviewed, locked_is_public}, 1, {draft_is_not_locked}},
    {"archive",
     4,
     {locked_is_public, draft_is_not_reviewed, public_is_reviewed, locked_is_public},
     2,
     {draft_is_not_locked, draft_is_not_locked}},
    /* a rule less, and the same with a repeat */
    {"desk", 2, {draft_is_not_reviewed, public_is_reviewed}, 1, {draft_is_not_locked}},
    {"forum", 3, {public_is_reviewed, draft_is_not_reviewed, public_is_reviewed}, 1, {draft_is_not_locked}},
    /* a rule that is true in the same states, but is another formula: the store does not take it for the same */
    {"guide", 3, {public_is_reviewed, public_is_locked, draft_is_not_reviewed}, 1, {draft_is_not_locked}},
    /* a wrong count: four rules are said to follow, and three do */
    {"shop", 4, {public_is_reviewed, locked_is_public, draft_is_not_reviewed}, 1, {draft_is_not_locked}},
};

enum { PAGES = sizeof pages / sizeof *pages };

static question question_of(const page *p)
{
    question q = {.length = 0};
    left(&q, p->rules);
    for (size_t i = 0; i < RULES_MAX && p->rule[i] != NULL; i++)
        p->rule[i](&q);
    right(&q, p->follows);
    for (size_t i = 0; i < FOLLOWS_MAX && p->follow[i] != NULL; i++)
        p->follow[i](&q);
    return q;
}

/* ---- the store --------------------------------------------------------------------------------------------------- */

typedef struct {
    question kept[PAGES];
    size_t count;
    size_t brought, bytes; /* questions accepted, and their bytes */
} store;

/* The place of a spelling in the store; the number kept where it is not there. */
static size_t place_of(const store *s, const question *spelling)
{
    size_t place = 0;
    while (place < s->count && (s->kept[place].length != spelling->length ||
                                memcmp(s->kept[place].bytes, spelling->bytes, spelling->length) != 0))
        place++;
    return place;
}

/* Keeps a question, unless it is there already. */
static void bring(store *s, const char *name, const question *q)
{
    question spelling;
    uint64_t out[1];

    /* A spelling is never longer than its question, so there is room for it. */
    uint32_t number = gekunday_spell(q->bytes, q->length, spelling.bytes, sizeof spelling.bytes, out);
    if (number != GEKUNDAY_OK) {
        printf("%s: refused, number %" PRIu32 " at byte %" PRIu64 "\n", name, number, out[0]);
        return;
    }
    spelling.length = out[0];
    s->brought++;
    s->bytes += q->length;

    size_t place = place_of(s, &spelling);
    printf("%s: %s %zu\n", name, place < s->count ? "the same as" : "new, kept as", place + 1);
    if (place == s->count && s->count < PAGES)
        s->kept[s->count++] = spelling;
}

/* Decides what is kept, once for all pages that brought it. */
static void answer(const question *q)
{
    uint64_t size[2], verdict[4];

    gekunday_width(q->bytes, q->length, size); /* a spelling is an accepted question */
    gekunday_decide(q->bytes, q->length, size[0] * size[1], verdict);
    if (verdict[0] == GEKUNDAY_THEOREM) {
        printf("   the rule follows\n");
        return;
    }
    printf("   the rule does not follow: a page can be");
    for (int k = 0; k < PAGE_LETTERS; k++)
        printf("%s %s%s", k ? "," : "", (verdict[1] >> k) & 1 ? "" : "not ", names[k]);
    printf("\n");
}

static void print_store(const store *s)
{
    size_t bytes = 0;
    for (size_t i = 0; i < s->count; i++)
        bytes += s->kept[i].length;
    printf("Kept: %zu of %zu questions, %zu of %zu bytes\n", s->count, s->brought, bytes, s->bytes);
    for (size_t i = 0; i < s->count; i++) {
        printf("%zu:", i + 1);
        for (size_t at = 0; at < s->kept[i].length; at++)
            printf(" %02x", s->kept[i].bytes[at]);
        printf("\n");
        answer(&s->kept[i]);
    }
}

int main(void)
{
    store s = {.count = 0};
    for (size_t i = 0; i < PAGES; i++) {
        question q = question_of(&pages[i]);
        bring(&s, pages[i].name, &q);
    }
    print_store(&s);

    /* The spelling of a spelling is itself: what is kept finds itself again. */
    for (size_t i = 0; i < s.count; i++)
        bring(&s, "brought again", &s.kept[i]);
    return EXIT_SUCCESS;
}
