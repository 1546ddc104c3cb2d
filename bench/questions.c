// Questions from fixed seeds. A family proposes questions, and a set keeps those of the wanted size and verdict, or number
// of refuting states.
#include "questions.h"
#include <stdbool.h>
#include <stdlib.h>
#include <string.h>

typedef struct formula {
    uint8_t connective, letter; // a connective, or LETTER and which
    const struct formula *f, *g;
} formula;

typedef struct {
    const formula *side[2][MOST_A_SIDE];
    int count[2];
} sequent;

typedef struct {
    int least_connectives, most_connectives, least_letters, most_letters, most_a_side;
    uint64_t least_reductions, most_reductions;
} size;

enum { LEAST_CONDITION = 10, MOST_CONDITION = 20 }; // connectives
enum { MOST_UNDER = 3 };                            // letters of a clause under NOT
enum { FIRST_CONDITION = 3 };                       // the families of conditions_set are numbered from here on

static uint64_t seed;
static formula arena[4096];
static int used;

static uint64_t draw(void)
{
    uint64_t z = seed += 0x9e3779b97f4a7c15;
    z = (z ^ z >> 30) * 0xbf58476d1ce4e5b9;
    z = (z ^ z >> 27) * 0x94d049bb133111eb;
    return z ^ z >> 31;
}

static int below(int n) { return draw() % n; }
static int between(int a, int b) { return a + below(b - a + 1); }

static const formula *make(int connective, int letter, const formula *f, const formula *g)
{
    if (used == 4096)
        abort();
    arena[used] = (formula){ connective, letter, f, g };
    return &arena[used++];
}

static const formula *letter(int letters) { return make(LETTER, below(letters), 0, 0); }
static const formula *not(const formula *f) { return make(NOT, 0, f, 0); }
static const formula *two(int connective, const formula *f, const formula *g) { return make(connective, 0, f, g); }
static const formula *literal(int letters) { return below(3) ? letter(letters) : not(letter(letters)); }

static const formula *two_literals(int connective, int letters)
{
    const formula *f = literal(letters), *g = literal(letters);
    return two(connective, f, g);
}

static int connectives_of(const formula *f)
{
    return !f ? 0 : f->connective == LETTER ? 0 : 1 + connectives_of(f->f) + connectives_of(f->g);
}

static const formula *random_formula(int connectives, int letters)
{
    if (connectives == 0)
        return letter(letters);
    if (below(5) == 0)
        return not(random_formula(connectives - 1, letters));
    int of_f = below(connectives);
    int connective = between(AND, EQUIV);
    const formula *f = random_formula(of_f, letters);
    return two(connective, f, random_formula(connectives - 1 - of_f, letters));
}

// An equivalent formula that looks different.
static const formula *rewritten(const formula *x)
{
    if (x->connective == LETTER)
        return below(8) ? x : not(not(x));
    const formula *f = rewritten(x->f);
    if (x->connective == NOT)
        return f->connective == NOT && below(2) ? f->f : not(f);
    const formula *g = rewritten(x->g);
    int way = below(3);
    if (x->connective == IMPLIES)
        return way == 0 ? two(OR, not(f), g) : way == 1 ? two(IMPLIES, not(g), not(f)) : two(IMPLIES, f, g);
    if (x->connective == EQUIV)
        return way == 0 ? two(EQUIV, f, g) : two(EQUIV, g, f);
    if (way == 0)
        return not(two(x->connective == AND ? OR : AND, not(f), not(g)));
    return way == 1 ? two(x->connective, f, g) : two(x->connective, g, f);
}

// A formula with one letter or connective changed.
static const formula *damaged(const formula *x, int letters)
{
    if (x->connective == LETTER)
        return letter(letters);
    if (x->connective == NOT)
        return not(damaged(x->f, letters));
    switch (below(3)) {
    case 0: return two(between(AND, EQUIV), x->f, x->g);
    case 1: return two(x->connective, damaged(x->f, letters), x->g);
    default: return two(x->connective, x->f, damaged(x->g, letters));
    }
}

static void add(sequent *s, int side, const formula *f)
{
    if (s->count[side] < MOST_A_SIDE)
        s->side[side][s->count[side]++] = f;
}

// A rule: one or two literals imply, or are equivalent to, one or two literals.
static const formula *rule(int letters)
{
    const formula *if_ = below(2) ? literal(letters) : two_literals(below(4) ? AND : OR, letters);
    const formula *then = below(2) ? literal(letters) : two_literals(below(3) ? AND : OR, letters);
    return two(below(4) ? IMPLIES : EQUIV, if_, then);
}

// A condition with one or two literals beside it.
static const formula *larger(const formula *condition, int letters)
{
    const formula *other = below(2) ? literal(letters) : two_literals(between(AND, OR), letters);
    int connective = between(AND, EQUIV);
    return below(2) ? two(connective, condition, other) : two(connective, other, condition);
}

// A condition implies, or is equivalent to, one or two literals.
static const formula *rule_on(const formula *condition, int letters)
{
    const formula *then = below(2) ? literal(letters) : two_literals(between(AND, OR), letters);
    return two(below(4) ? IMPLIES : EQUIV, condition, then);
}

// The same long condition on both sides, rules before it on the left and after it on the right. It stands as it is on both
// sides (family 0), in a larger formula on the left (1), or in a rule on each side (2).
static void conditions(sequent *s, int family, int connectives, int letters)
{
    int most = (connectives - 4) / 2 < MOST_CONDITION ? (connectives - 4) / 2 : MOST_CONDITION;
    const formula *condition = random_formula(between(LEAST_CONDITION, most), letters), *left = condition;
    const formula *right = family == 2 ? rule_on(condition, letters) : condition;
    if (family > 0)
        left = family == 2 ? rule_on(condition, letters) : larger(condition, letters);
    int spare = connectives - connectives_of(left) - connectives_of(right);
    add(s, 1, right);
    while (spare > 1) {
        const formula *more = rule(letters);
        add(s, below(3) == 0, more);
        spare -= connectives_of(more);
    }
    add(s, 0, left);
}

// Do the rules exclude the conditions A and B at once?
static void exclusion(sequent *s, int connectives, int letters)
{
    const formula *a = letter(letters), *b = letter(letters);
    int spare = connectives - 2;
    while (spare > 1) {
        const formula *r = rule(letters);
        add(s, 0, r);
        spare -= connectives_of(r);
        if (s->count[0] == MOST_A_SIDE)
            break;
    }
    if (spare > 2 && below(2))
        add(s, 1, random_formula(spare, letters));
    add(s, 1, not(two(AND, a, b)));
}

// A formula on the left, its rewriting on the right, perhaps damaged.
static void rewriting(sequent *s, int connectives, int letters)
{
    const formula *f = random_formula(connectives * 2 / 5, letters);
    const formula *g = rewritten(f);
    add(s, 0, f);
    add(s, 1, below(2) ? g : damaged(g, letters));
    while (connectives_of(f) + connectives_of(g) + 3 < connectives && s->count[0] < 4) {
        const formula *more = random_formula(3, letters);
        add(s, below(2), more);
        connectives -= 3;
    }
}

static void random_sequent(sequent *s, int connectives, int letters, int most_a_side)
{
    int n = between(1, most_a_side), m = between(1, most_a_side);
    for (int i = n + m; i > 0; i--) {
        int share = i == 1 ? connectives : below(2 * connectives / i + 1);
        share = share < connectives ? share : connectives;
        add(s, i > m ? 0 : 1, random_formula(share, letters));
        connectives -= share;
    }
}

static int letters_of(const formula *f, uint64_t *seen)
{
    if (!f)
        return 0;
    if (f->connective == LETTER)
        *seen |= 1ull << f->letter;
    letters_of(f->f, seen);
    letters_of(f->g, seen);
    return __builtin_popcountll(*seen);
}

static int put(uint8_t *bytes, int at, const formula *f)
{
    bytes[at++] = f->connective;
    if (f->connective == LETTER) {
        bytes[at++] = f->letter;
        return at;
    }
    at = put(bytes, at, f->f);
    return f->g ? put(bytes, at, f->g) : at;
}

static void encode(const sequent *s, question *q)
{
    int at = 0;
    for (int side = 0; side < 2; side++) {
        q->bytes[at++] = side ? RIGHT_SIDE : LEFT_SIDE;
        q->bytes[at++] = s->count[side];
        for (int i = 0; i < s->count[side]; i++)
            at = put(q->bytes, at, s->side[side][i]);
    }
    q->length = at;
}

static bool fits(const sequent *s, const size *z)
{
    int connectives = 0, letters = 0;
    uint64_t seen = 0;
    for (int side = 0; side < 2; side++)
        for (int i = 0; i < s->count[side]; i++) {
            connectives += connectives_of(s->side[side][i]);
            letters = letters_of(s->side[side][i], &seen);
        }
    return connectives >= z->least_connectives && connectives <= z->most_connectives && letters >= z->least_letters &&
           letters <= z->most_letters && s->count[0] <= z->most_a_side && s->count[1] <= z->most_a_side;
}

static sequent proposal(int family, const size *z)
{
    sequent s = { 0 };
    used = 0;
    int connectives = between(z->least_connectives, z->most_connectives);
    int letters = between(z->least_letters, z->most_letters);
    if (family >= FIRST_CONDITION)
        conditions(&s, family - FIRST_CONDITION, connectives, letters);
    else if (family == 0)
        exclusion(&s, connectives, letters);
    else if (family == 1)
        rewriting(&s, connectives, letters);
    else
        random_sequent(&s, connectives, letters, z->most_a_side);
    return s;
}

// One question of the wanted verdict. Where the size has a least tree, each question draws its own least, 1 to 32 times
// that, and its tree, closed by letters alone, is at most four times its least.
static void choose(question *q, int family, bool refuted, const size *z)
{
    uint64_t out[4], least = z->least_reductions, most = z->most_reductions;
    if (least > 0) {
        least <<= below(6);
        most = least * 4 < most ? least * 4 : most;
    }
    for (;;) {
        sequent s = proposal(family, z);
        if (!fits(&s, z))
            continue;
        encode(&s, q);
        uint32_t number = peer_sets_closing(q->bytes, q->length, most, ONLY_LETTERS, out);
        if (number == 0 && out[0] == refuted && out[2] >= least)
            return;
    }
}

static question_set set_of(const char *name, const char *title, int count)
{
    return (question_set){ .name = name, .title = title, .count = count,
                           .questions = calloc(count, sizeof(question)), .answers = calloc(count, sizeof(uint64_t[4])) };
}

// The reductions if a compound closes only when it has at least so many connectives.
static uint64_t reductions_of(const question *q, int least)
{
    uint64_t out[4];
    peer_sets_closing(q->bytes, q->length, BUDGET, least, out);
    return out[2];
}

static void answer_all(question_set *set)
{
    for (int i = 0; i < set->count; i++) {
        const question *q = &set->questions[i];
        peer_value_decide(q->bytes, q->length, BUDGET, set->answers[i]);
        set->reductions += set->answers[i][2];
        set->refuted += set->answers[i][0];
        set->only_letters += reductions_of(q, ONLY_LETTERS);
    }
}

static question_set chosen(question_set set, uint64_t from, const size *z)
{
    seed = from;
    for (int i = 0; i < set.count; i++)
        choose(&set.questions[i], i / 2 % 3, i % 2, z);
    answer_all(&set);
    return set;
}

question_set editor_set(void)
{
    size z = { 6, 14, 3, 8, 4, 0, 10000 };
    return chosen(set_of("editor", "Editor-size questions", EDITOR_QUESTIONS), 34, &z);
}

question_set limits_set(void)
{
    size z = { 36, 48, 6, 20, 16, 2000, 300000 };
    return chosen(set_of("limits", "Questions near the limits", LIMITS_QUESTIONS), 1960, &z);
}

// One question of the wanted verdict that a condition closes: there are fewer reductions than with letters alone.
static void choose_closed(question *q, int family, bool refuted, const size *z)
{
    do
        choose(q, family, refuted, z);
    while (reductions_of(q, LEAST_CONDITION) == reductions_of(q, ONLY_LETTERS));
}

// A third each: the condition as it is on both sides, which are theorems, in a larger formula on the left, and in a rule on
// each side; of these two every second one is refuted.
question_set conditions_set(void)
{
    size z = { 24, 48, 4, 12, 16, 0, 10000 };
    question_set set = set_of("conditions", "Equal conditions", CONDITION_QUESTIONS);
    seed = 42;
    for (int i = 0; i < set.count; i++)
        choose_closed(&set.questions[i], FIRST_CONDITION + i % 3, i % 3 > 0 && i / 3 % 2, &z);
    answer_all(&set);
    return set;
}

static bool has_equal_compounds(const question *q)
{
    reading r;
    uint8_t second[MOST_BYTES];
    uint64_t mark[MOST_BYTES];
    peer_read(q->bytes, q->length, &r);
    return parts_and_marks(q->bytes, &r, second, mark) > 0;
}

question_set distinct_of(const question_set *set, const char *title)
{
    question_set distinct = set_of("distinct", title, set->count);
    distinct.count = 0;
    for (int i = 0; i < set->count; i++)
        if (!has_equal_compounds(&set->questions[i]))
            distinct.questions[distinct.count++] = set->questions[i];
    answer_all(&distinct);
    return distinct;
}

// 16 formulas a side, 48 connectives with two parts each.
question_set long_set(void)
{
    question_set set = set_of("long", "Questions of 212 bytes", LONG_QUESTIONS);
    seed = 212;
    for (int i = 0; i < set.count; i++) {
        sequent s = { 0 };
        used = 0;
        for (int k = 0; k < 2 * MOST_A_SIDE; k++)
            s.side[k / MOST_A_SIDE][k % MOST_A_SIDE] = letter(LETTERS);
        s.count[0] = s.count[1] = MOST_A_SIDE;
        for (int k = 0; k < MOST_CONNECTIVES; k++) {
            const formula **side = s.side[below(2)], **at = side + below(MOST_A_SIDE);
            int connective = between(AND, EQUIV);
            const formula *more = letter(LETTERS);
            *at = below(2) ? two(connective, *at, more) : two(connective, more, *at);
        }
        encode(&s, &set.questions[i]);
    }
    return set;
}

static bool equal(const formula *f, const formula *g)
{
    if (!f || !g)
        return f == g;
    return f->connective == g->connective && f->letter == g->letter && equal(f->f, g->f) && equal(f->g, g->g);
}

// A formula of at most so many connectives that is none of those before.
static const formula *another(const formula **before, int count, int connectives, int letters)
{
    const formula *f = random_formula(below(connectives + 1), letters);
    for (int i = 0; i < count; i++)
        if (equal(f, before[i]))
            return another(before, count, connectives, letters);
    return f;
}

static void add_in_any_order(sequent *s, int side, const formula **formulas, int count)
{
    for (int left = count; left > 0; left--) {
        int at = below(left);
        add(s, side, formulas[at]);
        formulas[at] = formulas[left - 1];
    }
}

// A side of so many formulas in any order. All but a third differ, and these are some of the others again.
static void repeats(sequent *s, int side, int count, int connectives, int letters)
{
    const formula *formulas[MOST_A_SIDE];
    int different = count - count / 3;
    for (int i = 0; i < count; i++)
        formulas[i] = i < different ? another(formulas, i, connectives, letters) : formulas[below(different)];
    add_in_any_order(s, side, formulas, count);
}

// So many connectives a formula that those of all formulas, on average, just fit.
question_set repeats_set(void)
{
    size z = { 8, MOST_CONNECTIVES, 4, 16, MOST_A_SIDE, 0, 0 };
    question_set set = set_of("repeats", "Questions with repeats", REPEATS_QUESTIONS);
    seed = 5;
    for (int i = 0; i < set.count;) {
        sequent s = { 0 };
        used = 0;
        int n = between(4, MOST_A_SIDE), m = between(4, MOST_A_SIDE), letters = between(z.least_letters, z.most_letters);
        repeats(&s, 0, n, 2 * MOST_CONNECTIVES / (n + m), letters);
        repeats(&s, 1, m, 2 * MOST_CONNECTIVES / (n + m), letters);
        if (fits(&s, &z))
            encode(&s, &set.questions[i++]);
    }
    return set;
}

// Formulas joined by OR in any shape.
static const formula *joined(const formula **parts, int count)
{
    while (count > 1) {
        int at = below(--count);
        parts[at] = two(OR, parts[at], parts[at + 1]);
        for (int i = at + 1; i < count; i++)
            parts[i] = parts[i + 1];
    }
    return parts[0];
}

// A clause of some letters under NOT and, where there is a head, this one among them.
static const formula *clause(const formula **under, int count, const formula *head)
{
    const formula *parts[MOST_UNDER + 1];
    int place = head ? below(count + 1) : count;
    for (int i = 0; i < count; i++)
        parts[i + (i >= place)] = not(under[i]);
    if (head)
        parts[place] = head;
    return joined(parts, count + (head != 0));
}

// At least so many clauses. One in four is a letter; the others have one to three under NOT, and three in four of them a
// head.
static void some_clauses(sequent *s, int least, const size *z)
{
    int letters = between(z->least_letters, z->most_letters);
    for (int left = between(least, z->most_a_side); left > 0; left--) {
        const formula *under[MOST_UNDER];
        int count = below(MOST_UNDER + 1);
        for (int i = 0; i < count; i++)
            under[i] = letter(letters);
        add(s, 0, clause(under, count, count == 0 || below(4) ? letter(letters) : 0));
    }
}

static const formula *numbered(int k) { return make(LETTER, k, 0, 0); }

// 16 clauses in any order. At least so many make a chain: one is a letter, and each further letter follows from the one
// before it, perhaps with one more of the chain. Those left have no head, only its last letter under NOT, perhaps with one
// more, and in every second question with a letter that follows from nothing, so that they are true.
static void chain(sequent *s, int least, const size *z)
{
    const formula *clauses[MOST_A_SIDE];
    int links = between(least, z->most_a_side);
    bool fail = below(2);
    for (int i = 0; i < MOST_A_SIDE; i++) {
        const formula *under[MOST_UNDER];
        int count = 0, before = i < links ? i : links;
        if (before > 0)
            under[count++] = numbered(before - 1);
        if (before > 1 && below(2))
            under[count++] = letter(before - 1);
        if (i >= links && !fail)
            under[count++] = numbered(links);
        clauses[i] = clause(under, count, i < links ? numbered(i) : 0);
    }
    add_in_any_order(s, 0, clauses, MOST_A_SIDE);
}

// The letters of a question, which are below the bound, renamed in any order to some of those below it.
static void rename_letters(question *q, int bound)
{
    reading r;
    uint8_t names[LETTERS] = { 0 };
    for (int k = 0; k < bound; k++) {
        int at = below(k + 1);
        names[k] = names[at];
        names[at] = k;
    }
    peer_read(q->bytes, q->length, &r);
    for (int i = 0; i < r.commands; i++)
        if (q->bytes[r.command[i]] == LETTER)
            q->bytes[r.command[i] + 1] = names[q->bytes[r.command[i] + 1]];
}

// One question that is false in so many states. With room for none, a peer counts them.
static uint64_t choose_by_states(question *q, int family, uint64_t least, uint64_t most, const size *z)
{
    uint64_t none, states[1];
    for (;;) {
        sequent s = proposal(family, z);
        if (!fits(&s, z))
            continue;
        encode(&s, q);
        rename_letters(q, HIGH_LETTER);
        peer_levels_states(q->bytes, q->length, &none, 0, states);
        if (states[0] >= least && states[0] <= most)
            return states[0];
    }
}

// A fifth each is false in no state, in 1 to 15, 16 to 255, 256 to 4,095, and 4,096 or more. Rules and random sequents take
// turns; a rewriting hardly ever has so many letters.
question_set states_set(void)
{
    static const uint64_t least[] = { 0, 1, 16, 256, 4096, MOST_STATES + 1 };
    size z = { 40, 48, 16, 16, 12, 0, 0 };
    question_set set = set_of("states", "Questions with 16 letters", STATES_QUESTIONS);
    seed = 65536;
    for (int i = 0; i < set.count; i++) {
        int family = i / 5 % 2 ? 2 : 0;
        uint64_t states = choose_by_states(&set.questions[i], family, least[i % 5], least[i % 5 + 1] - 1, &z);
        set.states += states;
        set.refuted += states > 0;
    }
    return set;
}

typedef void propose(sequent *s, int least, const size *z);

// Every second question is refuted. The letters are some of all LETTERS.
static question_set chosen_clauses(question_set set, uint64_t from, propose *propose, int least, const size *z)
{
    seed = from;
    for (int i = 0; i < set.count;) {
        question *q = &set.questions[i];
        sequent s = { 0 };
        uint64_t out[3];
        used = 0;
        propose(&s, least, z);
        if (!fits(&s, z))
            continue;
        encode(&s, q);
        rename_letters(q, LETTERS);
        peer_units_clauses(q->bytes, q->length, out);
        if (out[0] != (uint64_t)i % 2)
            continue;
        i++;
        set.refuted += out[0];
        set.rounds += out[2];
        set.reductions += reductions_of(q, 0);
    }
    return set;
}

question_set few_clauses_set(void)
{
    size z = { 4, 20, 3, 8, 8, 0, 0 };
    return chosen_clauses(set_of("few", "Editor-size clauses", CLAUSES_QUESTIONS), 13, some_clauses, 3, &z);
}

question_set many_clauses_set(void)
{
    size z = { 44, 48, 8, 20, 16, 0, 0 };
    return chosen_clauses(set_of("many", "Clauses near the limits", CLAUSES_QUESTIONS), 14, some_clauses, 16, &z);
}

question_set chains_set(void)
{
    size z = { 24, 48, 12, 17, 16, 0, 0 };
    return chosen_clauses(set_of("chains", "Chains of clauses", CLAUSES_QUESTIONS), 15, chain, 12, &z);
}

static bool has_high_letter(const question *q)
{
    reading r;
    peer_read(q->bytes, q->length, &r);
    for (int i = 0; i < r.commands; i++)
        if (q->bytes[r.command[i]] == LETTER && q->bytes[r.command[i] + 1] >= HIGH_LETTER)
            return true;
    return false;
}

// Where the set has answers, the renamed questions get their own.
question_set spread_of(const question_set *set, const char *title)
{
    question_set spread = set_of("spread", title, set->count);
    seed = 64;
    for (int i = 0; i < set->count; i++) {
        question *q = &spread.questions[i];
        *q = set->questions[i];
        do
            rename_letters(q, LETTERS);
        while (!has_high_letter(q));
    }
    if (set->reductions > 0)
        answer_all(&spread);
    spread.refuted = set->refuted;
    spread.states = set->states;
    return spread;
}

void write_bytes(FILE *file, const question *q)
{
    for (int i = 0; i < q->length; i++)
        fprintf(file, " %02x", q->bytes[i]);
    fputc('\n', file);
}

static int write_formula(FILE *file, const uint8_t *bytes, int at)
{
    static const char *const names[] = { [NOT] = "NOT", [AND] = "AND", [OR] = "OR", [IMPLIES] = "IMPLIES",
                                         [EQUIV] = "EQUIV" };
    uint8_t command = bytes[at++];
    if (command == LETTER) {
        fprintf(file, " L%d", bytes[at]);
        return at + 1;
    }
    fprintf(file, " (%s", names[command]);
    at = write_formula(file, bytes, at);
    if (command != NOT)
        at = write_formula(file, bytes, at);
    fputc(')', file);
    return at;
}

void write_lisp(FILE *file, const question *q)
{
    int at = 0;
    fprintf(file, "(ARROW");
    for (int side = 0; side < 2; side++) {
        int count = q->bytes[at + 1];
        at += 2;
        fprintf(file, " (");
        while (count-- > 0)
            at = write_formula(file, q->bytes, at);
        fputc(')', file);
    }
    fprintf(file, ")\n");
}
