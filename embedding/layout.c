/*
 * Holds the structs of helvemoik.h against the archive. The fields get values of their own, and what the calls answer
 * and write says which of them the archive has where: a policy's text, a session's user and set, the answers' numbers.
 * Then each byte is changed by itself: one that the header gives to a field must count, one of the padding must not.
 * Prints faults, and fails if there are any. wrong.sh shows that wrong headers are found.
 */
#include <stdarg.h>
#include <string.h>

#include "expect.h"
#include "helvemoik.h"

enum { PAINT = 0xA5 };

/* ---- the numbers of a struct, by the header's names */

struct numbers {
    size_t count;
    struct {
        const void *at;
        size_t size;
    } of[2048];
};

static void number(struct numbers *n, const void *at, size_t size) {
    n->of[n->count].at = at;
    n->of[n->count].size = size;
    n->count++;
}

#define NUMBER(field) number(n, &(field), sizeof(field))
#define PLACES(array) (sizeof(array) / sizeof *(array))

static void side_numbers(struct numbers *n, const struct helvemoik_side *side) {
    NUMBER(side->attributes);
    for (size_t i = 0; i < PLACES(side->widths); i++)
        NUMBER(side->widths[i]);
    NUMBER(side->lines);
    for (size_t i = 0; i < PLACES(side->seniority); i++) {
        NUMBER(side->seniority[i].senior);
        NUMBER(side->seniority[i].junior);
    }
}

static void register_numbers(struct numbers *n, const struct helvemoik_register *list) {
    NUMBER(list->count);
    for (size_t i = 0; i < PLACES(list->entries); i++) {
        NUMBER(list->entries[i].number);
        NUMBER(list->entries[i].set);
    }
}

static void conflicts_numbers(struct numbers *n, const struct helvemoik_conflicts *conflicts) {
    NUMBER(conflicts->count);
    for (size_t i = 0; i < PLACES(conflicts->entries); i++) {
        NUMBER(conflicts->entries[i].set);
        NUMBER(conflicts->entries[i].most);
    }
}

static void rules_numbers(struct numbers *n, const struct helvemoik_rules *rules) {
    NUMBER(rules->count);
    for (size_t i = 0; i < PLACES(rules->entries); i++) {
        NUMBER(rules->entries[i].action);
        NUMBER(rules->entries[i].count);
        for (size_t k = 0; k < PLACES(rules->entries[i].words); k++)
            NUMBER(rules->entries[i].words[k]);
    }
}

static void pairs_numbers(struct numbers *n, const struct helvemoik_pairs *pairs) {
    NUMBER(pairs->count);
    for (size_t i = 0; i < PLACES(pairs->entries); i++) {
        NUMBER(pairs->entries[i].action);
        NUMBER(pairs->entries[i].user);
        NUMBER(pairs->entries[i].object);
    }
}

static void policy_numbers(struct numbers *n, const struct helvemoik_policy *policy) {
    NUMBER(policy->form);
    side_numbers(n, &policy->user);
    side_numbers(n, &policy->object);
    register_numbers(n, &policy->users);
    register_numbers(n, &policy->objects);
    conflicts_numbers(n, &policy->conflicts);
    rules_numbers(n, &policy->rules);
    pairs_numbers(n, &policy->pairs);
}

static void board_numbers(struct numbers *n, const struct helvemoik_board *board) {
    for (size_t i = 0; i < PLACES(board->sessions); i++) {
        NUMBER(board->sessions[i].live);
        NUMBER(board->sessions[i].user);
        NUMBER(board->sessions[i].held);
    }
}

static void reading_numbers(struct numbers *n, const struct helvemoik_reading *reading) {
    NUMBER(reading->refusal);
    NUMBER(reading->line);
    policy_numbers(n, &reading->policy);
}

static void step_numbers(struct numbers *n, const struct helvemoik_step *step) {
    NUMBER(step->answer);
    board_numbers(n, &step->board);
}

static int same_numbers(const struct numbers *one, const struct numbers *other) {
    for (size_t i = 0; i < one->count; i++)
        if (memcmp(one->of[i].at, other->of[i].at, one->of[i].size) != 0)
            return 0;
    return 1;
}

static int same_policy(const struct helvemoik_policy *one, const struct helvemoik_policy *other) {
    static struct numbers a, b;
    a.count = b.count = 0;
    policy_numbers(&a, one);
    policy_numbers(&b, other);
    return same_numbers(&a, &b);
}

static int same_board(const struct helvemoik_board *one, const struct helvemoik_board *other) {
    static struct numbers a, b;
    a.count = b.count = 0;
    board_numbers(&a, one);
    board_numbers(&b, other);
    return same_numbers(&a, &b);
}

/* Which bytes of a struct belong to a field. */
static void owned_bytes(const struct numbers *n, const void *base, unsigned char *owned) {
    for (size_t i = 0; i < n->count; i++)
        memset(owned + ((const unsigned char *)n->of[i].at - (const unsigned char *)base), 1, n->of[i].size);
}

/* ---- the text of a policy, by the header's names */

struct text {
    size_t length;
    char bytes[HELVEMOIK_TEXT_BYTES + 1];
};

static void put(struct text *text, const char *format, ...) {
    va_list arguments;
    va_start(arguments, format);
    size_t room = sizeof text->bytes - text->length;
    int n = vsnprintf(text->bytes + text->length, room, format, arguments);
    va_end(arguments);
    if (n > 0)
        text->length += (size_t)n < room ? (size_t)n : room - 1;
}

/* A count, or all places where it is past them, as it may be where the header is wrong. */
static size_t within(size_t count, size_t places) {
    return count < places ? count : places;
}

static void put_widths(struct text *text, const char *kind, const struct helvemoik_side *side) {
    for (size_t i = 0; i < within(side->attributes, HELVEMOIK_WIDTH_PLACES); i++)
        put(text, "%s,%u\n", kind, (unsigned)side->widths[i]);
}

static void put_seniority(struct text *text, const char *kind, const struct helvemoik_side *side) {
    for (size_t i = 0; i < within(side->lines, HELVEMOIK_LINE_PLACES); i++)
        put(text, "%s,%u,%u\n", kind, (unsigned)side->seniority[i].senior, (unsigned)side->seniority[i].junior);
}

static void put_register(struct text *text, const char *kind, const struct helvemoik_register *list) {
    for (size_t i = 0; i < within(list->count, HELVEMOIK_ENTRY_PLACES); i++)
        put(text, "%s,%u,%u\n", kind, (unsigned)list->entries[i].number, (unsigned)list->entries[i].set);
}

static void put_conflicts(struct text *text, const struct helvemoik_conflicts *conflicts) {
    for (size_t i = 0; i < within(conflicts->count, HELVEMOIK_CONFLICT_PLACES); i++) {
        const struct helvemoik_conflict *conflict = &conflicts->entries[i];
        put(text, "conflict,%u,%u\n", (unsigned)conflict->set, (unsigned)conflict->most);
    }
}

static void put_word(struct text *text, unsigned word) {
    static const struct { unsigned first; char letter; } plain[] = {
        { HELVEMOIK_WORD_T, 't' }, { HELVEMOIK_WORD_F, 'f' }, { HELVEMOIK_WORD_N, 'n' }, { HELVEMOIK_WORD_A, 'a' },
        { HELVEMOIK_WORD_R, 'r' },
    };
    if (word >= HELVEMOIK_WORD_Q)
        put(text, ",q%02u", word - HELVEMOIK_WORD_Q);
    else if (word >= HELVEMOIK_WORD_D)
        put(text, ",d%02u", word - HELVEMOIK_WORD_D);
    else if (word >= HELVEMOIK_WORD_O)
        put(text, ",o%u", word - HELVEMOIK_WORD_O);
    else if (word >= HELVEMOIK_WORD_U)
        put(text, ",u%u", word - HELVEMOIK_WORD_U);
    for (size_t i = 0; i < sizeof plain / sizeof *plain; i++)
        if (word == plain[i].first)
            put(text, ",%c", plain[i].letter);
}

static void put_rules(struct text *text, const struct helvemoik_rules *rules) {
    for (size_t i = 0; i < within(rules->count, HELVEMOIK_RULE_PLACES); i++) {
        const struct helvemoik_rule *rule = &rules->entries[i];
        put(text, "rule,%u", (unsigned)rule->action);
        for (size_t k = 0; k < within(rule->count, HELVEMOIK_WORD_PLACES); k++)
            put_word(text, rule->words[k]);
        put(text, "\n");
    }
}

static void put_pairs(struct text *text, const struct helvemoik_pairs *pairs) {
    for (size_t i = 0; i < within(pairs->count, HELVEMOIK_PAIR_PLACES); i++) {
        const struct helvemoik_pair *pair = &pairs->entries[i];
        put(text, "pair,%u,%u,%u\n", (unsigned)pair->action, (unsigned)pair->user, (unsigned)pair->object);
    }
}

static void put_policy(struct text *text, const struct helvemoik_policy *policy) {
    text->length = 0;
    put(text, "policy,%u\n", (unsigned)policy->form);
    put_widths(text, "uattr", &policy->user);
    put_widths(text, "oattr", &policy->object);
    put_seniority(text, "usen", &policy->user);
    put_seniority(text, "osen", &policy->object);
    put_register(text, "user", &policy->users);
    put_register(text, "object", &policy->objects);
    put_conflicts(text, &policy->conflicts);
    put_rules(text, &policy->rules);
    put_pairs(text, &policy->pairs);
    put(text, "end\n");
}

/* ---- policies whose numbers differ, and that fill every place between them */

/* Every field 0, and paint where no field is. */
static void clear(struct helvemoik_policy *policy) {
    static struct numbers n;
    n.count = 0;
    policy_numbers(&n, policy);
    memset(policy, PAINT, sizeof *policy);
    for (size_t i = 0; i < n.count; i++)
        memset((void *)n.of[i].at, 0, n.of[i].size);
}

/* One attribute, in which every value is senior to all below it. */
static void chain(struct helvemoik_side *side) {
    side->attributes = 1;
    side->widths[0] = HELVEMOIK_MOST_VALUES;
    for (uint32_t v = 1; v < HELVEMOIK_MOST_VALUES; v++)
        for (uint32_t j = 0; j < v; j++) {
            side->seniority[side->lines].senior = v;
            side->seniority[side->lines].junior = j;
            side->lines++;
        }
}

/* As many attributes as there are values. */
static void singles(struct helvemoik_side *side) {
    for (; side->attributes < HELVEMOIK_WIDTH_PLACES; side->attributes++)
        side->widths[side->attributes] = 1;
}

/* The attributes and seniorities of strings of digits: widths, and each line's two values. */
static void some(struct helvemoik_side *side, const char *widths, const char *lines) {
    for (; *widths; widths++)
        side->widths[side->attributes++] = (uint32_t)(*widths - '0');
    for (; *lines; lines += 2) {
        side->seniority[side->lines].senior = (uint32_t)(lines[0] - '0');
        side->seniority[side->lines].junior = (uint32_t)(lines[1] - '0');
        side->lines++;
    }
}

/* So many numbers in even steps up to the last, each with a set below the bound. */
static void enter(struct helvemoik_register *list, uint32_t count, uint32_t last, uint32_t sets) {
    for (uint32_t i = 0; i < count; i++) {
        list->entries[i].number = last - (count - 1 - i) * ((last + 1) / count);
        list->entries[i].set = (i * 5 + 3) % sets;
    }
    list->count = count;
}

static void conflict(struct helvemoik_conflicts *conflicts, uint32_t set, uint32_t most) {
    struct helvemoik_conflict *c = &conflicts->entries[conflicts->count++];
    c->set = set;
    c->most = most;
}

/* All places, in even steps up to the set of all values. */
static void all_conflicts(struct helvemoik_conflicts *conflicts) {
    const uint32_t step = (1 << HELVEMOIK_MOST_VALUES) / HELVEMOIK_CONFLICT_PLACES;
    for (uint32_t i = 0; i < HELVEMOIK_CONFLICT_PLACES; i++)
        conflict(conflicts, i * step + step - 1, (i * 3 + 5) % (HELVEMOIK_MOST_TOGETHER + 1));
}

/* A rule of so many of the leaves, each joined to those before it, and the whole negated: twice as many words. */
static void rule(struct helvemoik_rules *rules, uint32_t action, const uint8_t *leaves, size_t kinds_of_leaf,
                 size_t count) {
    struct helvemoik_rule *r = &rules->entries[rules->count++];
    r->action = action;
    for (size_t k = 0; k < count; k++) {
        r->words[r->count++] = leaves[(k + action) % kinds_of_leaf];
        if (k > 0)
            r->words[r->count++] = k % 3 ? HELVEMOIK_WORD_A : HELVEMOIK_WORD_R;
    }
    r->words[r->count++] = HELVEMOIK_WORD_N;
}

static void pair(struct helvemoik_pairs *pairs, uint32_t action, uint32_t user, uint32_t object) {
    struct helvemoik_pair *p = &pairs->entries[pairs->count++];
    p->action = action;
    p->user = user;
    p->object = object;
}

/* All places, in even steps through the actions and the values of both sides. */
static void all_pairs(struct helvemoik_pairs *pairs) {
    const uint32_t values = HELVEMOIK_MOST_VALUES;
    const uint32_t step = HELVEMOIK_MOST_ACTIONS * values * values / HELVEMOIK_PAIR_PLACES;
    for (uint32_t i = 0; i < HELVEMOIK_PAIR_PLACES; i++) {
        uint32_t k = i * step + step - 1;
        pair(pairs, k / (values * values), k / values % values, k % values);
    }
}

/* All places of one side's seniorities and the other's widths, of users, objects, conflicts, rules, words and pairs. */
static void full(struct helvemoik_policy *policy, struct helvemoik_side *one, struct helvemoik_side *other) {
    const uint8_t leaves[] = { HELVEMOIK_WORD_U + 8, HELVEMOIK_WORD_O, HELVEMOIK_WORD_T, HELVEMOIK_WORD_U + 1,
                               HELVEMOIK_WORD_O + 7, HELVEMOIK_WORD_F, HELVEMOIK_WORD_U + 3, HELVEMOIK_WORD_O + 8 };
    policy->form = 3;
    chain(one);
    singles(other);
    enter(&policy->users, HELVEMOIK_USER_NUMBERS, HELVEMOIK_USER_NUMBERS - 1, 1 << HELVEMOIK_MOST_VALUES);
    enter(&policy->objects, HELVEMOIK_ENTRY_PLACES, HELVEMOIK_ENTRY_PLACES - 1, 1 << HELVEMOIK_MOST_VALUES);
    all_conflicts(&policy->conflicts);
    for (uint32_t a = 0; a < HELVEMOIK_RULE_PLACES; a++)
        rule(&policy->rules, a, leaves, sizeof leaves / sizeof *leaves, HELVEMOIK_WORD_PLACES / 2 - a);
    all_pairs(&policy->pairs);
}

/* Few of everything, with comparisons among the words; counts that stand in one struct differ. */
static void few(struct helvemoik_policy *policy, uint32_t form) {
    const uint8_t leaves[] = { HELVEMOIK_WORD_U + 5, HELVEMOIK_WORD_D + 1, HELVEMOIK_WORD_O + 4, HELVEMOIK_WORD_Q + 10,
                               HELVEMOIK_WORD_U + 2 };
    policy->form = form;
    some(&policy->user, "321", "1021");
    some(&policy->object, "23", "10324243");
    enter(&policy->users, 3, HELVEMOIK_USER_NUMBERS - 1, 1 << 6);
    enter(&policy->objects, 5, HELVEMOIK_OBJECT_NUMBERS - 1, 1 << 5);
    conflict(&policy->conflicts, 9, 2);
    conflict(&policy->conflicts, 40, 1);
    rule(&policy->rules, 1, leaves, sizeof leaves / sizeof *leaves, 7);
    rule(&policy->rules, 4, leaves, sizeof leaves / sizeof *leaves, 3);
    rule(&policy->rules, 6, leaves, sizeof leaves / sizeof *leaves, 1);
    pair(&policy->pairs, 1, 0, 4);
    pair(&policy->pairs, 1, 5, 2);
    pair(&policy->pairs, 6, 3, 1);
    pair(&policy->pairs, 7, 2, 0);
}

/* ---- what the archive reads of a policy, and what it writes */

static uint8_t out[HELVEMOIK_TEXT_BYTES];

static int written_as(struct helvemoik_counted wrote, const struct text *text) {
    return wrote.refusal == 0 && wrote.count == text->length && memcmp(out, text->bytes, text->length) == 0;
}

/* A changed byte of a field makes another policy: it is refused, or written as the names have it. */
static void hold_bytes(const struct helvemoik_policy *policy, const struct text *text) {
    static struct numbers n;
    static unsigned char owned[sizeof *policy];
    static struct helvemoik_policy changed;
    static struct text other;
    n.count = 0;
    policy_numbers(&n, policy);
    memset(owned, 0, sizeof owned);
    owned_bytes(&n, policy, owned);
    for (size_t i = 0; i < 2 * sizeof owned; i++) {
        memcpy(&changed, policy, sizeof changed);
        ((unsigned char *)&changed)[i / 2] ^= i % 2 ? 0xFF : 1;
        struct helvemoik_counted wrote = helvemoik_write(changed, out, sizeof out);
        if (!owned[i / 2]) {
            expect(written_as(wrote, text), "policy: padding counts, at byte", i / 2);
        } else if (wrote.refusal == 0) {
            put_policy(&other, &changed);
            expect(written_as(wrote, &other) && !written_as(wrote, text), "policy: not as changed, at byte", i / 2);
        } else {
            expect(wrote.refusal == HELVEMOIK_INVALID_STATE, "policy: no refusal of a changed policy, at byte", i / 2);
        }
    }
}

static void hold_policy(const struct helvemoik_policy *policy, size_t which) {
    static struct text text;
    static struct helvemoik_reading reading;
    put_policy(&text, policy);
    struct helvemoik_counted wrote = helvemoik_write(*policy, out, sizeof out);
    expect(written_as(wrote, &text), "policy: not written as its names, policy", which);
    expect(helvemoik_valid(*policy), "policy: not valid, policy", which);
    reading = helvemoik_read((const uint8_t *)text.bytes, text.length);
    expect(reading.refusal == 0 && reading.line == 0, "reading: a text is refused, policy", which);
    expect(same_policy(&reading.policy, policy), "policy: not read as its names, policy", which);
    hold_bytes(policy, &text);
}

/* ---- what the archive writes of an answer in memory */

/*
 * The same calls as the machine has them: where the answer goes is the first argument. So it can go to memory that was
 * filled before, twice and each time otherwise: a byte that is then not the same was not written.
 */
void *read_to(void *answer, const uint8_t *text, size_t length) __asm__("helvemoik_read");
void *open_to(void *answer, struct helvemoik_board board, struct helvemoik_policy policy,
              uint32_t user, uint32_t session, uint32_t set) __asm__("helvemoik_open");
void *fresh_to(void *answer) __asm__("helvemoik_fresh");

static void hold_written(const char *what, const struct numbers *n, const void *one, const void *other) {
    for (size_t i = 0; i < n->count; i++) {
        size_t at = (size_t)((const unsigned char *)n->of[i].at - (const unsigned char *)one);
        expect(memcmp(n->of[i].at, (const unsigned char *)other + at, n->of[i].size) == 0, what, at);
    }
}

static void hold_answers_written(const struct helvemoik_policy *policy) {
    static struct numbers n;
    static struct text text;
    static struct helvemoik_reading readings[2];
    static struct helvemoik_step steps[2];
    static struct helvemoik_board boards[2];
    put_policy(&text, policy);
    for (int i = 0; i < 2; i++) {
        memset(&readings[i], i ? 0xFF : 0, sizeof readings[i]);
        memset(&steps[i], i ? 0xFF : 0, sizeof steps[i]);
        memset(&boards[i], i ? 0xFF : 0, sizeof boards[i]);
        read_to(&readings[i], (const uint8_t *)text.bytes, text.length);
        fresh_to(&boards[i]);
        open_to(&steps[i], boards[i], *policy, policy->users.entries[0].number, 0, 0);
    }
    n.count = 0;
    reading_numbers(&n, &readings[0]);
    hold_written("reading: not written, at byte", &n, &readings[0], &readings[1]);
    n.count = 0;
    step_numbers(&n, &steps[0]);
    hold_written("step: not written, at byte", &n, &steps[0], &steps[1]);
    n.count = 0;
    board_numbers(&n, &boards[0]);
    hold_written("board: not written, at byte", &n, &boards[0], &boards[1]);
}

/* ---- the board */

/* The users of the policy of few, and for each a set in reach and within the conflicts. */
static const struct { uint32_t user, held; } staff[] = { { 11, 2 }, { 21, 8 }, { 31, 12 } };
enum { STAFF = sizeof staff / sizeof *staff };

static struct helvemoik_session session(uint32_t live, uint32_t user, uint32_t held) {
    struct helvemoik_session entry;
    entry.live = live;
    entry.user = user;
    entry.held = held;
    return entry;
}

/* Every second session is open, each by another bit; the others are closed, with numbers that no user and set has. */
static void mixed(struct helvemoik_board *board) {
    for (uint32_t k = 0; k < HELVEMOIK_SESSIONS; k++)
        board->sessions[k] = k % 2 ? session(0, 0x80C0E000 + k, 0x7F60A000 - k)
                                   : session((uint32_t)1 << k, staff[k % STAFF].user, staff[k % STAFF].held);
}

static void hold_step(struct helvemoik_step step, uint32_t answer, const struct helvemoik_board *board, size_t where) {
    expect(step.answer == answer, "step: another answer, session", where);
    expect(same_board(&step.board, board), "step: another board, session", where);
}

/* A byte of a field that changes the board so that check 11 refuses it, and leaves it as handed in. */
static void hold_byte(const struct helvemoik_board *board, const struct helvemoik_policy *policy, const void *field,
                      size_t byte, size_t where) {
    static struct helvemoik_board changed;
    memcpy(&changed, board, sizeof changed);
    ((unsigned char *)&changed)[(const unsigned char *)field - (const unsigned char *)board + byte] ^= 0x40;
    hold_step(helvemoik_close(changed, *policy, staff[0].user, 0), HELVEMOIK_INVALID_STATE, &changed, where);
}

/*
 * A label for each set, the set's complement, and tables with one place that grants: requests find it, by the labels
 * and the table of the policy's form.
 */
static void hold_request(const struct helvemoik_board *board, const struct helvemoik_policy *policy, uint32_t k) {
    static uint8_t labels[HELVEMOIK_FORM_1_LABELS], table[HELVEMOIK_FORM_1_TABLE];
    static uint16_t wide_labels[HELVEMOIK_FORM_3_LABELS], wide[HELVEMOIK_FORM_3_TABLE];
    const uint32_t most = policy->form == 3 ? HELVEMOIK_FORM_3_LABELS : HELVEMOIK_FORM_1_LABELS;
    const uint32_t places = most * most, action = policy->form == 1 ? 3 : 11;
    const struct helvemoik_entry *object = &policy->objects.entries[k % policy->objects.count];
    const size_t place = (most - 1 - board->sessions[k].held) * most + (most - 1 - object->set);
    for (uint32_t i = 0; i < HELVEMOIK_FORM_1_LABELS; i++)
        labels[i] = (uint8_t)(HELVEMOIK_FORM_1_LABELS - 1 - i);
    for (uint32_t i = 0; i < HELVEMOIK_FORM_3_LABELS; i++)
        wide_labels[i] = (uint16_t)(HELVEMOIK_FORM_3_LABELS - 1 - i);
    memset(table, 0, sizeof table);
    memset(wide, 0, sizeof wide);
    if (policy->form == 1)
        table[place] = (uint8_t)(1u << action);
    wide[place] = (uint16_t)(1u << action);
    hold_step(helvemoik_request_8_8(*board, *policy, most, most, labels, HELVEMOIK_FORM_1_LABELS,
                                    labels, HELVEMOIK_FORM_1_LABELS, table, HELVEMOIK_FORM_1_TABLE,
                                    k, action, object->number),
              policy->form == 1 ? HELVEMOIK_GRANTED : HELVEMOIK_INVALID_STATE, board, k);
    hold_step(helvemoik_request_8_16(*board, *policy, most, most, labels, HELVEMOIK_FORM_1_LABELS,
                                     labels, HELVEMOIK_FORM_1_LABELS, wide, places, k, action, object->number),
              policy->form == 2 ? HELVEMOIK_GRANTED : HELVEMOIK_INVALID_STATE, board, k);
    hold_step(helvemoik_request_16_16(*board, *policy, most, most, wide_labels, most, wide_labels, most, wide, places,
                                      k, action, object->number),
              policy->form == 3 ? HELVEMOIK_GRANTED : HELVEMOIK_INVALID_STATE, board, k);
}

static void hold_open(const struct helvemoik_board *board, const struct helvemoik_policy *policy, uint32_t k) {
    const struct helvemoik_session *entry = &board->sessions[k];
    uint32_t user = entry->user, another = staff[(k + 1) % STAFF].user;
    struct helvemoik_board due = *board;
    hold_step(helvemoik_open(*board, *policy, user, k, 0), HELVEMOIK_SESSION_OPEN, board, k);
    hold_step(helvemoik_add(*board, *policy, another, k, 0), HELVEMOIK_SESSION_OF_ANOTHER, board, k);
    due.sessions[k].live = 1;
    hold_step(helvemoik_add(*board, *policy, user, k, 0), HELVEMOIK_DONE, &due, k);
    due.sessions[k].held = 0;
    hold_step(helvemoik_drop(*board, *policy, user, k, entry->held), HELVEMOIK_DONE, &due, k);
    due.sessions[k] = session(0, 0, 0);
    hold_step(helvemoik_close(*board, *policy, user, k), HELVEMOIK_DONE, &due, k);
    hold_request(board, policy, k);
    for (size_t i = 0; i < sizeof entry->user; i++)
        hold_byte(board, policy, &entry->user, i, k);
    for (size_t i = 0; i < sizeof entry->held; i++)
        hold_byte(board, policy, &entry->held, i, k);
}

static void hold_closed(const struct helvemoik_board *board, const struct helvemoik_policy *policy, uint32_t k) {
    const struct helvemoik_session *entry = &board->sessions[k];
    struct helvemoik_board due = *board;
    hold_step(helvemoik_close(*board, *policy, staff[0].user, k), HELVEMOIK_SESSION_NOT_OPEN, board, k);
    due.sessions[k] = session(1, staff[2].user, 5);
    hold_step(helvemoik_open(*board, *policy, staff[2].user, k, 5), HELVEMOIK_DONE, &due, k);
    for (size_t i = 0; i < sizeof entry->live; i++)
        hold_byte(board, policy, &entry->live, i, k);
}

static void hold_board(const struct helvemoik_policy *policy) {
    static struct helvemoik_board board, none;
    struct helvemoik_board fresh = helvemoik_fresh();
    memset(&none, 0, sizeof none);
    expect(same_board(&fresh, &none), "board: a fresh one is not 0", 0);
    mixed(&board);
    for (uint32_t k = 0; k < HELVEMOIK_SESSIONS; k++)
        if (k % 2)
            hold_closed(&board, policy, k);
        else
            hold_open(&board, policy, k);
}

/* ---- the other answers */

static struct helvemoik_reading reading_of(const char *text) {
    return helvemoik_read((const uint8_t *)text, strlen(text));
}

static void hold_reading(void) {
    struct helvemoik_reading reading = reading_of("policy,1\nuattr,2\noattr,1\nusen,0,0\n");
    expect(reading.refusal == HELVEMOIK_OUT_OF_RANGE && reading.line == 3, "reading: another refusal or line", 0);
    expect(!helvemoik_valid(reading.policy), "reading: a policy beside a refusal", 0);
}

static void hold_counted(const struct helvemoik_policy *policy) {
    static struct text text;
    put_policy(&text, policy);
    struct helvemoik_counted wrote = helvemoik_write(*policy, out, text.length);
    expect(wrote.refusal == 0 && wrote.count == text.length, "counted: another count", 0);
    wrote = helvemoik_write(*policy, out, text.length - 1);
    expect(wrote.refusal == HELVEMOIK_BUFFER_TOO_SHORT && wrote.count == 0, "counted: another refusal", 0);
}

/* Document 01's text has 3 user labels and 2 object labels. */
static void hold_counts(void) {
    uint8_t users[4], objects[2], table[6];
    struct helvemoik_reading reading = reading_of(
        "policy,1\nuattr,2\noattr,1\nusen,1,0\nuser,0,2\nobject,0,1\nrule,0,u0,o0,a\nrule,3,u1,n\nend\n");
    struct helvemoik_counts n = helvemoik_compile_8_8(reading.policy, users, 4, objects, 2, table, 6);
    expect(n.refusal == 0 && n.users == 3 && n.objects == 2, "counts: another NU or NO", 0);
    n = helvemoik_compile_8_8(reading.policy, users, 4, objects, 2, table, 5);
    expect(n.refusal == HELVEMOIK_BUFFER_TOO_SHORT && n.users == 0 && n.objects == 0, "counts: another refusal", 0);
}

/* ---- labels, tables and tuples, by the widths of each form */

/* The same text of any form, with the last action that the form has. */
static struct helvemoik_policy of_form(uint32_t form) {
    static struct text text;
    text.length = 0;
    put(&text, "policy,%u\nuattr,2\noattr,1\nusen,1,0\nrule,0,u0,o0,a\nrule,%u,u1,n\nend\n", (unsigned)form,
        form == 1 ? HELVEMOIK_FORM_1_ACTIONS - 1u : HELVEMOIK_FORM_2_ACTIONS - 1u);
    return reading_of(text.bytes).policy;
}

/* Buffers with room for one element more than is due, in each width. */
static struct {
    uint8_t users[5], objects[3], table[7];
    uint16_t wide_users[5], wide_objects[3], wide_table[7], tuples[4];
    uint32_t wide_tuples[4];
} lent, untouched;

static void paint_lent(void) {
    memset(&lent, PAINT, sizeof lent);
    memset(&untouched, PAINT, sizeof untouched);
}

/* Whether only these bytes of the lent buffers are not as they were before the call. */
static int kept_but(const void *at, size_t size) {
    const unsigned char *one = (const unsigned char *)&lent, *other = (const unsigned char *)&untouched;
    for (size_t i = 0; i < sizeof lent; i++)
        if (one[i] != other[i] && (one + i < (const unsigned char *)at || one + i >= (const unsigned char *)at + size))
            return 0;
    return 1;
}

/* The three compiles. */
static uint32_t compile_of(uint32_t form, struct helvemoik_policy policy) {
    switch (form) {
    case 1: return helvemoik_compile_8_8(policy, lent.users, 5, lent.objects, 3, lent.table, 7).refusal;
    case 2: return helvemoik_compile_8_16(policy, lent.users, 5, lent.objects, 3, lent.wide_table, 7).refusal;
    default:
        return helvemoik_compile_16_16(policy, lent.wide_users, 5, lent.wide_objects, 3, lent.wide_table, 7).refusal;
    }
}

/* Every label and entry of its width, nothing past them, and nothing at all by the calls for other forms. */
static void hold_compiled(void) {
    static const uint8_t users[] = { 0, 1, 2, 2, PAINT }, objects[] = { 0, 1, PAINT };
    static const uint16_t wide_users[] = { 0, 1, 2, 2, PAINT * 257 }, wide_objects[] = { 0, 1, PAINT * 257 };
    static const uint8_t table[] = { 128, 128, 128, 129, 0, 1, PAINT };
    static const uint16_t wide_table[] = { 32768, 32768, 32768, 32769, 0, 1, PAINT * 257 };
    for (uint32_t form = 1; form <= 3; form++) {
        const struct helvemoik_policy policy = of_form(form);
        paint_lent();
        for (uint32_t other = 1; other <= 3; other++)
            if (other != form)
                expect(compile_of(other, policy) == HELVEMOIK_INVALID_STATE && kept_but(&lent, 0),
                       "compile: not refused by the call for form", other);
        expect(compile_of(form, policy) == 0, "compile: refused, form", form);
        expect(form == 3 ? memcmp(lent.wide_users, wide_users, sizeof wide_users) == 0
                               && memcmp(lent.wide_objects, wide_objects, sizeof wide_objects) == 0
                         : memcmp(lent.users, users, sizeof users) == 0
                               && memcmp(lent.objects, objects, sizeof objects) == 0, "compile: other labels", form);
        expect(form == 1 ? memcmp(lent.table, table, sizeof table) == 0
                         : memcmp(lent.wide_table, wide_table, sizeof wide_table) == 0, "compile: another table", form);
    }
}

/* Action 0 of the same texts: user sets 1 to 3, each with object set 1. */
static void hold_tuples(void) {
    static const uint16_t tuples[] = { 3, 5, 7, PAINT * 257 };
    static const uint32_t wide_tuples[] = { 3, 5, 7, PAINT * 16843009u };
    for (uint32_t form = 1; form <= 3; form++) {
        const struct helvemoik_policy policy = of_form(form);
        const int wide = form == 3;
        paint_lent();
        struct helvemoik_counted n = helvemoik_list_16(policy, 0, lent.tuples, 4);
        expect(wide ? n.refusal == HELVEMOIK_INVALID_STATE && n.count == 0 && kept_but(&lent, 0)
                    : n.refusal == 0 && n.count == 3 && memcmp(lent.tuples, tuples, sizeof tuples) == 0,
               "tuples: 16 bits, form", form);
        expect(kept_but(lent.tuples, sizeof lent.tuples), "tuples: another buffer, form", form);
        paint_lent();
        n = helvemoik_list_32(policy, 0, lent.wide_tuples, 4);
        expect(wide ? n.refusal == 0 && n.count == 3 && memcmp(lent.wide_tuples, wide_tuples, sizeof wide_tuples) == 0
                    : n.refusal == HELVEMOIK_INVALID_STATE && n.count == 0 && kept_but(&lent, 0),
               "tuples: 32 bits, form", form);
        expect(kept_but(lent.wide_tuples, sizeof lent.wide_tuples), "tuples: another buffer, form", form);
        for (uint32_t count = 0; count <= 3; count++) {
            const uint32_t due = count == 3 ? HELVEMOIK_GRANTED : HELVEMOIK_DENIED;
            expect(helvemoik_decide_by_tuples_16(policy, 3, 1, tuples, 4, count)
                       == (wide ? HELVEMOIK_INVALID_STATE : due), "tuples: decided by 16 bits, form", form);
            expect(helvemoik_decide_by_tuples_32(policy, 3, 1, wide_tuples, 4, count)
                       == (wide ? due : HELVEMOIK_INVALID_STATE), "tuples: decided by 32 bits, form", form);
        }
    }
}

/* All nine user values and the upper six object values: the greatest tuples that there are. */
static void hold_greatest_tuples(void) {
    uint32_t tuples[9];
    const uint32_t all = HELVEMOIK_FORM_3_LABELS - 1;
    const struct helvemoik_policy policy = reading_of(
        "policy,3\nuattr,9\noattr,9\nrule,15,u0,u1,a,u2,a,u3,a,u4,a,u5,a,u6,a,u7,a,u8,a,"
        "o3,a,o4,a,o5,a,o6,a,o7,a,o8,a\nend\n").policy;
    memset(tuples, PAINT, sizeof tuples);
    expect(helvemoik_list_32(policy, 15, tuples, 9).count == 8, "tuples: another count of the greatest", 0);
    for (uint32_t i = 0; i < 8; i++) {
        expect(tuples[i] == HELVEMOIK_FORM_3_TUPLES - 8 + i, "tuples: not the greatest", i);
        expect(helvemoik_decide_by_tuples_32(policy, all, all, tuples, 9, i) == HELVEMOIK_DENIED,
               "tuples: granted by too few", i);
    }
    expect(tuples[8] == PAINT * 16843009u, "tuples: past the listing", 8);
    expect(helvemoik_decide_by_tuples_32(policy, all, all, tuples, 9, 8) == HELVEMOIK_GRANTED, "tuples: denied", 8);
}

/* Only action 5 on object set 2 tells the sets apart that hold user value 0 and those that do not. */
static void hold_separation(void) {
    struct helvemoik_reading reading = reading_of("policy,1\nuattr,1\noattr,2\nrule,5,u0,o1,a,o0,n,a\nend\n");
    struct helvemoik_separation s = helvemoik_apart(reading.policy, 0, 1);
    expect(s.answer == HELVEMOIK_APART && s.action == 5 && s.object == 2, "separation: another witness", 0);
    s = helvemoik_apart(reading.policy, 0, 2);
    expect(s.answer == HELVEMOIK_SET_OUT_OF_REACH && s.action == 0 && s.object == 0, "separation: another refusal", 0);
}

int main(void) {
    static struct helvemoik_policy policies[5];
    for (size_t i = 0; i < 5; i++)
        clear(&policies[i]);
    full(&policies[0], &policies[0].user, &policies[0].object);
    full(&policies[1], &policies[1].object, &policies[1].user);
    few(&policies[2], 1);
    few(&policies[3], 2);
    few(&policies[4], 3);
    for (size_t i = 0; i < 5; i++)
        hold_policy(&policies[i], i);
    hold_answers_written(&policies[2]);
    hold_board(&policies[2]);
    hold_board(&policies[3]);
    hold_board(&policies[4]);
    hold_reading();
    hold_counted(&policies[2]);
    hold_counts();
    hold_compiled();
    hold_tuples();
    hold_greatest_tuples();
    hold_separation();
    return verdict("layout");
}
