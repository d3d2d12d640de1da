/*
 * Holds the names of helvemoik.h for numbers against the archive: each limit is met and then passed by one, and each
 * refusal and answer is got by a call of its own. Prints faults, and fails if there are any.
 */
#include <string.h>

#include "expect.h"
#include "helvemoik.h"

static uint8_t text[HELVEMOIK_TEXT_BYTES + 2];
static uint8_t users[HELVEMOIK_FORM_1_LABELS], objects[HELVEMOIK_FORM_1_LABELS], table[HELVEMOIK_FORM_1_TABLE];
static uint16_t wide_users[HELVEMOIK_MOST_LABELS], wide_objects[HELVEMOIK_MOST_LABELS], wide[HELVEMOIK_MOST_TABLE];
static uint16_t tuples[HELVEMOIK_FORM_1_TUPLES];
static uint32_t wide_tuples[HELVEMOIK_MOST_TUPLES];

static uint32_t refusal_of(const char *bytes) {
    return helvemoik_read((const uint8_t *)bytes, strlen(bytes)).refusal;
}

static struct helvemoik_policy policy_of(const char *bytes) {
    struct helvemoik_reading reading = helvemoik_read((const uint8_t *)bytes, strlen(bytes));
    expect(reading.refusal == 0, "a text is refused", reading.refusal);
    return reading.policy;
}

/* ---- limits of a text */

/* The number is read in the text of this form, and the next one is out of range. */
static void hold_greatest_of(int form, const char *lines, int greatest) {
    char bytes[128];
    int n = snprintf(bytes, sizeof bytes, "policy,%d\n", form);
    snprintf(bytes + n, sizeof bytes - (size_t)n, lines, greatest);
    expect(refusal_of(bytes) == 0, "a limit is not met", (size_t)greatest);
    snprintf(bytes + n, sizeof bytes - (size_t)n, lines, greatest + 1);
    expect(refusal_of(bytes) == HELVEMOIK_OUT_OF_RANGE, "a limit is passed", (size_t)greatest);
}

/* The same in every form. */
static void hold_greatest(const char *lines, int greatest) {
    for (int form = 1; form <= 3; form++)
        hold_greatest_of(form, lines, greatest);
}

/* The same, with all values in one attribute of each side before the line. */
static void hold_greatest_of_all(int form, int values, const char *line, int greatest) {
    char lines[64];
    snprintf(lines, sizeof lines, "uattr,%d\noattr,%d\n%s\nend\n", values, values, line);
    hold_greatest_of(form, lines, greatest);
}

/* A form has so many values on each side, in one attribute or more, and sets below the number of labels. */
static void hold_values(int form, int values, int labels) {
    static const char *const of_value[] = { "rule,0,u%d", "rule,0,o%d", "pair,0,%d,0", "pair,0,0,%d" };
    static const char *const of_set[] = { "user,0,%d", "object,0,%d", "conflict,%d,0" };
    hold_greatest_of(form, "uattr,%d\noattr,1\nend\n", values);
    hold_greatest_of(form, "uattr,1\noattr,%d\nend\n", values);
    hold_greatest_of(form, "uattr,2\nuattr,%d\noattr,1\nend\n", values - 2);
    hold_greatest_of(form, "uattr,1\noattr,2\noattr,%d\nend\n", values - 2);
    for (size_t i = 0; i < sizeof of_value / sizeof *of_value; i++)
        hold_greatest_of_all(form, values, of_value[i], values - 1);
    for (size_t i = 0; i < sizeof of_set / sizeof *of_set; i++)
        hold_greatest_of_all(form, values, of_set[i], labels - 1);
}

/* By the call of the policy's form. */
static struct helvemoik_counted listed(struct helvemoik_policy policy, uint32_t action, size_t room) {
    return policy.form == 3 ? helvemoik_list_32(policy, action, wide_tuples, room)
                            : helvemoik_list_16(policy, action, tuples, room);
}

/* A form has so many actions: in rules, in pairs and in calls. */
static void hold_actions(int form, int actions) {
    char bytes[64];
    hold_greatest_of(form, "uattr,1\noattr,1\nrule,%d,t\nend\n", actions - 1);
    hold_greatest_of(form, "uattr,1\noattr,1\npair,%d,0,0\nend\n", actions - 1);
    snprintf(bytes, sizeof bytes, "policy,%d\nuattr,1\noattr,1\nend\n", form);
    struct helvemoik_policy policy = policy_of(bytes);
    uint32_t last = (uint32_t)actions - 1;
    expect(helvemoik_decide(policy, last, 0, 0) == HELVEMOIK_DENIED, "actions", last);
    expect(helvemoik_decide(policy, last + 1, 0, 0) == HELVEMOIK_UNKNOWN_ACTION, "actions", last + 1);
    expect(listed(policy, last, 0).refusal == 0, "actions listed", last);
    expect(listed(policy, last + 1, 0).refusal == HELVEMOIK_UNKNOWN_ACTION, "actions listed", last + 1);
}

static void hold_text_bytes(void) {
    memset(text, 'p', sizeof text);
    expect(helvemoik_read(text, HELVEMOIK_TEXT_BYTES).refusal == HELVEMOIK_LINE_FEED_MISSING, "text bytes", 0);
    expect(helvemoik_read(text, HELVEMOIK_TEXT_BYTES + 1).refusal == HELVEMOIK_TEXT_TOO_LONG, "text bytes", 1);
}

/* A truth value, negated until there are so many words. */
static void hold_words(int form) {
    char bytes[256];
    snprintf(bytes, sizeof bytes, "policy,%d\nuattr,1\noattr,1\nrule,0,t", form);
    for (int i = 1; i < HELVEMOIK_MOST_WORDS; i++)
        strcat(bytes, ",n");
    char *last = bytes + strlen(bytes);
    strcpy(last, "\nend\n");
    expect(refusal_of(bytes) == 0, "words", HELVEMOIK_MOST_WORDS);
    strcpy(last, ",n\nend\n");
    expect(refusal_of(bytes) == HELVEMOIK_WRONG_FIELD_COUNT, "words", HELVEMOIK_MOST_WORDS + 1);
}

/* Puts a line of a kind, which rises with its number. */
typedef int put_line(char *bytes, size_t room, int number);

static int put_conflict(char *bytes, size_t room, int number) {
    return snprintf(bytes, room, "conflict,%d,0\n", number);
}

static int put_pair(char *bytes, size_t room, int number) {
    return snprintf(bytes, room, "pair,%d,%d,%d\n", number / 25, number / 5 % 5, number % 5);
}

/* The refusal of a text of so many of these lines. */
static uint32_t refusal_of_lines(int form, put_line *put, int count) {
    char bytes[1024];
    int n = snprintf(bytes, sizeof bytes, "policy,%d\nuattr,5\noattr,5\n", form);
    for (int i = 0; i < count; i++)
        n += put(bytes + n, sizeof bytes - (size_t)n, i);
    snprintf(bytes + n, sizeof bytes - (size_t)n, "end\n");
    return refusal_of(bytes);
}

static void hold_lines(const char *what, put_line *put, int most, uint32_t refusal) {
    for (int form = 1; form <= 3; form++) {
        expect(refusal_of_lines(form, put, most) == 0, what, (size_t)most);
        expect(refusal_of_lines(form, put, most + 1) == refusal, what, (size_t)most + 1);
    }
}

/* ---- limits of a result */

/* By the call of the policy's form. */
static uint32_t compiled(struct helvemoik_policy policy, size_t u, size_t o, size_t t) {
    switch (policy.form) {
    case 1: return helvemoik_compile_8_8(policy, users, u, objects, o, table, t).refusal;
    case 2: return helvemoik_compile_8_16(policy, users, u, objects, o, wide, t).refusal;
    default: return helvemoik_compile_16_16(policy, wide_users, u, wide_objects, o, wide, t).refusal;
    }
}

static uint32_t decided(struct helvemoik_policy policy, uint32_t user, uint32_t object, size_t room, size_t count) {
    return policy.form == 3 ? helvemoik_decide_by_tuples_32(policy, user, object, wide_tuples, room, count)
                            : helvemoik_decide_by_tuples_16(policy, user, object, tuples, room, count);
}

/* No two sets alike, and an action that is granted always: no policy of the form has more labels or tuples. */
static void hold_results(struct helvemoik_policy policy, size_t labels, size_t places, size_t most) {
    const uint32_t all = (uint32_t)labels - 1;
    expect(compiled(policy, labels, labels, places) == 0, "labels", labels);
    expect(compiled(policy, labels - 1, labels, places) == HELVEMOIK_BUFFER_TOO_SHORT, "user labels", labels - 1);
    expect(compiled(policy, labels, labels - 1, places) == HELVEMOIK_BUFFER_TOO_SHORT, "object labels", labels - 1);
    expect(compiled(policy, labels, labels, places - 1) == HELVEMOIK_BUFFER_TOO_SHORT, "table", places - 1);
    expect(listed(policy, 7, most).count == most, "tuples", most);
    expect(decided(policy, 0, 9, most, 9) == HELVEMOIK_DENIED, "first tuples", 9);
    expect(decided(policy, 0, 9, most, 10) == HELVEMOIK_GRANTED, "first tuples", 10);
    expect(decided(policy, all, all, most, most - 1) == HELVEMOIK_DENIED, "all tuples but one", most - 1);
    expect(decided(policy, all, all, most, most) == HELVEMOIK_GRANTED, "all tuples", most);
    expect(decided(policy, all, all, most - 1, most) == HELVEMOIK_BUFFER_TOO_SHORT, "listing", most - 1);
    expect(decided(policy, all + 1, 0, most, most) == HELVEMOIK_SET_OUT_OF_REACH, "user sets", labels);
    expect(decided(policy, 0, all + 1, most, most) == HELVEMOIK_SET_OUT_OF_REACH, "object sets", labels);
    expect(listed(policy, 7, most - 1).refusal == HELVEMOIK_BUFFER_TOO_SHORT, "tuples", most - 1);
}

static void hold_results_of_each(void) {
    char bytes[] = "policy,1\nuattr,7\noattr,7\nrule,0,u0,o0,a\nrule,1,u1,o1,a\nrule,2,u2,o2,a\nrule,3,u3,o3,a\n"
                   "rule,4,u4,o4,a\nrule,5,u5,o5,a\nrule,6,u6,o6,a\nrule,7,t\nend\n";
    const char form_3[] = "policy,3\nuattr,9\noattr,9\nrule,0,q00\nrule,7,t\nend\n";
    hold_results(policy_of(bytes), HELVEMOIK_FORM_1_LABELS, HELVEMOIK_FORM_1_TABLE, HELVEMOIK_FORM_1_TUPLES);
    bytes[strlen("policy,")] = '2';
    hold_results(policy_of(bytes), HELVEMOIK_FORM_1_LABELS, HELVEMOIK_FORM_1_TABLE, HELVEMOIK_FORM_1_TUPLES);
    hold_results(policy_of(form_3), HELVEMOIK_FORM_3_LABELS, HELVEMOIK_FORM_3_TABLE, HELVEMOIK_FORM_3_TUPLES);
    hold_results(policy_of(form_3), HELVEMOIK_MOST_LABELS, HELVEMOIK_MOST_TABLE, HELVEMOIK_MOST_TUPLES);
}

/* ---- refusals and answers, by the smallest text or call that gets each */

static void hold_reading_refusals(void) {
    static const struct { const char *text; uint32_t refusal; } cases[] = {
        { "policy,1", HELVEMOIK_LINE_FEED_MISSING },
        { "end\n", HELVEMOIK_KIND_NOT_ALLOWED },
        { "policy,1,1\n", HELVEMOIK_WRONG_FIELD_COUNT },
        { "policy,01\n", HELVEMOIK_MALFORMED_FIELD },
        { "policy,4\n", HELVEMOIK_OUT_OF_RANGE },
        { "policy,1\nuattr,0\n", HELVEMOIK_OUT_OF_RANGE },
        { "policy,1\nuattr,1\noattr,1\nuser,1,0\nuser,1,0\n", HELVEMOIK_NOT_RISING },
        { "policy,1\nuattr,1\noattr,2\nrule,0,d00\n", HELVEMOIK_UNEQUAL_WIDTHS },
        { "policy,1\nuattr,1\noattr,2\nrule,0,n\n", HELVEMOIK_UNBALANCED_FORMULA },
        { "", HELVEMOIK_END_MISSING },
    };
    for (size_t i = 0; i < sizeof cases / sizeof *cases; i++)
        expect(refusal_of(cases[i].text) == cases[i].refusal, "refusal of reading", cases[i].refusal);
}

static void answers(uint32_t answer, uint32_t due) {
    expect(answer == due, "answer", due);
}

/* By the call of the policy's form, with room for so many labels and entries of each buffer. */
static uint32_t requested(struct helvemoik_board board, struct helvemoik_policy policy, size_t room, uint32_t session,
                          uint32_t action, uint32_t object) {
    switch (policy.form) {
    case 1:
        return helvemoik_request_8_8(board, policy, 2, 1, users, room, objects, room, table, room,
                                     session, action, object).answer;
    case 2:
        return helvemoik_request_8_16(board, policy, 2, 1, users, room, objects, room, wide, room,
                                      session, action, object).answer;
    default:
        return helvemoik_request_16_16(board, policy, 2, 1, wide_users, room, wide_objects, room, wide, room,
                                       session, action, object).answer;
    }
}

/* NU is 2 and NO is 1. */
static void hold_answers(int form, uint32_t actions) {
    char bytes[128];
    snprintf(bytes, sizeof bytes, "policy,%d\nuattr,2\noattr,1\nuser,0,3\nuser,1,1\nobject,0,1\nconflict,3,1\n"
             "rule,0,u0\nend\n", form);
    struct helvemoik_policy policy = policy_of(bytes);
    struct helvemoik_policy invalid = policy;
    struct helvemoik_board none = helvemoik_fresh();
    struct helvemoik_step opened = helvemoik_open(none, policy, 0, HELVEMOIK_SESSIONS - 1, 1);
    struct helvemoik_board one = opened.board, over = one;
    const uint32_t last = HELVEMOIK_SESSIONS - 1;
    invalid.form = 0;
    over.sessions[last].held = 3;
    answers(opened.answer, HELVEMOIK_DONE);
    answers(helvemoik_decide(policy, 0, 0, 0), HELVEMOIK_DENIED);
    answers(helvemoik_decide(policy, 0, 1, 0), HELVEMOIK_GRANTED);
    answers(helvemoik_apart(policy, 1, 3).answer, HELVEMOIK_ALIKE);
    answers(helvemoik_apart(policy, 0, 1).answer, HELVEMOIK_APART);
    answers(helvemoik_decide(invalid, 0, 0, 0), HELVEMOIK_INVALID_STATE);
    answers(helvemoik_close(over, policy, 0, last).answer, HELVEMOIK_INVALID_STATE);
    answers(helvemoik_decide(policy, actions, 0, 0), HELVEMOIK_UNKNOWN_ACTION);
    answers(helvemoik_open(none, policy, 0, HELVEMOIK_SESSIONS, 1).answer, HELVEMOIK_UNKNOWN_SESSION);
    answers(helvemoik_open(none, policy, 2, 0, 1).answer, HELVEMOIK_UNREGISTERED_USER);
    answers(compiled(policy, 4, 2, 2), 0);
    answers(requested(one, policy, 4, last, 0, 0), HELVEMOIK_GRANTED);
    answers(requested(one, policy, 4, last, 1, 0), HELVEMOIK_DENIED);
    answers(requested(over, policy, 4, last, 0, 0), HELVEMOIK_INVALID_STATE);
    answers(requested(one, policy, 0, last, actions, 0), HELVEMOIK_UNKNOWN_ACTION);
    answers(requested(one, policy, 0, HELVEMOIK_SESSIONS, 0, 0), HELVEMOIK_UNKNOWN_SESSION);
    answers(requested(one, policy, 0, last, 0, 1), HELVEMOIK_UNREGISTERED_OBJECT);
    answers(requested(none, policy, 0, last, 0, 0), HELVEMOIK_SESSION_NOT_OPEN);
    answers(requested(one, policy, 1, last, 0, 0), HELVEMOIK_BUFFER_TOO_SHORT);
    answers(helvemoik_open(one, policy, 1, last, 1).answer, HELVEMOIK_SESSION_OPEN);
    answers(helvemoik_close(none, policy, 0, last).answer, HELVEMOIK_SESSION_NOT_OPEN);
    answers(helvemoik_close(one, policy, 1, last).answer, HELVEMOIK_SESSION_OF_ANOTHER);
    answers(helvemoik_open(none, policy, 1, 0, 2).answer, HELVEMOIK_SET_OUT_OF_REACH);
    answers(helvemoik_open(none, policy, 0, 0, 3).answer, HELVEMOIK_TOO_MANY_HELD);
    answers(helvemoik_add(one, policy, 0, last, 2).answer, HELVEMOIK_TOO_MANY_HELD);
}

int main(void) {
    hold_text_bytes();
    hold_values(1, HELVEMOIK_FORM_1_VALUES, HELVEMOIK_FORM_1_LABELS);
    hold_values(2, HELVEMOIK_FORM_1_VALUES, HELVEMOIK_FORM_1_LABELS);
    hold_values(3, HELVEMOIK_FORM_3_VALUES, HELVEMOIK_FORM_3_LABELS);
    hold_greatest("uattr,1\noattr,1\nuser,%d,0\nend\n", HELVEMOIK_USER_NUMBERS - 1);
    hold_greatest("uattr,1\noattr,1\nobject,%d,0\nend\n", HELVEMOIK_OBJECT_NUMBERS - 1);
    hold_greatest("uattr,1\noattr,1\nconflict,0,%d\nend\n", HELVEMOIK_MOST_TOGETHER);
    hold_actions(1, HELVEMOIK_FORM_1_ACTIONS);
    hold_actions(2, HELVEMOIK_FORM_2_ACTIONS);
    hold_actions(3, HELVEMOIK_FORM_2_ACTIONS);
    for (int form = 1; form <= 3; form++)
        hold_words(form);
    hold_lines("conflicts", put_conflict, HELVEMOIK_MOST_CONFLICTS, HELVEMOIK_TOO_MANY_CONFLICTS);
    hold_lines("pairs", put_pair, HELVEMOIK_MOST_PAIRS, HELVEMOIK_TOO_MANY_PAIRS);
    hold_results_of_each();
    hold_reading_refusals();
    hold_answers(1, HELVEMOIK_FORM_1_ACTIONS);
    hold_answers(2, HELVEMOIK_FORM_2_ACTIONS);
    hold_answers(3, HELVEMOIK_FORM_2_ACTIONS);
    return verdict("limits");
}
