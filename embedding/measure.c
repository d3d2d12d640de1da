/*
 * Prints the size of each struct of helvemoik.h and the stack that each call takes, for docs/EMBEDDING.md.
 *
 * usage: measure. The texts are at all limits of their form: values, seniorities, users, objects, conflicts, rules of
 * all words, and pairs. Each form has one text with as many labels as there are sets, and one with few. Every call is
 * made with every policy; one that is for other forms is refused by 11, and its figure is in brackets.
 *
 * A call runs in a thread of its own, on a stack that was painted with one byte; the deepest byte that is no longer
 * paint shows how much was used. The figure has the caller's frame in it, with the copies of the arguments that go by
 * value, and not what starting a thread takes, nor what looking up memcpy takes, which the first call of a program does
 * unless it is linked with -z now. Calls on an action are made for each, and the greatest figure counts.
 */
#define _POSIX_C_SOURCE 200112L
#include <pthread.h>
#include <stdarg.h>
#include <stdio.h>
#include <stdlib.h>
#include <string.h>

#include "helvemoik.h"

enum { STACK = 1 << 20, PAINT = 0xA5 };

/* ---- the texts */

static char text[HELVEMOIK_TEXT_BYTES + 1];
static size_t length;

static void put(const char *format, ...) {
    va_list arguments;
    va_start(arguments, format);
    int n = vsnprintf(text + length, sizeof text - length, format, arguments);
    va_end(arguments);
    if (n < 0 || (size_t)n >= sizeof text - length)
        exit(2);
    length += (size_t)n;
}

/* Every value is senior to all below it. */
static void put_seniority(const char *kind, int values) {
    for (int v = 1; v < values; v++)
        for (int j = 0; j < v; j++)
            put("%s,%d,%d\n", kind, v, j);
}

/* Sixteen leaves, the joins between them and a negation: in turn each leaf is joined at once, or all at the end. */
static void put_rule(int action, const char *first, int values) {
    const int leaves = HELVEMOIK_MOST_WORDS / 2, late = action % 2;
    put("rule,%d,%s", action, first);
    for (int k = 1; k < leaves; k++) {
        if (action == 0)
            put(",f");
        else
            put(",%c%d", k % 2 ? 'u' : 'o', (k + action) % values);
        if (!late)
            put(action > 0 && k % 3 ? ",a" : ",r");
    }
    for (int k = 1; late && k < leaves; k++)
        put(k % 3 ? ",a" : ",r");
    put(",n\n");
}

/*
 * `q00` alone tells all sets apart, as action 0 has it; `d00` does not, since the seniorities make all sets alike that
 * have the same greatest value.
 */
static void put_text(int form, int many) {
    const int values = form == 3 ? HELVEMOIK_FORM_3_VALUES : HELVEMOIK_FORM_1_VALUES, sets = 1 << values;
    const int actions = form == 1 ? HELVEMOIK_FORM_1_ACTIONS : HELVEMOIK_FORM_2_ACTIONS;
    length = 0;
    put("policy,%d\nuattr,%d\noattr,%d\n", form, values, values);
    put_seniority("usen", values);
    put_seniority("osen", values);
    for (int i = 0; i < HELVEMOIK_USER_NUMBERS; i++)
        put("user,%d,%d\n", i, (i * 37 + 5) % sets);
    for (int i = 0; i < HELVEMOIK_OBJECT_NUMBERS; i++)
        put("object,%d,%d\n", i, (i * 53 + 9) % sets);
    for (int i = 1; i <= HELVEMOIK_MOST_CONFLICTS; i++)
        put("conflict,%d,%d\n", i * sets / HELVEMOIK_MOST_CONFLICTS - 1, HELVEMOIK_MOST_TOGETHER);
    for (int action = 0; action < actions; action++)
        put_rule(action, many ? "q00" : "d00", values);
    for (int i = 0; i < HELVEMOIK_MOST_PAIRS; i++) {
        const int each = HELVEMOIK_MOST_PAIRS / (actions - 1) + 1;
        put("pair,%d,%d,%d\n", 1 + i / each, i % each / values, i % each % values);
    }
    put("end\n");
}

/* ---- the calls */

static struct helvemoik_policy policy;
static struct helvemoik_board board;
static struct helvemoik_reading reading;
static struct helvemoik_counted counted;
static struct helvemoik_counts counts, found;
static struct helvemoik_separation separation;
static struct helvemoik_step step;
static uint8_t copy[HELVEMOIK_TEXT_BYTES];
static uint8_t users[HELVEMOIK_FORM_1_LABELS], objects[HELVEMOIK_FORM_1_LABELS], table[HELVEMOIK_FORM_1_TABLE];
static uint16_t wide_users[HELVEMOIK_FORM_3_LABELS], wide_objects[HELVEMOIK_FORM_3_LABELS];
static uint16_t wide[HELVEMOIK_FORM_3_TABLE];
static uint16_t tuples[HELVEMOIK_FORM_1_TUPLES];
static uint32_t wide_tuples[HELVEMOIK_FORM_3_TUPLES];
static size_t listed;
static uint32_t action, refusal;

static uint32_t refusal_in(uint32_t answer) {
    return answer > HELVEMOIK_DONE ? answer : 0;
}

static void *nothing(void *x) { return x; }
static void *call_read(void *x) { reading = helvemoik_read((const uint8_t *)text, length); return x; }
static void *call_write(void *x) { counted = helvemoik_write(policy, copy, sizeof copy); return x; }
static void *call_valid(void *x) { refusal = helvemoik_valid(policy) ? 0 : HELVEMOIK_INVALID_STATE; return x; }
static void *call_decide(void *x) { refusal = helvemoik_decide(policy, action, 1, 1); return x; }
static void *call_list_16(void *x) {
    counted = helvemoik_list_16(policy, action, tuples, HELVEMOIK_FORM_1_TUPLES);
    return x;
}
static void *call_list_32(void *x) {
    counted = helvemoik_list_32(policy, action, wide_tuples, HELVEMOIK_FORM_3_TUPLES);
    return x;
}
static void *call_decide_by_tuples_16(void *x) {
    refusal = helvemoik_decide_by_tuples_16(policy, 1, 1, tuples, HELVEMOIK_FORM_1_TUPLES, listed);
    return x;
}
static void *call_decide_by_tuples_32(void *x) {
    refusal = helvemoik_decide_by_tuples_32(policy, 1, 1, wide_tuples, HELVEMOIK_FORM_3_TUPLES, listed);
    return x;
}
static void *call_compile_8_8(void *x) {
    counts = helvemoik_compile_8_8(policy, users, sizeof users, objects, sizeof objects, table, sizeof table);
    return x;
}
static void *call_compile_8_16(void *x) {
    counts = helvemoik_compile_8_16(policy, users, sizeof users, objects, sizeof objects,
                                    wide, HELVEMOIK_FORM_3_TABLE);
    return x;
}
static void *call_compile_16_16(void *x) {
    counts = helvemoik_compile_16_16(policy, wide_users, HELVEMOIK_FORM_3_LABELS,
                                     wide_objects, HELVEMOIK_FORM_3_LABELS, wide, HELVEMOIK_FORM_3_TABLE);
    return x;
}
static void *call_apart(void *x) { separation = helvemoik_apart(policy, 0, 1); return x; }
static void *call_fresh(void *x) { board = helvemoik_fresh(); return x; }
static void *call_open(void *x) { step = helvemoik_open(board, policy, 0, 0, 1); return x; }
static void *call_add(void *x) { step = helvemoik_add(board, policy, 0, 0, 4); return x; }
static void *call_drop(void *x) { step = helvemoik_drop(board, policy, 0, 0, 1); return x; }
static void *call_close(void *x) { step = helvemoik_close(board, policy, 0, 0); return x; }
static void *call_request_8_8(void *x) {
    step = helvemoik_request_8_8(board, policy, found.users, found.objects, users, sizeof users,
                                 objects, sizeof objects, table, sizeof table, 0, action, 63);
    return x;
}
static void *call_request_8_16(void *x) {
    step = helvemoik_request_8_16(board, policy, found.users, found.objects, users, sizeof users,
                                  objects, sizeof objects, wide, HELVEMOIK_FORM_3_TABLE, 0, action, 63);
    return x;
}
static void *call_request_16_16(void *x) {
    step = helvemoik_request_16_16(board, policy, found.users, found.objects, wide_users, HELVEMOIK_FORM_3_LABELS,
                                   wide_objects, HELVEMOIK_FORM_3_LABELS, wide, HELVEMOIK_FORM_3_TABLE, 0, action, 63);
    return x;
}

/* What is kept of a call for those after it, and its refusal. */
static uint32_t keep_refusal(void) { return refusal_in(refusal); }
static uint32_t keep_policy(void) { policy = reading.policy; return reading.refusal; }
static uint32_t keep_counted(void) { return counted.refusal; }
static uint32_t keep_listed(void) {
    if (counted.refusal == 0)
        listed = counted.count;
    return counted.refusal;
}
static uint32_t keep_counts(void) {
    if (counts.refusal == 0)
        found = counts;
    return counts.refusal;
}
static uint32_t keep_separation(void) { return refusal_in(separation.answer); }
static uint32_t keep_step(void) { board = step.board; return refusal_in(step.answer); }

/* Every session but the first is open before the first one is. */
static uint32_t keep_board(void) {
    uint32_t sum = 0;
    for (uint32_t k = 1; k < HELVEMOIK_SESSIONS; k++) {
        step = helvemoik_open(board, policy, k, k, policy.users.entries[k].set & 7);
        sum += keep_step();
    }
    return sum;
}

/* The call, the forms that it is for, whether it is on an action, and what is kept of it; a call comes after others. */
static const struct call {
    const char *name;
    void *(*call)(void *);
    uint32_t (*keep)(void);
    const char *forms;
    int on_action;
} calls[] = {
    { "read", call_read, keep_policy, "123", 0 },
    { "write", call_write, keep_counted, "123", 0 },
    { "valid", call_valid, keep_refusal, "123", 0 },
    { "decide", call_decide, keep_refusal, "123", 1 },
    { "list_16", call_list_16, keep_listed, "12", 1 },
    { "list_32", call_list_32, keep_listed, "3", 1 },
    { "decide_by_tuples_16", call_decide_by_tuples_16, keep_refusal, "12", 0 },
    { "decide_by_tuples_32", call_decide_by_tuples_32, keep_refusal, "3", 0 },
    { "compile_8_8", call_compile_8_8, keep_counts, "1", 0 },
    { "compile_8_16", call_compile_8_16, keep_counts, "2", 0 },
    { "compile_16_16", call_compile_16_16, keep_counts, "3", 0 },
    { "apart", call_apart, keep_separation, "123", 0 },
    { "fresh", call_fresh, keep_board, "123", 0 },
    { "open", call_open, keep_step, "123", 0 },
    { "add", call_add, keep_step, "123", 0 },
    { "drop", call_drop, keep_step, "123", 0 },
    { "request_8_8", call_request_8_8, keep_step, "1", 1 },
    { "request_8_16", call_request_8_16, keep_step, "2", 1 },
    { "request_16_16", call_request_16_16, keep_step, "3", 1 },
    { "close", call_close, keep_step, "123", 0 },
};
enum { CALLS = sizeof calls / sizeof *calls, TEXTS = 6 };

/* ---- the stack */

static size_t used(void *(*call)(void *)) {
    static unsigned char stack[STACK] __attribute__((aligned(4096)));
    memset(stack, PAINT, sizeof stack);
    pthread_attr_t attributes;
    pthread_t thread;
    if (pthread_attr_init(&attributes) || pthread_attr_setstack(&attributes, stack, sizeof stack)
        || pthread_create(&thread, &attributes, call, NULL) || pthread_join(thread, NULL))
        exit(2);
    size_t deepest = 0;
    while (deepest < sizeof stack && stack[deepest] == PAINT)
        deepest++;
    return sizeof stack - deepest;
}

static int serves(const struct call *call, int form) {
    return strchr(call->forms, '0' + form) != NULL;
}

/* The greatest of a call's figures under the text's policy. A call that is not refused as is due ends the program. */
static size_t measured(const struct call *call, int form) {
    const uint32_t actions = form == 1 ? HELVEMOIK_FORM_1_ACTIONS : HELVEMOIK_FORM_2_ACTIONS;
    size_t greatest = 0;
    for (action = 0; action < (call->on_action ? actions : 1); action++) {
        size_t bytes = used(call->call) - used(nothing);
        uint32_t refused = call->keep();
        if (refused != (serves(call, form) ? 0 : HELVEMOIK_INVALID_STATE)) {
            printf("%s, form %d, action %u: refused by %u\n", call->name, form, (unsigned)action, (unsigned)refused);
            exit(1);
        }
        if (bytes > greatest)
            greatest = bytes;
    }
    return greatest;
}

#define SIZE(name) printf("size %-14s %zu\n", #name, sizeof(struct helvemoik_##name))

int main(void) {
    static size_t stack[CALLS][TEXTS];
    SIZE(direct);
    SIZE(side);
    SIZE(entry);
    SIZE(register);
    SIZE(conflict);
    SIZE(conflicts);
    SIZE(rule);
    SIZE(rules);
    SIZE(pair);
    SIZE(pairs);
    SIZE(policy);
    SIZE(session);
    SIZE(board);
    SIZE(reading);
    SIZE(counted);
    SIZE(counts);
    SIZE(separation);
    SIZE(step);
    call_read(NULL); /* memcpy is looked up */
    for (int t = 0; t < TEXTS; t++) {
        const int form = t / 2 + 1;
        put_text(form, t % 2 == 0);
        for (size_t c = 0; c < CALLS; c++)
            stack[c][t] = measured(&calls[c], form);
        printf("text %d: form %d, %zu bytes, NU %u, NO %u, the last listing %zu\n", t, form, length,
               (unsigned)found.users, (unsigned)found.objects, listed);
    }
    printf("%-25s  greatest", "stack");
    for (int t = 0; t < TEXTS; t++)
        printf("   text %d", t);
    printf("\n");
    for (size_t c = 0; c < CALLS; c++) {
        size_t greatest = 0;
        for (int t = 0; t < TEXTS; t++)
            greatest = stack[c][t] > greatest ? stack[c][t] : greatest;
        printf("stack %-19s  %8zu", calls[c].name, greatest);
        for (int t = 0; t < TEXTS; t++)
            printf(serves(&calls[c], t / 2 + 1) ? " %7zu " : " (%6zu)", stack[c][t]);
        printf("\n");
    }
    return 0;
}
