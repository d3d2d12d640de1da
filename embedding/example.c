/*
 * A screen's day: the hall's card is read, its policy compiled, and a member of staff opens a session, works and
 * closes it; then there are two. At noon the card gains a pair, and in the evening a conflict; the next morning there
 * is another card, then one with more than eight actions, and then a large hall's, with nine values a side.
 *
 * usage: example FILE LARGE, where FILE is a policy text such as examples/front-desk.txt, and LARGE one of form 3 such
 * as examples/large-hall.txt.
 */
#include <stdio.h>
#include <string.h>

#include "helvemoik.h"

/* What the screen keeps: the policy, the board, and the compiled labels with their table, which go by the form. */
static struct helvemoik_policy policy;
static struct helvemoik_board board;
static struct helvemoik_counts counts;
static uint8_t user_labels[HELVEMOIK_FORM_1_LABELS];
static uint8_t object_labels[HELVEMOIK_FORM_1_LABELS];
static uint16_t wide_user_labels[HELVEMOIK_FORM_3_LABELS];
static uint16_t wide_object_labels[HELVEMOIK_FORM_3_LABELS];
static uint8_t table[HELVEMOIK_FORM_1_TABLE];
static uint16_t wide_table[HELVEMOIK_FORM_3_TABLE];

/* One byte more than the longest text, so that a longer one is seen to be longer. */
static uint8_t card[HELVEMOIK_TEXT_BYTES + 1];
static uint8_t copy[HELVEMOIK_TEXT_BYTES];
static uint16_t tuples[HELVEMOIK_FORM_1_TUPLES];
static uint32_t wide_tuples[HELVEMOIK_FORM_3_TUPLES];

static size_t load(const char *name) {
    FILE *file = fopen(name, "rb");
    if (!file)
        return 0;
    size_t n = fread(card, 1, sizeof card, file);
    fclose(file);
    return n;
}

static const char *word(uint32_t answer) {
    switch (answer) {
    case HELVEMOIK_DENIED: return "denied";
    case HELVEMOIK_GRANTED: return "granted";
    case HELVEMOIK_DONE: return "done";
    default: return "refused";
    }
}

/* Takes the step's board and prints its answer. */
static void took(const char *call, struct helvemoik_step step) {
    board = step.board;
    printf("%s: %s", call, word(step.answer));
    if (step.answer > HELVEMOIK_DONE)
        printf(" %u", (unsigned)step.answer);
    printf("\n");
}

static void asked(const char *name, uint32_t session, uint32_t action, uint32_t object, struct helvemoik_step step) {
    char call[64];
    snprintf(call, sizeof call, "%s %u %u %u", name, (unsigned)session, (unsigned)action, (unsigned)object);
    took(call, step);
}

static void request(const char *name, uint32_t session, uint32_t action, uint32_t object) {
    asked(name, session, action, object,
          helvemoik_request_8_8(board, policy, counts.users, counts.objects, user_labels, sizeof user_labels,
                                object_labels, sizeof object_labels, table, sizeof table, session, action, object));
}

static void request_wide(uint32_t session, uint32_t action, uint32_t object) {
    asked("request_8_16", session, action, object,
          helvemoik_request_8_16(board, policy, counts.users, counts.objects, user_labels, sizeof user_labels,
                                 object_labels, sizeof object_labels, wide_table, HELVEMOIK_FORM_3_TABLE,
                                 session, action, object));
}

static void request_large(uint32_t session, uint32_t action, uint32_t object) {
    asked("request_16_16", session, action, object,
          helvemoik_request_16_16(board, policy, counts.users, counts.objects,
                                  wide_user_labels, HELVEMOIK_FORM_3_LABELS,
                                  wide_object_labels, HELVEMOIK_FORM_3_LABELS, wide_table, HELVEMOIK_FORM_3_TABLE,
                                  session, action, object));
}

/* What a listing holds, and what is decided by it for a user set and an object set. */
static void listed(const char *name, uint32_t action, struct helvemoik_counted listing, uint32_t first, uint32_t user,
                   uint32_t object, uint32_t answer) {
    printf("%s %u: refusal %u, %zu tuples", name, (unsigned)action, (unsigned)listing.refusal, listing.count);
    if (listing.count > 0)
        printf(", the first %u, by tuples %u and %u: %s", (unsigned)first, (unsigned)user, (unsigned)object,
               word(answer));
    printf("\n");
}

static void list(const char *name, uint32_t action) {
    struct helvemoik_counted listing = helvemoik_list_16(policy, action, tuples, HELVEMOIK_FORM_1_TUPLES);
    listed(name, action, listing, tuples[0], 1, 1,
           helvemoik_decide_by_tuples_16(policy, 1, 1, tuples, HELVEMOIK_FORM_1_TUPLES, listing.count));
}

static void list_large(uint32_t action, uint32_t user, uint32_t object) {
    struct helvemoik_counted listing = helvemoik_list_32(policy, action, wide_tuples, HELVEMOIK_FORM_3_TUPLES);
    listed("list_32", action, listing, wide_tuples[0], user, object,
           helvemoik_decide_by_tuples_32(policy, user, object, wide_tuples, HELVEMOIK_FORM_3_TUPLES, listing.count));
}

/* The text of the policy, beside that of the card. */
static void write_card(size_t length) {
    struct helvemoik_counted written = helvemoik_write(policy, copy, sizeof copy);
    printf("write: refusal %u, %zu bytes, %s\n", (unsigned)written.refusal, written.count,
           written.count == length && memcmp(copy, card, length) == 0 ? "the same text" : "another text");
}

static void compiled(const char *name, struct helvemoik_counts compiled) {
    counts = compiled;
    printf("%s: refusal %u, NU %u, NO %u\n", name, (unsigned)counts.refusal, (unsigned)counts.users,
           (unsigned)counts.objects);
}

static void compile(const char *name) {
    compiled(name, helvemoik_compile_8_8(policy, user_labels, sizeof user_labels, object_labels, sizeof object_labels,
                                         table, sizeof table));
}

static void compile_wide(void) {
    compiled("compile_8_16",
             helvemoik_compile_8_16(policy, user_labels, sizeof user_labels, object_labels, sizeof object_labels,
                                    wide_table, HELVEMOIK_FORM_3_TABLE));
}

static void compile_large(void) {
    compiled("compile_16_16",
             helvemoik_compile_16_16(policy, wide_user_labels, HELVEMOIK_FORM_3_LABELS,
                                     wide_object_labels, HELVEMOIK_FORM_3_LABELS,
                                     wide_table, HELVEMOIK_FORM_3_TABLE));
}

static void decide(uint32_t action, uint32_t user, uint32_t object) {
    printf("decide %u %u %u: %s\n", (unsigned)action, (unsigned)user, (unsigned)object,
           word(helvemoik_decide(policy, action, user, object)));
}

/* What a moderator calls in session 5, and what another calls in session 6. */
static void first_moderator(int turn) {
    switch (turn) {
    case 0: took("open 1 5 2", helvemoik_open(board, policy, 1, 5, 2)); break;
    case 1: request("request", 5, 1, 1); break;
    case 2: request("request", 5, 2, 1); break;
    case 3: took("add 1 5 4", helvemoik_add(board, policy, 1, 5, 4)); break;
    default: request("request", 5, 1, 1);
    }
}

static void second_moderator(int turn) {
    switch (turn) {
    case 0: took("open 2 6 4", helvemoik_open(board, policy, 2, 6, 4)); break;
    case 1: took("drop 2 6 4", helvemoik_drop(board, policy, 2, 6, 4)); break;
    case 2: took("add 2 6 5", helvemoik_add(board, policy, 2, 6, 5)); break;
    case 3: request("request", 6, 2, 1); break;
    default: took("close 2 6", helvemoik_close(board, policy, 2, 6));
    }
}

/* Two moderators use one screen, and then the first is alone: the calls naming session 5 get the same answers. */
static void moderators(void) {
    for (int number = 2; number > 0; number--) {
        printf("moderators: %d\n", number);
        board = helvemoik_fresh();
        for (int turn = 0; turn < 5; turn++) {
            if (number == 2)
                second_moderator(turn);
            first_moderator(turn);
        }
    }
}

/* `pair,3,1,0`: editors get action 3 on drafts. Another card is compiled anew and begins with a fresh board. */
static void gain_pair(size_t length) {
    decide(3, 2, 1);
    policy.pairs.entries[policy.pairs.count++] = (struct helvemoik_pair){ 3, 1, 0 };
    write_card(length);
    compile("compile");
    list("list", 3);
    decide(3, 2, 1);
    board = helvemoik_fresh();
    took("open 1 5 2", helvemoik_open(board, policy, 1, 5, 2));
    request("request", 5, 3, 0);
    request("request", 5, 3, 1);
    took("close 1 5", helvemoik_close(board, policy, 1, 5));
}

/* `conflict,6,1`: a session holds the editors' value or the moderators', not both; juniors are not counted. */
static void gain_conflict(size_t length) {
    policy.conflicts.entries[policy.conflicts.count++] = (struct helvemoik_conflict){ 6, 1 };
    write_card(length);
    compile("compile");
    board = helvemoik_fresh();
    took("open 2 5 6", helvemoik_open(board, policy, 2, 5, 6));
    took("open 2 5 2", helvemoik_open(board, policy, 2, 5, 2));
    took("add 2 5 4", helvemoik_add(board, policy, 2, 5, 4));
    took("drop 2 5 2", helvemoik_drop(board, policy, 2, 5, 2));
    took("add 2 5 4", helvemoik_add(board, policy, 2, 5, 4));
    request("request", 5, 2, 1);
    took("close 2 5", helvemoik_close(board, policy, 2, 5));
}

/* Three clearances, each senior to the one before: `d` grants to a senior too, `q` only at the same places. */
static void next_card(void) {
    static const uint8_t text[] = "policy,1\nuattr,3\noattr,3\nusen,1,0\nusen,2,1\n"
                                  "user,0,4\nobject,0,3\nobject,1,4\nrule,0,d00\nrule,1,q00\nend\n";
    policy = helvemoik_read(text, sizeof text - 1).policy;
    compile("compile");
    decide(0, 4, 1);
    decide(0, 1, 4);
    board = helvemoik_fresh();
    took("open 0 5 4", helvemoik_open(board, policy, 0, 5, 4));
    request("request", 5, 0, 0);
    request("request", 5, 1, 0);
    request("request", 5, 1, 1);
    took("close 0 5", helvemoik_close(board, policy, 0, 5));
}

/*
 * Form 2: chiefs pin (8), helpers translate what is foreign (9), all have it read aloud (15). The table has entries of
 * 16 bits, and the calls for bytes refuse the policy.
 */
static void more_actions(void) {
    static const uint8_t text[] = "policy,2\nuattr,2\noattr,2\nusen,1,0\nuser,0,1\nuser,1,2\nobject,0,1\nobject,1,2\n"
                                  "rule,0,t\nrule,1,u0\nrule,2,u0,o0,a\nrule,3,u1\nrule,4,u1,o1,a\nrule,5,u1,o0,a\n"
                                  "rule,6,u1\nrule,7,u1\nrule,8,u1\nrule,15,t\npair,9,0,1\nend\n";
    policy = helvemoik_read(text, sizeof text - 1).policy;
    compile("compile_8_8");
    compile_wide();
    list("list_16", 8);
    decide(9, 1, 2);
    board = helvemoik_fresh();
    took("open 0 5 1", helvemoik_open(board, policy, 0, 5, 1));
    request_wide(5, 8, 0);
    request_wide(5, 9, 0);
    request_wide(5, 9, 1);
    request_wide(5, 15, 1);
    request_wide(5, 16, 1);
    request("request_8_8", 5, 15, 1);
    took("close 0 5", helvemoik_close(board, policy, 0, 5));
}

/* Reads the card of a file, and takes its policy if there is no refusal. */
static int take_card(const char *name, size_t *length) {
    *length = name ? load(name) : 0;
    struct helvemoik_reading reading = helvemoik_read(card, *length);
    printf("read: refusal %u, line %zu\n", (unsigned)reading.refusal, reading.line);
    if (reading.refusal != 0)
        return 0;
    policy = reading.policy;
    printf("valid: %s\n", helvemoik_valid(policy) ? "yes" : "no");
    write_card(*length);
    return 1;
}

/*
 * Form 3: an editor prints what is in both languages, and puts the languages down to remove what is in none. Labels
 * have 16 bits, and so have the entries of the table; tuples have 32. The calls for other widths refuse the policy.
 */
static void large_hall(void) {
    compile("compile_8_8");
    compile_wide();
    compile_large();
    list("list_16", 9);
    list_large(9, 72, 34);
    list_large(15, 420, 420);
    decide(15, 420, 420);
    board = helvemoik_fresh();
    took("open 7 5 420", helvemoik_open(board, policy, 7, 5, 420));
    request_large(5, 15, 6);
    request_large(5, 4, 3);
    took("drop 7 5 384", helvemoik_drop(board, policy, 7, 5, 384));
    request_large(5, 4, 3);
    request_large(5, 16, 3);
    request("request_8_8", 5, 4, 3);
    request_wide(5, 4, 3);
    took("close 7 5", helvemoik_close(board, policy, 7, 5));
}

int main(int argc, char **argv) {
    size_t length;
    if (!take_card(argc > 1 ? argv[1] : NULL, &length))
        return 1;
    compile("compile");
    for (uint32_t action = 0; action < 4; action++)
        list("list", action);
    decide(1, 2, 2);
    struct helvemoik_separation apart = helvemoik_apart(policy, 1, 2);
    printf("apart 1 2: answer %u, action %u, object set %u\n", (unsigned)apart.answer, (unsigned)apart.action,
           (unsigned)apart.object);

    board = helvemoik_fresh();
    took("open 2 5 1", helvemoik_open(board, policy, 2, 5, 1));
    took("open 2 5 1", helvemoik_open(board, policy, 2, 5, 1));
    request("request", 5, 0, 0);
    request("request", 5, 2, 1);
    took("add 2 5 4", helvemoik_add(board, policy, 2, 5, 4));
    request("request", 5, 2, 1);
    took("add 2 5 8", helvemoik_add(board, policy, 2, 5, 8));
    took("drop 1 5 4", helvemoik_drop(board, policy, 1, 5, 4));
    took("drop 2 5 4", helvemoik_drop(board, policy, 2, 5, 4));
    request("request", 5, 2, 1);
    request("request", 5, 9, 1);
    request("request", 5, 0, 63);
    took("close 2 5", helvemoik_close(board, policy, 2, 5));
    request("request", 5, 0, 0);
    moderators();
    gain_pair(length);
    gain_conflict(length);
    next_card();
    more_actions();
    if (!take_card(argc > 2 ? argv[2] : NULL, &length))
        return 1;
    large_hall();

    /* A number that is no word's: check 11 refuses the policy. */
    policy.rules.entries[0].words[0] = 255;
    printf("valid: %s\n", helvemoik_valid(policy) ? "yes" : "no");
    return 0;
}
