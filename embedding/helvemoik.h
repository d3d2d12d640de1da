/*
 * Helvemoik: label policies on a comment screen, for C.
 *
 * Link libembed.a, which `sh build.sh` writes to target/staticlib. layout.c and limits.c hold this header
 * against it. docs/EMBEDDING.md has the rest.
 *
 * Everything goes by value or in lent buffers. There is no heap and no global state. A lent buffer is a pointer, which
 * is not NULL even where the length is 0, and then a length, counted in elements. No call has a precondition but that
 * these are true and that a buffer which the call writes overlaps no other of its buffers: every value of every number
 * and field gets its result or one refusal.
 *
 * Structs have padding, which is not read: compare policies field by field, or by what helvemoik_write writes for them.
 */
#ifndef HELVEMOIK_H
#define HELVEMOIK_H

#include <stdbool.h>
#include <stddef.h>
#include <stdint.h>

#ifdef __cplusplus
extern "C" {
#endif

/* ---- sizes */

/* The limits of documents 01 and 02. */
enum {
    HELVEMOIK_TEXT_BYTES = 8192,   /* the longest text that is read, and room for any text that is written */
    HELVEMOIK_FORM_1_VALUES = 7,   /* values of a side, of a `policy,1` or `policy,2` text */
    HELVEMOIK_FORM_3_VALUES = 9,   /* values of a side, of a `policy,3` text */
    HELVEMOIK_FORM_1_ACTIONS = 8,  /* actions of a `policy,1` text */
    HELVEMOIK_FORM_2_ACTIONS = 16, /* actions of a `policy,2` or `policy,3` text */
    HELVEMOIK_MOST_WORDS = 32,     /* words of a formula */
    HELVEMOIK_MOST_CONFLICTS = 16, /* conflict lines */
    HELVEMOIK_MOST_TOGETHER = 7,   /* the greatest K of a conflict line */
    HELVEMOIK_MOST_PAIRS = 64,     /* pair lines */
    HELVEMOIK_USER_NUMBERS = 32,
    HELVEMOIK_OBJECT_NUMBERS = 64,
    HELVEMOIK_SESSIONS = 32        /* session numbers */
};

/* What follows from them. */
enum {
    /* values of a side, and actions, of any form */
    HELVEMOIK_MOST_VALUES = HELVEMOIK_FORM_3_VALUES,
    HELVEMOIK_MOST_ACTIONS = HELVEMOIK_FORM_2_ACTIONS,
    /* attributes of a side, and its direct seniorities: one for each two values */
    HELVEMOIK_WIDTH_PLACES = HELVEMOIK_MOST_VALUES,
    HELVEMOIK_LINE_PLACES = HELVEMOIK_MOST_VALUES * (HELVEMOIK_MOST_VALUES - 1) / 2,
    /* registered objects, or users, of which a text has fewer */
    HELVEMOIK_ENTRY_PLACES = HELVEMOIK_OBJECT_NUMBERS,
    HELVEMOIK_WORD_PLACES = HELVEMOIK_MOST_WORDS,
    HELVEMOIK_RULE_PLACES = HELVEMOIK_MOST_ACTIONS,
    HELVEMOIK_CONFLICT_PLACES = HELVEMOIK_MOST_CONFLICTS,
    HELVEMOIK_PAIR_PLACES = HELVEMOIK_MOST_PAIRS,
    /* room for the labels of a side, the entries of a table and the tuples of an action, in forms 1 and 2 */
    HELVEMOIK_FORM_1_LABELS = 1 << HELVEMOIK_FORM_1_VALUES,
    HELVEMOIK_FORM_1_TABLE = HELVEMOIK_FORM_1_LABELS * HELVEMOIK_FORM_1_LABELS,
    HELVEMOIK_FORM_1_TUPLES = HELVEMOIK_FORM_1_LABELS * HELVEMOIK_FORM_1_LABELS,
    /* the same in form 3 */
    HELVEMOIK_FORM_3_LABELS = 1 << HELVEMOIK_FORM_3_VALUES,
    HELVEMOIK_FORM_3_TABLE = HELVEMOIK_FORM_3_LABELS * HELVEMOIK_FORM_3_LABELS,
    HELVEMOIK_FORM_3_TUPLES = HELVEMOIK_FORM_3_LABELS * HELVEMOIK_FORM_3_LABELS,
    /* and in any form */
    HELVEMOIK_MOST_LABELS = HELVEMOIK_FORM_3_LABELS,
    HELVEMOIK_MOST_TABLE = HELVEMOIK_FORM_3_TABLE,
    HELVEMOIK_MOST_TUPLES = HELVEMOIK_FORM_3_TUPLES
};

/* ---- refusals, by the numbers of documents 01 and 02 */

enum {
    HELVEMOIK_TEXT_TOO_LONG = 1,
    HELVEMOIK_LINE_FEED_MISSING = 2,
    HELVEMOIK_KIND_NOT_ALLOWED = 3,
    HELVEMOIK_WRONG_FIELD_COUNT = 4,
    HELVEMOIK_MALFORMED_FIELD = 5,
    HELVEMOIK_OUT_OF_RANGE = 6,
    HELVEMOIK_NOT_RISING = 7,
    HELVEMOIK_UNEQUAL_WIDTHS = 8,
    HELVEMOIK_UNBALANCED_FORMULA = 9,
    HELVEMOIK_END_MISSING = 10,
    HELVEMOIK_INVALID_STATE = 11,
    HELVEMOIK_UNKNOWN_ACTION = 12,
    HELVEMOIK_UNKNOWN_SESSION = 13,
    HELVEMOIK_UNREGISTERED_USER = 14,
    HELVEMOIK_UNREGISTERED_OBJECT = 15,
    HELVEMOIK_SESSION_OPEN = 16,
    HELVEMOIK_SESSION_NOT_OPEN = 17,
    HELVEMOIK_SESSION_OF_ANOTHER = 18,
    HELVEMOIK_SET_OUT_OF_REACH = 19,
    HELVEMOIK_BUFFER_TOO_SHORT = 20,
    HELVEMOIK_TOO_MANY_PAIRS = 21,
    HELVEMOIK_TOO_MANY_CONFLICTS = 22,
    HELVEMOIK_TOO_MANY_HELD = 23
};

/* The answers of a decision and of a session call that are no refusal. */
enum {
    HELVEMOIK_DENIED = 0,
    HELVEMOIK_GRANTED = 1,
    HELVEMOIK_DONE = 2
};

/* The answers of helvemoik_apart that are no refusal. */
enum {
    HELVEMOIK_ALIKE = 0,
    HELVEMOIK_APART = 1
};

/* ---- words of a formula */

/* The number of a word. Any other number stands for a word that no policy has: check 11 refuses the policy. */
enum {
    HELVEMOIK_WORD_T = 0,
    HELVEMOIK_WORD_F = 1,
    HELVEMOIK_WORD_N = 2,
    HELVEMOIK_WORD_A = 3,
    HELVEMOIK_WORD_R = 4,
    HELVEMOIK_WORD_U = 10, /* and V: uV */
    HELVEMOIK_WORD_O = 20, /* and V: oV */
    HELVEMOIK_WORD_D = 50, /* and 10 * I + J: dIJ */
    HELVEMOIK_WORD_Q = 150 /* and 10 * I + J: qIJ */
};

/* ---- the policy value: the text's lines by kind, in text order; every place past a count is 0 */

/* `usen,V,J` or `osen,V,J`. */
struct helvemoik_direct {
    uint32_t senior;
    uint32_t junior;
};

/* One side, users or objects. */
struct helvemoik_side {
    size_t attributes;
    uint32_t widths[HELVEMOIK_WIDTH_PLACES];
    size_t lines;
    struct helvemoik_direct seniority[HELVEMOIK_LINE_PLACES];
};

/* `user,N,S` or `object,N,S`. */
struct helvemoik_entry {
    uint32_t number;
    uint32_t set;
};

struct helvemoik_register {
    size_t count;
    struct helvemoik_entry entries[HELVEMOIK_ENTRY_PLACES];
};

/* `conflict,S,K`: a user set, and how many of its values a session may hold at most, counted without their juniors. */
struct helvemoik_conflict {
    uint32_t set;
    uint32_t most;
};

struct helvemoik_conflicts {
    size_t count;
    struct helvemoik_conflict entries[HELVEMOIK_CONFLICT_PLACES];
};

/* `rule,A,w,w,..`: the action, and each word as its number. */
struct helvemoik_rule {
    uint32_t action;
    size_t count;
    uint8_t words[HELVEMOIK_WORD_PLACES];
};

struct helvemoik_rules {
    size_t count;
    struct helvemoik_rule entries[HELVEMOIK_RULE_PLACES];
};

/* `pair,A,V,W`: the action, the user value and the object value. */
struct helvemoik_pair {
    uint32_t action;
    uint32_t user;
    uint32_t object;
};

struct helvemoik_pairs {
    size_t count;
    struct helvemoik_pair entries[HELVEMOIK_PAIR_PLACES];
};

/*
 * The form, 1 to 3, says how many values and actions there are, and which compile, request, list and decision by tuples
 * serve the policy.
 */
struct helvemoik_policy {
    uint32_t form;
    struct helvemoik_side user;
    struct helvemoik_side object;
    struct helvemoik_register users;
    struct helvemoik_register objects;
    struct helvemoik_conflicts conflicts;
    struct helvemoik_rules rules;
    struct helvemoik_pairs pairs;
};

/* ---- the board: an entry for each session number; while the session is open, its user and the set it holds */

/*
 * live 0: the session is closed, and user and held count for nothing. Any other number: it is open; calls store 1.
 * Check 11 refuses a board with an open session whose user is not registered, whose set is out of the user's reach, or
 * that holds more values of some conflict's set than that conflict allows.
 */
struct helvemoik_session {
    uint32_t live;
    uint32_t user;
    uint32_t held;
};

struct helvemoik_board {
    struct helvemoik_session sessions[HELVEMOIK_SESSIONS];
};

/* ---- answers */

/* refusal 0: the text is accepted, and line is 0. Else the refusal, its line, and a policy that check 11 refuses. */
struct helvemoik_reading {
    uint32_t refusal;
    size_t line;
    struct helvemoik_policy policy;
};

/* refusal 0: so many elements are stored. Else the refusal, and count is 0. */
struct helvemoik_counted {
    uint32_t refusal;
    size_t count;
};

/* refusal 0: users is NU and objects is NO. Else the refusal, 0 and 0. */
struct helvemoik_counts {
    uint32_t refusal;
    uint32_t users;
    uint32_t objects;
};

/*
 * answer HELVEMOIK_ALIKE, 0, 0; HELVEMOIK_APART with an action and an object set that tell the user sets apart; or the
 * refusal, 0, 0.
 */
struct helvemoik_separation {
    uint32_t answer;
    uint32_t action;
    uint32_t object;
};

/*
 * HELVEMOIK_DONE, HELVEMOIK_GRANTED, HELVEMOIK_DENIED or the refusal, and the board after the call: after a refusal the
 * old one.
 */
struct helvemoik_step {
    uint32_t answer;
    struct helvemoik_board board;
};

/* The library is for x86-64. A compiler that lays out otherwise what a call takes or gives refuses this line. */
typedef char helvemoik_layout[sizeof(struct helvemoik_policy) == 3424 && sizeof(struct helvemoik_board) == 384
                              && sizeof(struct helvemoik_reading) == 3440 && sizeof(struct helvemoik_counted) == 16
                              && sizeof(struct helvemoik_counts) == 12 && sizeof(struct helvemoik_separation) == 12
                              && sizeof(struct helvemoik_step) == 388 ? 1 : -1];

/* ---- calls on a policy */

/* The policy of a text, or the refusal (1 to 10, or 21 or 22, which are tested between 7 and 8) and its line. */
struct helvemoik_reading helvemoik_read(const uint8_t *text, size_t text_length);

/* The text of a policy, at the buffer's start; what lies past it stays. Refusals 11, 20, which leave the buffer. */
struct helvemoik_counted helvemoik_write(struct helvemoik_policy policy, uint8_t *buffer, size_t buffer_length);

/* Check 11: whether the policy is what reading some accepted text yields. */
bool helvemoik_valid(struct helvemoik_policy policy);

/*
 * Whether the action is granted at a user set and an object set, by its formula and its pairs: granted or denied.
 * Refusals 11, 12, 19.
 */
uint32_t helvemoik_decide(struct helvemoik_policy policy, uint32_t action, uint32_t user, uint32_t object);

/*
 * The tuples of an action, each user set * 2^O + object set, rising; what lies past them stays. Refusals 11, 12, 20,
 * which leave the buffer. The number in a name is the bits of a tuple.
 */

/* Of a policy of form 1 or 2. One of another form gets 11, which leaves everything as it was. */
struct helvemoik_counted helvemoik_list_16(struct helvemoik_policy policy, uint32_t action,
                                           uint16_t *buffer, size_t buffer_length);

/* Of a policy of form 3. One of another form gets 11, which leaves everything as it was. */
struct helvemoik_counted helvemoik_list_32(struct helvemoik_policy policy, uint32_t action,
                                           uint32_t *buffer, size_t buffer_length);

/* Whether the pair of sets is one of the first `count` tuples of a listing: granted or denied. Refusals 11, 19, 20. */

/* Under a policy of form 1 or 2. One of another form gets 11. */
uint32_t helvemoik_decide_by_tuples_16(struct helvemoik_policy policy, uint32_t user, uint32_t object,
                                       const uint16_t *listing, size_t listing_length, size_t count);

/* Under a policy of form 3. One of another form gets 11. */
uint32_t helvemoik_decide_by_tuples_32(struct helvemoik_policy policy, uint32_t user, uint32_t object,
                                       const uint32_t *listing, size_t listing_length, size_t count);

/*
 * The labels of the user sets, those of the object sets, and their table; what lies past each stays. Refusals 11, 20,
 * which leave all three. The numbers in a name are the bits of a label and those of an entry of the table.
 */

/* Of a policy of form 1, in bytes. A policy of another form gets 11, which leaves everything as it was. */
struct helvemoik_counts helvemoik_compile_8_8(struct helvemoik_policy policy, uint8_t *users, size_t users_length,
                                              uint8_t *objects, size_t objects_length,
                                              uint8_t *table, size_t table_length);

/* Of one of form 2, with a table of 16 bits. A policy of another form gets 11, which leaves everything as it was. */
struct helvemoik_counts helvemoik_compile_8_16(struct helvemoik_policy policy, uint8_t *users, size_t users_length,
                                               uint8_t *objects, size_t objects_length,
                                               uint16_t *table, size_t table_length);

/* Of one of form 3, all in 16 bits. A policy of another form gets 11, which leaves everything as it was. */
struct helvemoik_counts helvemoik_compile_16_16(struct helvemoik_policy policy, uint16_t *users, size_t users_length,
                                                uint16_t *objects, size_t objects_length,
                                                uint16_t *table, size_t table_length);

/* Whether some action and object set tell two user sets apart. Refusals 11, 19. */
struct helvemoik_separation helvemoik_apart(struct helvemoik_policy policy, uint32_t one, uint32_t other);

/*
 * ---- session calls: each takes a board and gives the board after it
 *
 * Calls naming one session get the same answers whatever calls name others between them, from a fresh board under one
 * policy and, for requests, with the same buffers, NU and NO.
 */

/* A board that holds no session. */
struct helvemoik_board helvemoik_fresh(void);

/* Opens a session of the user that holds the set. Refusals 11, 13, 14, 16, 19, 23. */
struct helvemoik_step helvemoik_open(struct helvemoik_board board, struct helvemoik_policy policy,
                                     uint32_t user, uint32_t session, uint32_t set);

/* The session's held set gains these values. Refusals 11, 13, 14, 17, 18, 19, 23 (by the set held then). */
struct helvemoik_step helvemoik_add(struct helvemoik_board board, struct helvemoik_policy policy,
                                    uint32_t user, uint32_t session, uint32_t set);

/* The session's held set loses these values. Refusals 11, 13, 14, 17, 18, 19. */
struct helvemoik_step helvemoik_drop(struct helvemoik_board board, struct helvemoik_policy policy,
                                     uint32_t user, uint32_t session, uint32_t set);

/* Closes the session. Refusals 11, 13, 14, 17, 18. */
struct helvemoik_step helvemoik_close(struct helvemoik_board board, struct helvemoik_policy policy,
                                      uint32_t user, uint32_t session);

/*
 * Whether the action on the registered object is granted to the session's held set, by labels and table as the compile
 * of the same widths filled them, with the NU and NO that it returned: granted or denied. Refusals 11, 12, 13, 15, 17,
 * 20.
 */

/* Under a policy of form 1, by bytes. A policy of another form gets 11, which leaves everything as it was. */
struct helvemoik_step helvemoik_request_8_8(struct helvemoik_board board, struct helvemoik_policy policy,
                                            uint32_t nu, uint32_t no,
                                            const uint8_t *users, size_t users_length,
                                            const uint8_t *objects, size_t objects_length,
                                            const uint8_t *table, size_t table_length,
                                            uint32_t session, uint32_t action, uint32_t object);

/* Under one of form 2, by a table of 16 bits. A policy of another form gets 11, which leaves everything as it was. */
struct helvemoik_step helvemoik_request_8_16(struct helvemoik_board board, struct helvemoik_policy policy,
                                             uint32_t nu, uint32_t no,
                                             const uint8_t *users, size_t users_length,
                                             const uint8_t *objects, size_t objects_length,
                                             const uint16_t *table, size_t table_length,
                                             uint32_t session, uint32_t action, uint32_t object);

/* Under one of form 3, by 16 bits. A policy of another form gets 11, which leaves everything as it was. */
struct helvemoik_step helvemoik_request_16_16(struct helvemoik_board board, struct helvemoik_policy policy,
                                              uint32_t nu, uint32_t no,
                                              const uint16_t *users, size_t users_length,
                                              const uint16_t *objects, size_t objects_length,
                                              const uint16_t *table, size_t table_length,
                                              uint32_t session, uint32_t action, uint32_t object);

#ifdef __cplusplus
}
#endif

#endif
