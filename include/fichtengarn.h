/*
 * Fichtengarn for C: reading role files, mining them into attribute rules, judging, asking and
 * showing rule files, counting denials in usage logs, making role files from a seed, and a standing
 * summary of what the roles grant. "01" below is the paper that settles what is right.
 *
 *     processors/build.py               proves the library and writes both archives:
 *
 *     cc -Iinclude program.c target/staticlib/libfichtengarn.a
 *     aarch64-linux-gnu-gcc -Iinclude program.c target/staticlib/aarch64/libfichtengarn.a
 *
 * The first is for x86-64, the second for 64-bit Arm. Either needs memcpy, memmove and memset at most, and
 * nothing else of a system. Structs go by value as the C interface of the processor has it. (With the word
 * riscv64 the script builds for that processor; the stacks below are not measured there.)
 *
 * What every call promises. Its answer, what it writes and that it ends are proved; the sizes of
 * the stack are measured, on both processors, and hold for both.
 *
 *   - It ends, on every input: any bytes, any lengths, any numbers. No input is asked to be good.
 *   - It returns 0, or the number of a refusal; the call that shows one rule stores it in a lent
 *     byte, and those that make a record return the record behind it. Where two refusals could be
 *     given, 01 and the requests say which.
 *   - A refusal gives only its number: after a refusal lent memory holds its former bytes, save the
 *     byte that carries the answer's number of the call that shows one rule. Scratch alone is free.
 *   - It writes to the memory that it is lent without 'const', as said at each call, and to its
 *     own stack. Files, rules, logs and cuts are only read.
 *   - It has no heap, no files and no state between calls: the same input has the same answer, and
 *     calls may run at the same time as long as they are lent different memory to write to.
 *
 * What the caller owes:
 *
 *   - No pointer is NULL, even beside a length of 0. Words are aligned as their type asks.
 *   - A length is that of the memory behind its pointer, and that memory stays as it is until the
 *     call returns.
 *   - What is lent to be written to overlaps nothing else that is lent to the same call.
 *   - The stack has at least the room that the call names. The calls keep their tables there, arrays
 *     of tens of kilobytes in a single frame: a thread's stack of 128 KB is too small for the judge.
 *     No call notices that there is too little. Without a guard page below the stack, memory beside
 *     it is overwritten; and a frame of this size may step over a guard page. Today's archives touch
 *     the pages of a frame one after the other and so run into it, but nothing promises that.
 *
 * Lengths of files and of output are in bytes, those of scratch and of a table in words of 64 bits. Users,
 * resources, operations, roles, rules and parts are numbered from 0.
 *
 * Attributes have domains. In a role file command 08 (side, kind, domain, a byte each) declares an
 * attribute with its domain, 0 to 255, and 02 (side, kind) one of domain 0; both stand directly
 * behind 01, 02 or 08, and there are at most 6 of them a side. An atom of a rule, command 27, joins
 * a user attribute and a resource attribute only if their domains are equal: mining writes no other,
 * and reading refuses another by 13. Conditions on one side alone, commands 22 to 25, do not look at
 * domains.
 *
 * A rule file says which shape it was made for. It opens with command 20 and six operands of a byte
 * each: the users, resources, operations, roles, user attributes and resource attributes of the role
 * file, as many as it declares, attributes by 02 and 08 together. Mining writes them. Every call that
 * takes both files refuses operands unlike the role file's by 16, whatever stands behind them; a first
 * command that is another, and a second 20, by 12. Two role files of one shape are not told apart: that
 * a rule file fits is for the judge to say.
 *
 * A rule tells its level. Behind its parts, and exactly once, stands command 29 with one operand of a
 * byte: 0 if the rule lists no value of attribute 255, 1 if it lists roles, 2 if it lists resources by
 * their numbers, 3 if both. Mining writes it; reading refuses another number by 18, and a rule without
 * it, or with two, by 12.
 */
#ifndef FICHTENGARN_H
#define FICHTENGARN_H

#include <stddef.h>
#include <stdint.h>

#ifdef __cplusplus
extern "C" {
#endif

/* A call's answer: 0 or a refusal. */
enum {
    FICHTENGARN_ACCEPTED = 0,

    /* of a role file, and of one that is to be made */
    FICHTENGARN_TOO_LONG = 1,        /* more than 65,535 bytes */
    FICHTENGARN_CUT_OFF = 2,         /* it ends inside operands or before 0F */
    FICHTENGARN_UNKNOWN_COMMAND = 3, /* a byte that is no command */
    FICHTENGARN_OUT_OF_PLACE = 4,    /* a command where it may not stand, or a byte after the end */
    FICHTENGARN_BEYOND = 5,          /* an operand beyond its limit or declared size, a seventh
                                        attribute; a number of a question, of an edit or of a
                                        log's record beyond the sizes; or sizes of a record, or
                                        of a file to be made, beyond the limits */
    FICHTENGARN_WRONG_KIND = 6,      /* a value of the wrong kind, or one given twice */
    FICHTENGARN_OWN_SENIOR = 7,      /* a role is its own senior */

    /* of lent memory */
    FICHTENGARN_SMALL_SCRATCH = 8, /* less than FICHTENGARN_SCRATCH_WORDS */
    FICHTENGARN_SHORT_OUTPUT = 9,  /* the rule file, the circle, or the role file made, is longer than
                                      the output */

    /* of a rule file */
    FICHTENGARN_RULES_CUT_OFF = 10, /* it ends inside operands or before 2F */
    FICHTENGARN_RULES_UNKNOWN = 11, /* a byte that is no command */
    FICHTENGARN_RULES_ORDER = 12,   /* out of order, missing or repeated, a first command other than
                                       20, a second 20, or a byte after the end */
    FICHTENGARN_RULES_OPERAND = 13, /* an operand beyond its size or of the wrong kind, an atom across
                                       domains, no operation, or no part of the role file */

    /* of the rule that is to be shown */
    FICHTENGARN_NO_SUCH_RULE = 14, /* its number is not below the count of rules */

    /* of a role file that is to be made */
    FICHTENGARN_ZERO_SEED = 15, /* the seed is 0 */

    /* of a rule file beside its role file */
    FICHTENGARN_WRONG_SHAPE = 16, /* operands of the 20 that are unlike the role file's */

    /* of the table lent to the standing summary */
    FICHTENGARN_WRONG_TABLE = 17, /* it has other than FICHTENGARN_TABLE_WORDS */

    /* of a rule */
    FICHTENGARN_WRONG_LEVEL = 18, /* the operand of its 29 is not the lowest level that allows its
                                     conjuncts */

    /* of a usage log */
    FICHTENGARN_WRONG_WINDOW = 19, /* a window of no records, or of more than FICHTENGARN_MOST_WINDOW */
    FICHTENGARN_RAGGED_LOG = 20,   /* its length is not divisible by three */

    /* of cuts between the roles that are mined */
    FICHTENGARN_BAD_CUTS = 21 /* they do not ascend strictly, or one is not from 1 to roles - 1 */
};

/* Sizes of lent memory, and limits of a role file. Output is as long as the caller likes. */
enum {
    FICHTENGARN_MOST_ROLE_BYTES = 65535, /* of a role file, read or made */
    FICHTENGARN_MOST_ROLES = 32,         /* of a role file, and so of a circle */
    FICHTENGARN_SCRATCH_WORDS = 2048,    /* of 64 bits: 16,384 bytes */
    FICHTENGARN_TABLE_WORDS = 1024,      /* of 64 bits, of the standing summary: 8,192 bytes */
    FICHTENGARN_USER_WORDS = 16,         /* of these, those of one user: one for each operation */
    FICHTENGARN_MOST_WINDOW = 64         /* records of a usage log in a window */
};

/*
 * May this role file be read? Returns 0 or 1 to 7. Stack: 40 KB.
 */
size_t fichtengarn_read_roles(const uint8_t *file, size_t file_length);

/*
 * May this rule file be read beside this role file? A rule file may be of any length.
 *
 * Returns 0, and *count is how many rules it has; or 1 to 7; then 10 to 13, 16 or 18, as its commands
 * come: 16 at the first, 18 at a 29, 13 at the others. Writes *count and nothing else. Stack: 140 KB.
 */
size_t fichtengarn_read_rules(const uint8_t *file, size_t file_length,
                              const uint8_t *rules, size_t rules_length,
                              size_t *count);

/*
 * The role question: do the roles grant the user the operation on the resource?
 *
 * Returns 0, and *answer is 1 for yes or 0 for no; or 1 to 7; then 5 if a number is beyond the
 * sizes of the role file. Writes *answer and nothing else. Stack: 52 KB.
 */
size_t fichtengarn_ask_roles(const uint8_t *file, size_t file_length,
                             size_t user, size_t resource, size_t operation,
                             size_t *answer);

/*
 * The rule question: does some rule grant it?
 *
 * Returns 0, and *answer is 1 for yes or 0 for no; or 1 to 7; then 10 to 13, 16 or 18; then 5 if a
 * number is beyond the sizes of the role file. Writes *answer and nothing else. Stack: 140 KB.
 */
size_t fichtengarn_ask_rules(const uint8_t *file, size_t file_length,
                             const uint8_t *rules, size_t rules_length,
                             size_t user, size_t resource, size_t operation,
                             size_t *answer);

/* The judge's verdicts: verdict[0], and what stands behind it. */
enum {
    FICHTENGARN_SOUND = 0,      /* nothing: the rules grant what the roles do, each rule grants what
                                   its parts do, and each part stands under one rule */
    FICHTENGARN_DIFFER = 1,     /* verdict[1], [2], [3]: the first triple at which roles and rules
                                   differ, by user, then resource, then operation */
    FICHTENGARN_STRAY_RULE = 2, /* verdict[1]: the first rule that grants other than its parts */
    FICHTENGARN_STRAY_PART = 3  /* verdict[1]: the first part that stands under no rule or several */
};

/*
 * The judge: is this rule file right for this role file?
 *
 * Returns 0 and the verdict, the first of 1, 2, 3 that there is cause for, else 0; or 1 to 7; then
 * 10 to 13, 16 or 18. Writes the numbers of the verdict; those that it has none for are as they were.
 * Stack: 160 KB, the most of all calls.
 */
size_t fichtengarn_judge(const uint8_t *file, size_t file_length,
                         const uint8_t *rules, size_t rules_length,
                         size_t verdict[4]);

/* A part of the rule file that was lent: its first byte is rules[start]. */
typedef struct {
    size_t start;
    size_t length;
} fichtengarn_part;

/*
 * One rule: which part of the rule file is it? The part is that of the caller's own memory, from the
 * rule's 21 up to the next command 21 or 2F; nothing is copied. Rules are numbered from 0.
 *
 * Stores in *answer 0; or 1 to 7; then 10 to 13, 16 or 18, wherever in the rule file their cause stands;
 * then 14 if there is no rule of this number. After a refusal the part is the empty one at the file's
 * start, {0, 0}. Writes *answer, after a refusal too, and nothing else. Stack: 140 KB.
 */
fichtengarn_part fichtengarn_show(const uint8_t *file, size_t file_length,
                                  const uint8_t *rules, size_t rules_length,
                                  size_t rule, uint8_t *answer);

/*
 * The circle: of a role file with refusal 7, the fewest roles that already make one.
 *
 * Returns 0, and *count is how many roles are listed: 0 if the role file is accepted; else the roles
 * stand at the front of the memory, one byte each, every one the junior of the next in a line 07, and
 * the last the junior of the first. The list starts with its lowest role; no circle of the file has
 * fewer roles; and of those as short it is the first by its bytes. Or returns 1 to 6; then 9 if the
 * memory is shorter than the list. Memory of FICHTENGARN_MOST_ROLES bytes is always enough. Writes the
 * list and *count, and nothing else. Stack: 42 KB.
 */
size_t fichtengarn_circle(const uint8_t *file, size_t file_length,
                          uint8_t *roles, size_t roles_length,
                          size_t *count);

/* The numbers that the count of denials stores. */
enum {
    FICHTENGARN_MOST = 0, /* the most records of a window that are denied */
    FICHTENGARN_START = 1 /* the number, from 0, of the first record of the earliest such window */
};

/*
 * Denials: how many records of a usage log do the rules deny, at most, in any so many neighbouring
 * ones? A record has three bytes, user, resource and operation, and is denied if no rule grants it. A
 * log may be of any length. One that is shorter than the window is one window; an empty one has 0
 * denials from record 0 on.
 *
 * Returns 0 and both numbers; or 1 to 7; then 10 to 13, 16 or 18; then 19 if the window is not 1 to
 * FICHTENGARN_MOST_WINDOW; then 20 if the log's length is not divisible by three; then 5 if a record,
 * any, is beyond the sizes of the role file. Writes the two numbers and nothing else. Beside its own
 * role file a mined rule file has the numbers that the roles have. Stack: 140 KB.
 */
size_t fichtengarn_denials(const uint8_t *file, size_t file_length,
                           const uint8_t *rules, size_t rules_length,
                           const uint8_t *log, size_t log_length,
                           size_t window,
                           size_t denials[2]);

/*
 * The load: a role file made from a seed and four sizes, the same on every machine.
 *
 * Returns 0, and the first *length bytes of the output are the role file: reading accepts it, with
 * these sizes. Or returns 15 for seed 0; then 5 if there are more users, resources, operations or
 * roles than a role file may have (64, 64, 16, 32; 0 is allowed); then 1 if the file would have more
 * than FICHTENGARN_MOST_ROLE_BYTES; then 9 if it is longer than the output. Output of
 * FICHTENGARN_MOST_ROLE_BYTES is always enough. Writes the file and *length, and nothing else.
 *
 * Draws are the outputs of Marsaglia's generator of 32 bits: x ^= x << 13, x ^= x >> 17, x ^= x << 5,
 * from x = seed on, the first output being the first draw. The file has 01 and the sizes, and 02 00 00
 * and 02 01 00, a single attribute a side. Then, a draw each: every user's value, draw mod 8, and every
 * resource's; for each role, each user is assigned if draw mod 4 is 0, and then for each resource, and
 * for each operation on it, there is a permission if draw mod 2 is 0; after all roles, for each junior
 * and each role of a higher number there is a line 07 if draw mod 16 is 0. Stack: 1 KB.
 */
size_t fichtengarn_load(uint32_t seed, size_t users, size_t resources, size_t operations, size_t roles,
                        uint8_t *output, size_t output_length,
                        size_t *length);

/*
 * The weights of the cost, each 0 to 65,535: every number of the type is one, and none is refused.
 * Passed by value. With {1, 1, 1, 1} the cost is 01's.
 */
typedef struct {
    uint16_t users;      /* w1: a value or an element in conditions on users, 22 and 23 */
    uint16_t resources;  /* w2: the same in conditions on resources, 24 and 25 */
    uint16_t operations; /* w3: an operation of a rule, 26 */
    uint16_t atoms;      /* w4: an atom, 27 */
} fichtengarn_weights;

/* The numbers that mining stores. */
enum {
    FICHTENGARN_LENGTH = 0, /* bytes of the rule file, the seven of its 20 among them */
    FICHTENGARN_PARTS = 1,  /* parts of the role file: parts = rules + merges */
    FICHTENGARN_RULES = 2,  /* rules written */
    FICHTENGARN_MERGES = 3, /* merges made, those within runs of roles among them */
    FICHTENGARN_COST = 4    /* cost of the rules as written, by the weights of the call */
};

/*
 * Mining: writes the rules of a role file.
 *
 * Cuts, a byte each, part the roles into runs: cut c stands between role c - 1 and role c. Groups of
 * parts merge within each run first, until no pair of the run is left, and then over all of them. So
 * a provider who keeps a region's roles in one run of numbers gets rules found within regions. With a
 * cut_count of 0 the bytes are those of merging over all at once; with cuts they may be others, and
 * all that is said below holds of them too.
 *
 * Returns 0, or 8, then 1 to 7, then 21 if the cuts do not ascend strictly or one is not from 1 to
 * roles - 1 (so any cut of a file with no or one role), then 9. After 0 the first
 * counts[FICHTENGARN_LENGTH] bytes of the output are the rule file, and the others are as they were;
 * all five counts are stored. After a refusal neither is touched, nor is it by 9: the length is known
 * before a byte is written.
 *
 * The cost is, over all rules written, weights.users times the values and the elements of sets that
 * the rule's conditions on users list, and weights.resources times those of its conditions on
 * resources, the roles and resource numbers of attribute 255 among them; weights.operations times its
 * operations; and weights.atoms times its atoms. The 20 costs nothing. The cost is exact: it never
 * wraps. Nothing is chosen by it: answer, bytes and the other counts are the same with any weights.
 *
 * The rule file is read without refusal beside its role file. Its rules grant a triple exactly when
 * the roles do. Every part is listed under exactly one rule, which grants what its parts do. No rule
 * of a lower level could grant what a rule of the file does; no single rule, of a level no higher
 * than the higher of two, could grant what both do; and nothing could be struck from a rule. Rules
 * with atoms across domains are none here.
 *
 * Scratch of FICHTENGARN_SCRATCH_WORDS is enough for every file; more changes no byte and no count. A
 * role file whose users have other numbers, no two the same, has the same bytes and counts with the same
 * cuts and weights. Scratch may hold anything before, and holds anything after. Stack: 110 KB.
 */
size_t fichtengarn_mine(const uint8_t *file, size_t file_length,
                        const uint8_t *cuts, size_t cut_count,
                        fichtengarn_weights weights,
                        uint64_t *scratch, size_t scratch_words,
                        uint8_t *output, size_t output_length,
                        uint64_t counts[5]);

/*
 * What a role file says, as one record that the caller keeps and passes by value: 11,520 bytes of
 * plain numbers. Sets are masks: bit n says that n is in the set. Any numbers may stand in it, and
 * no call goes wrong by them. Sides are 0 for users and 1 for resources; of two or more things the
 * last goes fastest.
 */
typedef struct {
    size_t users;
    size_t resources;
    size_t operations;
    size_t roles;
    size_t attributes[2];      /* by side: how many */
    uint64_t kinds[2];         /* by side: which of them are sets */
    uint64_t domains[12];      /* by side and attribute, six a side */
    uint64_t known[12];        /* by side and attribute: who has a value */
    uint64_t values[768];      /* by side, attribute and user or resource, 64 of these */
    uint64_t assigned[32];     /* by role: the users assigned */
    uint64_t lines[32];        /* by role: its seniors by a line 07 */
    uint64_t permissions[512]; /* by operation and role, 32 of these: the resources */
    uint64_t seniors[32];      /* by role, worked out: all its seniors */
    uint64_t holders[32];      /* by role, worked out: its holders */
} fichtengarn_record;

/* 0 and a record, or the number of a refusal and a record. */
typedef struct {
    size_t code;
    fichtengarn_record record;
} fichtengarn_recorded;

/*
 * The record of a role file. The code is 0, or 1 to 7, and then all of the record is 0.
 * Stack: 60 KB, the record handed back among them.
 */
fichtengarn_recorded fichtengarn_read_record(const uint8_t *file, size_t file_length);

/*
 * The standing summary of rights: fills a table beside a record. table[16 * user + operation] is then
 * the set of the resources that the roles grant the user under the operation, by the record's
 * assignments, seniors and permissions; for a user or an operation beyond the sizes it is empty. So a
 * question costs one word: table[FICHTENGARN_USER_WORDS * user + operation] >> resource & 1.
 *
 * Returns 0; or 17 if the table has other than FICHTENGARN_TABLE_WORDS words; then 5 if the record has
 * more than 64 users, 64 resources, 16 operations or 32 roles. Writes all of the table, whatever it
 * held, and nothing else; after a refusal not even that. Stack: 40 KB, the record passed among them.
 *
 * From there on the two edits below keep it. After every list of them, refused ones among them, that
 * starts from the record of a role file and its filled table, the record and the table are those of
 * the assignments that the list leaves: filling would write the same.
 */
size_t fichtengarn_fill(fichtengarn_record record, uint64_t *table, size_t table_words);

/*
 * Assigns a user to a role, or takes the assignment away. Hands back the record after the edit, its
 * holders worked out anew. Assigning who is assigned, and taking away what is not there, changes
 * neither record nor table.
 *
 * The code is 0; or 17 or 5 as above; then 5 if there is no such role or user; after a refusal the
 * record is the one passed. Where an assignment changes, the 16 words of the user are worked out
 * afresh, whatever they held, and no others are written; else none is. Stack: 40 KB,
 * the records passed and handed back among them.
 */
fichtengarn_recorded fichtengarn_assign(fichtengarn_record record, uint64_t *table, size_t table_words,
                                        size_t role, size_t user);
fichtengarn_recorded fichtengarn_withdraw(fichtengarn_record record, uint64_t *table, size_t table_words,
                                          size_t role, size_t user);

#ifdef __cplusplus
}
#endif

#endif
