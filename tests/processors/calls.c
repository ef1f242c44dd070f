/*
 * Makes every call of include/fichtengarn.h on the files of a case and prints what each came to, a line a
 * call: what it returned, and a sum over all memory that it was lent. Compiled for two processors it must
 * print the same.
 *
 *     calls CASES
 *
 * CASES is what `tests/differential/run SEED COUNT CASES` writes. Which questions are asked, how much memory is lent
 * and what stands in it follow from the number of the case.
 *
 * Each call has a stack of its own, exactly as long as the header says (STACK_fichtengarn_mine and so on, in
 * bytes, when this is compiled), and below it memory that nobody may touch. How much of it was used is printed
 * on standard error at the end.
 */
#include <inttypes.h>
#include <stdio.h>
#include <stdlib.h>
#include <string.h>
#include <sys/mman.h>
#include <ucontext.h>

#include "fichtengarn.h"

enum {
    EDGE = 16,               /* bytes on both sides of lent memory */
    FORMER = 0xA5,           /* what they hold, and what lent memory holds before a call */
    UNTOUCHED = 0xC7,        /* what a stack holds */
    FORBIDDEN = 1 << 20,     /* bytes below a stack: more than any frame has */
    MOST_RULE_BYTES = 4450312,
    QUESTIONS = 12,
    EDITS = 6,
    MOST_OTHERS = 64         /* rule files, or logs, beside a role file */
};

/* ---- numbers that follow from a case */

static uint64_t state;

static uint64_t next(void)
{
    state ^= state << 13;
    state ^= state >> 7;
    state ^= state << 17;
    return state;
}

/* A number below a size or, now and then, beyond it. */
static size_t number(size_t size)
{
    return next() % 16 == 0 ? SIZE_MAX - next() % 2 : next() % (size + 1);
}

/* ---- files */

struct bytes {
    uint8_t *at;
    size_t length;
};

static size_t case_number;
static struct bytes file, rules[MOST_OTHERS], logs[MOST_OTHERS];
static size_t rule_files, log_files;

static void must(int holds, const char *why)
{
    if (!holds) {
        fprintf(stderr, "calls: %s\n", why);
        exit(2);
    }
}

static int read_number(FILE *in, size_t *value)
{
    uint8_t bytes[4];

    if (fread(bytes, 1, sizeof bytes, in) != sizeof bytes)
        return 0;
    *value = bytes[0] | bytes[1] << 8 | bytes[2] << 16 | (size_t)bytes[3] << 24;
    return 1;
}

static int read_bytes(FILE *in, struct bytes *bytes)
{
    free(bytes->at);
    bytes->at = NULL;
    if (!read_number(in, &bytes->length))
        return 0;
    bytes->at = malloc(bytes->length + 1);
    must(bytes->at != NULL, "no memory");
    must(fread(bytes->at, 1, bytes->length, in) == bytes->length, "the file of cases is cut off");
    return 1;
}

static void read_others(FILE *in, struct bytes *others, size_t *count)
{
    size_t place;

    must(read_number(in, count) && *count <= MOST_OTHERS, "no number of files beside a role file");
    for (place = 0; place < *count; place++)
        must(read_bytes(in, &others[place]), "the file of cases is cut off");
}

static int read_case(FILE *in)
{
    if (!read_bytes(in, &file))
        return 0;
    read_others(in, rules, &rule_files);
    read_others(in, logs, &log_files);
    return 1;
}

/* A sum over bytes, in which each counts by its place. */
static uint64_t sum(const void *at, size_t length)
{
    const uint8_t *byte = at;
    uint64_t sum = length, word;

    for (; length >= sizeof word; byte += sizeof word, length -= sizeof word) {
        memcpy(&word, byte, sizeof word);
        sum = (sum ^ word) * 0x9E3779B97F4A7C15u;
        sum ^= sum >> 29;
    }
    for (; length > 0; byte++, length--)
        sum = (sum ^ *byte) * 0x100000001B3u;
    return sum;
}

/* ---- lent memory: so many bytes, and an edge on both sides */

struct lent {
    uint8_t *all;
    size_t most;
    size_t length;
};

static struct lent output, scratch, table, list, numbers;

static void set_aside(struct lent *lent, size_t most)
{
    lent->all = malloc(EDGE + most + EDGE);
    lent->most = most;
    must(lent->all != NULL, "no memory");
}

static void *lend(struct lent *lent, size_t length)
{
    must(length <= lent->most, "more is lent than there is");
    lent->length = length;
    memset(lent->all, FORMER, EDGE + length + EDGE);
    return lent->all + EDGE;
}

static void print_lent(const struct lent *lent)
{
    printf(" %016" PRIx64, sum(lent->all, EDGE + lent->length + EDGE));
}

/* ---- the calls, each on its own stack */

struct stack {
    const char *name;
    size_t length;
    uint8_t *floor;
};

/* What a call is handed, and what it returns. */
static struct {
    const uint8_t *rules, *log;
    size_t rules_length, log_length, user, resource, operation, role, window, rule;
    size_t sizes[4];
    uint32_t seed;
    uint8_t cuts[FICHTENGARN_MOST_ROLES + 1];
    size_t cut_count;
    fichtengarn_weights weights;
    size_t answer;
    fichtengarn_part part;
    fichtengarn_recorded kept;
} in;

static void read_roles(void)
{
    in.answer = fichtengarn_read_roles(file.at, file.length);
}

static void read_rules(void)
{
    in.answer = fichtengarn_read_rules(file.at, file.length, in.rules, in.rules_length, (size_t *)(numbers.all + EDGE));
}

static void ask_roles(void)
{
    in.answer = fichtengarn_ask_roles(file.at, file.length, in.user, in.resource, in.operation,
                                      (size_t *)(numbers.all + EDGE));
}

static void ask_rules(void)
{
    in.answer = fichtengarn_ask_rules(file.at, file.length, in.rules, in.rules_length, in.user, in.resource,
                                      in.operation, (size_t *)(numbers.all + EDGE));
}

static void judge(void)
{
    in.answer = fichtengarn_judge(file.at, file.length, in.rules, in.rules_length, (size_t *)(numbers.all + EDGE));
}

static void show(void)
{
    in.part = fichtengarn_show(file.at, file.length, in.rules, in.rules_length, in.rule, numbers.all + EDGE);
}

static void circle(void)
{
    in.answer = fichtengarn_circle(file.at, file.length, list.all + EDGE, list.length, (size_t *)(numbers.all + EDGE));
}

static void denials(void)
{
    in.answer = fichtengarn_denials(file.at, file.length, in.rules, in.rules_length, in.log, in.log_length, in.window,
                                    (size_t *)(numbers.all + EDGE));
}

static void load(void)
{
    in.answer = fichtengarn_load(in.seed, in.sizes[0], in.sizes[1], in.sizes[2], in.sizes[3], output.all + EDGE,
                                 output.length, (size_t *)(numbers.all + EDGE));
}

static void mine(void)
{
    in.answer = fichtengarn_mine(file.at, file.length, in.cuts, in.cut_count, in.weights, (uint64_t *)(scratch.all + EDGE),
                                 scratch.length / 8, output.all + EDGE, output.length, (uint64_t *)(numbers.all + EDGE));
}

static void read_record(void)
{
    in.kept = fichtengarn_read_record(file.at, file.length);
}

static void fill(void)
{
    in.answer = fichtengarn_fill(in.kept.record, (uint64_t *)(table.all + EDGE), table.length / 8);
}

static void assign(void)
{
    in.kept = fichtengarn_assign(in.kept.record, (uint64_t *)(table.all + EDGE), table.length / 8, in.role, in.user);
}

static void withdraw(void)
{
    in.kept = fichtengarn_withdraw(in.kept.record, (uint64_t *)(table.all + EDGE), table.length / 8, in.role, in.user);
}

#define CALL(call) {#call, STACK_fichtengarn_##call, NULL}, call

static struct call {
    struct stack stack;
    void (*made)(void);
} calls[] = {
    {CALL(read_roles)}, {CALL(read_rules)}, {CALL(ask_roles)},   {CALL(ask_rules)}, {CALL(judge)},
    {CALL(show)},       {CALL(circle)},     {CALL(denials)},     {CALL(load)},      {CALL(mine)},
    {CALL(fill)},       {CALL(assign)},     {CALL(read_record)}, {CALL(withdraw)},
};
enum { CALLS = sizeof calls / sizeof *calls };

static void set_up_stacks(void)
{
    size_t place;

    for (place = 0; place < CALLS; place++) {
        struct stack *stack = &calls[place].stack;
        uint8_t *all = mmap(NULL, FORBIDDEN + stack->length, PROT_READ | PROT_WRITE, MAP_PRIVATE | MAP_ANONYMOUS, -1, 0);

        must(all != MAP_FAILED && mprotect(all, FORBIDDEN, PROT_NONE) == 0, "no memory for a stack");
        stack->floor = all + FORBIDDEN;
        memset(stack->floor, UNTOUCHED, stack->length);
    }
}

/* Makes a call on its stack, and begins its line. */
static void make(void (*made)(void))
{
    ucontext_t here, there;
    struct call *call = calls;

    while (call->made != made)
        call++;
    must(getcontext(&there) == 0, "no context");
    there.uc_stack.ss_sp = call->stack.floor;
    there.uc_stack.ss_size = call->stack.length;
    there.uc_link = &here;
    makecontext(&there, made, 0);
    must(swapcontext(&here, &there) == 0, "no change of stacks");
    printf("%zu %s", case_number, call->stack.name);
}

static void print_stacks(void)
{
    size_t place, free;

    for (place = 0; place < CALLS; place++) {
        const struct stack *stack = &calls[place].stack;

        for (free = 0; free < stack->length && stack->floor[free] == UNTOUCHED; free++)
            ;
        fprintf(stderr, "fichtengarn_%s %zu\n", stack->name, stack->length - free);
    }
}

/* Makes a call that returns a number and stores so many words. */
static void answered(void (*made)(void), size_t words)
{
    lend(&numbers, words * sizeof(uint64_t));
    make(made);
    printf(" %zu", in.answer);
    print_lent(&numbers);
}

/* ---- what is asked of a case */

/* The sizes that a role file begins with, so that most questions are within them. */
static size_t size(size_t place)
{
    return place + 1 < file.length ? file.at[place + 1] : 2;
}

static void question(void)
{
    in.user = number(size(0));
    in.resource = number(size(1));
    in.operation = number(size(2));
}

static void try_circle(size_t room)
{
    lend(&list, room);
    answered(circle, 1);
    print_lent(&list);
    printf("\n");
}

static uint16_t weight(void)
{
    static const uint16_t weights[] = {0, 1, UINT16_MAX};
    size_t place = next() % 4;

    return place < 3 ? weights[place] : next();
}

/* Some of the cuts that the file's roles allow, in their order. */
static void cut(void)
{
    size_t roles = file.length > 4 ? file.at[4] : 0, role;

    in.cut_count = 0;
    for (role = 1; role < roles && role < FICHTENGARN_MOST_ROLES; role++)
        if (next() % 3 == 0)
            in.cuts[in.cut_count++] = role;
}

/* Returns how long the rule file is, or 0. */
static size_t try_mine(size_t words, size_t room)
{
    uint64_t counts[5];

    in.weights.users = weight();
    in.weights.resources = weight();
    in.weights.operations = weight();
    in.weights.atoms = weight();
    lend(&scratch, words * sizeof(uint64_t));
    lend(&output, room);
    answered(mine, 5);
    print_lent(&scratch);
    print_lent(&output);
    printf("\n");
    memcpy(counts, numbers.all + EDGE, sizeof counts);
    return in.answer == 0 ? counts[FICHTENGARN_LENGTH] : 0;
}

static void try_mining(void)
{
    size_t length;

    in.cut_count = 0;
    length = try_mine(FICHTENGARN_SCRATCH_WORDS, 65536);
    if (in.answer == FICHTENGARN_SHORT_OUTPUT)
        length = try_mine(FICHTENGARN_SCRATCH_WORDS, MOST_RULE_BYTES);
    try_mine(FICHTENGARN_SCRATCH_WORDS - 1, length);
    try_mine(FICHTENGARN_SCRATCH_WORDS, length);
    try_mine(FICHTENGARN_SCRATCH_WORDS + 1, length > 0 ? length - 1 : 0);
    cut();
    try_mine(FICHTENGARN_SCRATCH_WORDS, MOST_RULE_BYTES);
    in.cuts[in.cut_count++] = next();
    try_mine(FICHTENGARN_SCRATCH_WORDS, length);
}

static void try_load(void)
{
    static const size_t most[] = {64, 64, 16, 32};
    size_t place;

    in.seed = next() % 8 == 0 ? 0 : next();
    for (place = 0; place < 4; place++)
        in.sizes[place] = next() % 4 == 0 ? most[place] : number(most[place]);
    lend(&output, next() % 4 == 0 ? next() % 1000 : FICHTENGARN_MOST_ROLE_BYTES);
    answered(load, 1);
    print_lent(&output);
    printf("\n");
}

static void print_record(void)
{
    printf(" %zu %016" PRIx64, in.kept.code, sum(&in.kept, sizeof in.kept));
}

static void try_fill(void)
{
    make(fill);
    printf(" %zu", in.answer);
    print_lent(&table);
    printf("\n");
}

static void try_edit(void (*edit)(void), size_t roles, size_t users)
{
    in.role = number(roles);
    in.user = number(users);
    make(edit);
    print_record();
    print_lent(&table);
    printf("\n");
}

static void try_rights(void)
{
    size_t turn;

    make(read_record);
    print_record();
    printf("\n");
    lend(&table, FICHTENGARN_TABLE_WORDS * sizeof(uint64_t) - 8 * (next() % 2));
    try_fill();
    lend(&table, FICHTENGARN_TABLE_WORDS * sizeof(uint64_t));
    try_fill();
    for (turn = 0; turn < EDITS; turn++) {
        try_edit(assign, size(3), size(0));
        try_edit(withdraw, size(3), size(0));
    }
}

/* A record of any numbers, with sizes near the limits. */
static void try_any_record(void)
{
    uint64_t *word = (uint64_t *)&in.kept.record;
    size_t place;

    for (place = 0; place < sizeof in.kept.record / sizeof *word; place++)
        word[place] = next();
    in.kept.record.users = next() % 66;
    in.kept.record.resources = next() % 66;
    in.kept.record.operations = next() % 18;
    in.kept.record.roles = next() % 34;
    lend(&table, FICHTENGARN_TABLE_WORDS * sizeof(uint64_t));
    try_fill();
    try_edit(assign, in.kept.record.roles, in.kept.record.users);
    try_edit(withdraw, in.kept.record.roles, in.kept.record.users);
}

static void try_roles(void)
{
    size_t turn;

    make(read_roles);
    printf(" %zu\n", in.answer);
    for (turn = 0; turn < 4; turn++)
        try_circle(next() % (FICHTENGARN_MOST_ROLES + 1));
    try_circle(FICHTENGARN_MOST_ROLES);
    for (turn = 0; turn < QUESTIONS; turn++) {
        question();
        answered(ask_roles, 1);
        printf("\n");
    }
    try_rights();
    try_any_record();
    try_mining();
    try_load();
}

static void try_show(size_t rule)
{
    in.rule = rule;
    lend(&numbers, 1);
    make(show);
    printf(" %u %zu %zu", (unsigned)numbers.all[EDGE], in.part.start, in.part.length);
    print_lent(&numbers);
    printf("\n");
}

static void try_denials(const struct bytes *log, size_t window)
{
    in.log = log->at;
    in.log_length = log->length;
    in.window = window;
    answered(denials, 2);
    printf("\n");
}

static void try_rules(const struct bytes *beside)
{
    size_t count, verdict, turn;

    in.rules = beside->at;
    in.rules_length = beside->length;
    answered(read_rules, 1);
    printf("\n");
    memcpy(&count, numbers.all + EDGE, sizeof count);
    answered(judge, 4);
    memcpy(&verdict, numbers.all + EDGE, sizeof verdict);
    printf(" %zu\n", verdict);
    try_show(0);
    try_show(in.answer == 0 ? count - 1 : 1);
    try_show(number(count % 1024));
    for (turn = 0; turn < 4; turn++) {
        question();
        answered(ask_rules, 1);
        printf("\n");
    }
    for (turn = 0; turn < log_files; turn++)
        try_denials(&logs[turn], next() % (FICHTENGARN_MOST_WINDOW + 2));
    try_denials(&logs[0], number(FICHTENGARN_MOST_WINDOW));
}

/* What was lent to be read is as it was. */
static uint64_t sum_of_files(void)
{
    uint64_t all = sum(file.at, file.length);
    size_t place;

    for (place = 0; place < rule_files; place++)
        all = all * 31 + sum(rules[place].at, rules[place].length);
    for (place = 0; place < log_files; place++)
        all = all * 31 + sum(logs[place].at, logs[place].length);
    return all;
}

static void try_case(void)
{
    uint64_t before = sum_of_files();
    size_t place;

    state = 0x9E3779B97F4A7C15u * (case_number + 1);
    try_roles();
    for (place = 0; place < rule_files; place++)
        try_rules(&rules[place]);
    must(sum_of_files() == before, "a call has written to a file");
}

int main(int count, char **words)
{
    FILE *cases = count == 2 ? fopen(words[1], "rb") : NULL;

    must(cases != NULL, "usage: calls CASES");
    set_aside(&output, MOST_RULE_BYTES);
    set_aside(&scratch, (FICHTENGARN_SCRATCH_WORDS + 1) * sizeof(uint64_t));
    set_aside(&table, FICHTENGARN_TABLE_WORDS * sizeof(uint64_t));
    set_aside(&list, FICHTENGARN_MOST_ROLES);
    set_aside(&numbers, 5 * sizeof(uint64_t));
    set_up_stacks();
    for (; read_case(cases); case_number++)
        try_case();
    fclose(cases);
    print_stacks();
    return 0;
}
