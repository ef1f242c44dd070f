/*
 * A worked example of include/fichtengarn.h: reads a role file, mines it, reads the rules back,
 * judges them, shows one, asks a question of both, counts denials in a usage log, reads the rules
 * beside a file that they were not made for, shows the circle of a file that has one, keeps a summary
 * of rights through edits, makes a role file from a seed and mines it, mines a file with cuts, and
 * prints the answers.
 *
 *     worked_example FILE
 *
 * All memory is set aside beforehand, as firmware would do it: 64 KB for the role file, 64 KB for
 * the rules, 16 KB of scratch, 20 KB for the record and the table of rights.
 */
#include <inttypes.h>
#include <stdio.h>

#include "fichtengarn.h"

/* One byte more than a role file may have, so that a longer one is seen. */
static uint8_t file[FICHTENGARN_MOST_ROLE_BYTES + 1];
static uint8_t rules[65536];
static uint64_t scratch[FICHTENGARN_SCRATCH_WORDS];
static fichtengarn_recorded kept;
static uint64_t table[FICHTENGARN_TABLE_WORDS];

/* A role file of another shape: it has no users, no resources, and so on. */
static const uint8_t nobody[] = {0x01, 0, 0, 0, 0, 0x0F};

/* Four roles, 1 the junior of 3 and 3 of 1. */
static const uint8_t circular[] = {0x01, 0, 0, 0, 4, 0x07, 1, 3, 0x07, 3, 1, 0x0F};

/* Three roles: 1 has the user of 0 and the resource of 2, so that it merges with either. */
static const uint8_t between[] = {0x01, 2, 2, 1, 3, 0x05, 0, 0, 0x05, 1, 0, 0x05, 2, 1,
                                  0x06, 0, 0, 0, 0x06, 1, 1, 0, 0x06, 2, 1, 0, 0x0F};

/* A cut between roles 0 and 1, and one behind the last role. */
static const uint8_t cuts[] = {1, 3};

/* Three records of a usage log: user, resource, operation. */
static const uint8_t usage[] = {0, 0, 0, 0, 1, 0, 1, 0, 0};

/* 01's weights; and an atom that costs as much as a hundred values, an operation as much as seven. */
static const fichtengarn_weights ones = {1, 1, 1, 1};
static const fichtengarn_weights others = {.users = 1, .resources = 1, .operations = 7, .atoms = 100};

/* Prints what a call came to; returns whether it was accepted. */
static int told(const char *call, size_t refusal)
{
    if (refusal != FICHTENGARN_ACCEPTED) {
        printf("%s: refused %zu\n", call, refusal);
        return 0;
    }
    printf("%s: accepted\n", call);
    return 1;
}

static void print_verdict(const size_t verdict[4])
{
    switch (verdict[0]) {
    case FICHTENGARN_SOUND:
        printf("verdict 0\n");
        break;
    case FICHTENGARN_DIFFER:
        printf("verdict 1 user %zu resource %zu operation %zu\n", verdict[1], verdict[2], verdict[3]);
        break;
    case FICHTENGARN_STRAY_RULE:
        printf("verdict 2 rule %zu\n", verdict[1]);
        break;
    case FICHTENGARN_STRAY_PART:
        printf("verdict 3 part %zu\n", verdict[1]);
        break;
    }
}

/* Prints the bytes of one rule, as they stand among the rules. */
static void show(const uint8_t *roles, size_t roles_length, size_t rules_length, size_t rule)
{
    uint8_t answer;
    fichtengarn_part part = fichtengarn_show(roles, roles_length, rules, rules_length, rule, &answer);
    size_t place;

    if (!told("show", answer))
        return;
    printf("rule %zu:", rule);
    for (place = part.start; place < part.start + part.length; place++)
        printf(" %02X", rules[place]);
    printf("\n");
}

/* Asks roles and rules about one triple. */
static void ask(size_t file_length, size_t rules_length, size_t user, size_t resource, size_t operation)
{
    size_t by_roles, by_rules;

    printf("user %zu, resource %zu, operation %zu\n", user, resource, operation);
    if (told("roles", fichtengarn_ask_roles(file, file_length, user, resource, operation, &by_roles)))
        printf("answer %s\n", by_roles ? "yes" : "no");
    if (told("rules", fichtengarn_ask_rules(file, file_length, rules, rules_length, user, resource, operation, &by_rules)))
        printf("answer %s\n", by_rules ? "yes" : "no");
}

/* Prints the roles of the circle of a role file with refusal 7. */
static void circle(const uint8_t *roles, size_t roles_length)
{
    uint8_t list[FICHTENGARN_MOST_ROLES];
    size_t count, place;

    if (told("read roles", fichtengarn_read_roles(roles, roles_length)))
        return;
    if (!told("circle", fichtengarn_circle(roles, roles_length, list, sizeof list, &count)))
        return;
    printf("circle:");
    for (place = 0; place < count; place++)
        printf(" %u", (unsigned)list[place]);
    printf("\n");
}

/* Prints the word of a user and an operation. */
static void print_rights(size_t user, size_t operation)
{
    printf("user %zu, operation %zu: %" PRIx64 "\n", user, operation, table[FICHTENGARN_USER_WORDS * user + operation]);
}

/* Keeps a summary of rights: fills it, and edits. */
static void keep(size_t file_length)
{
    kept = fichtengarn_read_record(file, file_length);
    if (!told("read record", kept.code))
        return;
    if (!told("fill", fichtengarn_fill(kept.record, table, FICHTENGARN_TABLE_WORDS)))
        return;
    print_rights(0, 0);
    print_rights(1, 0);
    kept = fichtengarn_assign(kept.record, table, FICHTENGARN_TABLE_WORDS, 1, 0);
    told("assign", kept.code);
    print_rights(0, 0);
    kept = fichtengarn_assign(kept.record, table, FICHTENGARN_TABLE_WORDS, 2, 0);
    told("assign", kept.code);
    kept = fichtengarn_withdraw(kept.record, table, FICHTENGARN_TABLE_WORDS, 0, 0);
    told("withdraw", kept.code);
    print_rights(0, 0);
}

/* Counts the denials in a log, in windows of so many records. */
static void denials(size_t file_length, size_t rules_length, const uint8_t *log, size_t log_length, size_t window)
{
    size_t denied[2];

    if (told("denials", fichtengarn_denials(file, file_length, rules, rules_length, log, log_length, window, denied)))
        printf("most %zu start %zu\n", denied[FICHTENGARN_MOST], denied[FICHTENGARN_START]);
}

/* Mines with so many of the cuts, and with the memory set aside for it. */
static size_t mine_cut(const uint8_t *roles, size_t roles_length, size_t cut_count, fichtengarn_weights weights,
                       uint64_t counts[5])
{
    return fichtengarn_mine(roles, roles_length, cuts, cut_count, weights, scratch, FICHTENGARN_SCRATCH_WORDS,
                            rules, sizeof rules, counts);
}

/* The same without a cut, of the role file that was read. */
static size_t mine(size_t file_length, fichtengarn_weights weights, uint64_t counts[5])
{
    return mine_cut(file, file_length, 0, weights, counts);
}

/* Mines with so many of the cuts, and prints the first rule. */
static void mine_regions(size_t cut_count)
{
    uint64_t counts[5];

    if (!told("mine with cuts", mine_cut(between, sizeof between, cut_count, ones, counts)))
        return;
    printf("rules %" PRIu64 " merges %" PRIu64 "\n", counts[FICHTENGARN_RULES], counts[FICHTENGARN_MERGES]);
    show(between, sizeof between, counts[FICHTENGARN_LENGTH], 0);
}

/* Makes a role file from a seed, in the place of the one that was read, and mines it. */
static void load(uint32_t seed)
{
    uint64_t counts[5];
    size_t length;

    if (!told("load", fichtengarn_load(seed, 2, 2, 2, 2, file, sizeof file, &length)))
        return;
    printf("length %zu\n", length);
    if (told("mine", mine(length, ones, counts)))
        printf("rules %" PRIu64 "\n", counts[FICHTENGARN_RULES]);
}

static void work(size_t file_length)
{
    uint64_t counts[5];
    size_t verdict[4], rules_length, count;

    if (!told("read roles", fichtengarn_read_roles(file, file_length)))
        return;
    if (!told("mine", mine(file_length, ones, counts)))
        return;
    rules_length = counts[FICHTENGARN_LENGTH];
    printf("length %" PRIu64 " parts %" PRIu64 " rules %" PRIu64 " merges %" PRIu64 " cost %" PRIu64 "\n",
           counts[FICHTENGARN_LENGTH], counts[FICHTENGARN_PARTS], counts[FICHTENGARN_RULES],
           counts[FICHTENGARN_MERGES], counts[FICHTENGARN_COST]);
    if (!told("mine", mine(file_length, others, counts)))
        return;
    printf("cost %" PRIu64 "\n", counts[FICHTENGARN_COST]);
    if (!told("read rules", fichtengarn_read_rules(file, file_length, rules, rules_length, &count)))
        return;
    printf("rules %zu\n", count);
    if (told("judge", fichtengarn_judge(file, file_length, rules, rules_length, verdict)))
        print_verdict(verdict);
    show(file, file_length, rules_length, 0);
    show(file, file_length, rules_length, count);
    ask(file_length, rules_length, 0, 0, 0);
    ask(file_length, rules_length, 0, 1, 0);
    ask(file_length, rules_length, 0, 0, 1);
    denials(file_length, rules_length, usage, sizeof usage, 2);
    denials(file_length, rules_length, usage, sizeof usage - 1, 2);
    told("read rules elsewhere", fichtengarn_read_rules(nobody, sizeof nobody, rules, rules_length, &count));
    circle(circular, sizeof circular);
    keep(file_length);
    load(0);
    load(1);
    mine_regions(0);
    mine_regions(1);
    mine_regions(2);
}

int main(int count, char **words)
{
    FILE *in = count == 2 ? fopen(words[1], "rb") : NULL;
    size_t length;

    if (in == NULL) {
        fprintf(stderr, "usage: worked_example FILE\n");
        return 2;
    }
    length = fread(file, 1, sizeof file, in);
    fclose(in);
    work(length);
    return 0;
}
