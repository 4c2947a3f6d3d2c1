/*
 * Calls every routine of the tester's library: makes test K of the bench sheet by trace, asks all that
 * can be asked of it with and without rules, asks the same, but for rules, of a log with as many puts
 * as a test can have, finds rules for names of one byte and of two, and then shows each refusal. From
 * the repository's root, after 'make libraries':
 *
 *     cc -std=c99 -Iinclude examples/workbench/tour.c target/staticlib/libworkbench.a -o target/tour
 *     target/tour
 */
#include <stdio.h>
#include <stdlib.h>
#include <string.h>

#include "pelzhondy_workbench.h"

/*
 * A field is a tag, a length of two bytes and a body. A rule's has six bytes in all, with tag 03 and names
 * of one byte, or eight, with tag 0A and names of two.
 */
enum { BODY = 3, RULE_FIELD = 6, WIDE_RULE_FIELD = 8, WRITE_FIELD = 13 };
enum { WIDE_RULE = 0x0A, MOST_RULES = 32, TEST_K = 85 };

/* Test K: before it a put of (0,42); in it puts of (1,81) and (2,37). */
static const uint8_t initial_puts[] = {0, 0, 0, 42};
static const uint8_t main_puts[] = {0, 1, 0, 81, 0, 2, 0, 37};

/* Ten puts, 20 main writes, the most of a test: four wheels of a lorry, one of each of six trailers. */
static const uint8_t rig_puts[] = {0, 0,  3, 62,  0, 1,  3, 57,  0, 2,  3, 142, 0, 3,  3, 137,
                                   0, 10, 3, 131, 0, 20, 3, 116, 0, 30, 2, 128, 0, 40, 3, 134,
                                   0, 50, 3, 103, 0, 60, 3, 125};

/*
 * Two tests, each of two writes of one name, epochs 0 and 1, to blocks 1 and 2; with the second there the
 * first has to be. The name is 1, in tag 02, and then 300, in tag 09.
 */
static const uint8_t two_names[] = {2, 0, 10, 1, 1, 0, 0, 0, 0, 0, 0, 0, 1,      /* (1,0) to block 1 */
                                    2, 0, 10, 2, 1, 0, 0, 0, 1, 0, 0, 0, 1,      /* (1,1) to block 2 */
                                    5, 0, 10, 2, 0, 0, 0, 1, 1, 0, 0, 0, 1,      /* if 2 is there, 1 is */
                                    7, 0, 0,                                     /* the end */
                                    9, 0, 11, 1, 1, 44, 0, 0, 0, 0, 0, 0, 0, 1,  /* (300,0) to block 1 */
                                    9, 0, 11, 2, 1, 44, 0, 0, 0, 1, 0, 0, 0, 1,  /* (300,1) to block 2 */
                                    5, 0, 10, 2, 0, 0, 0, 1, 1, 0, 0, 0, 1,      /* if 2 is there, 1 is */
                                    7, 0, 0};                                    /* the end */

/* The log's rules (2,=,1) and (2,>,2): a superblock after its log block, and after earlier ones. */
static const uint8_t log_rules[] = {3, 0, 3, 2, 0, 1, 3, 0, 3, 2, 1, 2};

/* Rules that are cyclic: (1,>,2) and (2,<,1). */
static const uint8_t cyclic_rules[] = {3, 0, 3, 1, 1, 2, 3, 0, 3, 2, 2, 1};

static uint8_t file[512];

/* An answer, or the end of the program with the refusal. */
static uint64_t accepted(const char *call, uint64_t answer)
{
    if (pelzhondy_is_refused(answer)) {
        printf("%s refused: number %u, place %u\n", call, (unsigned)pelzhondy_refusal_number(answer),
               (unsigned)pelzhondy_refusal_place(answer));
        exit(EXIT_FAILURE);
    }
    return answer;
}

/* Makes a file of rules, perhaps none, and the test of a log. Answers its length. */
static size_t make_log(const uint8_t *rules, size_t rules_length, const uint8_t *puts, size_t puts_length)
{
    memcpy(file, rules, rules_length);
    return rules_length +
           (size_t)accepted("trace", pelzhondy_trace(initial_puts, sizeof initial_puts, puts, puts_length,
                                                     file + rules_length, sizeof file - rules_length));
}

/* The same with test K; with the rig's. */
static size_t make_file(const uint8_t *rules, size_t rules_length)
{
    return make_log(rules, rules_length, main_puts, sizeof main_puts);
}

static size_t make_rig(const uint8_t *rules, size_t rules_length)
{
    return make_log(rules, rules_length, rig_puts, sizeof rig_puts);
}

/*
 * All that can be asked of a file whose rules are not cyclic, and of its first test. Of the bad schedules
 * judge and verdict show the same one, the smallest: that with the fewest flagged writes, and among those
 * the smallest number.
 */
static void print_all(const char *what, size_t length)
{
    uint8_t lines[PELZHONDY_LINES_BYTES];
    uint64_t counts = accepted("read", pelzhondy_read(file, length));
    uint64_t where = accepted("locate", pelzhondy_locate(file, length, 1));
    uint64_t judged = accepted("judge", pelzhondy_judge(file, length, 1));
    uint64_t verdict = accepted("verdict", pelzhondy_verdict(file, length, 1));
    size_t printed = (size_t)accepted("judge_lines", pelzhondy_judge_lines(file, length, lines, sizeof lines));
    printf("%s, %u bytes\n", what, (unsigned)length);
    printf("    read: %u rules, %u tests\n", (unsigned)(counts % 256), (unsigned)(counts / 256));
    printf("    locate: offset %u, %u initial writes, %u main writes, %u checks\n", (unsigned)(where & 0xFFFF),
           (unsigned)(where >> 16 & 0xFF), (unsigned)(where >> 24 & 0xFF), (unsigned)(where >> 32));
    printf("    cyclic: %u\n", (unsigned)accepted("cyclic", pelzhondy_cyclic(file, length)));
    printf("    judge: %u valid schedules, %u of them bad", (unsigned)pelzhondy_judged_valid(judged),
           (unsigned)pelzhondy_judged_bad(judged));
    if (pelzhondy_judged_bad(judged) > 0) {
        printf(", the smallest %u", (unsigned)pelzhondy_judged_schedule(judged));
    }
    if (verdict == 0) {
        printf("\n    verdict: holds\n");
    } else {
        printf("\n    verdict: fails, by schedule %u\n", (unsigned)(verdict - 1));
    }
    printf("    judge_lines: %.*s", (int)printed, (const char *)lines);
}

static unsigned half_in(const uint8_t *bytes)
{
    return (unsigned)bytes[0] << 8 | bytes[1];
}

/* The length of a whole field. */
static size_t field_length(const uint8_t *field)
{
    return BODY + half_in(field + 1);
}

static void print_rule(const uint8_t *field)
{
    static const char predicates[] = "=><";
    const uint8_t *body = field + BODY;
    if (field[0] == WIDE_RULE) {
        printf(" (%u,%c,%u)", half_in(body), predicates[body[2]], half_in(body + 3));
    } else {
        printf(" (%u,%c,%u)", body[0], predicates[body[1]], body[2]);
    }
}

static void print_field(const uint8_t *field)
{
    size_t i;
    printf("       ");
    for (i = 0; i < field_length(field); i++) {
        printf(" %02x", field[i]);
    }
    printf("\n");
}

/*
 * The fewest rules under which the tests of a file hold, and the fields in which they are written: of tag
 * 0A only where one of a rule's names exceeds 255. So one goes from field to field by their lengths.
 */
static void print_found(const uint8_t *tests, size_t length)
{
    uint8_t found[PELZHONDY_RULES_BYTES];
    size_t i, count = (size_t)accepted("find", pelzhondy_find(tests, length, found, sizeof found));
    const uint8_t *field = found;
    printf("    find: %u rules", (unsigned)count);
    for (i = 0; i < count; i++) {
        print_rule(field);
        field += field_length(field);
    }
    printf("\n");
    for (i = 0, field = found; i < count; i++) {
        print_field(field);
        field += field_length(field);
    }
}

/* ---- refusals */

/* Lent where a call would write. A refused call leaves it. */
static uint8_t buffer[PELZHONDY_LINES_BYTES];

static void fill_buffer(void)
{
    memset(buffer, 0xA5, sizeof buffer);
}

static int is_buffer_left(void)
{
    size_t i;
    for (i = 0; i < sizeof buffer && buffer[i] == 0xA5; i++) {
    }
    return i == sizeof buffer;
}

static void print_refusal(const char *what, const char *call, uint64_t answer)
{
    if (!pelzhondy_is_refused(answer) || !is_buffer_left()) {
        printf("%s: %s was not refused, or has written\n", what, call);
        exit(EXIT_FAILURE);
    }
    printf("%2u at %3u: %s, %s\n", (unsigned)pelzhondy_refusal_number(answer),
           (unsigned)pelzhondy_refusal_place(answer), call, what);
}

/* A file that cannot be read: every routine that takes a file says the same of it. */
static void print_unread(const char *what, const uint8_t *bytes, size_t length)
{
    uint8_t lines[PELZHONDY_LINES_BYTES];
    char expected[32];
    uint64_t answer = pelzhondy_read(bytes, length);
    size_t printed = (size_t)accepted("judge_lines", pelzhondy_judge_lines(bytes, length, lines, sizeof lines));
    sprintf(expected, "refused %u %u\n", (unsigned)pelzhondy_refusal_number(answer),
            (unsigned)pelzhondy_refusal_place(answer));
    fill_buffer();
    if (pelzhondy_locate(bytes, length, 1) != answer || pelzhondy_cyclic(bytes, length) != answer ||
        pelzhondy_judge(bytes, length, 1) != answer || pelzhondy_verdict(bytes, length, 1) != answer ||
        pelzhondy_find(bytes, length, buffer, sizeof buffer) != answer || printed != strlen(expected) ||
        memcmp(lines, expected, printed) != 0) {
        printf("%s: not the same refusal by all\n", what);
        exit(EXIT_FAILURE);
    }
    print_refusal(what, "read", answer);
}

static void print_refusals_of_reading(void)
{
    static const uint8_t cut[] = {1};
    static const uint8_t body_cut[] = {7, 0, 0, 2, 0, 10, 8, 1};
    static const uint8_t unknown_tag[] = {255, 0, 0};
    static const uint8_t wrong_length[] = {3, 0, 2, 2, 0};
    static const uint8_t narrow_length[] = {WIDE_RULE, 0, 3, 2, 0, 1};
    static const uint8_t out_of_order[] = {7, 0, 0, 3, 0, 3, 2, 0, 1};
    static const uint8_t unknown_predicate[] = {3, 0, 3, 2, 3, 1};
    static const uint8_t not_ended[] = {4, 0, 1, 0};
    static const uint8_t main_write[WRITE_FIELD] = {2, 0, 10, 1, 1, 0, 0, 0, 0, 0, 0, 0, 1};
    static const uint8_t wide_rule[WIDE_RULE_FIELD] = {WIDE_RULE, 0, 5, 1, 2, 0, 1, 1};
    uint8_t over_rules[RULE_FIELD * (MOST_RULES + 1)], over_main[WRITE_FIELD * (PELZHONDY_MAIN_WRITES + 1)];
    uint8_t over_both[RULE_FIELD * (MOST_RULES / 2) + WIDE_RULE_FIELD * (MOST_RULES / 2 + 1)];
    size_t i;
    for (i = 0; i < sizeof over_rules; i += RULE_FIELD) {
        memcpy(over_rules + i, log_rules, RULE_FIELD);
    }
    memcpy(over_both, over_rules, RULE_FIELD * (MOST_RULES / 2));
    for (i = RULE_FIELD * (MOST_RULES / 2); i < sizeof over_both; i += WIDE_RULE_FIELD) {
        memcpy(over_both + i, wide_rule, WIDE_RULE_FIELD);
    }
    for (i = 0; i < sizeof over_main; i += WRITE_FIELD) {
        memcpy(over_main + i, main_write, WRITE_FIELD);
    }
    print_unread("one byte is left", cut, sizeof cut);
    print_unread("a body is cut", body_cut, sizeof body_cut);
    print_unread("an unknown tag", unknown_tag, sizeof unknown_tag);
    print_unread("a rule of two bytes", wrong_length, sizeof wrong_length);
    print_unread("an 0A with the length of an 03", narrow_length, sizeof narrow_length);
    print_unread("a rule after a test", out_of_order, sizeof out_of_order);
    print_unread("a rule with predicate 3", unknown_predicate, sizeof unknown_predicate);
    print_unread("a 33rd rule", over_rules, sizeof over_rules);
    print_unread("a 33rd rule, 16 are 03s, 17 are 0As", over_both, sizeof over_both);
    print_unread("a 21st main write", over_main, sizeof over_main);
    print_unread("a test without its end", not_ended, sizeof not_ended);
}

static void print_refusals_of_judging(void)
{
    size_t length = make_file(cyclic_rules, sizeof cyclic_rules), printed;
    printf("cyclic rules: cyclic answers %u, ", (unsigned)accepted("cyclic", pelzhondy_cyclic(file, length)));
    printed = (size_t)accepted("judge_lines", pelzhondy_judge_lines(file, length, buffer, sizeof buffer));
    printf("judge_lines %.*s", (int)printed, (const char *)buffer);
    fill_buffer();
    print_refusal("cyclic rules", "judge", pelzhondy_judge(file, length, 1));
    print_refusal("cyclic rules", "verdict", pelzhondy_verdict(file, length, 1));
    length = make_file(log_rules, sizeof log_rules);
    print_refusal("test 2 of 1", "judge", pelzhondy_judge(file, length, 2));
    print_refusal("test 0", "verdict", pelzhondy_verdict(file, length, 0));
    print_refusal("test 2 of 1", "locate", pelzhondy_locate(file, length, 2));
    print_refusal("399 bytes", "judge_lines",
                  pelzhondy_judge_lines(file, length, buffer, PELZHONDY_LINES_BYTES - 1));
}

static void print_refusals_of_find(void)
{
    /* Six main writes with names 1 to 6, all of one epoch: 30 candidates, with = each. */
    static const uint8_t check_and_end[] = {4, 0, 1, 0, 7, 0, 0};
    /* Two writes of one epoch, and pair checks both ways: either rule does not do, both are cyclic. */
    static const uint8_t both_ways[] = {2, 0, 10, 1, 1, 0, 0, 0, 0, 0, 0, 0, 1, 2, 0, 10, 2, 2, 0, 0,
                                        0, 0, 0, 0, 0, 1, 5, 0, 10, 1, 0, 0, 0, 1, 2, 0, 0, 0, 1, 5,
                                        0, 10, 2, 0, 0, 0, 1, 1, 0, 0, 0, 1, 7, 0, 0};
    size_t length = make_file(log_rules, sizeof log_rules), i;
    fill_buffer();
    print_refusal("a file with rules", "find", pelzhondy_find(file, length, buffer, sizeof buffer));
    length = make_rig(log_rules, sizeof log_rules);
    print_refusal("a file with rules, 20 main writes", "find",
                  pelzhondy_find(file, length, buffer, sizeof buffer));
    /* What judge, verdict and judge_lines take need not be short enough for find. */
    length = make_rig(log_rules, 0);
    print_refusal("20 main writes", "find", pelzhondy_find(file, length, buffer, sizeof buffer));
    print_refusal("20 main writes, 127 bytes", "find",
                  pelzhondy_find(file, length, buffer, PELZHONDY_RULES_BYTES - 1));
    make_file(log_rules, sizeof log_rules);
    print_refusal("127 bytes", "find",
                  pelzhondy_find(file + sizeof log_rules, TEST_K, buffer, PELZHONDY_RULES_BYTES - 1));
    for (i = 0; i < 6; i++) {
        uint8_t field[WRITE_FIELD] = {2, 0, 10, 0, 0, 0, 0, 0, 0, 0, 0, 0, 1};
        field[3] = field[4] = (uint8_t)(i + 1);
        memcpy(file + i * sizeof field, field, sizeof field);
    }
    memcpy(file + 6 * WRITE_FIELD, check_and_end, sizeof check_and_end);
    print_refusal("30 candidates", "find",
                  pelzhondy_find(file, 6 * WRITE_FIELD + sizeof check_and_end, buffer, sizeof buffer));
    print_refusal("no acyclic rules do", "find",
                  pelzhondy_find(both_ways, sizeof both_ways, buffer, sizeof buffer));
}

static void print_refusals_of_trace(void)
{
    static const uint8_t empty_put[] = {0, 0, 0, 0};
    uint8_t eleven_puts[sizeof rig_puts + 4];
    memcpy(eleven_puts, rig_puts, sizeof rig_puts);
    memcpy(eleven_puts + sizeof rig_puts, rig_puts, 4);
    fill_buffer();
    print_refusal("a program of 7 bytes", "trace",
                  pelzhondy_trace(initial_puts, sizeof initial_puts, main_puts, 7, buffer, sizeof buffer));
    print_refusal("11 main puts", "trace",
                  pelzhondy_trace(initial_puts, sizeof initial_puts, eleven_puts, sizeof eleven_puts,
                                  buffer, sizeof buffer));
    print_refusal("a put of (0,0)", "trace",
                  pelzhondy_trace(empty_put, sizeof empty_put, main_puts, sizeof main_puts, buffer,
                                  sizeof buffer));
    print_refusal("84 bytes for test K", "trace",
                  pelzhondy_trace(initial_puts, sizeof initial_puts, main_puts, sizeof main_puts, buffer,
                                  TEST_K - 1));
}

int main(void)
{
    size_t length;
    print_all("test K with (2,=,1) (2,>,2)", make_file(log_rules, sizeof log_rules));
    print_all("test K with (2,=,1)", make_file(log_rules, RULE_FIELD));
    length = make_file(log_rules, 0);
    print_all("test K with no rules", length);
    print_found(file, length);
    print_all("six trailers with (2,=,1) (2,>,2)", make_rig(log_rules, sizeof log_rules));
    print_all("six trailers with (2,=,1)", make_rig(log_rules, RULE_FIELD));
    print_all("six trailers with no rules", make_rig(log_rules, 0));
    printf("a test of name 1 and one of name 300, %u bytes\n", (unsigned)sizeof two_names);
    print_found(two_names, sizeof two_names);
    print_refusals_of_reading();
    print_refusals_of_judging();
    print_refusals_of_find();
    print_refusals_of_trace();
    return EXIT_SUCCESS;
}
