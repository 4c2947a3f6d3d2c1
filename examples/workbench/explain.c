/*
 * Explains a test file, as one would to a colleague. Of each test that fails it tells the bad schedule
 * with the fewest writes on the disk: which main writes are there and which are not, the first check
 * that fails, and what stands in the one or two blocks by which it fails, and why. Then it tells the
 * fewest rules under which all tests would hold. From the repository's root, after 'make libraries':
 *
 *     cc -std=c99 -Iinclude examples/workbench/explain.c target/staticlib/libworkbench.a -o target/explain
 *     target/explain < samples/k3.bin
 */
#include <stdio.h>
#include <stdlib.h>

#include "pelzhondy_workbench.h"

/* A file that is accepted has at most 22,448 bytes; a longer one is refused by what stands before. */
static uint8_t file[22528];

/* Fields: tag 1, length 2, body. Tags of checks; from 8 on the tags of what has names of two bytes. */
enum { BODY = 3, RANGE = 4, PAIR = 5, POINTER = 6, FIRST_WIDE = 8 };

enum { BLOCKS = 256 };

/* What is wrong with the field at a place, by the refusal's number, from 1. */
static const char *const faults[] = {"",
                                     "is cut by the file's end",
                                     "has an unknown tag",
                                     "has another length than its tag asks for",
                                     "comes after one that it must precede",
                                     "has a predicate above 2",
                                     "is one more than a file or a test may have"};

/* A file that is not judged: the line that the judging program prints, and what it means. */
static void print_refusal(uint32_t number, uint32_t place)
{
    printf("refused %u %u: ", (unsigned)number, (unsigned)place);
    if (PELZHONDY_CUT <= number && number <= PELZHONDY_OVER_LIMIT) {
        printf("the field at offset %u %s\n", (unsigned)place, faults[number]);
    } else if (number == PELZHONDY_TEST_NOT_ENDED) {
        printf("the file ends at %u, and its last test has no end\n", (unsigned)place);
    } else if (number == PELZHONDY_CYCLIC_RULES) {
        printf("the rules are cyclic\n");
    } else {
        printf("see pelzhondy_answer.h\n");
    }
}

/* ---- a test, and what a cut leaves of it */

struct block {
    unsigned first, second;
};

/* The fields of a test, which are of different lengths. */
struct test {
    const uint8_t *initial_writes, *main_writes, *checks;
    unsigned initial_count, main_count, check_count;
};

/*
 * A test after a cut. Bit i - 1 of the schedule is set if main write i is stored. The writer of a block
 * is the number of the main write that it is from; 0 says that it is from the start, before all of these.
 */
struct cut {
    struct test test;
    uint64_t schedule;
    struct block disk[BLOCKS];
    unsigned writer[BLOCKS];
};

/* Numbers are big-endian. */
static unsigned half_in(const uint8_t *bytes)
{
    return (unsigned)bytes[0] << 8 | bytes[1];
}

static struct block block_in(const uint8_t *bytes)
{
    struct block block = {half_in(bytes), half_in(bytes + 2)};
    return block;
}

static int is_empty(struct block block)
{
    return block.first == 0 && block.second == 0;
}

static int is_same(struct block block, struct block other)
{
    return block.first == other.first && block.second == other.second;
}

static const uint8_t *next_field(const uint8_t *field)
{
    return field + BODY + half_in(field + 1);
}

/* The field behind so many others. */
static const uint8_t *field_after(const uint8_t *field, size_t count)
{
    while (count-- > 0) {
        field = next_field(field);
    }
    return field;
}

/* How many bytes each name of a write's or a rule's field has. */
static size_t name_bytes(const uint8_t *field)
{
    return field[0] < FIRST_WIDE ? 1 : 2;
}

static unsigned name_in(const uint8_t *bytes, size_t length)
{
    return length == 1 ? bytes[0] : half_in(bytes);
}

/* A write's field: tag, length, address 1, name 1 or 2, epoch 4, block 4. */
static unsigned address_of(const uint8_t *field)
{
    return field[BODY];
}

static unsigned name_of(const uint8_t *field)
{
    return name_in(field + BODY + 1, name_bytes(field));
}

static const uint8_t *behind_name(const uint8_t *field)
{
    return field + BODY + 1 + name_bytes(field);
}

static unsigned long epoch_of(const uint8_t *field)
{
    const uint8_t *epoch = behind_name(field);
    return (unsigned long)half_in(epoch) << 16 | half_in(epoch + 2);
}

static struct block block_of(const uint8_t *field)
{
    return block_in(behind_name(field) + 4);
}

/* The test of that number, from 1, which the file has. */
static struct test test_in(size_t length, uint64_t number)
{
    uint64_t where = pelzhondy_locate(file, length, number);
    struct test test;
    test.initial_count = (unsigned)(where >> 16 & 0xFF);
    test.main_count = (unsigned)(where >> 24 & 0xFF);
    test.check_count = (unsigned)(where >> 32);
    test.initial_writes = file + (where & 0xFFFF);
    test.main_writes = field_after(test.initial_writes, test.initial_count);
    test.checks = field_after(test.main_writes, test.main_count);
    return test;
}

static const uint8_t *main_write(const struct test *test, unsigned i)
{
    return field_after(test->main_writes, i);
}

/* Whether write i, from 0, is in a set of writes. */
static int has(uint64_t writes, unsigned i)
{
    return (int)(writes >> i & 1);
}

/* Of a set that is not empty. */
static int is_single(uint64_t writes)
{
    return (writes & (writes - 1)) == 0;
}

/* The disk: all initial writes, then the main writes that are stored, each over what was there. */
static void make_disk(struct cut *cut)
{
    static const struct block empty = {0, 0};
    const struct test *test = &cut->test;
    const uint8_t *field = test->initial_writes;
    unsigned i;
    for (i = 0; i < BLOCKS; i++) {
        cut->disk[i] = empty;
        cut->writer[i] = 0;
    }
    for (; field != test->main_writes; field = next_field(field)) {
        cut->disk[address_of(field)] = block_of(field);
    }
    for (i = 0; i < test->main_count; i++) {
        if (has(cut->schedule, i)) {
            cut->disk[address_of(field)] = block_of(field);
            cut->writer[address_of(field)] = i + 1;
        }
        field = next_field(field);
    }
}

/* The first empty block from head to tail - 1, or tail if none of these is empty. */
static unsigned first_empty(const struct block *disk, unsigned head, unsigned tail)
{
    while (head < tail && !is_empty(disk[head])) {
        head++;
    }
    return head;
}

/* Whether a check holds of a disk. */
static int holds(const struct block *disk, const uint8_t *check)
{
    const uint8_t *body = check + BODY;
    struct block own = disk[body[0]];
    switch (check[0]) {
    case RANGE:
        return own.first == own.second || (own.first < own.second && own.second <= BLOCKS &&
                                           first_empty(disk, own.first, own.second) == own.second);
    case PAIR:
        return !is_same(own, block_in(body + 1)) || is_same(disk[body[5]], block_in(body + 6));
    default: /* POINTER */
        return is_empty(own) || (own.second < BLOCKS && !is_empty(disk[own.second]));
    }
}

/* ---- in words */

/* A set of writes by their numbers: `write 2`, or `writes 1, 3 to 6`. */
static void print_numbers(uint64_t writes)
{
    const char *before = is_single(writes) ? "write " : "writes ";
    unsigned i = 0, last;
    while (writes >> i != 0) {
        if (has(writes, i)) {
            for (last = i; has(writes, last + 1); last++) {
            }
            printf("%s%u", before, i + 1);
            if (last > i) {
                printf("%s%u", last == i + 1 ? ", " : " to ", last + 1);
            }
            before = ", ";
            i = last;
        }
        i++;
    }
}

static void print_block(struct block block)
{
    if (is_empty(block)) {
        printf("empty");
    } else {
        printf("(%u, %u)", block.first, block.second);
    }
}

static void print_write(unsigned number, const uint8_t *field)
{
    struct block block = block_of(field);
    printf("    write %u: address %u, name %u, epoch %lu, block (%u, %u)\n", number, address_of(field),
           name_of(field), epoch_of(field), block.first, block.second);
}

/* The main writes that are on the disk, one by one, and the numbers of those that are not. */
static void print_schedule(const struct cut *cut, uint64_t number)
{
    uint64_t left_out = (((uint64_t)1 << cut->test.main_count) - 1) & ~cut->schedule;
    unsigned i;
    printf("test %u fails with ", (unsigned)number);
    if (cut->schedule == 0) {
        printf("no main write on the disk\n");
        return;
    }
    if (left_out == 0) {
        printf("all its main writes on the disk:\n");
    } else if (is_single(cut->schedule)) {
        printf("this write alone on the disk:\n");
    } else {
        printf("these writes alone on the disk:\n");
    }
    for (i = 0; i < cut->test.main_count; i++) {
        if (has(cut->schedule, i)) {
            print_write(i + 1, main_write(&cut->test, i));
        }
    }
    if (left_out != 0) {
        printf("  not on the disk: ");
        print_numbers(left_out);
        printf("\n");
    }
}

/*
 * What stands in a block and where it is from. A later main write to it would have replaced that, so none
 * is on the disk; the first of them is told. Earlier ones make no difference.
 */
static void print_found(const struct cut *cut, unsigned address)
{
    unsigned writer = cut->writer[address], next = 0, later = 0, i;
    for (i = cut->test.main_count; i > writer; i--) {
        if (address_of(main_write(&cut->test, i - 1)) == address) {
            next = i;
            later++;
        }
    }
    printf("    block %u is ", address);
    print_block(cut->disk[address]);
    if (writer == 0) {
        printf(", from the start");
    } else {
        printf(", by write %u", writer);
    }
    if (later == 1) {
        printf(": write %u is not on the disk", next);
    } else if (later > 1) {
        printf(": write %u and later ones to it are not on the disk", next);
    } else if (writer == 0) {
        printf(": no main write goes there");
    }
    printf("\n");
}

/* Why a check fails, and the one or two blocks that show it. */
static void print_failure(const struct cut *cut, const uint8_t *check)
{
    const uint8_t *body = check + BODY;
    unsigned at = body[0], other = at;
    struct block own = cut->disk[at];
    switch (check[0]) {
    case RANGE:
        printf("a range at %u: head is %u, ", at, own.first);
        if (own.first > own.second) {
            printf("past its tail, %u", own.second);
        } else if (own.second > BLOCKS) {
            printf("and tail is %u, above %d", own.second, BLOCKS);
        } else {
            other = first_empty(cut->disk, own.first, own.second);
            printf("tail is %u, and block %u is empty", own.second, other);
        }
        break;
    case PAIR:
        other = body[5];
        printf("a pair: if block %u is ", at);
        print_block(block_in(body + 1));
        printf(", block %u must be ", other);
        print_block(block_in(body + 6));
        break;
    default: /* POINTER */
        printf("a pointer at %u: it leads to block %u, ", at, own.second);
        if (own.second < BLOCKS) {
            other = own.second;
            printf("which is empty");
        } else {
            printf("above %d", BLOCKS - 1);
        }
    }
    printf("\n");
    print_found(cut, at);
    if (other != at) {
        print_found(cut, other);
    }
}

/* The first check that fails, in the file's order, and how many do. */
static void print_checks(const struct cut *cut)
{
    const uint8_t *check = cut->test.checks, *first = NULL;
    unsigned i, number = 0, failing = 0, count = cut->test.check_count;
    for (i = 0; i < count; i++) {
        if (!holds(cut->disk, check)) {
            failing++;
            if (first == NULL) {
                first = check;
                number = i + 1;
            }
        }
        check = next_field(check);
    }
    if (first == NULL) {
        return; /* of a bad schedule some check fails */
    }
    if (failing > 1) {
        printf("  %u of %u checks fail; the first is check %u, ", failing, count, number);
    } else if (count > 1) {
        printf("  check %u of %u fails, ", number, count);
    } else {
        printf("  its check fails, ");
    }
    print_failure(cut, first);
}

/* The verdict on a test. 0 if it was refused. */
static int explain(size_t length, uint64_t number)
{
    static struct cut cut;
    uint64_t verdict = pelzhondy_verdict(file, length, number);
    if (pelzhondy_is_refused(verdict)) {
        print_refusal(pelzhondy_refusal_number(verdict), pelzhondy_refusal_place(verdict));
        return 0;
    }
    if (verdict == 0) {
        printf("test %u holds\n", (unsigned)number);
        return 1;
    }
    /* One more than the schedule's number: schedule 0, nothing stored, may be bad too. */
    cut.schedule = verdict - 1;
    cut.test = test_in(length, number);
    make_disk(&cut);
    print_schedule(&cut, number);
    print_checks(&cut);
    return 1;
}

/* A rule's field: tag, length, name 1 or 2, predicate 1, name as the first. */
static void print_rule(const uint8_t *field)
{
    static const char predicates[] = "=><";
    const uint8_t *body = field + BODY;
    size_t length = name_bytes(field);
    printf(" (%u,%c,%u)", name_in(body, length), predicates[body[length]], name_in(body + length + 1, length));
}

/* The rules that would do, found on the file's tests without its rules. */
static void advise(size_t length, size_t rules)
{
    uint8_t found[PELZHONDY_RULES_BYTES];
    const uint8_t *field = found;
    size_t start = (size_t)(field_after(file, rules) - file);
    uint64_t count = pelzhondy_find(file + start, length - start, found, sizeof found);
    if (pelzhondy_is_refused(count)) {
        if (pelzhondy_refusal_number(count) == PELZHONDY_NO_SET_DOES) {
            printf("no rules do: whatever acyclic set is taken, some test fails\n");
        } else if (pelzhondy_refusal_number(count) == PELZHONDY_TEST_TOO_LONG) {
            printf("rules were not sought: a test has over %d main writes\n", PELZHONDY_FIND_WRITES);
        } else if (pelzhondy_refusal_number(count) == PELZHONDY_TOO_MANY_CANDIDATES) {
            printf("rules were not sought: over 16 candidates\n");
        } else {
            print_refusal(pelzhondy_refusal_number(count), pelzhondy_refusal_place(count));
        }
        return;
    }
    printf("the fewest rules that do:%s", count == 0 ? " none" : "");
    for (; count > 0; count--) {
        print_rule(field);
        field = next_field(field);
    }
    printf("\n");
}

int main(void)
{
    size_t length = fread(file, 1, sizeof file, stdin);
    uint64_t counts = pelzhondy_read(file, length), test;
    if (ferror(stdin)) {
        fprintf(stderr, "standard input could not be read\n");
        return EXIT_FAILURE;
    }
    if (pelzhondy_is_refused(counts)) {
        print_refusal(pelzhondy_refusal_number(counts), pelzhondy_refusal_place(counts));
        return EXIT_FAILURE;
    }
    /* A file is refused for its rules even if it has no test to ask a verdict of. */
    if (pelzhondy_cyclic(file, length) == 1) {
        print_refusal(PELZHONDY_CYCLIC_RULES, 0);
        return EXIT_FAILURE;
    }
    for (test = 1; test <= counts / 256; test++) {
        if (!explain(length, test)) {
            return EXIT_FAILURE;
        }
    }
    advise(length, (size_t)(counts % 256));
    return EXIT_SUCCESS;
}
