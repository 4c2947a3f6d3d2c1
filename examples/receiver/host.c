/*
 * A receiver's host in small. It logs one ignition through the cache and brings each block that is
 * stored to flash; the supply is cut after every one of these in turn, and each time the host starts
 * again from what the flash holds and reads the log back as the fitter would find it. Then it begins a
 * log on an empty flash, reads superblocks as a damaged flash could give them back, and shows what goes
 * wrong in another order of calls, and with a name that is cut to a byte. From the repository's root,
 * after 'make libraries':
 *
 *     cc -std=c99 -Iinclude examples/receiver/host.c target/staticlib/libreceiver.a -o target/host
 *     target/host
 */
#include <stdio.h>
#include <stdlib.h>
#include <string.h>

#include "pelzhondy_receiver.h"

enum { LOG = 1, SUPERBLOCK = 2, WHEELS = 4, WRITES = 2 * WHEELS };

/* The log's rules: a superblock waits for the log block of its epoch, and for earlier superblocks. */
static const uint8_t rules[] = {3, 0, 3, SUPERBLOCK, 0, LOG, 3, 0, 3, SUPERBLOCK, 1, SUPERBLOCK};

/* The pressure of each wheel, in kPa. (Wheel 0 at 0 kPa would be a put of (0,0), an empty block.) */
static const uint16_t pressure[WHEELS] = {830, 825, 640, 905};

/* RAM: a reset forgets all of it. */
static uint8_t state[PELZHONDY_STATE_BYTES];
static uint8_t disk[PELZHONDY_DISK_BYTES];

/* What the next put goes by. Block 0 of the disk is behind while a superblock waits. */
static uint16_t head, tail;
static int log_is_damaged;

/* Stands for the flash: it keeps what it holds, and takes a block whole or not at all. */
static uint8_t flash[PELZHONDY_DISK_BYTES];

/* An answer, or the end of the program with the refusal. */
static uint64_t accepted(const char *call, uint64_t answer)
{
    if (pelzhondy_is_refused(answer)) {
        printf("%s refused: number %u, place %u\n", call, (unsigned)pelzhondy_refusal_number(answer),
               (unsigned)pelzhondy_refusal_place(answer));
        exit(EXIT_FAILURE);
    }
    return answer;
}

/* Whether get has refused a log as damaged. It does so for every key or for none. */
static int is_damaged(uint64_t answer)
{
    return pelzhondy_is_refused(answer) && pelzhondy_refusal_number(answer) == PELZHONDY_LOG_DAMAGED;
}

/* ---- the firmware */

/* Opens a cache on the disk, and looks at the log there. */
static void open_on_disk(void)
{
    accepted("open", pelzhondy_open(state, sizeof state, rules, sizeof rules));
    log_is_damaged = is_damaged(pelzhondy_get(disk, sizeof disk, 0));
    head = (uint16_t)(disk[0] << 8 | disk[1]);
    tail = (uint16_t)(disk[2] << 8 | disk[3]);
    /* An empty disk: a log begins with both at 1, behind the superblock. */
    if (head == 0 && tail == 0) {
        head = tail = 1;
    }
}

/* What is against another ignition in the log, or a null pointer. */
static const char *hindrance(void)
{
    if (log_is_damaged) {
        return "damaged";
    }
    /* Address 0 is the superblock's, and C would cut an address of 256 to it. */
    return head == 0 || tail > 256 - WHEELS ? "no place" : NULL;
}

/* After every reset: the disk is what the flash holds, and a cache is opened anew on it. */
static void start(void)
{
    memcpy(disk, flash, sizeof disk);
    open_on_disk();
}

static uint64_t hand_in(uint8_t address, uint16_t name, uint32_t epoch, uint16_t first, uint16_t second)
{
    return pelzhondy_hand_in(state, sizeof state, address, name, epoch, first, second);
}

/*
 * Hands in an ignition: for each wheel a log block at the log's tail, and then the superblock with the
 * next tail: in the order in which the judge's test of the log has them. (With no step between the two
 * the cache would keep the rules in the other order too; a verdict on that order is that of a test
 * whose main writes stand in it.)
 */
static void hand_in_ignition(void)
{
    uint16_t wheel;
    if (hindrance() != NULL) {
        printf("no ignition is logged: %s\n", hindrance());
        exit(EXIT_FAILURE);
    }
    for (wheel = 0; wheel < WHEELS; wheel++) {
        uint32_t epoch = 1u + wheel;
        accepted("hand-in", hand_in((uint8_t)tail, LOG, epoch, wheel, pressure[wheel]));
        accepted("hand-in", hand_in(0, SUPERBLOCK, epoch, head, (uint16_t)(tail + 1)));
        tail++;
    }
}

/* Stores one block, and brings it to flash before the next. Answers the write's place, or 0 if none waits. */
static uint64_t store_one(void)
{
    uint64_t place = accepted("step", pelzhondy_step(state, sizeof state, disk, sizeof disk));
    if (place != 0) {
        size_t offset = pelzhondy_offset_at(state, place);
        memcpy(flash + offset, disk + offset, PELZHONDY_BLOCK_BYTES);
    }
    return place;
}

/* ---- the bench */

/* What the ignition before has left: a log of one reading, of wheel 0. */
static void set_log_before(uint8_t *blocks)
{
    static const uint8_t log[] = {0, 1, 0, 2, 0, 0, 835 >> 8, 835 & 0xFF};
    memset(blocks, 0, PELZHONDY_DISK_BYTES);
    memcpy(blocks, log, sizeof log);
}

/* The supply is cut, and what was in RAM is lost. */
static void cut(void)
{
    memset(state, 0xA5, sizeof state);
    memset(disk, 0xA5, sizeof disk);
    head = tail = 0xA5A5;
}

/* What the fitter reads. Damage is shown as damage, and not as a log without readings. */
static void print_log(void)
{
    uint16_t wheel;
    if (is_damaged(pelzhondy_get(disk, sizeof disk, 0))) {
        printf("  the log is damaged");
        return;
    }
    for (wheel = 0; wheel < WHEELS; wheel++) {
        uint64_t value = accepted("get", pelzhondy_get(disk, sizeof disk, wheel));
        if (value == PELZHONDY_NO_VALUE) {
            printf("    -");
        } else {
            printf(" %4u", (unsigned)value);
        }
    }
}

static void print_answer(const char *call, uint64_t answer)
{
    if (pelzhondy_is_refused(answer)) {
        printf("%s: refused, number %u, place %u\n", call, (unsigned)pelzhondy_refusal_number(answer),
               (unsigned)pelzhondy_refusal_place(answer));
    } else {
        printf("%s: %u\n", call, (unsigned)answer);
    }
}

/* What a place of the ignition is for. */
static const char *written(uint64_t place)
{
    return place == 0 ? "nothing" : place % 2 == 1 ? "log block" : "superblock";
}

/* An ignition whose supply is cut after so many stores. */
static void ignition_cut_after(unsigned stores)
{
    uint64_t place = 0;
    unsigned i;
    set_log_before(flash);
    start();
    hand_in_ignition();
    for (i = 0; i < stores; i++) {
        place = store_one();
    }
    cut();
    start();
    printf("%6u  %-13s  %5u    ", stores, written(place), (unsigned)place);
    print_log();
    printf("\n");
}

/* A whole ignition: what comes after it, and the same one by a drain. */
static void whole_ignition(void)
{
    set_log_before(flash);
    start();
    hand_in_ignition();
    while (store_one() != 0) {
    }
    print_answer("a step with nothing waiting", pelzhondy_step(state, sizeof state, disk, sizeof disk));
    print_answer("a late block, of a superblock that is stored", hand_in(2, LOG, 1, 0, 831));

    /* In one go: for a disk that stays in RAM. Flash is fed block by block, as above. */
    set_log_before(disk);
    open_on_disk();
    hand_in_ignition();
    print_answer("a drain", pelzhondy_drain(state, sizeof state, disk, sizeof disk));
    printf("the same disk: %s\n", memcmp(disk, flash, sizeof disk) == 0 ? "yes" : "no");
}

/* WRONG: a step before the log block is handed in. No step waits for a write that it has not got. */
static void superblock_too_early(void)
{
    static const uint8_t empty[PELZHONDY_BLOCK_BYTES];
    set_log_before(flash);
    start();
    accepted("hand-in", hand_in(0, SUPERBLOCK, 1, 1, 3));
    print_answer("too early: the superblock alone, and a step", store_one());
    print_answer("its log block after that", hand_in(2, LOG, 1, 0, 830));
    cut();
    start();
    printf("after a cut there the log goes up to block %u, which is %s\n", (unsigned)disk[3] - 1,
           memcmp(disk + 8, empty, sizeof empty) == 0 ? "empty" : "there");
}

/* The places in the order in which steps store them. */
static void print_order(const char *what)
{
    uint64_t place;
    printf("%s:", what);
    while ((place = store_one()) != 0) {
        printf(" %u", (unsigned)place);
    }
    printf("\n");
}

/*
 * A trailer's mark, 258, waits for its record, 257; the lorry's record has name 1, which is 257 with its
 * high byte lost. The rule's field has tag 0A, since its names are above 255. `name` is what the
 * trailer's record is handed in by. The mark comes first, and no step before all three are there.
 */
static void hand_in_trailer(uint16_t name)
{
    static const uint8_t rule[] = {0x0A, 0, 5, 258 >> 8, 258 & 0xFF, 0, 257 >> 8, 257 & 0xFF};
    accepted("open", pelzhondy_open(state, sizeof state, rule, sizeof rule));
    accepted("hand-in", hand_in(22, 258, 1, 0, 1));
    accepted("hand-in", hand_in(20, 1, 1, 0, 830));
    accepted("hand-in", hand_in(21, name, 1, 0, 640));
}

static void trailer(void)
{
    hand_in_trailer(257);
    print_order("a mark 258, a record 1, its own record 257, stored as places");
    /* WRONG: a name of two bytes that was kept in one. No call can notice: 1 is a name, too. */
    hand_in_trailer((uint8_t)257);
    print_order("the same with 257 cut to a byte");
}

/* The first ignition of a receiver whose flash is empty. */
static void first_ignition(void)
{
    memset(flash, 0, sizeof flash);
    start();
    hand_in_ignition();
    while (store_one() != 0) {
    }
    cut();
    start();
    printf("%-32s", "all, on a flash that was empty");
    print_log();
    printf("\n");
}

/* Superblocks as a flash could give them back, each beside the log block of wheel 0. */
static void read_superblocks(void)
{
    static const uint16_t superblocks[][2] = {{0, 0}, {1, 2},   {2, 2},   {3, 2},
                                              {0, 2}, {1, 253}, {1, 257}, {65535, 65535}};
    size_t i;
    printf("   head  tail  wheel 0    1    2    3  puts\n");
    for (i = 0; i < sizeof superblocks / sizeof superblocks[0]; i++) {
        uint16_t first = superblocks[i][0], second = superblocks[i][1];
        set_log_before(flash);
        flash[0] = (uint8_t)(first >> 8);
        flash[1] = (uint8_t)(first & 0xFF);
        flash[2] = (uint8_t)(second >> 8);
        flash[3] = (uint8_t)(second & 0xFF);
        start();
        printf("%7u %5u    ", first, second);
        print_log();
        printf("  %s\n", hindrance() == NULL ? "taken" : hindrance());
    }
}

int main(void)
{
    unsigned stores;
    printf("stores  the last one   place  wheel 0    1    2    3\n");
    for (stores = 0; stores <= WRITES; stores++) {
        ignition_cut_after(stores);
    }
    first_ignition();
    read_superblocks();
    whole_ignition();
    superblock_too_early();
    trailer();

    /* A state that was not opened after the reset. Were it still sound, nobody would notice. */
    cut();
    print_answer("a step on what the reset has left", pelzhondy_step(state, sizeof state, disk, sizeof disk));
    return EXIT_SUCCESS;
}
