/*
 * Watches the stores of the receiver's routines one by one.
 *
 * The contract of a drain says which state and which disk it leaves: those after so many steps. It
 * does not say in which order it stores. Here every instruction that stores to the state or to the
 * disk is seen: both stand in pages that may only be read, a store faults, is carried out alone with
 * the processor's trap flag set, and is written down. The program looks at many random caches and
 * asks of what it has seen:
 *
 *   - a step stores nothing but the block of the write whose place it answers, and all of it;
 *   - the stores of a drain are those of the steps in their order: after each write's stores, state and
 *     disk are what that many steps leave;
 *   - the place is that of the earliest waiting write whose needs are all stored, as a plain search
 *     over all pairs of writes finds it;
 *   - a write's flag is set after its block is stored, and the state has no other store but the count;
 *   - open, hand_in and get store nothing to the disk, and a refused call stores nothing at all.
 *
 * Then the same questions are put to routines that are wrong on purpose, and each of them must be
 * noticed. It needs Linux on x86-64. From the repository's root, after 'make libraries':
 *
 *     cc -std=gnu99 -O1 -Iinclude tests/stores/stores.c target/staticlib/libreceiver.a -o target/stores
 *     target/stores
 */
#define _GNU_SOURCE
#include <signal.h>
#include <stdint.h>
#include <stdio.h>
#include <stdlib.h>
#include <string.h>
#include <sys/mman.h>
#include <ucontext.h>
#include <unistd.h>

#include "pelzhondy_receiver.h"

enum {
    STATE = PELZHONDY_STATE_BYTES,
    DISK = PELZHONDY_DISK_BYTES,
    MOST = PELZHONDY_MOST_WRITES,
    BLOCK = PELZHONDY_BLOCK_BYTES,
    /* Where a state has its counts, and a byte that is 0; where a write has its block and its flag. */
    ACCEPTED_COUNT = 1,
    STORED_COUNT = 2,
    ALWAYS_ZERO = 3,
    BLOCK_OF_WRITE = 7,
    FLAG = 11,
    MOST_RULES = 8,
    /* The length of a rule's field: with names of one byte, and of two. */
    RULE_FIELD = 6,
    WIDE_RULE_FIELD = 8,
    MOST_STORES = 4096,
    TRAP_FLAG = 0x100,
    RUNS = 120,
    WRONG_RUNS = 8
};

/* ---- what is watched: two buffers, each at the end of a page that has no page behind it */

struct watched {
    uint8_t *page;
    uint8_t *bytes;
    /* What the buffer held before the store that is being carried out. */
    uint8_t before[1024];
    int read_only;
};

enum { OF_STATE, OF_DISK };
static struct watched buffers[2];
static uint8_t *state, *disk;
static size_t page_size;

/* One store: to which buffer, where it began, and what it changed (no bytes if it wrote what was there). */
struct store {
    int buffer;
    size_t at;
    size_t first;
    size_t length;
    uint8_t bytes[64];
};

static struct store stores[MOST_STORES];
static volatile size_t store_count;
/* The buffer whose store is being carried out, or -1. */
static volatile int carried_out = -1;

static void stop(const char *why)
{
    /* A handler may not use printf. */
    ssize_t written = write(STDERR_FILENO, why, strlen(why));
    (void)written;
    _exit(2);
}

static void protect(struct watched *w, int read_only)
{
    if (mprotect(w->page, page_size, read_only ? PROT_READ : PROT_READ | PROT_WRITE) != 0) {
        stop("stores: mprotect failed\n");
    }
    w->read_only = read_only;
}

/* A store to a page that may only be read. */
static void on_fault(int signal, siginfo_t *info, void *context)
{
    uint8_t *address = info->si_addr;
    ucontext_t *interrupted = context;
    int b;
    (void)signal;
    for (b = 0; b < 2; b++) {
        struct watched *w = &buffers[b];
        if (w->read_only && address >= w->bytes && address < w->page + page_size) {
            break;
        }
    }
    if (b == 2) {
        stop("stores: an access outside of the buffers that were lent\n");
    }
    if (carried_out != -1) {
        stop("stores: one instruction that stores to state and disk\n");
    }
    if (store_count == MOST_STORES) {
        stop("stores: more stores in a call than there is room for\n");
    }
    stores[store_count].buffer = b;
    stores[store_count].at = (size_t)(address - buffers[b].bytes);
    memcpy(buffers[b].before, buffers[b].bytes, sizeof buffers[b].before);
    carried_out = b;
    protect(&buffers[b], 0);
    interrupted->uc_mcontext.gregs[REG_EFL] |= TRAP_FLAG;
}

/* The store is carried out. */
static void on_trap(int signal, siginfo_t *info, void *context)
{
    ucontext_t *interrupted = context;
    struct watched *w;
    struct store *s;
    size_t first = 0, end = sizeof buffers[0].before;
    (void)signal;
    (void)info;
    if (carried_out == -1) {
        stop("stores: a trap that nobody set\n");
    }
    w = &buffers[carried_out];
    s = &stores[store_count++];
    while (first < end && w->before[first] == w->bytes[first]) {
        first++;
    }
    while (end > first && w->before[end - 1] == w->bytes[end - 1]) {
        end--;
    }
    if (end - first > sizeof s->bytes) {
        stop("stores: one instruction that changes over 64 bytes\n");
    }
    s->first = end == first ? s->at : first;
    s->length = end - first;
    memset(s->bytes, 0, sizeof s->bytes);
    memcpy(s->bytes, w->bytes + first, end - first);
    carried_out = -1;
    protect(w, 1);
    interrupted->uc_mcontext.gregs[REG_EFL] &= ~(greg_t)TRAP_FLAG;
}

static void set_up(struct watched *w)
{
    uint8_t *pages = mmap(NULL, 3 * page_size, PROT_NONE, MAP_PRIVATE | MAP_ANONYMOUS, -1, 0);
    if (pages == MAP_FAILED) {
        stop("stores: mmap failed\n");
    }
    w->page = pages + page_size;
    w->bytes = w->page + page_size - sizeof w->before;
    protect(w, 0);
}

static void set_up_watch(void)
{
    struct sigaction action;
    page_size = (size_t)sysconf(_SC_PAGESIZE);
    set_up(&buffers[OF_STATE]);
    set_up(&buffers[OF_DISK]);
    state = buffers[OF_STATE].bytes;
    disk = buffers[OF_DISK].bytes;
    memset(&action, 0, sizeof action);
    action.sa_flags = SA_SIGINFO;
    sigemptyset(&action.sa_mask);
    action.sa_sigaction = on_fault;
    sigaction(SIGSEGV, &action, NULL);
    action.sa_sigaction = on_trap;
    sigaction(SIGTRAP, &action, NULL);
}

/* From here on stores are written down. */
static void watch(void)
{
    store_count = 0;
    protect(&buffers[OF_STATE], 1);
    protect(&buffers[OF_DISK], 1);
}

static void watch_no_more(void)
{
    protect(&buffers[OF_STATE], 0);
    protect(&buffers[OF_DISK], 0);
}

static size_t stores_to_disk(void)
{
    size_t i, count = 0;
    for (i = 0; i < store_count; i++) {
        count += stores[i].buffer == OF_DISK;
    }
    return count;
}

/* ---- what is asked, and how often the answer was wrong */

enum { BLOCK_STORES, SAME_STORES, ORDER, FLAGS, NO_STORES, REFUSED, KINDS };

static const char *const kinds[KINDS] = {
    "a step stores one block, that of its answer, and all of it",
    "a drain makes the stores of the steps, one step after the other",
    "each store is of the earliest waiting write whose needs are stored",
    "a flag is set after its block is stored",
    "open, hand_in and get store nothing to the disk",
    "a refused call stores nothing",
};

static unsigned long asked[KINDS], wrong[KINDS];

static void ask(int kind, int right)
{
    asked[kind]++;
    wrong[kind] += !right;
}

/* ---- the routines that are asked: those of the library, or wrong ones */

struct routines {
    const char *what;
    uint64_t (*step)(uint8_t *, size_t, uint8_t *, size_t);
    uint64_t (*drain)(uint8_t *, size_t, uint8_t *, size_t);
    uint64_t (*get)(const uint8_t *, size_t, uint16_t);
    /* The question by which a wrong one is noticed. */
    int noticed_by;
};

/* ---- random numbers, the same in each run of the program */

static uint64_t seed;

static uint32_t below(uint32_t most)
{
    seed = seed * UINT64_C(6364136223846793005) + UINT64_C(1442695040888963407);
    return (uint32_t)((seed >> 33) % most);
}

/* ---- the plain model of a cache: its rules and writes as they were handed in */

struct rule {
    uint16_t first;
    uint8_t predicate;
    uint16_t second;
};

struct write {
    uint8_t address;
    uint16_t name;
    uint32_t epoch;
    uint8_t block[BLOCK];
    int stored;
};

static struct rule rules[MOST_RULES];
static size_t rule_count;
static struct write writes[MOST];
static size_t write_count;

/* All names: of the last two one byte is that of the first two. */
static const uint16_t names[] = {1, 2, 257, 258};

static uint16_t any_name(void)
{
    return names[below(sizeof names / sizeof *names)];
}

/* Which bits of names are compared: all, but for a routine that is wrong on purpose. */
static uint16_t compared = UINT16_MAX;

static int is_same_name(uint16_t one, uint16_t other)
{
    return ((one ^ other) & compared) == 0;
}

/* Whether write i depends on write j. */
static int depends_on(size_t i, size_t j)
{
    size_t r;
    for (r = 0; r < rule_count; r++) {
        uint32_t a = writes[i].epoch, b = writes[j].epoch;
        int related = rules[r].predicate == 0 ? a == b : rules[r].predicate == 1 ? a > b : a < b;
        if (is_same_name(rules[r].first, writes[i].name) && is_same_name(rules[r].second, writes[j].name) &&
            related) {
            return 1;
        }
    }
    return 0;
}

static int needs(size_t i, size_t j)
{
    return depends_on(i, j) || (j < i && writes[i].address == writes[j].address);
}

/* The place of the earliest waiting write whose needs are all stored, or 0. */
static uint64_t earliest(void)
{
    size_t i, j;
    for (i = 0; i < write_count; i++) {
        for (j = 0; j < write_count && (!needs(i, j) || writes[j].stored); j++) {
        }
        if (!writes[i].stored && j == write_count) {
            return i + 1;
        }
    }
    return 0;
}

/* ---- making a cache */

static const struct rule the_logs[] = {{2, 0, 1}, {2, 1, 2}};
static const struct rule falling[] = {{1, 2, 1}};
static const struct rule several[] = {{2, 0, 1},     {257, 0, 1},   {257, 0, 2},
                                      {257, 1, 257}, {258, 1, 257}, {258, 1, 2}};

static void take_rules(const struct rule *from, size_t count)
{
    memcpy(rules, from, count * sizeof *from);
    rule_count = count;
}

/* Rules of one of the sets, or random ones, which may be cyclic. */
static void choose_rules(void)
{
    size_t r;
    switch (below(6)) {
    case 0:
        take_rules(the_logs, sizeof the_logs / sizeof *the_logs);
        return;
    case 1:
        rule_count = 0;
        return;
    case 2:
        take_rules(falling, sizeof falling / sizeof *falling);
        return;
    case 3:
        take_rules(several, sizeof several / sizeof *several);
        return;
    default:
        rule_count = 1 + below(MOST_RULES);
        for (r = 0; r < rule_count; r++) {
            rules[r].first = any_name();
            rules[r].predicate = (uint8_t)below(3);
            rules[r].second = any_name();
        }
    }
}

/* Writes a rule's field, of tag 0A where a name needs it, or by chance. Answers its length. */
static size_t put_rule(const struct rule *rule, uint8_t *at)
{
    uint8_t first = (uint8_t)(rule->first & 0xFF), second = (uint8_t)(rule->second & 0xFF);
    uint8_t narrow[RULE_FIELD] = {3, 0, 3, first, rule->predicate, second};
    uint8_t wide[WIDE_RULE_FIELD] = {10, 0, 5, (uint8_t)(rule->first >> 8), first, rule->predicate,
                                     (uint8_t)(rule->second >> 8), second};
    if (rule->first > 255 || rule->second > 255 || below(2) == 0) {
        memcpy(at, wide, sizeof wide);
        return sizeof wide;
    }
    memcpy(at, narrow, sizeof narrow);
    return sizeof narrow;
}

/* A watched opening with the rules. Whether it was accepted. */
static int open_cache(void)
{
    uint8_t file[WIDE_RULE_FIELD * MOST_RULES + 1];
    size_t r, length = 0;
    uint64_t answer;
    for (r = 0; r < rule_count; r++) {
        length += put_rule(&rules[r], file + length);
    }
    watch();
    answer = pelzhondy_open(state, STATE, file, length);
    watch_no_more();
    ask(NO_STORES, stores_to_disk() == 0);
    if (pelzhondy_is_refused(answer)) {
        ask(REFUSED, store_count == 0);
        return 0;
    }
    write_count = 0;
    return 1;
}

/* A watched hand-in of a random write to one of few addresses. In a telling one each byte of the block
   differs from the one that it replaces, so that every byte that is stored is seen to change. */
static void hand_in_one(int telling)
{
    static const uint8_t addresses[] = {0, 1, 2, 3, 7, 255};
    struct write w;
    const uint8_t *replaced;
    uint64_t answer;
    size_t i, k;
    w.address = addresses[below(sizeof addresses)];
    w.name = any_name();
    w.epoch = below(8) == 0 ? UINT32_MAX - below(2) : below(6);
    w.stored = 0;
    replaced = disk + BLOCK * (size_t)w.address;
    for (i = 0; i < write_count; i++) {
        if (writes[i].address == w.address) {
            replaced = writes[i].block;
        }
    }
    for (k = 0; k < BLOCK; k++) {
        w.block[k] = telling ? (uint8_t)(replaced[k] + 1 + below(255)) : (uint8_t)below(3);
    }
    watch();
    answer = pelzhondy_hand_in(state, STATE, w.address, w.name, w.epoch,
                               (uint16_t)(w.block[0] << 8 | w.block[1]),
                               (uint16_t)(w.block[2] << 8 | w.block[3]));
    watch_no_more();
    ask(NO_STORES, stores_to_disk() == 0);
    if (pelzhondy_is_refused(answer)) {
        ask(REFUSED, store_count == 0);
    } else {
        writes[write_count++] = w;
    }
}

/* ---- one step, as it was seen */

/* Whether the stores to the disk are all within the block of the write at a place; there are none for 0. */
static int is_within_block(uint64_t place, const struct store *seen, size_t count)
{
    size_t at, i;
    if (place == 0 || place > write_count) {
        return place == 0 && count == 0;
    }
    at = BLOCK * (size_t)writes[place - 1].address;
    for (i = 0; i < count; i++) {
        const struct store *s = &seen[i];
        if (s->buffer == OF_DISK &&
            (s->at < at || s->at >= at + BLOCK || s->first < at || s->first + s->length > at + BLOCK)) {
            return 0;
        }
    }
    return 1;
}

/* Whether a disk is another one with the block of the write at a place stored. */
static int is_stored_on(const uint8_t *before, uint64_t place, const uint8_t *after)
{
    uint8_t expected[DISK];
    memcpy(expected, before, DISK);
    if (place != 0 && place <= write_count) {
        const struct write *w = &writes[place - 1];
        memcpy(expected + BLOCK * (size_t)w->address, w->block, BLOCK);
    }
    return memcmp(expected, after, DISK) == 0;
}

/* First come the stores to the disk, then those to the state: the write's flag and the count. */
static int is_flag_last(uint64_t place, const struct store *seen, size_t count)
{
    size_t i = 0, flags = 0;
    size_t flag = PELZHONDY_WRITES_AT + PELZHONDY_WRITE_BYTES * ((size_t)place - 1) + FLAG;
    while (i < count && seen[i].buffer == OF_DISK) {
        i++;
    }
    if (place != 0 && i == 0) {
        return 0;
    }
    for (; i < count; i++) {
        const struct store *s = &seen[i];
        if (s->buffer != OF_STATE || s->length != 1 || s->at != s->first) {
            return 0;
        }
        if (s->at == flag && s->bytes[0] == 1) {
            flags++;
        } else if (s->at != STORED_COUNT) {
            return 0;
        }
    }
    return flags == (place != 0);
}

/* A watched step, asked all that is said of one. Answers the place. */
static uint64_t step_one(const struct routines *of)
{
    uint8_t before[DISK];
    uint64_t place, expected = earliest();
    memcpy(before, disk, DISK);
    watch();
    place = of->step(state, STATE, disk, DISK);
    watch_no_more();
    ask(ORDER, place == expected);
    ask(BLOCK_STORES, is_within_block(place, stores, store_count) && is_stored_on(before, place, disk));
    ask(FLAGS, is_flag_last(place, stores, store_count));
    if (place != 0 && place <= write_count) {
        writes[place - 1].stored = 1;
    }
    return place;
}

/* ---- one cache */

/* A state and a disk, and the place that the step before has answered. */
struct moment {
    uint8_t bytes[2][1024];
    uint64_t place;
};

static void keep(struct moment *m, uint64_t place)
{
    memcpy(m->bytes[OF_STATE], state, STATE);
    memcpy(m->bytes[OF_DISK], disk, DISK);
    m->place = place;
}

/*
 * Whether the stores that were seen are those of steps between these moments, one after the other. They
 * are made again on a copy: those to the disk up to the first to the state, and these up to the next to
 * the disk, are the ones of one step.
 */
static int are_steps(const struct moment *moments, size_t steps)
{
    static struct moment now;
    size_t from = 0, to, k;
    now = moments[0];
    for (k = 1; k <= steps; k++) {
        for (to = from; to < store_count; to++) {
            const struct store *s = &stores[to];
            if (s->buffer == OF_DISK && to > from && stores[to - 1].buffer == OF_STATE) {
                break;
            }
            memcpy(now.bytes[s->buffer] + s->first, s->bytes, s->length);
        }
        if (!is_within_block(moments[k].place, stores + from, to - from) ||
            !is_flag_last(moments[k].place, stores + from, to - from) ||
            memcmp(now.bytes, moments[k].bytes, sizeof now.bytes) != 0) {
            return 0;
        }
        from = to;
    }
    return from == store_count;
}

/* Steps until nothing waits; then, from the same state and disk, a drain. */
static void step_and_drain(const struct routines *of)
{
    static struct moment moments[MOST + 1];
    size_t steps = 0;
    uint64_t place, answer;
    keep(&moments[0], 0);
    while ((place = step_one(of)) != 0 && steps < MOST) {
        steps++;
        keep(&moments[steps], place);
    }
    memcpy(state, moments[0].bytes[OF_STATE], STATE);
    memcpy(disk, moments[0].bytes[OF_DISK], DISK);
    watch();
    answer = of->drain(state, STATE, disk, DISK);
    watch_no_more();
    ask(SAME_STORES, answer == steps && are_steps(moments, steps) &&
                         memcmp(state, moments[steps].bytes[OF_STATE], STATE) == 0 &&
                         memcmp(disk, moments[steps].bytes[OF_DISK], DISK) == 0);
}

/* Calls that only read, and calls that are refused. */
static void look_on(const struct routines *of)
{
    uint64_t step, drain;
    watch();
    of->get(disk, DISK, (uint16_t)below(3));
    watch_no_more();
    ask(NO_STORES, store_count == 0);

    watch();
    step = of->step(state, STATE, disk, DISK - 1);
    drain = of->drain(state, STATE - 1, disk, DISK);
    watch_no_more();
    ask(REFUSED, pelzhondy_is_refused(step) && pelzhondy_is_refused(drain) && store_count == 0);

    state[ALWAYS_ZERO] = 1;
    watch();
    step = of->step(state, STATE, disk, DISK);
    drain = of->drain(state, STATE, disk, DISK);
    watch_no_more();
    state[ALWAYS_ZERO] = 0;
    ask(REFUSED, pelzhondy_is_refused(step) && pelzhondy_is_refused(drain) && store_count == 0);
}

static void one_cache(const struct routines *of)
{
    size_t k, rounds = 1 + below(3);
    int telling = below(4) != 0;
    for (k = 0; k < DISK; k++) {
        disk[k] = telling ? (uint8_t)below(256) : (uint8_t)below(3);
    }
    do {
        choose_rules();
    } while (!open_cache());
    /* Between hand-ins some steps, so that a drain begins with writes stored. */
    while (rounds > 0) {
        size_t tried = below(MOST / 2), stepped = below(6);
        while (tried > 0 && write_count < MOST) {
            hand_in_one(telling);
            tried--;
        }
        rounds--;
        while (rounds > 0 && stepped > 0) {
            step_one(of);
            stepped--;
        }
    }
    look_on(of);
    step_and_drain(of);
}

static void run(const struct routines *of, unsigned runs)
{
    memset(asked, 0, sizeof asked);
    memset(wrong, 0, sizeof wrong);
    seed = 20260116;
    while (runs > 0) {
        one_cache(of);
        runs--;
    }
}

/* ---- routines that are wrong on purpose. All but the last two leave what the right ones leave */

static void store_write(uint8_t *s, uint8_t *d, size_t i)
{
    const uint8_t *entry = s + PELZHONDY_WRITES_AT + PELZHONDY_WRITE_BYTES * i;
    volatile uint8_t *block = d + BLOCK * (size_t)entry[0];
    size_t k;
    for (k = 0; k < BLOCK; k++) {
        block[k] = entry[BLOCK_OF_WRITE + k];
    }
}

static void mark_write(uint8_t *s, size_t i)
{
    volatile uint8_t *bytes = s;
    bytes[PELZHONDY_WRITES_AT + PELZHONDY_WRITE_BYTES * i + FLAG] = 1;
    bytes[STORED_COUNT] = (uint8_t)(bytes[STORED_COUNT] + 1);
}

/* Stores in the order in which the writes were handed in, whatever they need. */
static uint64_t drain_by_arrival(uint8_t *s, size_t s_length, uint8_t *d, size_t d_length)
{
    size_t i, count = 0;
    if (s_length != STATE || d_length != DISK || s[ALWAYS_ZERO] != 0) {
        return pelzhondy_drain(s, s_length, d, d_length);
    }
    for (i = 0; i < s[ACCEPTED_COUNT]; i++) {
        if (s[PELZHONDY_WRITES_AT + PELZHONDY_WRITE_BYTES * i + FLAG] == 0) {
            store_write(s, d, i);
            mark_write(s, i);
            count++;
        }
    }
    return count;
}

/* Lets the library step on copies, and then stores what they hold. */
static uint64_t step_on_copies(uint8_t *s, const uint8_t *d, uint8_t *new_state, uint8_t *new_disk)
{
    memcpy(new_state, s, STATE);
    memcpy(new_disk, d, DISK);
    return pelzhondy_step(new_state, STATE, new_disk, DISK);
}

/* A step that finds the right write i and then stores in a way of its own. */
typedef void storing_way(uint8_t *s, uint8_t *d, const uint8_t *new_disk, size_t i);

static uint64_t step_by(storing_way *way, uint8_t *s, size_t s_length, uint8_t *d, size_t d_length)
{
    uint8_t new_state[STATE], new_disk[DISK];
    uint64_t place;
    if (s_length != STATE || d_length != DISK) {
        return pelzhondy_step(s, s_length, d, d_length);
    }
    place = step_on_copies(s, d, new_state, new_disk);
    if (place != 0 && !pelzhondy_is_refused(place)) {
        way(s, d, new_disk, (size_t)place - 1);
    }
    return place;
}

static void flag_first(uint8_t *s, uint8_t *d, const uint8_t *new_disk, size_t i)
{
    (void)new_disk;
    mark_write(s, i);
    store_write(s, d, i);
}

/* Sets the flag before it stores the block. */
static uint64_t step_flag_first(uint8_t *s, size_t s_length, uint8_t *d, size_t d_length)
{
    return step_by(flag_first, s, s_length, d, d_length);
}

static void whole_disk(uint8_t *s, uint8_t *d, const uint8_t *new_disk, size_t i)
{
    memcpy(d, new_disk, DISK);
    mark_write(s, i);
}

/* Stores the whole disk, most of it as it was. */
static uint64_t step_whole_disk(uint8_t *s, size_t s_length, uint8_t *d, size_t d_length)
{
    return step_by(whole_disk, s, s_length, d, d_length);
}

static void by_way_of_another(uint8_t *s, uint8_t *d, const uint8_t *new_disk, size_t i)
{
    volatile uint8_t *other = d + BLOCK * 100;
    uint8_t kept = *other;
    (void)new_disk;
    *other = (uint8_t)(kept + 1);
    *other = kept;
    store_write(s, d, i);
    mark_write(s, i);
}

/* Stores two bytes of the wrong block, and then all as it ought to be. */
static uint64_t step_by_way_of_another(uint8_t *s, size_t s_length, uint8_t *d, size_t d_length)
{
    return step_by(by_way_of_another, s, s_length, d, d_length);
}

/* Stores before it refuses, and puts back what was there. */
static uint64_t drain_then_refuse(uint8_t *s, size_t s_length, uint8_t *d, size_t d_length)
{
    volatile uint8_t *count = s + STORED_COUNT;
    *count = *count;
    return pelzhondy_drain(s, s_length, d, d_length);
}

/* Writes to the disk what it has read there. */
static uint64_t get_and_write_back(const uint8_t *d, size_t d_length, uint16_t key)
{
    volatile uint8_t *block = (uint8_t *)(uintptr_t)d;
    *block = *block;
    return pelzhondy_get(d, d_length, key);
}

/* Stores the latest waiting write that may be stored, and not the earliest. */
static uint64_t step_latest(uint8_t *s, size_t s_length, uint8_t *d, size_t d_length)
{
    size_t i, j;
    if (s_length != STATE || d_length != DISK || s[ALWAYS_ZERO] != 0) {
        return pelzhondy_step(s, s_length, d, d_length);
    }
    for (i = write_count; i > 0; i--) {
        for (j = 0; j < write_count && (!needs(i - 1, j) || writes[j].stored); j++) {
        }
        if (!writes[i - 1].stored && j == write_count) {
            store_write(s, d, i - 1);
            mark_write(s, i - 1);
            return i;
        }
    }
    return 0;
}

/* Takes names for the same that have the same low byte. */
static uint64_t step_low_bytes(uint8_t *s, size_t s_length, uint8_t *d, size_t d_length)
{
    uint64_t place;
    if (s_length != STATE || d_length != DISK || s[ALWAYS_ZERO] != 0) {
        return pelzhondy_step(s, s_length, d, d_length);
    }
    compared = 0xFF;
    place = earliest();
    compared = UINT16_MAX;
    if (place != 0) {
        store_write(s, d, (size_t)place - 1);
        mark_write(s, (size_t)place - 1);
    }
    return place;
}

static const struct routines library = {"the library", pelzhondy_step, pelzhondy_drain, pelzhondy_get, KINDS};

static const struct routines wrong_ones[] = {
    {"a drain in the order of arrival", pelzhondy_step, drain_by_arrival, pelzhondy_get, SAME_STORES},
    {"a step that flags first", step_flag_first, pelzhondy_drain, pelzhondy_get, FLAGS},
    {"a step that stores the whole disk", step_whole_disk, pelzhondy_drain, pelzhondy_get, BLOCK_STORES},
    {"a step by way of another block", step_by_way_of_another, pelzhondy_drain, pelzhondy_get, BLOCK_STORES},
    {"a drain that stores and then refuses", pelzhondy_step, drain_then_refuse, pelzhondy_get, REFUSED},
    {"a get that writes back", pelzhondy_step, pelzhondy_drain, get_and_write_back, NO_STORES},
    {"a step of the latest write", step_latest, pelzhondy_drain, pelzhondy_get, ORDER},
    {"a step by the low bytes of names", step_low_bytes, pelzhondy_drain, pelzhondy_get, ORDER},
};

int main(void)
{
    size_t i;
    int kind, failures = 0;
    set_up_watch();
    run(&library, RUNS);
    for (kind = 0; kind < KINDS; kind++) {
        int ok = asked[kind] > 0 && wrong[kind] == 0;
        printf("%s: asked %lu times, ", kinds[kind], asked[kind]);
        if (ok) {
            printf("ok\n");
        } else {
            printf("%lu times not so\n", wrong[kind]);
            failures++;
        }
    }
    for (i = 0; i < sizeof wrong_ones / sizeof *wrong_ones; i++) {
        const struct routines *of = &wrong_ones[i];
        int noticed;
        run(of, WRONG_RUNS);
        noticed = wrong[of->noticed_by] > 0;
        printf("wrong on purpose, %s: %s\n", of->what, noticed ? "noticed" : "NOT noticed");
        failures += !noticed;
    }
    printf("%s\n", failures == 0 ? "ok" : "NOT ok");
    return failures == 0 ? EXIT_SUCCESS : EXIT_FAILURE;
}
