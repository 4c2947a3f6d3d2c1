/*
 * The receiver's interface: a write-back cache that stores blocks in an order which keeps the rules,
 * and the reading log's get. Link target/staticlib/libreceiver.a. It needs nothing but memcpy,
 * memmove and memset. A call used at most 4 KiB of stack in every case that the gate measures
 * (tests/differential/src/receiver/firmware.rs); the bound is measured and not proved. See
 * pelzhondy_answer.h for answers, refusals and buffers.
 *
 * THE STATE. A cache lives in 1,024 bytes of RAM that the caller lends, its state: byte 0 is the
 * count of rules, 1 of accepted writes, 2 of stored ones; rules stand from byte 4 on, five bytes each:
 * name 2, predicate 1, name 2; writes from byte 164 on, twelve bytes each: address 1, name 2, epoch 4,
 * block 4, whether it is stored 1. Numbers are big-endian, and every byte that is not used is zero, up
 * to byte 1,023. No caller need count: pelzhondy_address_at and pelzhondy_offset_at do so.
 * Nobody else writes to the state. One that is not sound is refused (15) and left as it is; damage that
 * leaves the state sound cannot be seen. A state is sound if it has that layout within the limits,
 * known predicates, acyclic rules, a stored count that equals its flags, stored writes that need only
 * stored ones, and no ring of needs.
 *
 * A STATE OUTLIVES NEITHER A RESET NOR A NEW VERSION OF THIS LIBRARY. Earlier versions had rules of
 * three bytes, and writes from byte 100 on. Some of their states are sound in this layout, too, so that
 * no call refuses them, and they mean other rules: one that was opened with (2,=,1) is here one with
 * (512,>,0), and one with the log's two rules one with (512,>,513) and (512,=,0): neither keeps a rule
 * that it was opened with. After an update do as after a reset: open anew. And compile anew all that
 * includes this header: pelzhondy_offset_at and pelzhondy_address_at are inline, so that an object built
 * with an earlier header would look for the stored block in the wrong place, and hand in names of 8 bits.
 *
 * LOOK AT WHAT OPEN ANSWERS. A refused opening leaves the state as it was, and 1,024 zero bytes that
 * were never opened are a sound state without rules. Hand-ins and steps on it are carried out, and
 * keep no rule.
 *
 * THE DISK. A disk is 1,024 bytes of RAM: block a, of two numbers of 16 bits, is the four bytes from
 * 4 * a on, big-endian. Step, and drain by its steps, are the only calls that store to it, one block
 * a step. It must not be flash that is mapped into memory: a block is stored by ordinary stores of
 * bytes or words, one or several.
 *
 * TO BRING IT TO FLASH, call step; if it answers a place, program the one block that it stored, the
 * four bytes at pelzhondy_offset_at(state, place) of the disk, before the next step.
 * examples/receiver/host.c does so. That the block is then on the flash whole or not at all is up to
 * the caller. A drain is not for flash that is fed block by block: it stores several blocks to the
 * disk before it comes back, and does not say in which order.
 *
 * WHEN THE SUPPLY IS CUT between two stores, wherever that is, the disk that is left is the disk at
 * the opening with the stored writes applied in the order in which they were handed in; and with a
 * stored write, all that it depends on among the writes handed in so far is stored. (Handed in means:
 * since the opening, and not refused.) Nothing is said of a write that is not handed in yet.
 *
 * THE ORDER OF CALLS. Hand in every write that another one depends on BEFORE any step or drain that
 * could store the other. No step waits for a write that it has not been given: a superblock that is
 * handed in and stepped before its log block is stored without it, and a disk cut there is not safe.
 * The log block then comes too late: its hand-in is refused (17). Among writes that no step separates
 * the order of hand-ins is free as far as the rules go, but for writes to one address: these are stored
 * in the order in which they came, and a write by which the rules would ask, directly or by way of
 * others, for another order of them is refused (18), whichever it is. A verdict of the judge speaks of
 * hand-ins in the order of the test's main writes. For the log: hand in the puts in the order of their
 * epochs, each log block before its superblock, and both before the next step.
 *
 * AFTER A REFUSAL nothing has changed.
 *   15: the state was damaged, or never opened. Do not go on with it: its waiting writes are lost, and
 *       the disk beside it may be damaged too. Do as after a reset.
 *   16: places are not used again before the next opening. Step until the answer is 0, bring each
 *       block to flash, then open anew. An opening forgets waiting writes: they are never stored. It
 *       forgets stored ones too, and no longer refuses (17) a write that one of these depends on. So
 *       open anew only when all is stored and no write still to come is one that a stored write
 *       depends on: for the log, after any whole put.
 *   17, 18: under these rules the write can't be taken in this order of calls, and will be refused
 *       until the next opening. It is the order, or the rules, that has to be mended.
 *   21: the log on the disk is damaged, whatever the key. Show the fitter that: neither a value nor an
 *       empty log. Hand in no put that goes by such a head and tail: it can hide the damage. After one
 *       put (3,2) is (3,3), which is shown as an empty log.
 *
 * TO APPEND TO THE LOG, firmware looks at head and tail itself: no call looks at those of a superblock
 * that is handed in, and what get does not refuse may still be no place for a put. After a reset ask
 * get, of any key. If it gives 21, stop. If block 0 is (0,0), as on an empty disk, begin with head and
 * tail 1: address 0 is the superblock's own. Else head must be at least 1. Before every put: tail must
 * be at most 255 (a flash erased to ones, (65535,65535), is an empty log to get, and has no place), and
 * the put must not be (0,0), an empty block, with which the log would not meet its check. The log block
 * goes to tail, and the superblock, (head, tail + 1), to 0. The next put goes by that head and tail:
 * block 0 of the disk is behind while the superblock waits.
 *
 * AFTER A RESET never use the state again, even if the RAM has kept it: read the disk back from the
 * flash, and open a cache anew on it. The waiting writes are lost. What is said here of cuts holds
 * from that opening on.
 *
 * VALUES. C converts silently: an address of 256 becomes 0, a name is cut to 16 bits, an epoch to 32, a
 * number of a block to 16. Check before the call; the compiler's -Wconversion shows where. Names are
 * numbers from 0 to 65,535, and two are the same only if all 16 bits are: a name of 257 that the
 * firmware has kept in a uint8_t on its way is handed in as 1, for which other rules are kept, and no
 * call can notice.
 *
 * INTERRUPTS. A routine has no memory of its own but the stack, so an interrupt may call in while
 * another call is under way, on other buffers, and with up to 4 KiB of stack more. There is no
 * locking: a state or a disk that the interrupted call was lent must be left alone.
 */
#ifndef PELZHONDY_RECEIVER_H
#define PELZHONDY_RECEIVER_H

#include "pelzhondy_answer.h"

#ifdef __cplusplus
extern "C" {
#endif

/* The length of a state, and that of a disk. */
#define PELZHONDY_STATE_BYTES 1024
#define PELZHONDY_DISK_BYTES 1024

/* How many writes a state has places for, from one opening to the next. */
#define PELZHONDY_MOST_WRITES 64

/* The length of a block; where a state has its writes, and the length of one, its address first. */
#define PELZHONDY_BLOCK_BYTES 4
#define PELZHONDY_WRITES_AT 164
#define PELZHONDY_WRITE_BYTES 12

/* What get answers where the log has no such key. Values are below it. */
#define PELZHONDY_NO_VALUE UINT64_C(65536)

/*
 * The address of the write at a place, from 1 to 64, that hand_in or step has answered since the
 * opening; not of step's 0.
 */
static inline uint8_t pelzhondy_address_at(const uint8_t *state, uint64_t place)
{
    return state[PELZHONDY_WRITES_AT + PELZHONDY_WRITE_BYTES * ((size_t)place - 1)];
}

/* Where the block of that write stands on the disk: the offset of its first byte. */
static inline size_t pelzhondy_offset_at(const uint8_t *state, uint64_t place)
{
    return PELZHONDY_BLOCK_BYTES * (size_t)pelzhondy_address_at(state, place);
}

/*
 * Opens a cache: `state`, whatever it held, then holds the rules of the file, in their order, and no
 * writes. The file is a test file without tests: for each rule a field of six bytes, hexadecimal
 * 03 00 03, name 1, predicate 1 (0 is =, 1 is >, 2 is <), name 1, or one of eight, 0A 00 05, name 2,
 * predicate 1, name 2, big-endian. Both may stand in one file, in any order, 32 of them together at
 * most. A name up to 255 may stand in either, and is the same name: 03 00 03 02 00 01 and
 * 0A 00 05 00 02 00 00 01 are one rule, (2,=,1), and leave the same state. An empty file is one
 * without rules.
 *
 * Answers 0. Refused, in this order: 14 if `state_length` is not 1,024; by reading, 1 to 7; 22 if the
 * file has tests; 8 if its rules are cyclic.
 */
uint64_t pelzhondy_open(uint8_t *state, size_t state_length,
                        const uint8_t *file, size_t file_length);

/*
 * Hands in a write: the block (first, second) for `address`, with the label `name` and `epoch`. The
 * write waits until a step stores it. A step that comes before the hand-in of what this write depends
 * on may store it without: see THE ORDER OF CALLS above.
 *
 * Answers the write's place, from 1 to 64: by it step's answers tell which write was stored. Refused,
 * in this order: 14; 15; 16 if 64 writes have been accepted since the opening; 17 if a write that
 * depends on this one is stored; 18 if this one and others would need each other in a ring.
 */
uint64_t pelzhondy_hand_in(uint8_t *state, size_t state_length,
                           uint8_t address, uint16_t name, uint32_t epoch,
                           uint16_t first, uint16_t second);

/*
 * Stores one block to `disk`: that of the earliest write handed in that waits and needs no waiting
 * write. A write needs all that it depends on, and the earlier writes to its address.
 *
 * Answers the place of the write that it stored, from 1, or 0 if none waits: then nothing changes.
 * While any write waits, one is stored. Refused, in this order: 14 if the state or the disk is not of
 * 1,024 bytes; 15.
 */
uint64_t pelzhondy_step(uint8_t *state, size_t state_length,
                        uint8_t *disk, size_t disk_length);

/*
 * Steps until no write waits. Not for flash that is fed block by block: see above.
 *
 * Answers how many writes it stored, from 0 to 64. Refused as step is.
 */
uint64_t pelzhondy_drain(uint8_t *state, size_t state_length,
                         uint8_t *disk, size_t disk_length);

/*
 * Reads the log on a disk: with (head, tail) as block 0, the value of `key` is the second number of
 * the block at the highest address from head to tail - 1 that is not (0,0) and has `key` as its first
 * number.
 *
 * Answers the value, from 0 to 65,535, or PELZHONDY_NO_VALUE. Refused, in this order: 14 if
 * `disk_length` is not 1,024; 21 if head > tail, or if head < tail and tail > 256.
 *
 * 21 is damage: with such a block 0 no disk whatever meets the log's range check, that head is at most
 * tail and the blocks from head to tail - 1 are there. What the fitter is shown:
 *
 *     uint64_t answer = pelzhondy_get(disk, sizeof disk, wheel);
 *     if (pelzhondy_is_refused(answer)) {
 *         show_damage();
 *     } else if (answer == PELZHONDY_NO_VALUE) {
 *         show_no_reading(wheel);
 *     } else {
 *         show_reading(wheel, (uint16_t)answer);
 *     }
 *
 * (With a disk of 1,024 bytes no refusal but 21 can come.) In this order: the low 16 bits of a refusal
 * by 21 are 0 and look like a reading, and a test for PELZHONDY_NO_VALUE or more would show damage as
 * an empty log. The log is empty where head = tail, be it (0,0), as on an empty disk, or (300,300).
 * Where head < tail, a log that meets the check has a value for some key. If no key has one there,
 * blocks are missing; get does not refuse that, since 21 goes by block 0 alone. Nor does it refuse
 * (0,0) where other blocks are there: a disk whose first put was cut looks the same.
 */
uint64_t pelzhondy_get(const uint8_t *disk, size_t disk_length, uint16_t key);

#ifdef __cplusplus
}
#endif

#endif
