/*
 * What the routines of Pelzhondy answer, and how they are called.
 *
 * Every routine answers one number of 64 bits. With bit 63 clear the call was carried out, and the
 * number is its answer. With bit 63 set the call was refused: nothing that was lent has changed,
 * bits 32 to 62 are the refusal's number, and bits 0 to 31 its place.
 *
 *     uint64_t answer = pelzhondy_step(state, sizeof state, disk, sizeof disk);
 *     if (pelzhondy_is_refused(answer)) {
 *         report(pelzhondy_refusal_number(answer), pelzhondy_refusal_place(answer));
 *     }
 *
 * A buffer is lent as a pointer and a length in bytes. The pointer is not null, not even where the
 * length is 0, and so many bytes may be read there; where the pointer is not to const, they may be
 * written too. Two buffers that are lent to one call must not overlap, unless both are only read.
 * Any alignment will do. A routine keeps no pointer and has no memory of its own between calls,
 * uses no heap, and may be called by several threads, or by an interrupt while another call is under
 * way, on different buffers: there is no locking.
 */
#ifndef PELZHONDY_ANSWER_H
#define PELZHONDY_ANSWER_H

#include <stddef.h>
#include <stdint.h>

/* The numbers of refusals. */
enum {
    /* Of reading a file; the place is the offset of the field that is at fault. */
    PELZHONDY_CUT = 1,               /* one or two bytes are left, or a body is cut */
    PELZHONDY_UNKNOWN_TAG = 2,       /* a tag is not one of 1 to 10 */
    PELZHONDY_WRONG_LENGTH = 3,      /* a field's length is not that of its tag */
    PELZHONDY_OUT_OF_ORDER = 4,      /* a field comes after one that it must precede */
    PELZHONDY_UNKNOWN_PREDICATE = 5, /* a rule's predicate is above 2 */
    PELZHONDY_OVER_LIMIT = 6,        /* one rule, test, write or check too many; of a trace too
                                        many puts, at place 0 */
    PELZHONDY_TEST_NOT_ENDED = 7,    /* the file ends in a test; the place is the file's length */
    /* All others have the place 0. */
    PELZHONDY_CYCLIC_RULES = 8,
    PELZHONDY_NO_SUCH_TEST = 9,
    PELZHONDY_FILE_HAS_RULES = 10,
    PELZHONDY_TOO_MANY_CANDIDATES = 11, /* there are over 16 */
    PELZHONDY_BUFFER_TOO_SHORT = 12,
    PELZHONDY_NO_SET_DOES = 13,    /* no acyclic set of rules makes all tests hold */
    PELZHONDY_NOT_1024_BYTES = 14, /* a state or a disk has another length */
    PELZHONDY_NOT_SOUND = 15,      /* the state is not sound: pelzhondy_receiver.h says when it is */
    PELZHONDY_STATE_FULL = 16,     /* 64 writes are accepted */
    PELZHONDY_LATE = 17,           /* a stored write depends on the one handed in */
    PELZHONDY_RING_OF_NEEDS = 18,  /* with the one handed in, writes would wait for each other */
    PELZHONDY_NOT_WHOLE_PUTS = 19, /* a program's length is not a multiple of 4 */
    PELZHONDY_EMPTY_PUT = 20,      /* a put of (0,0) */
    PELZHONDY_LOG_DAMAGED = 21,    /* the superblock is damage: head > tail, or head < tail and
                                      tail > 256 */
    PELZHONDY_LOG_PAST_DISK = 21,  /* the older name of the same number; not both in one switch */
    PELZHONDY_FILE_HAS_TESTS = 22,
    /* No call gives 23. */
    PELZHONDY_TEST_TOO_LONG = 24 /* of find: a test has over 12 main writes; other routines take 20 */
};

/* 1 if the call was refused, else 0. */
static inline int pelzhondy_is_refused(uint64_t answer)
{
    return (int)(answer >> 63);
}

/* The number of a refusal. */
static inline uint32_t pelzhondy_refusal_number(uint64_t answer)
{
    return (uint32_t)(answer >> 32) & UINT32_C(0x7FFFFFFF);
}

/* The place of a refusal. */
static inline uint32_t pelzhondy_refusal_place(uint64_t answer)
{
    return (uint32_t)(answer & UINT32_C(0xFFFFFFFF));
}

#endif
