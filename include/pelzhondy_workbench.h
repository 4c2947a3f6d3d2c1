/*
 * The tester's interface: reading test files, judging tests, finding rules, and traces of the reading
 * log. Link target/staticlib/libworkbench.a. See pelzhondy_answer.h for answers, refusals and
 * buffers, and README.md for the format of a file: at most 32 rules and 16 tests, in a test at most
 * 64 initial writes, 20 main writes and 16 checks. Find alone takes no more than 12 main writes of a
 * test. `file` is only read.
 *
 * NAMES. An initial write, a main write and a rule have two tags each: 01, 02 and 03 with names of one
 * byte, 08, 09 and 0A (hexadecimal) with names of two, big-endian, and bodies of 11, 11 and 5 bytes in
 * the same order. Either may stand wherever the other may, and a limit counts both together. A name is
 * a number from 0 to 65,535 in whichever tag: 1 in an 01 is 1 in an 08, and not 257. A program that goes
 * through a file steps by each field's own length, not by that of the first of its kind.
 *
 * "By reading" stands for the refusals 1 to 6, at the offset of the field at fault, and 7, at the
 * file's length. Of the first field at fault this comes first: 1, one or two bytes are left; 2; 4; 6;
 * 3; 1, its body is cut; 5. A file may have any length: one of over 22,448 bytes is refused, by what
 * stands in it.
 *
 * Nothing here uses the heap. On the stack judge keeps a few disks of 1,024 bytes, two tables of
 * 2,048 and several of 512, and calls itself once more for each main write that it decides on; verdict
 * keeps, beside the disks, several tables of 512 bytes and the list of the schedules that it looks at;
 * find a table of 32,768 bytes, two of 16,384 and one of 8,192. In all a call of judge, verdict or
 * judge_lines has used less than 32 KiB, and one of find less than 96, in all cases that a test
 * measures; this is not proved. These routines are for a host, not for firmware.
 */
#ifndef PELZHONDY_WORKBENCH_H
#define PELZHONDY_WORKBENCH_H

#include "pelzhondy_answer.h"

#ifdef __cplusplus
extern "C" {
#endif

/* The least buffers of judge_lines and of find. */
#define PELZHONDY_LINES_BYTES 400
#define PELZHONDY_RULES_BYTES 128

/* The most main writes of a test: of a file that is read, and of one that find takes. */
#define PELZHONDY_MAIN_WRITES 20
#define PELZHONDY_FIND_WRITES 12

/*
 * Reads a file. Answers the number of its rules + 256 * the number of its tests. Refused by reading.
 */
uint64_t pelzhondy_read(const uint8_t *file, size_t file_length);

/*
 * Locates a test, counted from 1. Answers the offset of its first field + 2^16 * its initial writes
 * + 2^24 * its main writes + 2^32 * its checks. Refused by reading; 9 if there is no such test.
 */
uint64_t pelzhondy_locate(const uint8_t *file, size_t file_length, uint64_t test);

/*
 * Answers 1 if the file's rules are cyclic, else 0. Refused by reading.
 */
uint64_t pelzhondy_cyclic(const uint8_t *file, size_t file_length);

/*
 * Judges a test, counted from 1, over all its crash schedules. Answers the number of valid schedules
 * + 2^21 * the number of bad ones, which are valid and leave an inconsistent disk + 2^42 * the number
 * of the smallest bad one, or 0 where there is none; the three functions below take it apart. Bit i - 1
 * of a schedule's number is set if main write i is flagged, that is, stored. 20 main writes have
 * 1,048,576 schedules, so either count may be 1,048,576 and takes 21 bits: 20 would cut it to 0.
 *
 * The smallest bad schedule is the one with the fewest flagged writes, and among those the one with the
 * smallest number. No other is shown, and verdict shows the same. It need not have the smallest number
 * of all bad ones: where these are write 3 alone, number 4, and writes 1 and 2 together, number 3, it
 * is 4. Schedule 0, in which no main write is stored, has the fewest flags of all; where it is bad, 0 is shown
 * with a count of bad ones above 0. So it is that count which tells whether the test holds, and not the
 * number shown. Refused, in this order: by reading; 8; 9.
 */
uint64_t pelzhondy_judge(const uint8_t *file, size_t file_length, uint64_t test);

/*
 * The parts of a judge's answer. Ask pelzhondy_is_refused first: of a refused one they are no counts of
 * a test, and look like some.
 */
static inline uint32_t pelzhondy_judged_valid(uint64_t answer)
{
    return (uint32_t)(answer & UINT32_C(0x1FFFFF));
}

static inline uint32_t pelzhondy_judged_bad(uint64_t answer)
{
    return (uint32_t)(answer >> 21) & UINT32_C(0x1FFFFF);
}

/* The smallest bad schedule, if there is one. It may be 0: ask for the count of bad ones first. */
static inline uint32_t pelzhondy_judged_schedule(uint64_t answer)
{
    return (uint32_t)(answer >> 42) & UINT32_C(0x1FFFFF);
}

/*
 * The verdict alone. Answers 0 if the test holds, or 1 + the number of the smallest bad schedule, the
 * one that judge shows; so 1 if that is schedule 0. A refusal is not 0 either: ask pelzhondy_is_refused
 * before taking it for a schedule. Refused as judge is.
 *
 * It looks only at schedules that can be the smallest bad one: the empty one, and those in which one
 * write or two are flagged, with all that they depend on, directly or by way of others, and no more. For
 * a check fails by two blocks at most, and each of them is from one write at most: what these writes
 * bring with them is bad by itself. Of 20 main writes these are at most 211 schedules. It takes them in
 * order, those with fewer flags first and among equals by number, and ends at the first bad one.
 */
uint64_t pelzhondy_verdict(const uint8_t *file, size_t file_length, uint64_t test);

/*
 * Writes what the judging program prints for the file: a line for each test, its number, the valid
 * and the bad schedules, `holds` or `fails`; or one line, `refused`, number, place, for a file that
 * reading refuses or whose rules are cyclic. Each line ends with a line feed; no byte 0 follows.
 * Answers the length written, at most 400, and leaves the rest of the buffer. Refused only by 12, if
 * the buffer has fewer than 400 bytes.
 */
uint64_t pelzhondy_judge_lines(const uint8_t *file, size_t file_length,
                               uint8_t *buffer, size_t buffer_length);

/*
 * Finds the fewest rules under which all tests of the file hold, and which are not cyclic. Its
 * candidates are the rules that match an ordered pair of two different main writes of one test,
 * sorted by first name, second name and predicate; no other rules could make a smaller set. A set's
 * number has bit i set if candidate i, from 0, is in it, and among the smallest sets the one with the
 * largest number is taken. Writes a field for each rule, in the candidates' order, and leaves the rest
 * of the buffer. Answers the number of rules, at most 16. Refused, in this order: by reading; 10 if the
 * file has rules; 24 if a test of it, whichever, has over 12 main writes; 12 if the buffer has fewer
 * than 128 bytes, even if all names are small; 11 if there are over 16 candidates; 13 if no acyclic set
 * of any rules does it.
 *
 * A field that it writes has six bytes, 03 00 03, name 1, predicate 1, name 1; only where one of its
 * rule's names exceeds 255 it has eight, 0A 00 05, name 2, predicate 1, name 2, whichever tags the file
 * has. Both may stand in one answer: a field has 3 bytes and as many as its third byte says.
 *
 * A file that judge and verdict answer for may be refused here, and 24 says nothing of whether there
 * are such rules. Rules that are found on shorter tests, for instance on a log of fewer puts,
 * need not do for the longer one: put them in front of its file and ask judge or verdict.
 */
uint64_t pelzhondy_find(const uint8_t *file, size_t file_length,
                        uint8_t *buffer, size_t buffer_length);

/*
 * Writes the test of a reading log, after the initial puts and during the main ones, with a range
 * check at 0, in tags 01 and 02: the log's names are 1 and 2. A program of puts is a row of keys and
 * values, two bytes each, big-endian. Answers the length written, 26 for each put and 7, and leaves the
 * rest of the buffer. Refused, in this order: 19 if a program's length is not a multiple of 4; 6, at
 * place 0, if there are over 32 initial or 10 main puts; 20 if one is of (0,0); 12 if the buffer is too
 * short. Of over 6 main puts the test has over 12 main writes: judge takes it, find does not (24).
 */
uint64_t pelzhondy_trace(const uint8_t *initial_puts, size_t initial_length,
                         const uint8_t *main_puts, size_t main_length,
                         uint8_t *buffer, size_t buffer_length);

#ifdef __cplusplus
}
#endif

#endif
