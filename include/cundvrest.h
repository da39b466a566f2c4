/* Cundvrest: a proved checker for queue plans. The C interface.
 *
 * Link with libcundvrest, for x86-64 Linux: `./library` makes it in target/lib,
 * `./install PREFIX` puts it below PREFIX, and `pkg-config --cflags --libs
 * cundvrest` finds it there. It needs nothing but memcpy, memset and the like of
 * the C library. Every function is proved to meet a contract that is an equation
 * with the definitions of the rules, for every input: crates/cundvrest_c; for the
 * functions on frontiers crates/c_lent; for cundvrest_trace and cundvrest_suggest
 * crates/c_trace and crates/c_suggest.
 *
 * TOLD. Every call writes all three numbers of `told`: number, place, answer.
 * The number is 0, or that of a refusal; the place says where. docs/REFUSALS.md
 * has each with an example and what to do about it.
 *
 *    0  passed, or answered                   0
 *    1  the input ends inside a field or
 *       before it                             where the field begins
 *    2  a count exceeds its limit             where the count begins
 *    3  the input goes on after the plan      the first byte too many
 *    4  a position out of its section, a kind
 *       that is neither 0 nor 1, or in write
 *       a size of 2^32 or more                where the field begins
 *    5  two queues with one axis              where the later axis begins
 *    6  never given: any queue may signal a
 *       semaphore. Its owner must be a queue,
 *       else 4, and says nothing more
 *    7  a signal of 0, or one that does not
 *       rise above those before it            the operation
 *    8  a wait that no signal reaches         the operation
 *    9  table, list, room or state too short  the length that is enough
 *   10  stuck: no run is full                 the lowest operation in no run
 *   11  a broken mark                         the lowest operation with one
 *   12  a queue that the plan has not         the number that was asked
 *   13  a buffer that the plan has not        the number that was asked
 *   14  a frontier that is not well formed    0
 *   15  a capacity of 0 or above 16           0
 *   16  a wait for 0                          where its value begins
 *   17  a signal out of turn: nothing orders
 *       it after the one before it on its
 *       semaphore                             the lowest operation with one
 *   19  no signal of the plan frees the
 *       buffer that a wait is asked for       the buffer that was asked
 *   21  an operation that the plan has not    the number that was asked
 *   22  a trace that is not well formed       0
 *
 * Of several the first in the rules' order is given: 1 to 5 and 16 as they are
 * met in reading, then 7, 8, 9, 10, 17, 11, and what belongs to the question. The
 * answer is 0 beside every refusal and where a call has nothing to answer.
 *
 * LENT MEMORY. A length counts elements, not bytes. Every pointer must be valid
 * and aligned for its type and length while the call lasts, and no memory that
 * the call writes may overlap anything else that it is lent. No call keeps a
 * pointer or allocates. A pointer beside a length of 0 is not followed and may
 * be null; any other must not be null.
 *
 * THREADS AND STACK. There is no state between calls, so calls on separate
 * memory may run at the same time on any threads. A call uses less than
 * CUNDVREST_STACK bytes of its thread's stack, whatever the input. Measured
 * with an older kit, rattle-kit-5b-plain: read 191 kB, frontier 157 kB, check,
 * reuse, suggest and trace 155 kB, write 70 kB, the others 3 kB.
 */
#ifndef CUNDVREST_H
#define CUNDVREST_H

#include <stddef.h>
#include <stdint.h>

#ifdef __cplusplus
extern "C" {
#endif

/* The version of the library that this header belongs to. */
#define CUNDVREST_VERSION "0.1.0"

/* The first number of `told`. */
#define CUNDVREST_PASSED 0
#define CUNDVREST_REFUSED_CUT_SHORT 1
#define CUNDVREST_REFUSED_COUNT_OVER_LIMIT 2
#define CUNDVREST_REFUSED_BYTES_FOLLOW 3
#define CUNDVREST_REFUSED_NOT_IN_LIST 4
#define CUNDVREST_REFUSED_AXIS_TWICE 5
#define CUNDVREST_REFUSED_NOT_THE_OWNER 6
#define CUNDVREST_REFUSED_SIGNAL_NOT_HIGHER 7
#define CUNDVREST_REFUSED_WAIT_TOO_HIGH 8
#define CUNDVREST_REFUSED_ROOM_TOO_SHORT 9
#define CUNDVREST_REFUSED_STUCK 10
#define CUNDVREST_REFUSED_BROKEN_MARK 11
#define CUNDVREST_REFUSED_NO_SUCH_QUEUE 12
#define CUNDVREST_REFUSED_NO_SUCH_BUFFER 13
#define CUNDVREST_REFUSED_BAD_FRONTIER 14
#define CUNDVREST_REFUSED_BAD_CAPACITY 15
#define CUNDVREST_REFUSED_WAIT_FOR_ZERO 16
#define CUNDVREST_REFUSED_OUT_OF_TURN 17
#define CUNDVREST_REFUSED_NO_SIGNAL_FREES 19
#define CUNDVREST_REFUSED_NO_SUCH_OPERATION 21
#define CUNDVREST_REFUSED_BAD_TRACE 22

/* The longest stored plan in bytes, and the most numbers of a read one. No plan of
 * this length passes: the longest that pass have 69,738 bytes, and 63,659 with at
 * most 64 semaphores. */
#define CUNDVREST_MOST_BYTES 69768
#define CUNDVREST_MOST_NUMBERS 23828

/* The most semaphores of a plan. A plan with more than 64 begins with byte 242. */
#define CUNDVREST_MOST_SEMAPHORES 1024

/* The most operations of a plan; how many numbers table and list have for each. */
#define CUNDVREST_MOST_OPERATIONS 1024
#define CUNDVREST_TABLE_WIDTH 16
#define CUNDVREST_LIST_WIDTH 2

/* The numbers of a frontier: 16 axes, 16 epochs, length, taint (0 or 1). */
#define CUNDVREST_FRONTIER 34

/* The stack that a call may use, in bytes. */
#define CUNDVREST_STACK 524288

/* Verdicts: the answer of cundvrest_reuse. There is no CUNDVREST_STRAY_USE, 4:
 * no plan that passes gets it. */
#define CUNDVREST_FRESH 0
#define CUNDVREST_REUSABLE 1
#define CUNDVREST_HELD 2
#define CUNDVREST_NOT_ORDERED 3

/* Advice: the answer of cundvrest_suggest. */
#define CUNDVREST_NONE_NEEDED 0
#define CUNDVREST_WAIT 1
#define CUNDVREST_NONE_WOULD_HELP 2

/* What a recorded trace followed: the answer of cundvrest_trace. */
#define CUNDVREST_FULL 0
#define CUNDVREST_UNFINISHED 1
#define CUNDVREST_UNKNOWN_OPERATION 2
#define CUNDVREST_REPEATED 3
#define CUNDVREST_NOT_FIRST 4
#define CUNDVREST_WAIT_NOT_MET 5

/* The numbers of the state that cundvrest_trace writes: 16 queues, then 1,024
 * semaphores; and of what it finds. */
#define CUNDVREST_STATE 1040
#define CUNDVREST_FOUND 6

/* The longest recorded trace in bytes. */
#define CUNDVREST_MOST_TRACE_BYTES 131072

/* An axis looked up: the answer of cundvrest_lookup. */
#define CUNDVREST_ABSENT 0
#define CUNDVREST_LISTED 1

/* Dominance: the answer of cundvrest_dominates. */
#define CUNDVREST_NO 0
#define CUNDVREST_YES 1
#define CUNDVREST_UNKNOWN 2

/* Reads a stored plan into numbers, one for each field in stored order, counts
 * included. Refusals 1 to 5, 16 and 9. The answer is how many numbers there are:
 * they are at the front of the room, and past them nothing is touched. A refusal
 * leaves the room untouched. */
void cundvrest_read(const uint8_t *plan, size_t plan_len,
                    uint64_t *room, size_t room_len, uint64_t told[3]);

/* Writes such numbers as a stored plan. Refusals 1 to 5 and 16, each with a
 * position in the numbers as its place, and 9. The answer is how many bytes there
 * are: they are at the front of the room, and past them nothing is touched. A
 * refusal leaves the room untouched. */
void cundvrest_write(const uint64_t *numbers, size_t numbers_len,
                     uint8_t *room, size_t room_len, uint64_t told[3]);

/* Checks a stored plan of n operations, by the rules and by its order. Refusals
 * 1 to 5, 16, 7 to 11 and 17. On a pass, the first 16 * n numbers of the table are the
 * rows: row j, column q is how many operations on queue q are operation j or
 * before it; the first n numbers of the list are the standard run, and the n after
 * them how many queues were ready before each step. Refusals 1 to 9 and 16 leave
 * both untouched; 10, 17 and 11 leave zeros in those numbers. Past them nothing is ever
 * touched. */
void cundvrest_check(const uint8_t *plan, size_t plan_len,
                     uint32_t *table, size_t table_len,
                     uint32_t *list, size_t list_len, uint64_t told[3]);

/* May the queue take the buffer anew, after its last operation? The plan is
 * checked first, with the refusals of cundvrest_check; then 12, then 13. The
 * answer is a verdict. An answer, 12 and 13 leave the rows and the run, as a pass
 * of cundvrest_check does; its refusals leave what they leave there. */
void cundvrest_reuse(const uint8_t *plan, size_t plan_len,
                     uint32_t queue, uint32_t buffer,
                     uint32_t *table, size_t table_len,
                     uint32_t *list, size_t list_len, uint64_t told[3]);

/* The wait that would free the buffer for the queue, so that the queue may take it
 * anew: an operation that is added at the end of the plan, on this queue, with
 * this wait alone and without signals and marks, is after every operation with a
 * mark on the buffer. The answer goes by the verdict of cundvrest_reuse: for
 * fresh and reusable none is needed, for held none would help. For not ordered it
 * is the wait for the first signal of the plan, in plan order and then in list
 * order, that does it. If the plan has fewer than 1,024 operations, the plan with
 * that operation passes, and its verdict is reusable.
 * answer: 0 none needed, 1 the wait, 2 none would help. wait: semaphore, value;
 * zeros but for 1. The plan is checked first, with the refusals of
 * cundvrest_check; then 12, 13, and 19 where no signal does it. An answer, 12, 13
 * and 19 leave the rows and the run. */
void cundvrest_suggest(const uint8_t *plan, size_t plan_len,
                       uint32_t queue, uint32_t buffer,
                       uint32_t *table, size_t table_len,
                       uint32_t *list, size_t list_len,
                       uint64_t wait[2], uint64_t told[3]);

/* The frontier that is sent out for an operation: an entry for each number above
 * 0 in its row, under the axis of that column's queue, cut as a merge is. The
 * plan is checked first, with the refusals of cundvrest_check; then 21, then 15.
 * An answer, 21 and 15 leave the rows and the run. A refusal writes the empty
 * untainted frontier, which is 34 zeros. */
void cundvrest_frontier(const uint8_t *plan, size_t plan_len,
                        uint32_t operation, uint32_t capacity,
                        uint32_t *table, size_t table_len,
                        uint32_t *list, size_t list_len,
                        uint64_t frontier[34], uint64_t told[3]);

/* Holds a recorded trace against a plan. A trace is a count in two bytes, then
 * for each step the position of its operation in two bytes, the low byte first.
 * The answer says what was followed:
 *
 *    0  a full run: every operation
 *    1  a run that is not finished
 *    2  a step departs: the plan has no such operation
 *    3  a step departs: its operation has run already
 *    4  a step departs: its operation is not the next of its queue
 *    5  a step departs: one of its operation's waits is not met
 *
 * Of 2 to 5 the first that holds is given, for the first step that departs.
 * found: that step (counted from 0; for 0 and 1 the number of steps), its
 * operation, the first wait in the operation's list that is not met, and three
 * numbers that are 0. What does not apply is 0.
 *
 * state: how far each queue and each semaphore had come before that step, or at
 * the end: how many operations of each of 16 queues had run, then the highest
 * value signalled on each of 1,024 semaphores; 0 for those that the plan lacks.
 * Past CUNDVREST_STATE numbers nothing is touched.
 *
 * The plan is checked first, with the refusals of cundvrest_check. Then 9 with
 * CUNDVREST_STATE for a shorter state, then 22. An answer and these two leave the
 * rows and the run; the refusals of cundvrest_check leave what they leave there.
 * No refusal touches the state, and each writes zeros into found. */
void cundvrest_trace(const uint8_t *plan, size_t plan_len,
                     const uint8_t *trace, size_t trace_len,
                     uint32_t *table, size_t table_len,
                     uint32_t *list, size_t list_len,
                     uint64_t *state, size_t state_len,
                     uint64_t found[6], uint64_t told[3]);

/* Frontiers. Well formed: at most 16 entries, axes rising, epochs above 0, slots
 * past the length zero, taint 0 or 1. Anything else is refusal 14. */

/* What a frontier says of an axis. The answer is CUNDVREST_LISTED, with the
 * axis's epoch in the lent number, or CUNDVREST_ABSENT, with 0 there; an absent
 * axis never counts as met. At most five entries are read, so the form is not
 * judged and nothing is refused: of a badly formed frontier anything that is
 * listed is in a slot below the length, and with a length above 16 or a taint
 * above 1 every axis is absent. */
void cundvrest_lookup(const uint64_t frontier[34], uint64_t axis,
                      uint64_t epoch[1], uint64_t told[3]);

/* Every axis of either side, with the larger of its epochs. Of more entries than
 * the capacity only as many are kept: larger epochs before smaller ones, and for
 * the same epoch larger axes first. What was cut, or has a tainted side, is
 * tainted. Refusals 15, then 14, the left side first; they write the empty
 * untainted frontier. */
void cundvrest_merge(const uint64_t left[34], const uint64_t right[34],
                     uint32_t capacity, uint64_t merged[34], uint64_t told[3]);

/* One axis raised to an epoch: the merge with that one entry, and with the empty
 * frontier for epoch 0. Refusals 15, then 14. */
void cundvrest_raise(const uint64_t old[34], uint64_t axis, uint64_t epoch,
                     uint32_t capacity, uint64_t raised[34], uint64_t told[3]);

/* Does the left frontier reach every entry of the right one? An axis that is not
 * listed is never met, and a taint leaves unknown what it may hide. The answer
 * is yes, no or unknown. Refusal 14, the left first. */
void cundvrest_dominates(const uint64_t left[34], const uint64_t right[34],
                         uint64_t told[3]);

#ifdef __cplusplus
}
#endif

#endif
