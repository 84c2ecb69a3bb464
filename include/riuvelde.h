/* riuvelde.h: the shop planner's call for C, with a name for every answer.
 *
 * The planner finds starts for jobs at stations that take one job at a time. You hand it a slip
 * (the jobs and links as text), a number of looks (steps of search that it may make) and a
 * buffer; it answers one number, and where it found a timetable the starts are in the buffer.
 *
 *     uint8_t starts[RIUVELDE_BUFFER_MAX];
 *     uint32_t answer = riuvelde_plan(slip, slip_len, 100000, starts, sizeof starts);
 *     if (answer == RIUVELDE_FOUND) {
 *         printf("job 0 starts at minute %u\n", (unsigned)riuvelde_start(starts, 0));
 *     } else if (riuvelde_is_fault(answer)) {
 *         printf("fault %u in line %u\n", (unsigned)riuvelde_number(answer),
 *                (unsigned)riuvelde_line(answer));
 *     }
 *
 * THE SLIP is at most 4,096 bytes of lines. Each line, the last too, is finished by one byte 10
 * (a line feed, with no carriage return). No byte 0 stands at the end.
 *
 *     J station duration release due      a job; jobs are numbered from 0 in this order
 *     L a b wait                          a link: b starts no sooner than the end of a plus wait
 *     E jobs links place                  the trailer, the last line
 *
 *   - All J lines stand before all L lines; nothing follows the trailer.
 *   - Fields are parted by one space. A number has 1 to 5 digits and no leading zero, except 0.
 *   - Times are whole minutes from 0 to 40,000. The release is a job's soonest start, the due
 *     time its latest end. A station is 0 to 7, a duration 1 to 2,000, a wait 0 to 2,000.
 *   - The trailer has the number of J lines, the number of L lines, and the byte place, from 0,
 *     of the first L line, or of the trailer itself where there is no L line.
 *
 * Two jobs at station 0, the second after the first; the L line starts at byte 21:
 *
 *     "J 0 5 0 12\n" "J 0 4 0 9\n" "L 0 1 0\n" "E 2 1 21\n"        found: 0 and 5
 *
 * TIME AND MEMORY. The call allocates nothing and takes at most about 100 kilobytes of stack. Looks
 * bound its time, but a look on a large sheet takes far longer than one on a small sheet. The
 * same slip and looks always give the same answer, and more looks never change an answer other
 * than RIUVELDE_OPEN (and RIUVELDE_REFUSED_LOOKS).
 *
 * THREADS. The call keeps no state and takes no lock: threads may call it at the same time. While
 * it runs, nobody else may write the slip, or read or write the buffer.
 *
 * For C99 and later, and for C++.
 */
#ifndef RIUVELDE_H
#define RIUVELDE_H

#include <stddef.h>
#include <stdint.h>

#ifdef __cplusplus
extern "C" {
#endif

/* Limits. A slip that passes one of them is answered by a fault, never misread. */
#define RIUVELDE_JOBS_MAX 48u        /* jobs on a slip */
#define RIUVELDE_LINKS_MAX 96u       /* links on a slip */
#define RIUVELDE_SLIP_MAX 4096u      /* bytes of a slip */
#define RIUVELDE_LOOKS_MAX 1000000u  /* looks granted to one call; the least is 1 */
#define RIUVELDE_BYTES_A_JOB 2u      /* bytes of the buffer for each job */

/* Bytes of a buffer that is long enough for every slip; for the size of an array. */
#define RIUVELDE_BUFFER_MAX (RIUVELDE_JOBS_MAX * RIUVELDE_BYTES_A_JOB)

/* Outcomes: the slip was good, and the search was made. */
#define RIUVELDE_OPEN 0u        /* not settled in the looks granted: grant more and call again */
#define RIUVELDE_FOUND 1u       /* a timetable: its starts are in the buffer */
#define RIUVELDE_IMPOSSIBLE 2u  /* there is no timetable, however many looks are granted */

/* Refusals: the slip was good, but no search was made. Where both apply, the looks speak. */
#define RIUVELDE_REFUSED_LOOKS 11u   /* looks granted are 0 or above 1,000,000 */
#define RIUVELDE_REFUSED_BUFFER 14u  /* the buffer has less than 2 bytes for each job */

/* Faults of the slip, told before the two refusals; the answer also has the line, counted from
 * 1. The first faulty line speaks, and on one line the lowest number. */
#define RIUVELDE_FAULT_TOO_LONG 20u    /* more than 4,096 bytes; told before all else, line 0 */
#define RIUVELDE_FAULT_UNFINISHED 21u  /* no trailer, or bytes after the last byte 10; the line is
                                          the number of finished lines plus 1 */
#define RIUVELDE_FAULT_LETTER 22u      /* an empty line, a first byte that is not J, L or E, a J
                                          line after an L line, or a line after the trailer */
#define RIUVELDE_FAULT_FIELDS 23u      /* fields missing, surplus or ill written */
#define RIUVELDE_FAULT_TRAILER 24u     /* a count or the byte place in the trailer is untrue */
#define RIUVELDE_FAULT_REFUSED 25u     /* well written, but a job or link that cannot be entered;
                                          why is told inside */

/* Inside RIUVELDE_FAULT_REFUSED: why the job or the link cannot be entered. Where several causes
 * apply, the lowest number speaks. */
#define RIUVELDE_INSIDE_UNKNOWN_JOB 1u      /* a link names a job that is not on the slip */
#define RIUVELDE_INSIDE_SHEET_FULL 2u       /* 48 jobs stand before this one */
#define RIUVELDE_INSIDE_STATION 3u          /* a station above 7 */
#define RIUVELDE_INSIDE_DURATION 4u         /* a duration of 0 or above 2,000 */
#define RIUVELDE_INSIDE_TIME 5u             /* a release or due time above 40,000 */
#define RIUVELDE_INSIDE_WINDOW 6u           /* release plus duration is above the due time */
#define RIUVELDE_INSIDE_SELF_LINK 7u        /* a link from a job to itself */
#define RIUVELDE_INSIDE_WAIT 8u             /* a wait above 2,000 */
#define RIUVELDE_INSIDE_DUPLICATE_LINK 9u   /* a link from a to b that stands on the slip already */
#define RIUVELDE_INSIDE_LINKS_FULL 10u      /* 96 links stand before this one */

/* Plans a slip.
 *
 *   slip, slip_len      the slip's bytes. They are only read.
 *   looks               looks granted, 1 to 1,000,000. 100,000 is a good number to begin with.
 *   buffer, buffer_len  room for the starts, at least 2 bytes for each job on the slip.
 *
 * Answers an outcome, a refusal or a fault, as named above. On RIUVELDE_FOUND the buffer has the
 * start of each job in two bytes, low byte first, by job number; its bytes past those of the last
 * job are untouched. On every other answer the whole buffer is untouched.
 *
 * What the caller owes: each pointer has its length of bytes behind it, the buffer's writable, and
 * slip and buffer do not overlap. A pointer may be NULL where its length is 0. All else is looked
 * after: no bytes on the slip, no looks and no length of the buffer do harm. */
uint32_t riuvelde_plan(const uint8_t *slip, size_t slip_len, uint32_t looks, uint8_t *buffer,
                       size_t buffer_len);

/* 1 if the answer is an outcome (open, found or impossible), else 0. */
static inline int riuvelde_is_outcome(uint32_t answer)
{
    return answer <= RIUVELDE_IMPOSSIBLE;
}

/* 1 if the answer is a refusal (of the looks or of the buffer), else 0. */
static inline int riuvelde_is_refusal(uint32_t answer)
{
    return answer == RIUVELDE_REFUSED_LOOKS || answer == RIUVELDE_REFUSED_BUFFER;
}

/* 1 if the answer is a fault of the slip, else 0. */
static inline int riuvelde_is_fault(uint32_t answer)
{
    return answer >= RIUVELDE_FAULT_TOO_LONG;
}

/* The number of an answer: RIUVELDE_FAULT_... for a fault, else the answer itself. */
static inline uint32_t riuvelde_number(uint32_t answer)
{
    return answer % 100u;
}

/* The line of a fault, from 1; 0 for RIUVELDE_FAULT_TOO_LONG and for an answer that is no fault. */
static inline uint32_t riuvelde_line(uint32_t answer)
{
    return answer / 100u % 10000u;
}

/* Why a job or link was refused, RIUVELDE_INSIDE_...; 0 unless RIUVELDE_FAULT_REFUSED. */
static inline uint32_t riuvelde_inside(uint32_t answer)
{
    return answer / 1000000u;
}

/* The start of one job, after RIUVELDE_FOUND. The job's number is below the number of J lines. */
static inline uint32_t riuvelde_start(const uint8_t *buffer, size_t job)
{
    uint32_t low = buffer[RIUVELDE_BYTES_A_JOB * job];
    uint32_t high = buffer[RIUVELDE_BYTES_A_JOB * job + 1u];
    return low + 256u * high;
}

/* The least length of the buffer for a number of jobs. */
static inline size_t riuvelde_buffer_len(size_t jobs)
{
    return RIUVELDE_BYTES_A_JOB * jobs;
}

#ifdef __cplusplus
}
#endif

#endif
