/* stress.c: makes very many calls of riuvelde_plan and holds each to what is known without it.
 *
 *     stress [SEED [CASES]]
 *
 * First come sweeps (every buffer length, every prefix of a slip, every byte in every place),
 * then so many random cases. It prints how many there were and how many failed; exit status 0
 * if none did. The same seed makes the same cases. */
#define _POSIX_C_SOURCE 200809L
#include <inttypes.h>
#include <signal.h>
#include <stdio.h>
#include <stdlib.h>
#include <string.h>
#include <unistd.h>

#include "riuvelde.h"
#include "trial/sheets.h"
#include "trial/trials.h"

enum {
    NUMBERS = 26,          /* answers have numbers 0 to 25 */
    INSIDES = 11,          /* and insides 0 to 10 */
    FAILURES_PRINTED = 20, /* later failures are only counted */
    REMEMBERED = 64,       /* random cases that are called again at the end */
    FULL_RUN = 100000      /* from so many cases on, every answer has to be met */
};

struct tally {
    uint64_t cases;
    uint64_t calls;
    uint64_t failures;
    uint64_t numbers[NUMBERS];
    uint64_t insides[INSIDES];
};

static struct tally tally;
static struct trial trial; /* large, so not on the stack */
static struct reply remembered[REMEMBERED];

/* Telling of failures. */

static void print_escaped(const struct text *text)
{
    for (size_t i = 0; i < text->len && i < 400; i++) {
        uint8_t byte = text->bytes[i];
        if (byte == '\n') {
            fputs("\\n", stderr);
        } else if (byte < 32 || byte > 126 || byte == '\\') {
            fprintf(stderr, "\\x%02x", byte);
        } else {
            fputc(byte, stderr);
        }
    }
}

static void fail(const char *wrong, uint32_t answer)
{
    tally.failures++;
    if (tally.failures > FAILURES_PRINTED) {
        return;
    }
    fprintf(stderr, "case %" PRIu64 ": %s\n", tally.cases, wrong);
    fprintf(stderr, "  answer %" PRIu32 ", looks %" PRIu32 ", buffer %zu, fault due %" PRIu32 "\n",
            answer, trial.looks, trial.buffer_len, trial.known.fault);
    fprintf(stderr, "  slip of %zu bytes: ", trial.slip.len);
    print_escaped(&trial.slip);
    fputc('\n', stderr);
}

/* Tells the case in which a fence was touched or a slip was written, and ends. */
static void on_trap(int signal_number)
{
    static const char text[] = "a byte out of bounds was touched, or the slip written, in case ";
    char digits[20];
    size_t at = sizeof digits;
    uint64_t left = tally.cases;

    (void)signal_number;
    do {
        digits[--at] = (char)('0' + left % 10);
        left /= 10;
    } while (left > 0);
    if (write(STDERR_FILENO, text, sizeof text - 1) < 0 ||
        write(STDERR_FILENO, digits + at, sizeof digits - at) < 0 ||
        write(STDERR_FILENO, "\n", 1) < 0) {
        _exit(3);
    }
    _exit(1);
}

static void catch_traps(void)
{
    struct sigaction action;

    memset(&action, 0, sizeof action);
    action.sa_handler = on_trap;
    sigemptyset(&action.sa_mask);
    sigaction(SIGSEGV, &action, NULL);
    sigaction(SIGBUS, &action, NULL);
}

/* One case. */

static int same_reply(const struct reply *a, const struct reply *b)
{
    return a->answer == b->answer && memcmp(a->starts, b->starts, sizeof a->starts) == 0;
}

static struct reply call(enum place place, const struct request *request)
{
    uint8_t fill = (uint8_t)(tally.calls * 71);

    tally.calls++;
    return call_at(place, request, fill);
}

/* Calls at every place; the replies have to be the same and do no harm. */
static struct reply call_everywhere(const struct request *request)
{
    struct reply first = call(PLACE_GUARDED, request);

    if (first.harm != NULL) {
        fail(first.harm, first.answer);
    }
    for (enum place place = PLACE_GUARDED + 1; place < PLACE_COUNT; place++) {
        if (place == PLACE_NULL && request->slip_len > 0 && request->buffer_len > 0) {
            continue;
        }
        struct reply next = call(place, request);
        if (next.harm != NULL) {
            fail(next.harm, next.answer);
        }
        if (!same_reply(&first, &next)) {
            fail("the same request has another reply at another place", next.answer);
        }
    }
    return first;
}

/* A settled search stays as it is with more looks, and one still open was so with fewer. */
static void call_with_other_looks(struct request request, const struct reply *reply)
{
    if (!riuvelde_is_outcome(reply->answer)) {
        return;
    }
    if (reply->answer == RIUVELDE_OPEN) {
        request.looks = (request.looks + 1) / 2;
    } else {
        request.looks = RIUVELDE_LOOKS_MAX;
    }
    struct reply other = call(PLACE_HEAP, &request);
    if (!same_reply(reply, &other)) {
        fail("other looks change a reply that they may not change", other.answer);
    }
}

static struct reply run_trial(void)
{
    struct request request = trial_request(&trial);

    tally.cases++;
    struct reply reply = call_everywhere(&request);
    const char *wrong = judge(&trial.known, &request, &reply);
    if (wrong != NULL) {
        fail(wrong, reply.answer);
        return reply;
    }
    tally.numbers[riuvelde_number(reply.answer)]++;
    tally.insides[riuvelde_inside(reply.answer)]++;
    call_with_other_looks(request, &reply);
    return reply;
}

/* Sweeps. */

static void run_with(uint32_t looks, size_t buffer_len)
{
    trial.looks = looks;
    trial.buffer_len = buffer_len;
    know_slip(&trial.known, trial.slip.bytes, trial.slip.len);
    run_trial();
}

/* A good slip with so many jobs. */
static void make_good_slip(uint64_t seed, size_t jobs)
{
    struct random random = random_for(seed, jobs);
    struct sheet sheet;

    do {
        memset(&sheet, 0, sizeof sheet);
        if (jobs > 0) {
            random_feasible_sheet(&random, &sheet, jobs, 2 * jobs);
        }
    } while (sheet.job_count != jobs);
    text_write_slip(&trial.slip, &sheet);
}

/* Every buffer length up to 4 bytes more than is needed, with good looks and refused ones. */
static void sweep_buffer_lengths(uint64_t seed)
{
    static const size_t sizes[] = {0, 1, 2, 3, 7, 20, 48};
    static const uint32_t looks[] = {0, 1, 3, 1000001};

    for (size_t i = 0; i < sizeof sizes / sizeof *sizes; i++) {
        make_good_slip(seed, sizes[i]);
        for (size_t len = 0; len <= 2 * sizes[i] + 4; len++) {
            for (size_t k = 0; k < sizeof looks / sizeof *looks; k++) {
                run_with(looks[k], len);
            }
        }
    }
}

/* Every prefix of good slips, the empty one too. */
static void sweep_prefixes(uint64_t seed)
{
    static const size_t sizes[] = {0, 1, 4, 48};

    for (size_t i = 0; i < sizeof sizes / sizeof *sizes; i++) {
        make_good_slip(seed, sizes[i]);
        for (size_t len = trial.slip.len + 1; len-- > 0;) {
            trial.slip.len = len;
            run_with(2, RIUVELDE_BUFFER_MAX);
        }
    }
}

/* A small good slip with each of its bytes changed to every other. */
static void sweep_bytes(void)
{
    trial.slip.len = 0;
    text_put_string(&trial.slip, "J 0 5 0 12\nJ 0 4 0 9\nL 0 1 0\nE 2 1 21\n");
    for (size_t at = 0; at < trial.slip.len; at++) {
        uint8_t kept = trial.slip.bytes[at];
        for (uint32_t byte = 0; byte <= UINT8_MAX; byte++) {
            trial.slip.bytes[at] = (uint8_t)byte;
            run_with(20, 4);
        }
        trial.slip.bytes[at] = kept;
    }
}

/* Random cases. */

static void run_random_cases(uint64_t seed, uint64_t cases)
{
    for (uint64_t i = 0; i < cases; i++) {
        random_trial(&trial, seed, i);
        struct reply reply = run_trial();
        if (i < REMEMBERED) {
            remembered[i] = reply;
        }
    }
}

/* Calls the first cases again, after all others: nothing may be left over from call to call. */
static void run_remembered(uint64_t seed, uint64_t cases)
{
    for (uint64_t i = 0; i < cases && i < REMEMBERED; i++) {
        random_trial(&trial, seed, i);
        struct request request = trial_request(&trial);
        struct reply reply = call(PLACE_GUARDED, &request);
        if (!same_reply(&reply, &remembered[i])) {
            fail("an early case has another reply when called again at the end", reply.answer);
        }
    }
}

/* The end. */

static void print_counts(const char *name, const uint64_t *counts, size_t from, size_t to)
{
    printf("%s", name);
    for (size_t i = from; i < to; i++) {
        if (counts[i] > 0) {
            printf("  %zu: %" PRIu64, i, counts[i]);
        }
    }
    printf("\n");
}

/* In a full run each answer there is has to be met, or the run shows less than it should. */
static void check_all_met(void)
{
    static const size_t numbers[] = {0, 1, 2, 11, 14, 20, 21, 22, 23, 24, 25};
    size_t unmet = 0;

    for (size_t i = 0; i < sizeof numbers / sizeof *numbers; i++) {
        unmet += tally.numbers[numbers[i]] == 0;
    }
    for (size_t inside = 1; inside < INSIDES; inside++) {
        unmet += tally.insides[inside] == 0;
    }
    if (unmet > 0 && tally.cases >= FULL_RUN) {
        fprintf(stderr, "%zu of the answers were never met\n", unmet);
        tally.failures++;
    }
}

int main(int argc, char **argv)
{
    uint64_t seed = argc > 1 ? strtoull(argv[1], NULL, 10) : 1;
    uint64_t cases = argc > 2 ? strtoull(argv[2], NULL, 10) : FULL_RUN;

    if (!places_open()) {
        fputs("stress: no memory\n", stderr);
        return 2;
    }
    catch_traps();
    sweep_buffer_lengths(seed);
    sweep_prefixes(seed);
    sweep_bytes();
    run_random_cases(seed, cases);
    run_remembered(seed, cases);
    check_all_met();
    print_counts("answers", tally.numbers, 0, NUMBERS);
    print_counts("insides", tally.insides, 1, INSIDES);
    printf("seed %" PRIu64 ", cases %" PRIu64 ", calls %" PRIu64 ", failures %" PRIu64 "\n", seed,
           tally.cases, tally.calls, tally.failures);
    return tally.failures == 0 ? 0 : 1;
}
