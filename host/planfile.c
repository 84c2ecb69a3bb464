/* planfile.c: plans the slip in a file and prints the timetable, or why there is none.
 *
 *     planfile [-l LOOKS] FILE        FILE may be - for standard input
 *
 * Exit status: 0 found, 1 impossible, 2 open, 3 a faulty slip or a refusal, 4 trouble with the
 * file, the output or the command line. */
#include <errno.h>
#include <stdio.h>
#include <stdlib.h>
#include <string.h>

#include "riuvelde.h"
#include "words.h"

enum {
    STATUS_FOUND = 0,
    STATUS_IMPOSSIBLE = 1,
    STATUS_OPEN = 2,
    STATUS_REFUSED = 3,
    STATUS_TROUBLE = 4
};

/* One byte more than a slip may have, so that a longer one is seen to be too long. */
enum { READ_MAX = RIUVELDE_SLIP_MAX + 1 };

static const uint32_t default_looks = 100000;

struct slip {
    uint8_t bytes[READ_MAX];
    size_t len;
};

struct command {
    const char *path;
    uint32_t looks;
};

static int read_looks(const char *text, uint32_t *looks)
{
    char *end;

    if (*text < '0' || *text > '9') {
        return 0;
    }
    errno = 0;
    unsigned long value = strtoul(text, &end, 10);
    if (errno != 0 || *end != '\0' || value > UINT32_MAX) {
        return 0;
    }
    *looks = (uint32_t)value;
    return 1;
}

static int read_command(int argc, char **argv, struct command *command)
{
    command->looks = default_looks;
    if (argc == 4 && strcmp(argv[1], "-l") == 0) {
        command->path = argv[3];
        return read_looks(argv[2], &command->looks);
    }
    if (argc == 2) {
        command->path = argv[1];
        return 1;
    }
    return 0;
}

/* Reads a file, but never more than READ_MAX bytes of it. */
static int read_slip(const char *path, struct slip *slip)
{
    int is_stdin = strcmp(path, "-") == 0;
    FILE *in = is_stdin ? stdin : fopen(path, "rb");

    if (in == NULL) {
        return 0;
    }
    slip->len = fread(slip->bytes, 1, sizeof slip->bytes, in);
    int good = !ferror(in);
    if (!is_stdin) {
        fclose(in);
    }
    return good;
}

/* Reads the number at *place and steps over it and the byte behind it. */
static uint32_t next_number(const struct slip *slip, size_t *place)
{
    uint32_t value = 0;

    while (*place < slip->len && slip->bytes[*place] >= '0' && slip->bytes[*place] <= '9') {
        value = 10 * value + (uint32_t)(slip->bytes[*place] - '0');
        ++*place;
    }
    ++*place;
    return value;
}

/* The place behind the next byte 10, or the slip's end. */
static size_t next_line(const struct slip *slip, size_t place)
{
    while (place < slip->len && slip->bytes[place] != '\n') {
        place++;
    }
    return place + 1;
}

/* Prints number, station, start and end of each job. The slip was found good, so its first lines
 * are the jobs, each "J station duration release due". */
static void print_timetable(const struct slip *slip, const uint8_t *starts)
{
    size_t place = 0;

    for (size_t job = 0; place < slip->len && slip->bytes[place] == 'J'; job++) {
        place += 2;
        uint32_t station = next_number(slip, &place);
        uint32_t duration = next_number(slip, &place);
        uint32_t start = riuvelde_start(starts, job);
        printf("%u %u %u %u\n", (unsigned)job, (unsigned)station, (unsigned)start,
               (unsigned)(start + duration));
        place = next_line(slip, place);
    }
}

static int status_of(uint32_t answer)
{
    switch (answer) {
    case RIUVELDE_FOUND:
        return STATUS_FOUND;
    case RIUVELDE_IMPOSSIBLE:
        return STATUS_IMPOSSIBLE;
    case RIUVELDE_OPEN:
        return STATUS_OPEN;
    default:
        return STATUS_REFUSED;
    }
}

static int plan_and_print(const struct slip *slip, uint32_t looks)
{
    uint8_t starts[RIUVELDE_BUFFER_MAX];
    uint32_t answer = riuvelde_plan(slip->bytes, slip->len, looks, starts, sizeof starts);

    print_answer(stdout, answer);
    if (answer == RIUVELDE_FOUND) {
        print_timetable(slip, starts);
    }
    if (fflush(stdout) != 0 || ferror(stdout)) {
        perror("planfile: standard output");
        return STATUS_TROUBLE;
    }
    return status_of(answer);
}

int main(int argc, char **argv)
{
    struct command command;
    struct slip slip;

    if (!read_command(argc, argv, &command)) {
        fputs("usage: planfile [-l LOOKS] FILE   (- for standard input)\n", stderr);
        return STATUS_TROUBLE;
    }
    if (!read_slip(command.path, &slip)) {
        fprintf(stderr, "planfile: %s: %s\n", command.path, strerror(errno));
        return STATUS_TROUBLE;
    }
    return plan_and_print(&slip, command.looks);
}
