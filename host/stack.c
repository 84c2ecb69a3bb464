/* stack.c: measures how much stack riuvelde_plan takes on the slips in some files.
 *
 *     stack FILE..
 *
 * Each slip is planned in a thread whose stack was filled with one byte before; what differs
 * from it afterwards was used. What the thread itself uses is measured by a thread that makes no
 * call, and taken off. */
#define _DEFAULT_SOURCE
#include <pthread.h>
#include <stdio.h>
#include <string.h>
#include <sys/mman.h>

#include "riuvelde.h"

enum { STACK = 1 << 20, PAINT = 0xA5, LOOKS = 1000 };

struct work {
    uint8_t slip[RIUVELDE_SLIP_MAX + 1];
    size_t len;
    uint32_t answer;
};

static void *do_nothing(void *argument)
{
    return argument;
}

static void *do_plan(void *argument)
{
    static uint8_t starts[RIUVELDE_BUFFER_MAX];
    struct work *work = argument;

    work->answer = riuvelde_plan(work->slip, work->len, LOOKS, starts, sizeof starts);
    return argument;
}

/* Runs a function on a fresh painted stack; answers the bytes used, or 0 if it cannot run. */
static size_t stack_used(void *(*run)(void *), struct work *work)
{
    pthread_attr_t attributes;
    pthread_t thread;
    size_t clean = 0;
    uint8_t *stack = mmap(NULL, STACK, PROT_READ | PROT_WRITE, MAP_PRIVATE | MAP_ANONYMOUS, -1, 0);

    if (stack == MAP_FAILED || pthread_attr_init(&attributes) != 0) {
        return 0;
    }
    memset(stack, PAINT, STACK);
    if (pthread_attr_setstack(&attributes, stack, STACK) != 0 ||
        pthread_create(&thread, &attributes, run, work) != 0 || pthread_join(thread, NULL) != 0) {
        return 0;
    }
    while (clean < STACK && stack[clean] == PAINT) {
        clean++;
    }
    pthread_attr_destroy(&attributes);
    munmap(stack, STACK);
    return STACK - clean;
}

static int read_slip(const char *path, struct work *work)
{
    FILE *in = fopen(path, "rb");

    if (in == NULL) {
        perror(path);
        return 0;
    }
    work->len = fread(work->slip, 1, sizeof work->slip, in);
    fclose(in);
    return 1;
}

int main(int argc, char **argv)
{
    static struct work work;
    size_t idle = stack_used(do_nothing, &work);
    size_t most = 0;

    for (int i = 1; i < argc; i++) {
        if (!read_slip(argv[i], &work)) {
            return 1;
        }
        size_t used = stack_used(do_plan, &work);
        if (idle == 0 || used == 0) {
            fputs("stack: no thread\n", stderr);
            return 1;
        }
        most = used - idle > most ? used - idle : most;
    }
    printf("riuvelde_plan used at most %zu bytes of stack\n", most);
    return 0;
}
