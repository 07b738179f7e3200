/* Our program's work on a sheet, without the start of a process: ours SHEET SECONDS.

   The program's `main` is renamed `program`, its `read`, `write`, `memset`, `memcpy` and `memmove` are those below, and its call that
   ignores a signal is none (bench/run renames them in the object file that rt made). The first call of `measured` is what callgrind
   counts. It is then called again for about SECONDS. Printed are the shortest call in nanoseconds; and of a call the bytes of stack
   that it touched, the bytes that it filled or copied by memset, memcpy and memmove, and the bytes that it wrote. */
#define _GNU_SOURCE
#include <stdio.h>
#include <stdlib.h>
#include <string.h>
#include <sys/mman.h>
#include <sys/types.h>
#include <time.h>
#include <ucontext.h>

enum { STACK = 64 << 20, MOST = 1 << 20, PAINT = 0xa5, LONG = 2000000 };

static unsigned char sheet[MOST];
static size_t length, at, filled, written;
static double seconds;
static unsigned char *stack;
static ucontext_t home, there;
static long shortest = -1, touched;

int program(void);

ssize_t from_sheet(int fd, void *to, size_t n) {
    (void)fd;
    if (length - at < n) n = length - at;
    memcpy(to, sheet + at, n);
    at += n;
    return (ssize_t)n;
}

ssize_t to_nowhere(int fd, const void *from, size_t n) {
    (void)fd;
    (void)from;
    written += n;
    return (ssize_t)n;
}

void *fill(void *to, int byte, size_t n) {
    filled += n;
    return memset(to, byte, n);
}

void *copy(void *to, const void *from, size_t n) {
    filled += n;
    return memcpy(to, from, n);
}

void *shift(void *to, const void *from, size_t n) {
    filled += n;
    return memmove(to, from, n);
}

void *unheard(int signal, void *handler) {
    (void)signal;
    (void)handler;
    return NULL;
}

/* There are no arguments. */
size_t rattle_arg_count(void) { return 1; }
ssize_t rattle_arg(size_t k, void *to, size_t n) {
    (void)k;
    (void)to;
    (void)n;
    return -1;
}

__attribute__((noinline)) void measured(void) { program(); }

static long now(clockid_t clock) {
    struct timespec t;
    clock_gettime(clock, &t);
    return 1000000000 * (long)t.tv_sec + t.tv_nsec;
}

/* By the wall; a long call, which may be interrupted, by the processor. Its clock is too coarse for a short one. */
static void once(void) {
    at = filled = written = 0;
    long busy = now(CLOCK_THREAD_CPUTIME_ID);
    long begin = now(CLOCK_MONOTONIC);
    measured();
    long wall = now(CLOCK_MONOTONIC) - begin;
    busy = now(CLOCK_THREAD_CPUTIME_ID) - busy;
    long ns = wall >= LONG && busy < wall ? busy : wall;
    if (shortest < 0 || ns < shortest) shortest = ns;
}

static void work(void) {
    long begin = now(CLOCK_MONOTONIC);
    do once();
    while (now(CLOCK_MONOTONIC) - begin < (long)(1e9 * seconds));
}

/* Runs on the painted stack; what is no longer paint was touched. */
static void on_painted_stack(void) {
    if (seconds > 0) memset(stack, PAINT, STACK);
    getcontext(&there);
    there.uc_stack.ss_sp = stack;
    there.uc_stack.ss_size = STACK;
    there.uc_link = &home;
    makecontext(&there, work, 0);
    swapcontext(&home, &there);
    size_t low = 0;
    while (low < STACK && stack[low] == PAINT) low++;
    touched = (long)(STACK - low);
}

int main(int count, char **words) {
    if (count != 3) {
        fprintf(stderr, "usage: ours SHEET SECONDS\n");
        return 2;
    }
    FILE *f = fopen(words[1], "rb");
    if (!f) {
        perror(words[1]);
        return 2;
    }
    length = fread(sheet, 1, MOST, f);
    seconds = atof(words[2]);
    stack = mmap(NULL, STACK, PROT_READ | PROT_WRITE, MAP_PRIVATE | MAP_ANONYMOUS | MAP_NORESERVE, -1, 0);
    if (stack == MAP_FAILED) return 2;
    on_painted_stack();
    printf("%ld %ld %zu %zu\n", shortest, touched, filled, written);
    return 0;
}
