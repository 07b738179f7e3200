/* What each function of the library takes of the stack: stack SHEET.. prints a line for each function, its name, the most bytes
   that a call touched of a painted stack, and on which sheet. */
#define _GNU_SOURCE
#include <stdio.h>
#include <string.h>
#include <sys/mman.h>
#include <ucontext.h>

#include "../include/declock.h"

enum { STACK = 16 << 20, PAINT = 0xa5, LISTING = 4 << 20 };

static unsigned char sheet[DECLOCK_SHEET_BYTES + 1], out[LISTING], *stack;
static struct declock_clock equations[64], chains[4096];
static struct declock_fault faults[4096];
static size_t length, place, count;
static struct declock_counts counts;
static ucontext_t home, there;

static void rewrite(void) { declock_rewrite(sheet, length, out, DECLOCK_OUT_BYTES, faults, DECLOCK_FAULTS, &place, &count); }
static void text(void) { declock_text(sheet, length, 0, 0, out, DECLOCK_TEXT_BYTES, &place); }
static void listing(void) { declock_listing(sheet, length, 0, out, LISTING, &place); }
static void listings(void) { declock_listings(sheet, length, out, LISTING, &place); }
static void clocks(void) {
    declock_clocks(sheet, length, 0, equations, sizeof equations / 4, chains, sizeof chains / 4, faults, 4096, &counts, &place);
}

static size_t touched(void (*call)(void)) {
    size_t low = 0;
    memset(stack, PAINT, STACK);
    getcontext(&there);
    there.uc_stack.ss_sp = stack;
    there.uc_stack.ss_size = STACK;
    there.uc_link = &home;
    makecontext(&there, call, 0);
    swapcontext(&home, &there);
    while (low < STACK && stack[low] == PAINT) low++;
    return STACK - low;
}

int main(int argc, char **argv) {
    static void (*const calls[])(void) = {rewrite, clocks, listing, listings, text};
    static const char *const names[] = {"rewrite", "clocks", "listing", "listings", "text"};
    size_t most[5] = {0};
    const char *where[5] = {"", "", "", "", ""};
    stack = mmap(NULL, STACK, PROT_READ | PROT_WRITE, MAP_PRIVATE | MAP_ANONYMOUS, -1, 0);
    if (stack == MAP_FAILED) return 2;
    for (int i = 1; i < argc; i++) {
        FILE *f = fopen(argv[i], "rb");
        const char *slash = strrchr(argv[i], '/');
        if (!f) return perror(argv[i]), 2;
        length = fread(sheet, 1, sizeof sheet, f);
        fclose(f);
        for (int k = 0; k < 5; k++) {
            size_t n = touched(calls[k]);
            if (most[k] < n) most[k] = n, where[k] = slash ? slash + 1 : argv[i];
        }
    }
    for (int k = 0; k < 5; k++) printf("declock_%s %zu %s\n", names[k], most[k], where[k]);
    return 0;
}
