/* Rewrites a sheet to run on one base tick, in fixed memory.
 *
 * usage: rewrite [FILE]    FILE, or standard input, is the sheet; the rewritten sheet goes to standard output
 *
 * A sheet that is turned down leaves standard output empty. Standard error then has its number, its place and what the number means,
 * and under 10 a line for each faulty node with its first fault.
 *
 * Exit status 0: rewritten. 1: turned down. 2: wrong use, or a file could not be read or written. */
#include <stdio.h>

#include "declock.h"

/* One byte more than a sheet may have: a longer file is then turned down, not cut. */
static uint8_t sheet[DECLOCK_SHEET_BYTES + 1];
static uint8_t out[DECLOCK_OUT_BYTES];
static uint8_t text[DECLOCK_TEXT_BYTES];
static struct declock_fault faults[DECLOCK_FAULTS];

/* What each number means, from 1 to 12. */
static const char *const meanings[] = {
    "fewer than 12 bytes",
    "a size is outside its limit",
    "the length is not what the sizes say",
    "a name is ill formed or repeated, or the lengths do not sum up",
    "a token is not allowed here",
    "a count, an array's length or a depth is outside its limit",
    "a type reaches itself",
    "no such node or fault",
    "a clock of more than eight conditions",
    "some node has a fault",
    "the rewritten sheet would pass a limit",
    "too few bytes for the rewritten sheet",
};

/* One fault in a line of its own: its node, number and equation, then its text. */
static void show_fault(size_t length, struct declock_fault fault)
{
    size_t written = 0;
    fprintf(stderr, "fault %lu %lu %lu ", (unsigned long)fault.node, (unsigned long)fault.fault, (unsigned long)fault.equation);
    if (declock_text(sheet, length, fault.node, 0, text, sizeof text, &written) == DECLOCK_DONE) {
        fwrite(text, 1, written, stderr);
    }
    fputc('\n', stderr);
}

/* Why the sheet is turned down. */
static void show_refusal(size_t length, uint32_t answer, size_t place, size_t faulty)
{
    size_t i;
    fprintf(stderr, "refused %lu %lu: %s\n", (unsigned long)answer, (unsigned long)place, meanings[answer - 1]);
    if (answer != DECLOCK_FAULTY) {
        return;
    }
    fprintf(stderr, "faults %lu\n", (unsigned long)faulty);
    for (i = 0; i < faulty && i < DECLOCK_FAULTS; i++) {
        show_fault(length, faults[i]);
    }
}

/* Reads the whole file, as far as there is room. */
static int read_sheet(const char *path, size_t *length)
{
    FILE *file = path ? fopen(path, "rb") : stdin;
    int failed;
    if (!file) {
        return 0;
    }
    *length = fread(sheet, 1, sizeof sheet, file);
    failed = ferror(file);
    if (file != stdin) {
        fclose(file);
    }
    return !failed;
}

int main(int count, char **words)
{
    size_t length = 0;
    size_t place = 0;
    size_t faulty = 0;
    uint32_t answer;
    if (count > 2) {
        fputs("usage: rewrite [FILE]\n", stderr);
        return 2;
    }
    if (!read_sheet(count == 2 ? words[1] : NULL, &length)) {
        fputs("rewrite: the file could not be read\n", stderr);
        return 2;
    }
    answer = declock_rewrite(sheet, length, out, sizeof out, faults, DECLOCK_FAULTS, &place, &faulty);
    if (answer != DECLOCK_DONE) {
        show_refusal(length, answer, place, faulty);
        return 1;
    }
    if (fwrite(out, 1, place, stdout) != place || fflush(stdout) != 0) {
        fputs("rewrite: the rewritten sheet could not be written\n", stderr);
        return 2;
    }
    return 0;
}
