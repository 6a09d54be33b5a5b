/* How much stack a call of `encounter_report` takes: docs/PERFORMANCE.md, 'Stack'.
 *
 *     (cd crates/exports_report && rt lib)
 *     cc -O2 -Iinclude -o target/stack tools/stack.c \
 *         crates/exports_report/out/libexports_report.a -lpthread
 *     target/stack <crates/sheet_main/stdin
 *
 * Each line of the input is a sheet in hexadecimal digits. A sheet is reported on by a thread whose
 * stack was filled with a pattern; what the thread has overwritten, beyond what one that does
 * nothing overwrites, is what the call took.
 */
#define _GNU_SOURCE
#include <pthread.h>
#include <stdio.h>
#include <stdlib.h>
#include <string.h>
#include <sys/mman.h>

#include "encounter.h"

enum { STACK = 1 << 20, PATTERN = 0xa5 };

static uint8_t sheet[4097];
static size_t len;
static uint8_t out[ENCOUNTER_REPORT_ROOM];

static void *report(void *unused) {
    (void)unused;
    encounter_report(sheet, len, out, sizeof out);
    return NULL;
}

static void *nothing(void *unused) {
    return unused;
}

static size_t overwritten(void *(*run)(void *)) {
    uint8_t *stack = mmap(NULL, STACK, PROT_READ | PROT_WRITE, MAP_PRIVATE | MAP_ANONYMOUS, -1, 0);
    pthread_attr_t attributes;
    pthread_t thread;
    size_t untouched = 0;

    if (stack == MAP_FAILED) {
        perror("a stack");
        exit(1);
    }
    memset(stack, PATTERN, STACK);
    pthread_attr_init(&attributes);
    pthread_attr_setstack(&attributes, stack, STACK);
    if (pthread_create(&thread, &attributes, run, NULL) != 0) {
        fputs("no thread\n", stderr);
        exit(1);
    }
    pthread_join(thread, NULL);
    while (stack[untouched] == PATTERN) {
        untouched++;
    }
    munmap(stack, STACK);
    return STACK - untouched;
}

int main(void) {
    static char line[2 * sizeof sheet + 2];
    size_t least = overwritten(nothing), most = 0, sheets = 0;

    while (fgets(line, sizeof line, stdin) != NULL) {
        unsigned byte;
        for (len = 0; len < sizeof sheet && sscanf(line + 2 * len, "%2x", &byte) == 1; len++) {
            sheet[len] = (uint8_t)byte;
        }
        size_t taken = overwritten(report) - least;
        most = taken > most ? taken : most;
        sheets++;
    }
    printf("%zu sheets, at most %zu bytes of stack\n", sheets, most);
    return 0;
}
