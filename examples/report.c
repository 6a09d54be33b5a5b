/* Prints the report on the sheet that standard input holds, as the program `encounter` does. */
#include <stdio.h>

#include "encounter.h"

int main(void) {
    /* One byte more than the largest sheet has, so that a longer input is seen to be too long. */
    static uint8_t sheet[4097];
    static uint8_t out[ENCOUNTER_REPORT_ROOM];

    size_t len = fread(sheet, 1, sizeof sheet, stdin);
    if (ferror(stdin)) {
        perror("standard input");
        return 1;
    }
    size_t n = encounter_report(sheet, len, out, sizeof out);
    if (n == 0 || fwrite(out, 1, n, stdout) != n || fflush(stdout) != 0) {
        perror("standard output");
        return 1;
    }
    return 0;
}
