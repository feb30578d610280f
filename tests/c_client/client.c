/* client OPTIONS ROOM: checks standard input, and prints the code, row, length and fault on a line,
 * and then all bytes of a report's buffer of so much room, which was full of 7s. */
#include "mdbcheck.h"

#include <stdio.h>
#include <stdlib.h>
#include <string.h>

int main(int argc, char **argv) {
    if (argc != 3) return 2;
    uint32_t options = (uint32_t)strtoul(argv[1], NULL, 10);
    size_t room = (size_t)strtoul(argv[2], NULL, 10);
    size_t length = 0, most = 1 << 16, got;
    uint8_t *text = malloc(most), *report = malloc(room + 1);
    if (text == NULL || report == NULL) return 2;
    while ((got = fread(text + length, 1, most - length, stdin)) > 0) {
        length += got;
        if (length < most) continue;
        uint8_t *more = realloc(text, most *= 2);
        if (more == NULL) return 2;
        text = more;
    }
    memset(report, 7, room);
    mdbcheck_told told;
    uint32_t code = mdbcheck_check(options, text, length, report, room, &told);
    printf("%lu %llu %llu %llu\n", (unsigned long)code, (unsigned long long)told.row,
           (unsigned long long)told.length, (unsigned long long)told.fault);
    fwrite(report, 1, room, stdout);
    free(report);
    free(text);
    return fflush(stdout) != 0;
}
