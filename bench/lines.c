/* Reads lines from standard input, and writes behind each the next line of a file, with a flush. So it reads and writes the same
   bytes as enqd does for a script whose lines get one line of reply each, and does nothing besides.
   Usage: lines REPLIES */
#include <stdio.h>

int main(int count, char **words) {
    static char line[1 << 16];
    static char reply[1 << 16];
    FILE *replies = count == 2 ? fopen(words[1], "r") : NULL;
    if (!replies) {
        fprintf(stderr, "lines: which replies?\n");
        return 2;
    }
    while (fgets(line, sizeof line, stdin)) {
        if (!fgets(reply, sizeof reply, replies)) {
            fprintf(stderr, "lines: a line without a reply\n");
            return 1;
        }
        fputs(reply, stdout);
        fflush(stdout);
    }
    return 0;
}
