/* The explanation of a record file, from C: explain FILE
 * Exit status: 0 done, 2 refused, 1 trouble with a file, 64 wrong usage. */
#include "urzulempa.h"
#include <stdio.h>

int main(int count, char **words) {
    static uint8_t file[65537], room[1 << 20];
    if (count != 2) {
        fputs("usage: explain FILE\n", stderr);
        return 64;
    }
    FILE *from = fopen(words[1], "rb");
    /* A folder can be opened, and only reading it fails. One byte more than a file may have is enough to be refused with 1. */
    size_t length = from == NULL ? 0 : fread(file, 1, sizeof file, from);
    if (from == NULL || ferror(from)) {
        perror(words[1]);
        return 1;
    }
    fclose(from);
    urzulempa_answer said = urzulempa_explain_plain(file, length, room, sizeof room);
    if (fwrite(room, 1, said.bytes, stdout) != said.bytes || fflush(stdout) != 0) {
        perror("standard output");
        return 1;
    }
    if (said.number != 0)
        fprintf(stderr, "refused %llu at %llu\n", (unsigned long long)said.number, (unsigned long long)said.place);
    else if (said.bytes == 0)
        fprintf(stderr, "%s: there is nothing to explain\n", words[1]);
    return said.number == 0 ? 0 : 2;
}
