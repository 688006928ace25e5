/* Prints whether two names are equal, and how many pairs of bytes were looked at to tell. */
#include "kusthrila.h"

#include <stdio.h>
#include <string.h>

int main(int argc, char **argv) {
    if (argc != 3) {
        fprintf(stderr, "usage: %s NAME NAME\n", argv[0]);
        return 2;
    }
    const uint8_t *a = (const uint8_t *)argv[1], *b = (const uint8_t *)argv[2];
    uint64_t answer = kusthrila_same_name(a, strlen(argv[1]), b, strlen(argv[2]));
    printf("%s, pairs looked at: %d\n", kusthrila_names_equal(answer) ? "equal" : "not equal", (int)kusthrila_pairs(answer));
    return 0;
}
