/* What the examples share: the list in a file, and a refusal as a line. */
#ifndef EXAMPLE_H
#define EXAMPLE_H

#include "kusthrila.h"

#include <stdio.h>

/* One byte more than a list may have: enough to see that it has too many. */
static uint8_t list[65537];

/* Reads a file into list: its length, or -1 with a message. */
static inline long read_list(const char *path) {
    FILE *file = fopen(path, "rb");
    if (!file) {
        perror(path);
        return -1;
    }
    size_t length = fread(list, 1, sizeof list, file);
    fclose(file);
    return (long)length;
}

static inline void print_refusal(uint64_t answer) {
    printf("refused %d at ", (int)kusthrila_number(answer));
    if (kusthrila_place(answer) == KUSTHRILA_END)
        printf("the end\n");
    else
        printf("row %d\n", (int)kusthrila_place(answer));
}

#endif
