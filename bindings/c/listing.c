/* Prints the listing of the token list in a file, or the refusal; with a variant's position, its written value too. */
#include "example.h"

#include <stdlib.h>

static uint8_t out[KUSTHRILA_MOST_LISTING];

int main(int argc, char **argv) {
    if (argc != 2 && argc != 3) {
        fprintf(stderr, "usage: %s FILE [POSITION]\n", argv[0]);
        return 2;
    }
    long length = read_list(argv[1]);
    if (length < 0)
        return 2;
    uint64_t answer = kusthrila_listing(list, (size_t)length, out, sizeof out);
    if (answer >= KUSTHRILA_REFUSED) {
        print_refusal(answer);
        return 1;
    }
    fwrite(out, 1, answer, stdout);
    if (argc == 3) {
        uint8_t scratch[KUSTHRILA_SCRATCH];
        uint64_t value = kusthrila_value(list, (size_t)length, strtoul(argv[2], NULL, 10), scratch, sizeof scratch);
        switch (kusthrila_value_where(value)) {
        case KUSTHRILA_VALUE_NONE:
            printf("no value\n");
            break;
        case KUSTHRILA_VALUE_IN_SCRATCH:
            printf("value %.*s\n", (int)kusthrila_value_length(value), (const char *)scratch);
            break;
        case KUSTHRILA_VALUE_IN_LIST:
            printf("value %.*s\n", (int)kusthrila_value_length(value), (const char *)list + kusthrila_value_start(value));
            break;
        case KUSTHRILA_VALUE_REFUSED:
            print_refusal(value);
            return 1;
        }
    }
    return 0;
}
