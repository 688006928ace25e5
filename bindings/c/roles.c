/* Reads the token list in the file that its argument names, and prints the role of each row, or the refusal. */
#include "example.h"

static uint8_t roles[KUSTHRILA_MOST_ROWS];

int main(int argc, char **argv) {
    if (argc != 2) {
        fprintf(stderr, "usage: %s FILE\n", argv[0]);
        return 2;
    }
    long length = read_list(argv[1]);
    if (length < 0)
        return 2;
    uint64_t answer = kusthrila_read(list, (size_t)length, roles, sizeof roles);
    if (answer >= KUSTHRILA_REFUSED) {
        print_refusal(answer);
        return 1;
    }
    printf("%s\n", answer == KUSTHRILA_ENUM ? "enum" : "struct");
    for (size_t row = 0; row < sizeof roles && roles[row] != KUSTHRILA_NO_ROLE; row++)
        printf("row %d has role %d\n", (int)row, roles[row]);
    return 0;
}
