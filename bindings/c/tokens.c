/* Reads the Rust source text in the file that its argument names, and prints its token list, or the refusal. With the word `roles`
 * it prints the role of each row of that list instead, from the text in one call; with a row where that row's text stands in the
 * file: its offset and its length. */
#include "kusthrila.h"

#include <stdio.h>
#include <stdlib.h>
#include <string.h>

static uint8_t text[1 << 20], out[KUSTHRILA_MOST_TOKENS], roles[KUSTHRILA_MOST_ROWS];

int main(int argc, char **argv) {
    if (argc != 2 && argc != 3) {
        fprintf(stderr, "usage: %s FILE [roles | ROW]\n", argv[0]);
        return 2;
    }
    FILE *file = fopen(argv[1], "rb");
    if (!file) {
        perror(argv[1]);
        return 2;
    }
    size_t length = fread(text, 1, sizeof text, file);
    int more = fgetc(file) != EOF;
    fclose(file);
    if (more) {
        fprintf(stderr, "%s: more than %d bytes\n", argv[1], (int)sizeof text);
        return 2;
    }
    int in_one_call = argc == 3 && strcmp(argv[2], "roles") == 0;
    if (argc == 3 && !in_one_call) {
        uint64_t bytes = 0;
        uint64_t offset = kusthrila_row_place(text, length, strtoul(argv[2], NULL, 10), &bytes);
        printf("%d %d\n", (int)offset, (int)bytes);
        return 0;
    }
    uint64_t place = 0;
    uint64_t answer = in_one_call ? kusthrila_read_source(text, length, roles, sizeof roles, &place)
                                  : kusthrila_tokens(text, length, out, sizeof out, &place);
    if (answer >= KUSTHRILA_REFUSED) {
        int number = (int)kusthrila_number(answer);
        if (number == KUSTHRILA_REFUSAL_NO_TOKEN)
            printf("refused place\n40 %d\n", (int)place);
        else if (kusthrila_place(answer) == KUSTHRILA_END)
            printf("refused place\n%d -\n", number);
        else
            printf("refused place\n%d %d\n", number, (int)kusthrila_place(answer));
        return 1;
    }
    if (!in_one_call) {
        fwrite(out, 1, (size_t)answer, stdout);
        return 0;
    }
    printf("%s\n", answer == KUSTHRILA_ENUM ? "enum" : "struct");
    for (size_t row = 0; row < sizeof roles && roles[row] != KUSTHRILA_NO_ROLE; row++)
        printf("row %d has role %d\n", (int)row, roles[row]);
    return 0;
}
