/* Prints what stands behind `impl` and behind the type's name for the token list in a file, or the refusal. Further arguments are
 * added names: one that begins with `'` is a lifetime, any other a type. */
#include "example.h"

#include <stdlib.h>
#include <string.h>

enum { NAMES = 4096 };

static uint8_t lifetimes[NAMES], types[NAMES], out[KUSTHRILA_MOST_ADDED(NAMES, NAMES)];

/* A name as the next line of a text, or -1 where there is no room. */
static long add_line(uint8_t *text, long length, const char *name) {
    size_t size = strlen(name);
    if (length < 0 || size >= (size_t)(NAMES - length))
        return -1;
    memcpy(text + length, name, size);
    text[length + (long)size] = '\n';
    return length + (long)size + 1;
}

static int print(uint64_t answer) {
    if (answer >= KUSTHRILA_REFUSED) {
        print_refusal(answer);
        return 1;
    }
    fwrite(out, 1, answer, stdout);
    return 0;
}

int main(int argc, char **argv) {
    if (argc < 2) {
        fprintf(stderr, "usage: %s FILE [NAME]..\n", argv[0]);
        return 2;
    }
    long length = read_list(argv[1]);
    if (length < 0)
        return 2;
    long l = 0, t = 0;
    for (int n = 2; n < argc; n++)
        if (argv[n][0] == '\'')
            l = add_line(lifetimes, l, argv[n] + 1);
        else
            t = add_line(types, t, argv[n]);
    if (l < 0 || t < 0) {
        fprintf(stderr, "%s: too many names\n", argv[0]);
        return 2;
    }
    int refused = print(kusthrila_impl_generics_with_additional(list, (size_t)length, lifetimes, (size_t)l, types, (size_t)t,
                                                                out, sizeof out));
    return refused || print(kusthrila_type_generics(list, (size_t)length, out, sizeof out));
}
