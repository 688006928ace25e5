/* How many bytes of stack each function takes, at most, on the lists of recorded files (recorded/README.md has their
 * format), on lists with 32 and 33 open groups, on enums of many variants, and on a few source texts. It fails where one
 * takes more than the header says. The calls run on a stack of their own, painted beforehand; what they took is what lost
 * its paint, with the frame of the function that calls. */
#define _XOPEN_SOURCE 700
#include "kusthrila.h"

#include <stdio.h>
#include <stdlib.h>
#include <string.h>
#include <ucontext.h>

enum { PAINT = 0xA5, STACK = 256 * 1024, MOST_LISTS = 65536 };

static struct {
    const uint8_t *bytes;
    size_t length;
} lists[MOST_LISTS];
static size_t count;

static _Alignas(16) uint8_t stack[STACK];
static uint8_t *top;
static uint8_t roles[KUSTHRILA_MOST_ROWS], out[KUSTHRILA_MOST_LISTING], scratch[KUSTHRILA_SCRATCH];

static void check_all(void) {
    top = (uint8_t *)__builtin_frame_address(0);
    for (size_t n = 0; n < count; n++)
        kusthrila_check(lists[n].bytes, lists[n].length);
}

static void read_all(void) {
    top = (uint8_t *)__builtin_frame_address(0);
    for (size_t n = 0; n < count; n++)
        kusthrila_read(lists[n].bytes, lists[n].length, roles, sizeof roles);
}

static void listing_all(void) {
    top = (uint8_t *)__builtin_frame_address(0);
    for (size_t n = 0; n < count; n++)
        kusthrila_listing(lists[n].bytes, lists[n].length, out, sizeof out);
}

static void value_all(void) {
    top = (uint8_t *)__builtin_frame_address(0);
    for (size_t n = 0; n < count; n++)
        for (size_t position = 0; position < 4; position++)
            kusthrila_value(lists[n].bytes, lists[n].length, position, scratch, sizeof scratch);
}

static void generics_all(void) {
    top = (uint8_t *)__builtin_frame_address(0);
    for (size_t n = 0; n < count; n++) {
        kusthrila_impl_generics(lists[n].bytes, lists[n].length, out, sizeof out);
        kusthrila_type_generics(lists[n].bytes, lists[n].length, out, sizeof out);
        kusthrila_impl_generics_with_additional(lists[n].bytes, lists[n].length, (const uint8_t *)"x\n", 2,
                                                (const uint8_t *)"Y\nZ", 3, out, sizeof out);
    }
}

static void tagged_all(void) {
    top = (uint8_t *)__builtin_frame_address(0);
    for (size_t n = 0; n < count; n++)
        kusthrila_tagged(lists[n].bytes, lists[n].length, (const uint8_t *)"p", 1, roles, sizeof roles);
}

static void same_name_all(void) {
    top = (uint8_t *)__builtin_frame_address(0);
    for (size_t n = 1; n < count; n++) {
        kusthrila_same_name(lists[n].bytes, lists[n].length, lists[n].bytes, lists[n].length);
        kusthrila_same_name(lists[n].bytes, lists[n].length, lists[n - 1].bytes, lists[n - 1].length);
    }
}

/* Lists are texts too, if seldom sound ones. */
static void texts_all(void (*call)(const uint8_t *text, size_t length)) {
    static const char *texts[] = {
        "#[a = \"b\\u{41}\"] pub struct A<'a, const N: u8>(&'a [u8; 0x1F_u8], 1.5e+3f64); /* a /* b */ */ // c\n",
        "/// a \"doc\" line\nfn f() { r#\"a\"#; b'a'; br##\"b\"##; '\\n'; r#type; }", "{[(", "/*", "\"", "0b2", "r##\"a\"#",
    };
    top = (uint8_t *)__builtin_frame_address(0);
    for (size_t n = 0; n < count; n++)
        call(lists[n].bytes, lists[n].length);
    for (size_t n = 0; n < sizeof texts / sizeof *texts; n++)
        call((const uint8_t *)texts[n], strlen(texts[n]));
}

static uint64_t place;

static void tokens_of(const uint8_t *text, size_t length) { kusthrila_tokens(text, length, out, sizeof out, &place); }

static void tokens_all(void) { texts_all(tokens_of); }

static void read_of(const uint8_t *text, size_t length) {
    kusthrila_read_source(text, length, roles, sizeof roles, &place);
}

static void read_source_all(void) { texts_all(read_of); }

static void row_place_all(void) {
    uint64_t length = 0;
    top = (uint8_t *)__builtin_frame_address(0);
    for (size_t n = 0; n < count; n++)
        for (size_t row = 0; row < 4; row++)
            kusthrila_row_place(lists[n].bytes, lists[n].length, row, &length);
}

static int measure(const char *name, void (*calls)(void), size_t promised) {
    ucontext_t here, there;
    memset(stack, PAINT, sizeof stack);
    getcontext(&there);
    there.uc_stack.ss_sp = stack;
    there.uc_stack.ss_size = sizeof stack;
    there.uc_link = &here;
    makecontext(&there, calls, 0);
    swapcontext(&here, &there);
    const uint8_t *bottom = stack;
    while (*bottom == PAINT)
        bottom++;
    printf("%s: %d bytes of stack\n", name, (int)(top - bottom));
    return (size_t)(top - bottom) > promised;
}

static void add(const uint8_t *bytes, size_t length) {
    if (count == MOST_LISTS) {
        fprintf(stderr, "more than %d lists\n", MOST_LISTS);
        exit(2);
    }
    lists[count].bytes = bytes;
    lists[count++].length = length;
}

/* The lists of a file: a section is a line with its name and length, then its bytes. */
static void add_recorded(const char *path) {
    FILE *file = fopen(path, "rb");
    if (!file) {
        perror(path);
        exit(2);
    }
    char name[16];
    size_t length;
    while (fscanf(file, "%15s %zu", name, &length) == 2 && fgetc(file) == '\n') {
        uint8_t *bytes = malloc(length + 1);
        if (!bytes || fread(bytes, 1, length, file) != length) {
            fprintf(stderr, "%s: not read\n", path);
            exit(2);
        }
        if (strcmp(name, "list") == 0)
            add(bytes, length);
        else
            free(bytes);
    }
    fclose(file);
}

/* A row for each pair of kind and text in a string, with the column that stands between them. */
static void add_rows(char *text, const char *rows, const char *column) {
    for (; *rows; rows += 2)
        sprintf(text + strlen(text), "%c %s%c\n", rows[0], column, rows[1]);
}

/* So many groups, one in the other, in a field's type, and a second variant of this name. */
static void add_nested(int groups, char second, const char *names, const char *column) {
    static char texts[8][1024];
    static int used;
    char *text = texts[used++];
    sprintf(text, "%si %senum\n", names, column);
    add_rows(text, "iEo{iAo{iap:", column);
    for (int open = 2; open < groups; open++)
        add_rows(text, "o(", column);
    for (int open = 2; open < groups; open++)
        add_rows(text, "c)", column);
    add_rows(text, "c}p=p-", column);
    sprintf(text + strlen(text), "l %s9223372036854775807\np %s,\ni %s%c\n", column, column, column, second);
    add_rows(text, "c}", column);
    add((const uint8_t *)text, strlen(text));
}

/* So many variants. */
static void add_enum(int variants) {
    static char texts[2][1 << 16];
    static int used;
    char *text = texts[used++];
    char *end = text + sprintf(text, "kind text\ni enum\ni E\no {\n");
    for (int n = 0; n < variants; n++)
        end += sprintf(end, "i V%d\np ,\n", n);
    end += sprintf(end, "c }\n");
    add((const uint8_t *)text, (size_t)(end - text));
}

int main(int argc, char **argv) {
    for (int n = 1; n < argc; n++)
        add_recorded(argv[n]);
    /* Listed, and refused since the first variant has the name too. */
    for (const char *second = "BA"; *second; second++)
        for (int groups = 32; groups <= 33; groups++) {
            add_nested(groups, *second, "kind text\n", "");
            add_nested(groups, *second, "kind joint text\n", "0 ");
        }
    add_enum(67);
    add_enum(2046);
    printf("%d lists\n", (int)count);
    int over = measure("kusthrila_check", check_all, KUSTHRILA_STACK);
    over |= measure("kusthrila_read", read_all, KUSTHRILA_STACK);
    over |= measure("kusthrila_listing", listing_all, KUSTHRILA_LISTING_STACK);
    over |= measure("kusthrila_value", value_all, KUSTHRILA_STACK);
    over |= measure("kusthrila_tagged", tagged_all, KUSTHRILA_STACK);
    over |= measure("kusthrila_impl_generics and its like", generics_all, KUSTHRILA_STACK);
    over |= measure("kusthrila_same_name", same_name_all, KUSTHRILA_STACK);
    over |= measure("kusthrila_tokens", tokens_all, KUSTHRILA_TOKENS_STACK);
    over |= measure("kusthrila_read_source", read_source_all, KUSTHRILA_READ_SOURCE_STACK);
    over |= measure("kusthrila_row_place", row_place_all, KUSTHRILA_STACK);
    return over;
}
