/* The reader of token lists, for C and C++. Link libexports.a (bash build.sh exports).
 *
 * A list is a text: a line of names, `kind text` or `kind joint text`, then a line for each row, as `p :` or, with the second
 * names, `p 1 :`. The column between kind and text is the row's mark: 1 for a punctuation that is joint, that is, the next one
 * (after `'` the name) follows it at once, else 0; kinds other than p have 0. With the names `kind text`, `'` is joint and no other
 * punctuation is. Every function takes lists with either names. Marks change no role, refusal, place, listing, value or entry;
 * only what the writers of generics write has marks.
 *
 * A slice is a pointer and a length. A pointer may be anything where its length is 0, but not NULL: pass the address of
 * some byte. Lists and buffers must not overlap.
 *
 * An answer is one number. Below KUSTHRILA_REFUSED it is an acceptance. Else it is a refusal: its number is
 * kusthrila_number(answer), one of enum kusthrila_refusal, and its place kusthrila_place(answer), a row counted from 0 or
 * KUSTHRILA_END. Row n is line n + 2 of the list. README.md says where each refusal's place is, and which comes first. Only
 * kusthrila_same_name and kusthrila_row_place refuse nothing, and their numbers are told with them.
 *
 * Nothing is allocated and nothing global is kept: the library has no data but constants, and calls only memset. So
 * calls from several threads are independent, as long as none writes a buffer that another uses.
 *
 * A call needs no more than KUSTHRILA_STACK bytes of stack, but kusthrila_listing up to KUSTHRILA_LISTING_STACK: it keeps
 * tables of all variants, to tell whether one is there twice; kusthrila_tokens up to KUSTHRILA_TOKENS_STACK: it keeps the
 * kinds of the open brackets; and kusthrila_read_source up to KUSTHRILA_READ_SOURCE_STACK: it keeps a list too.
 * Measured on x86-64 were some 3,900 in kusthrila_check, 4,100 in kusthrila_tagged and kusthrila_read, 4,400 in the writers of
 * generics, 8,400 in kusthrila_value, 17,100 in kusthrila_tokens, 74,000 in kusthrila_listing and 83,700 in
 * kusthrila_read_source; the rest is margin. bindings/c/stack.c measures it, and test.sh does so each time. */
#ifndef KUSTHRILA_H
#define KUSTHRILA_H

#include <stddef.h>
#include <stdint.h>

#ifdef __cplusplus
extern "C" {
#endif

#define KUSTHRILA_REFUSED 4294967296u
#define KUSTHRILA_END 65535u
#define KUSTHRILA_STRUCT 0u
#define KUSTHRILA_ENUM 1u
#define KUSTHRILA_ABSENT 0u
#define KUSTHRILA_FOUND 1u

/* No list has more rows: a role buffer of this many bytes is always long enough. */
#define KUSTHRILA_MOST_ROWS 4096u

/* No listing is longer: MOST in crates/describe/specs/Listing.antt, of which the law `fits` is proved. */
#define KUSTHRILA_MOST_LISTING 176145u

/* No list that kusthrila_impl_generics or kusthrila_type_generics writes is longer, with either names; added names take at most
 * 18 bytes more for each byte of lifetimes and 12 for each of types: MOST and most_added in crates/writing/specs/Answer.antt, of
 * which the laws in crates/writing/proofs/Lengths.antt are proved. */
#define KUSTHRILA_MOST_GENERICS 114688u
#define KUSTHRILA_MOST_ADDED(lifetimes_len, types_len) \
    (KUSTHRILA_MOST_GENERICS + 18u * (size_t)(lifetimes_len) + 12u * (size_t)(types_len))

/* No list that kusthrila_tokens writes is longer: the law `answer-few` in crates/source/proofs/Reports.antt. */
#define KUSTHRILA_MOST_TOKENS 65536u

/* A scratch must have as many bytes. */
#define KUSTHRILA_SCRATCH 20u

/* No call but kusthrila_listing, kusthrila_tokens and kusthrila_read_source needs more bytes of stack. */
#define KUSTHRILA_STACK 16384u

/* Nor does kusthrila_tokens need more than these. */
#define KUSTHRILA_TOKENS_STACK 32768u

/* Nor does kusthrila_read_source need more than these. */
#define KUSTHRILA_READ_SOURCE_STACK 98304u

/* Nor does kusthrila_listing need more than these. */
#define KUSTHRILA_LISTING_STACK 98304u

/* A role byte after the last row's, and every role byte after a refusal. */
#define KUSTHRILA_NO_ROLE 255u

/* The roles, named as in crates/reading/specs/Role.antt. */
enum kusthrila_role {
    KUSTHRILA_ROLE_LEFT_OVER = 0,       /* after the body */
    KUSTHRILA_ROLE_ATTRIBUTE_MARK = 1,  /* the `#` of an attribute */
    KUSTHRILA_ROLE_ATTRIBUTE_GROUP = 2, /* an attribute's `[` group, with all rows in it */
    KUSTHRILA_ROLE_IDLE_MARK = 3,       /* a `#` before another `#` */
    KUSTHRILA_ROLE_VISIBILITY = 4,      /* `pub` */
    KUSTHRILA_ROLE_SCOPE = 5,           /* the group after `pub`, with all rows in it */
    KUSTHRILA_ROLE_ITEM_WORD = 6,       /* `struct` or `enum` */
    KUSTHRILA_ROLE_ITEM_NAME = 7,       /* the item's name */
    KUSTHRILA_ROLE_ANGLE = 8,           /* the `<` and `>` of the generics */
    KUSTHRILA_ROLE_PARAMETER_NAME = 9,  /* a parameter's name, with its `'` or `const` */
    KUSTHRILA_ROLE_SEPARATOR = 10,      /* `,` `:` `=` between these parts */
    KUSTHRILA_ROLE_BOUND = 11,          /* a parameter's bound, default or const type */
    KUSTHRILA_ROLE_WHERE_WORD = 12,     /* `where` */
    KUSTHRILA_ROLE_WHERE_RUN = 13,      /* what follows `where`, up to the body */
    KUSTHRILA_ROLE_DELIMITER = 14,      /* a delimiter of the body or of a variant's group; the `;` for a body */
    KUSTHRILA_ROLE_VARIANT_NAME = 15,   /* a variant's name */
    KUSTHRILA_ROLE_VALUE = 16,          /* a variant's value, with its `-` */
    KUSTHRILA_ROLE_FIELD_NAME = 17,     /* a field's name */
    KUSTHRILA_ROLE_TYPE = 18            /* a field's type */
};

/* The roles of a tagged attribute's rows, named as in crates/tagged_reading/specs/Role.antt. */
enum kusthrila_tagged_role {
    KUSTHRILA_TAGGED_TAG = 20,   /* a tag, as `skip` */
    KUSTHRILA_TAGGED_KEY = 21,   /* the key of `key = literal` */
    KUSTHRILA_TAGGED_VALUE = 22, /* its literal */
    KUSTHRILA_TAGGED_OTHER = 23  /* any other row */
};

/* The refusals. 9, 10, 32 to 39 and 44 to 49 are none. 40 and 41 are of kusthrila_tokens and kusthrila_read_source alone,
 * 42, 43, 50 and 51 of kusthrila_listing. */
enum kusthrila_refusal {
    KUSTHRILA_REFUSAL_TOO_LONG = 1,             /* more than 65,536 bytes */
    KUSTHRILA_REFUSAL_LINE_OF_NAMES = 2,        /* the first line is neither `kind text` nor `kind joint text` */
    KUSTHRILA_REFUSAL_ROW_FORM = 3,             /* a row's form (its mark too), its text's length or its LF is wrong */
    KUSTHRILA_REFUSAL_TOO_MANY_ROWS = 4,        /* a further row begins after 4,096 */
    KUSTHRILA_REFUSAL_UNMATCHED_CLOSE = 5,      /* a close without its matching open */
    KUSTHRILA_REFUSAL_TOO_DEEP = 6,             /* a 33rd open group */
    KUSTHRILA_REFUSAL_UNCLOSED_GROUP = 7,       /* the list ends in an open group */
    KUSTHRILA_REFUSAL_SHORT_BUFFER = 8,         /* a lent buffer is too short */
    KUSTHRILA_REFUSAL_NO_WORD = 11,             /* `struct` or `enum`, the item's name or a variant's name is missing */
    KUSTHRILA_REFUSAL_ATTRIBUTE_DELIMITER = 12, /* `#` with a group that is not `[` */
    KUSTHRILA_REFUSAL_NO_ATTRIBUTE = 13,        /* `#` followed by anything else */
    KUSTHRILA_REFUSAL_NO_PARAMETER = 14,        /* in generics: not `'`, `>` or a name */
    KUSTHRILA_REFUSAL_UNMATCHED_ANGLE = 15,     /* `>` with nothing open */
    KUSTHRILA_REFUSAL_NO_STRUCT_BODY = 16,      /* a struct's body is neither a group nor `;` */
    KUSTHRILA_REFUSAL_STRUCT_DELIMITER = 17,    /* a struct's body is a `[` or `0` group */
    KUSTHRILA_REFUSAL_NO_ENUM_BODY = 18,        /* an enum's body is neither a group nor `;` */
    KUSTHRILA_REFUSAL_VARIANT_DELIMITER = 19,   /* a variant's group is `[` or `0` */
    KUSTHRILA_REFUSAL_NO_COMMA = 20,            /* after a variant without value: not `,` */
    KUSTHRILA_REFUSAL_NO_LITERAL = 21,          /* no literal after `=` or `-` */
    KUSTHRILA_REFUSAL_NO_FIELD_NAME = 22,       /* a field's name is missing */
    KUSTHRILA_REFUSAL_NO_COLON = 23,            /* `:` is missing */
    KUSTHRILA_REFUSAL_NO_LIFETIME_NAME = 24,    /* no name after `'` */
    KUSTHRILA_REFUSAL_OTHER_ITEM_WORD = 25,     /* another item word than `struct` or `enum` */
    KUSTHRILA_REFUSAL_NEGATIVE_VALUE = 26,      /* the literal after `-` is not digits alone, or worth too much */
    KUSTHRILA_REFUSAL_NO_CONST_NAME = 27,       /* no name after `const` */
    KUSTHRILA_REFUSAL_NO_ENTRY_COMMA = 28,      /* tagged: no `,` after a value */
    KUSTHRILA_REFUSAL_NO_ENTRY = 29,            /* tagged: neither a key nor a key and a value */
    KUSTHRILA_REFUSAL_ADDED_NAME = 30,          /* an added name is no name of at most 255 bytes, or has `r#` */
    KUSTHRILA_REFUSAL_NOT_ONE_GROUP = 31,       /* tagged: the list is not one group */
    KUSTHRILA_REFUSAL_NO_TOKEN = 40,            /* source: no token begins at the offset, or a bracket does not match */
    KUSTHRILA_REFUSAL_OVER_LIMIT = 41,          /* source: the list passes a limit of lists */
    KUSTHRILA_REFUSAL_NO_INTEGER = 42,          /* listing: a variant's value is no integer, or above the range of int64_t */
    KUSTHRILA_REFUSAL_NO_STEP = 43,             /* listing: a variant without value after the largest int64_t */
    KUSTHRILA_REFUSAL_NAME_TWICE = 50,          /* listing: the name of an earlier variant, `r#` aside */
    KUSTHRILA_REFUSAL_NUMBER_TWICE = 51         /* listing: the number of an earlier variant */
};

/* Checks a list: the number of its rows, or refusal 1 to 7. */
uint64_t kusthrila_check(const uint8_t *list, size_t list_len);

/* Reads a declaration: KUSTHRILA_STRUCT or KUSTHRILA_ENUM, with the role of each row in the first bytes of roles and
 * KUSTHRILA_NO_ROLE in the rest; or a refusal, with KUSTHRILA_NO_ROLE in every byte of roles. roles must have a byte for
 * each row, else refusal 8. */
uint64_t kusthrila_read(const uint8_t *list, size_t list_len, uint8_t *roles, size_t roles_len);

/* Writes the listing at the start of out: its length, with the bytes after it as they were; or a refusal, with all bytes
 * as they were. 42 and 43, where a variant has no number, and 50 and 51, where two variants have one name or one
 * number, are refusals of this function alone. out must be long enough for the listing, else refusal 8;
 * KUSTHRILA_MOST_LISTING bytes always are. */
uint64_t kusthrila_listing(const uint8_t *list, size_t list_len, uint8_t *out, size_t out_len);

/* Writes the generics of the declaration as a token list at the start of out: as they stand behind `impl`, without defaults, or
 * as names alone, as they stand behind the type's name. The answer is the list's length, with the bytes after it as they were; or
 * a refusal, with all bytes as they were. A declaration without generics gives the line of names alone. out must be long enough,
 * else refusal 8; KUSTHRILA_MOST_GENERICS bytes always are. At most the first 4,294,967,295 bytes of out are used.
 *
 * What is written has the names of the list that was read. With marks, a copied bound or const type keeps its own, but that every
 * `'` goes out joint; the rows that the writer makes itself are not joint, but for `'`. */
uint64_t kusthrila_impl_generics(const uint8_t *list, size_t list_len, uint8_t *out, size_t out_len);
uint64_t kusthrila_type_generics(const uint8_t *list, size_t list_len, uint8_t *out, size_t out_len);

/* The same as kusthrila_impl_generics with added lifetimes in front and added types behind. Each is a text: a name a line, without
 * `'`; the last line may lack its LF, and an empty text has no names. A name that is not right is refusal 30, also where the
 * declaration has no generics. KUSTHRILA_MOST_ADDED(lifetimes_len, types_len) bytes of out are always enough. */
uint64_t kusthrila_impl_generics_with_additional(const uint8_t *list, size_t list_len, const uint8_t *lifetimes,
                                                 size_t lifetimes_len, const uint8_t *types, size_t types_len, uint8_t *out,
                                                 size_t out_len);

/* The value of the variant at this position, counted from 0. 0: it has none, or there is no such variant. Below 65536:
 * its text is that many bytes at the start of scratch. Else below KUSTHRILA_REFUSED: its text is the part of the list from
 * answer / 65536 up to answer % 65536. Else a refusal; 8 where scratch has fewer than KUSTHRILA_SCRATCH bytes. The scratch
 * is written only where the text is a part of it. The functions kusthrila_value_* below take the answer apart. */
uint64_t kusthrila_value(const uint8_t *list, size_t list_len, size_t position, uint8_t *scratch, size_t scratch_len);

/* Reads a tagged attribute: a list that is its group, as `[ prefix ( skip , name = "a" ) ]`. KUSTHRILA_FOUND, with a byte of enum
 * kusthrila_tagged_role for each row in the first bytes of roles and KUSTHRILA_NO_ROLE in the rest; KUSTHRILA_ABSENT where the
 * prefix does not stand there or no group follows it, or a refusal, both with KUSTHRILA_NO_ROLE in every byte of roles. The prefix
 * is compared as text. roles must have a byte for each row, else refusal 8. */
uint64_t kusthrila_tagged(const uint8_t *list, size_t list_len, const uint8_t *prefix, size_t prefix_len, uint8_t *roles,
                          size_t roles_len);

/* Compares two names, which may be the same bytes: their lengths, then their bytes from the last to the first. The answer is twice
 * the number of pairs of bytes that were looked at, and one more where the names are equal: no pair where the lengths differ, else
 * those from the last down to the first unequal one, or all. Nothing is refused; the two functions below take the answer apart. */
uint64_t kusthrila_same_name(const uint8_t *a, size_t a_len, const uint8_t *b, size_t b_len);
static inline int kusthrila_names_equal(uint64_t answer) { return (int)(answer % 2u); }
static inline uint64_t kusthrila_pairs(uint64_t answer) { return answer / 2u; }

/* Reads Rust source text and writes its token list, with the names `kind text`, at the start of out: the list's length,
 * with the bytes after it as they were; or a refusal, with all bytes as they were. 40, where the text is no tokens or a
 * bracket does not match: the offset, in bytes from 0, is written to place, which no other answer changes. 41, where the
 * list would pass a limit: 65,536 bytes, 4,096 rows, 255 bytes of a row's text, 32 open groups. Last, out must be long
 * enough for the list, else refusal 8; KUSTHRILA_MOST_TOKENS bytes always are. In the answer itself the place of each
 * refusal is KUSTHRILA_END. place may not be NULL, nor overlap text or out. */
uint64_t kusthrila_tokens(const uint8_t *text, size_t text_len, uint8_t *out, size_t out_len, uint64_t *place);

/* Reads the declaration in Rust source text at one go: the answer and the roles are those of kusthrila_read for the list
 * that kusthrila_tokens writes; or 40 or 41, as there, with KUSTHRILA_NO_ROLE in every byte of roles. The list stands on the
 * call's own stack and is never too long for it, so that refusal 8 tells that roles is too short. place is as there, and
 * may not overlap roles. kusthrila_row_place tells where the row of a refusal, or of a role, stands in the text. */
uint64_t kusthrila_read_source(const uint8_t *text, size_t text_len, uint8_t *roles, size_t roles_len, uint64_t *place);

/* Where the text of a row of that list stands in the source text: the answer is its offset, and its length is written to
 * length. A doc line's six rows have the whole line. Of a row that the list does not have the answer is text_len, and the
 * length 0. Nothing is refused: in a text that kusthrila_tokens refuses with 40, rows count up to where no token begins. */
uint64_t kusthrila_row_place(const uint8_t *text, size_t text_len, size_t row, uint64_t *length);

/* A refusal's number and place. */
static inline uint64_t kusthrila_number(uint64_t answer) { return answer / KUSTHRILA_REFUSED; }
static inline uint64_t kusthrila_place(uint64_t answer) { return answer % KUSTHRILA_REFUSED; }

/* Where the text of a value is, by an answer of kusthrila_value. */
enum kusthrila_where {
    KUSTHRILA_VALUE_NONE,
    KUSTHRILA_VALUE_IN_SCRATCH,
    KUSTHRILA_VALUE_IN_LIST,
    KUSTHRILA_VALUE_REFUSED
};

static inline enum kusthrila_where kusthrila_value_where(uint64_t answer) {
    if (answer == 0)
        return KUSTHRILA_VALUE_NONE;
    if (answer < 65536u)
        return KUSTHRILA_VALUE_IN_SCRATCH;
    return answer < KUSTHRILA_REFUSED ? KUSTHRILA_VALUE_IN_LIST : KUSTHRILA_VALUE_REFUSED;
}

/* Its first byte, counted from 0, and the byte after its last, in the scratch or in the list; 0 and 0 where there is none. */
static inline size_t kusthrila_value_start(uint64_t answer) {
    return kusthrila_value_where(answer) == KUSTHRILA_VALUE_IN_LIST ? (size_t)(answer / 65536u) : 0;
}
static inline size_t kusthrila_value_end(uint64_t answer) {
    return answer < KUSTHRILA_REFUSED ? (size_t)(answer % 65536u) : 0;
}
static inline size_t kusthrila_value_length(uint64_t answer) {
    return kusthrila_value_end(answer) - kusthrila_value_start(answer);
}

#ifdef __cplusplus
}
#endif

#endif
