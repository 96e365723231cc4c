/* Data sheets in CBOR diagnostic notation: read, print, look up, correct, check.
 *
 * Link with libedn_c.a: `make install`, then `pkg-config --cflags --libs edn`; or name the archive itself, which `make` leaves in
 * crates/edn_c/out/libedn_c.a. The functions in it are proved (crates/edn_c): for every input, good or bad, what they return and every element
 * of what they may write are those of a definition; none needs the heap, keeps anything between calls, or fails otherwise than by the codes
 * below. They call nothing but memcpy and memset, which a C compiler asks of every program. How much stack they use stands at EDN_STACK_READ.
 *
 * Every function returns 0 (EDN_OK), or the number of the refusal: EDN_CODES has them all. What goes with that is written into `value`, as far
 * as it reaches: with value_len 0 nothing is, and no other element is ever changed. value[0] is then the place of the refusal, counted from 0:
 * a byte of the text, a byte of the bytes, or, of EDN_NO_SUCH_PATH, a step of the path; 0 of EDN_TOO_LONG and EDN_NO_ROOM. A refused call
 * changes nothing else.
 *
 * What is lent: each pointer leads to as many elements as the number behind it says. With 0 elements it may be NULL. Two things that are only
 * read may overlap; what is written (out, buffer, value) overlaps nothing else that is lent in the same call. This header looks at that before
 * each call: NULL with a number other than 0, more elements than there are addresses behind the pointer, and such an overlap are answered
 * EDN_MISUSE, and nothing is written, not even `value`. Whether the memory is there is for the caller to see to, as of any C function. So is all
 * of this where the archive's functions are called without this header, from another language or by their symbols: they do not look.
 *
 * A path is the number of a top item, from 0, then of an array's element or of the value of a map's pair, level by level. */
#ifndef EDN_H
#define EDN_H

#include <stddef.h>
#include <stdint.h>

#ifdef __cplusplus
extern "C" {
#endif

/* The version, as three numbers, as a string, and as one number that #if can compare: EDN_VERSION_NUMBER >= EDN_VERSION_OF(0, 2, 0). */
#define EDN_VERSION_MAJOR 0
#define EDN_VERSION_MINOR 2
#define EDN_VERSION_PATCH 0
#define EDN_VERSION EDN_QUOTE(EDN_VERSION_MAJOR) "." EDN_QUOTE(EDN_VERSION_MINOR) "." EDN_QUOTE(EDN_VERSION_PATCH)
#define EDN_VERSION_NUMBER EDN_VERSION_OF(EDN_VERSION_MAJOR, EDN_VERSION_MINOR, EDN_VERSION_PATCH)
#define EDN_VERSION_OF(major, minor, patch) ((major) * 1000000 + (minor) * 1000 + (patch))
#define EDN_QUOTE(macro) EDN_QUOTE_AS_IT_IS(macro)
#define EDN_QUOTE_AS_IT_IS(text) #text

/* The most bytes that a text, a sheet or a result may have: a buffer of this size is never too small. */
#define EDN_MOST 65535

/* The bytes of stack that a call of each function uses at most, as measured by `make stack` (examples/stack.c) on the deepest and the largest
 * inputs, good and refused, and rounded up to the next kilobyte of 1,024 bytes. Reading, printing and correcting build their result, up to
 * EDN_MOST bytes, on the stack, so that a refusal changes nothing. */
#define EDN_STACK_READ (79 * 1024)
#define EDN_STACK_PRINT (77 * 1024)
#define EDN_STACK_LOOK_UP (8 * 1024)
#define EDN_STACK_CORRECT (79 * 1024)
#define EDN_STACK_CHECK (7 * 1024)

/* What a function returns: the name, the number, the words of edn_name. The numbers 0 to 17 are the archive's, 255 is this header's. */
#define EDN_CODES(CODE)                                                                                                       \
    CODE(EDN_OK, 0, "done")                                                                                                   \
    CODE(EDN_TOO_LONG, 1, "too long")                 /* input over EDN_MOST bytes; used length over its buffer */             \
    CODE(EDN_NOT_UTF8, 2, "not UTF-8")                                                                                        \
    CODE(EDN_NO_TOKEN, 3, "no such token")            /* or an unfinished one */                                              \
    CODE(EDN_UNKNOWN_WORD, 4, "unknown word")         /* or prefix */                                                         \
    CODE(EDN_DOTS, 5, "dots")                         /* something is left out */                                             \
    CODE(EDN_FLOAT, 6, "floating-point number")                                                                               \
    CODE(EDN_OUT_OF_RANGE, 7, "number out of range")                                                                          \
    CODE(EDN_BAD_CONTENT, 8, "bad content")           /* of h'..', b64'..' or simple(..) */                                   \
    CODE(EDN_BAD_INDICATOR, 9, "bad indicator")       /* _ and what follows */                                                \
    CODE(EDN_TOO_DEEP, 10, "too deep")                /* over 16 levels */                                                    \
    CODE(EDN_NOT_ALLOWED, 11, "not allowed here")     /* or the text ended */                                                 \
    CODE(EDN_MIXED_CHUNKS, 12, "mixed chunks")        /* of text and of bytes */                                              \
    CODE(EDN_BAD_TYPED_ARRAY, 13, "bad typed array")  /* content or length */                                                 \
    CODE(EDN_NO_ROOM, 14, "no room")                  /* the result is over the buffer or over EDN_MOST bytes */              \
    CODE(EDN_ENDS_INSIDE, 15, "bytes cut off")        /* they end inside an item */                                           \
    CODE(EDN_NOT_WELL_FORMED, 16, "not well-formed")  /* CBOR */                                                              \
    CODE(EDN_NO_SUCH_PATH, 17, "no such path")        /* it is empty or leads nowhere */                                      \
    CODE(EDN_MISUSE, 255, "misuse")                   /* what is lent is not as it is owed; nothing was done */

#define EDN_CODE_IN_ENUM(name, number, words) name = number,
enum edn_code { EDN_CODES(EDN_CODE_IN_ENUM) };
#undef EDN_CODE_IN_ENUM

/* A code in two or three words; of a number that is no code, "unknown code". */
static inline const char *edn_name(unsigned code)
{
    switch (code) {
#define EDN_CODE_IN_SWITCH(name, number, words) \
    case number: return words;
        EDN_CODES(EDN_CODE_IN_SWITCH)
#undef EDN_CODE_IN_SWITCH
    default: return "unknown code";
    }
}

/* READ: a text to the bytes of its items.
 * Returns 0 exactly when the text is a sheet by the customer's rules and its bytes fit. Then the bytes are at the front of `out`, value[0] is
 * their number, and the rest of `out` is as it was. Otherwise all of `out` is as it was. */
uint8_t edn_read(const uint8_t *text, size_t text_len, uint8_t *out, size_t out_len, uint64_t *value, size_t value_len);

/* PRINT: bytes to the text of their items.
 * Returns 0 exactly when the bytes are a sheet and the text fits. Then the text is at the front of `out` (no zero byte behind it), value[0]
 * is its length, and the rest of `out` is as it was. Otherwise all of `out` is as it was. Reading that text gives the bytes again. */
uint8_t edn_print(const uint8_t *bytes, size_t bytes_len, uint8_t *out, size_t out_len, uint64_t *value, size_t value_len);

/* LOOK UP: where the item at a path stands.
 * Returns 0 exactly when the bytes are a sheet and the path leads to an item. Then the item's own bytes are those from value[0] up to, and
 * not with, value[1]. Asked in this order: the bytes, then EDN_NO_SUCH_PATH. */
uint8_t edn_look_up(const uint8_t *bytes, size_t bytes_len, const uint16_t *path, size_t path_len, uint64_t *value, size_t value_len);

/* CORRECT: one item replaced, in the first `used` bytes of `buffer`, by the item that a text spells.
 * The text is one item with no blank or comment before or behind it. Asked in this order: `used` (EDN_TOO_LONG), the bytes, the path
 * (EDN_NO_SUCH_PATH), the text, room (EDN_NO_ROOM); the place of a refusal counts bytes, steps or text accordingly. Returns 0 where all pass.
 * Then the front of `buffer` is the old bytes with that item's bytes replaced and nothing else changed, value[0] is how many are used now,
 * bytes up to the old `used` that are not used any more are 0, and the rest of `buffer` is as it was. That is what reading the edited text of
 * the sheet gives. Otherwise all of `buffer` is as it was. The buffer may be larger than EDN_MOST; the result may not. */
uint8_t edn_correct(uint8_t *buffer, size_t buffer_len, size_t used, const uint16_t *path, size_t path_len, const uint8_t *text, size_t text_len,
                    uint64_t *value, size_t value_len);

/* CHECK: whether bytes are a sheet: items, and nothing else.
 * Returns 0 exactly when they are; value[0] is then 0. */
uint8_t edn_check(const uint8_t *bytes, size_t bytes_len, uint64_t *value, size_t value_len);

/* The rest looks at what is lent, and then calls the functions above. It stands in this header, since the archive has proved code only, and the
 * archive keeps its symbols, since others link them; so here the plain names come to mean the functions that look first. */

/* Whether a pointer may lead to `count` elements of `size` bytes. */
static inline int edn_is_lent(const void *start, size_t count, size_t size)
{
    return count == 0 || (start != NULL && count <= (UINTPTR_MAX - (uintptr_t)start) / size);
}

/* Whether no byte belongs to both parts. By numbers: C compares pointers into one object only. */
static inline int edn_are_apart(const void *one, size_t one_bytes, const void *other, size_t other_bytes)
{
    uintptr_t a = (uintptr_t)one;
    uintptr_t b = (uintptr_t)other;
    if (one_bytes == 0 || other_bytes == 0)
        return 1;
    return a < b ? b - a >= one_bytes : a - b >= other_bytes;
}

/* Whether `value` is lent as it is owed, beside something of which the same was asked. */
static inline int edn_value_is_apart(const uint64_t *value, size_t value_len, const void *other, size_t other_bytes)
{
    return edn_is_lent(value, value_len, sizeof *value) && edn_are_apart(value, value_len * sizeof *value, other, other_bytes);
}

/* What reading and printing are lent: something in, something out, the value. */
static inline int edn_conversion_is_lent(const uint8_t *in, size_t in_len, const uint8_t *out, size_t out_len, const uint64_t *value, size_t value_len)
{
    return edn_is_lent(in, in_len, sizeof *in) && edn_is_lent(out, out_len, sizeof *out) && edn_are_apart(out, out_len, in, in_len)
        && edn_value_is_apart(value, value_len, in, in_len) && edn_value_is_apart(value, value_len, out, out_len);
}

static inline uint8_t edn_read_guarded(const uint8_t *text, size_t text_len, uint8_t *out, size_t out_len, uint64_t *value, size_t value_len)
{
    if (!edn_conversion_is_lent(text, text_len, out, out_len, value, value_len))
        return EDN_MISUSE;
    return edn_read(text, text_len, out, out_len, value, value_len);
}

static inline uint8_t edn_print_guarded(const uint8_t *bytes, size_t bytes_len, uint8_t *out, size_t out_len, uint64_t *value, size_t value_len)
{
    if (!edn_conversion_is_lent(bytes, bytes_len, out, out_len, value, value_len))
        return EDN_MISUSE;
    return edn_print(bytes, bytes_len, out, out_len, value, value_len);
}

static inline uint8_t edn_look_up_guarded(const uint8_t *bytes, size_t bytes_len, const uint16_t *path, size_t path_len, uint64_t *value,
                                          size_t value_len)
{
    if (!edn_is_lent(bytes, bytes_len, sizeof *bytes) || !edn_is_lent(path, path_len, sizeof *path)
        || !edn_value_is_apart(value, value_len, bytes, bytes_len) || !edn_value_is_apart(value, value_len, path, path_len * sizeof *path))
        return EDN_MISUSE;
    return edn_look_up(bytes, bytes_len, path, path_len, value, value_len);
}

static inline uint8_t edn_correct_guarded(uint8_t *buffer, size_t buffer_len, size_t used, const uint16_t *path, size_t path_len,
                                          const uint8_t *text, size_t text_len, uint64_t *value, size_t value_len)
{
    if (!edn_conversion_is_lent(text, text_len, buffer, buffer_len, value, value_len) || !edn_is_lent(path, path_len, sizeof *path)
        || !edn_are_apart(buffer, buffer_len, path, path_len * sizeof *path)
        || !edn_value_is_apart(value, value_len, path, path_len * sizeof *path))
        return EDN_MISUSE;
    return edn_correct(buffer, buffer_len, used, path, path_len, text, text_len, value, value_len);
}

static inline uint8_t edn_check_guarded(const uint8_t *bytes, size_t bytes_len, uint64_t *value, size_t value_len)
{
    if (!edn_is_lent(bytes, bytes_len, sizeof *bytes) || !edn_value_is_apart(value, value_len, bytes, bytes_len))
        return EDN_MISUSE;
    return edn_check(bytes, bytes_len, value, value_len);
}

#define edn_read edn_read_guarded
#define edn_print edn_print_guarded
#define edn_look_up edn_look_up_guarded
#define edn_correct edn_correct_guarded
#define edn_check edn_check_guarded

#ifdef __cplusplus
}
#endif

#endif
