/* Holds the header's look at what is lent against counting byte by byte, for every function and many ways to lend: parts that overlap, that touch,
 * that are empty, NULL. Ends with 0 where all agree. With other.c it is a program of two files that both include the header. */
#include <stdio.h>
#include <stdlib.h>
#include <string.h>

#include "edn.h"

const char *name_in_other_file(unsigned code);
uint8_t check_in_other_file(const uint8_t *bytes, size_t bytes_len, uint64_t *value, size_t value_len);

#define MOST_PARTS 4
#define ARENA_WORDS 8
#define ARENA_BYTES (ARENA_WORDS * sizeof(uint64_t))
#define COUNT_OF(array) (sizeof(array) / sizeof *(array))

/* All parts are lent from here. */
static uint64_t arena[ARENA_WORDS], before[ARENA_WORDS];

struct part {
    unsigned char *start;
    size_t count;
};

/* A function, and of each of its parts how many bytes an element has and whether it is written. */
struct function {
    const char *name;
    uint8_t (*call)(const struct part *p);
    size_t parts;
    size_t size[MOST_PARTS];
    int written[MOST_PARTS];
};

/* Through void: what stands there is as aligned as it has to be. */
static uint64_t *words(struct part p) { return (uint64_t *)(void *)p.start; }
static const uint16_t *steps(struct part p) { return (const uint16_t *)(const void *)p.start; }

static uint8_t call_read(const struct part *p)
{
    return edn_read(p[0].start, p[0].count, p[1].start, p[1].count, words(p[2]), p[2].count);
}

static uint8_t call_print(const struct part *p)
{
    return edn_print(p[0].start, p[0].count, p[1].start, p[1].count, words(p[2]), p[2].count);
}

static uint8_t call_look_up(const struct part *p)
{
    return edn_look_up(p[0].start, p[0].count, steps(p[1]), p[1].count, words(p[2]), p[2].count);
}

static uint8_t call_correct(const struct part *p)
{
    return edn_correct(p[0].start, p[0].count, p[0].count, steps(p[1]), p[1].count, p[2].start, p[2].count, words(p[3]), p[3].count);
}

static uint8_t call_check(const struct part *p)
{
    return edn_check(p[0].start, p[0].count, words(p[1]), p[1].count);
}

static const struct function functions[] = {
    {"edn_read", call_read, 3, {1, 1, 8, 0}, {0, 1, 1, 0}},
    {"edn_print", call_print, 3, {1, 1, 8, 0}, {0, 1, 1, 0}},
    {"edn_look_up", call_look_up, 3, {1, 2, 8, 0}, {0, 0, 1, 0}},
    {"edn_correct", call_correct, 4, {1, 2, 1, 8}, {1, 0, 0, 1}},
    {"edn_check", call_check, 2, {1, 8, 0, 0}, {0, 1, 0, 0}},
};

static void fail(const struct function *f, const char *why)
{
    fprintf(stderr, "%s: %s\n", f->name, why);
    exit(1);
}

/* Ones: each byte is an item, and so is what they are as a text. */
static void fill_arena(void)
{
    memset(arena, '1', sizeof arena);
    memcpy(before, arena, sizeof arena);
}

/* Whether some byte belongs to two parts of which one is written. */
static int overlap(const struct function *f, const struct part *p)
{
    const unsigned char *byte;
    const unsigned char *first = (const unsigned char *)arena;
    for (byte = first; byte < first + ARENA_BYTES; byte++) {
        int holders = 0;
        int written = 0;
        size_t i;
        for (i = 0; i < f->parts; i++)
            if (byte >= p[i].start && byte < p[i].start + p[i].count * f->size[i]) {
                holders++;
                written |= f->written[i];
            }
        if (holders > 1 && written)
            return 1;
    }
    return 0;
}

/* Every way to lend parts at these offsets with these counts. */
static void try_overlaps(const struct function *f, struct part *p, size_t i)
{
    static const size_t offsets[] = {0, 7, 8, 9, 15, 24};
    static const size_t counts[] = {0, 1, 2, 8};
    size_t o, c;
    if (i == f->parts) {
        int is_misuse;
        fill_arena();
        is_misuse = f->call(p) == EDN_MISUSE;
        if (is_misuse != overlap(f, p))
            fail(f, is_misuse ? "parts that are apart are refused" : "parts that overlap are taken");
        if (is_misuse && memcmp(arena, before, sizeof arena) != 0)
            fail(f, "a misused call wrote something");
        return;
    }
    for (o = 0; o < COUNT_OF(offsets); o++)
        for (c = 0; c < COUNT_OF(counts); c++) {
            size_t offset = offsets[o] / f->size[i] * f->size[i];
            if (offset + counts[c] * f->size[i] > ARENA_BYTES)
                continue;
            p[i].start = (unsigned char *)arena + offset;
            p[i].count = counts[c];
            try_overlaps(f, p, i + 1);
        }
}

/* Parts that are apart, one element each, those of a set empty. */
static void lend_apart(const struct function *f, struct part *p, unsigned empty)
{
    size_t i;
    for (i = 0; i < f->parts; i++) {
        p[i].start = (unsigned char *)&arena[i];
        p[i].count = (empty >> i & 1) ? 0 : 1;
    }
}

/* NULL with 0 elements, for every set of parts, is as good as any other pointer. */
static void try_null_with_none(const struct function *f)
{
    struct part p[MOST_PARTS];
    uint64_t left[ARENA_WORDS];
    unsigned set;
    for (set = 0; set < 1u << f->parts; set++) {
        uint8_t code;
        size_t i;
        fill_arena();
        lend_apart(f, p, set);
        code = f->call(p);
        memcpy(left, arena, sizeof arena);
        fill_arena();
        for (i = 0; i < f->parts; i++)
            if (p[i].count == 0)
                p[i].start = NULL;
        if (code == EDN_MISUSE || f->call(p) != code || memcmp(arena, left, sizeof arena) != 0)
            fail(f, "NULL with no elements is not taken");
    }
}

/* NULL with elements, and more elements than memory can have. */
static void try_impossible(const struct function *f)
{
    static const size_t too_many[] = {1, 2, SIZE_MAX / 8, SIZE_MAX / 8 + 1, SIZE_MAX / 2, SIZE_MAX / 2 + 1, SIZE_MAX - 1, SIZE_MAX};
    struct part p[MOST_PARTS];
    size_t i, c;
    fill_arena();
    for (i = 0; i < f->parts; i++)
        for (c = 0; c < COUNT_OF(too_many); c++) {
            lend_apart(f, p, 0);
            p[i].count = too_many[c];
            p[i].start = NULL;
            if (f->call(p) != EDN_MISUSE || memcmp(arena, before, sizeof arena) != 0)
                fail(f, "NULL with elements is taken");
            p[i].start = (unsigned char *)arena;
            if (too_many[c] > SIZE_MAX / 8 && f->call(p) != EDN_MISUSE)
                fail(f, "more elements than there are addresses are taken");
        }
    if (memcmp(arena, before, sizeof arena) != 0)
        fail(f, "a misused call wrote something");
}

int main(void)
{
    struct part p[MOST_PARTS];
    size_t i;
    for (i = 0; i < COUNT_OF(functions); i++) {
        try_overlaps(&functions[i], p, 0);
        try_null_with_none(&functions[i]);
        try_impossible(&functions[i]);
    }
    fill_arena();
    if (check_in_other_file((const uint8_t *)arena, 1, &arena[1], 1) != EDN_OK || strcmp(name_in_other_file(EDN_DOTS), "dots") != 0)
        return 1;
    return 0;
}
