/* Measures how much stack each function uses and holds that against what edn.h states: `make stack` builds and runs it.
 *
 * Each call is run on a stack of our own that was painted before; the deepest byte that the call changed says how far it went. The calls are made
 * through the header, so what its looking takes is in the figures. The inputs: every kind of bracket, none of it up to one level too many, around
 * every kind of item, as short as it can be and so long that the text has EDN_MOST bytes, ended and not; the bytes of each text that is accepted,
 * and those bytes damaged. */
#define _XOPEN_SOURCE 700 /* for ucontext.h */

#include <stdio.h>
#include <string.h>
#include <ucontext.h>

#include "edn.h"

#define STACK_WORDS (128 * 1024 / sizeof(uint64_t))
#define LEVELS 16                    /* the deepest sheet that there is */
#define TOO_MANY (LEVELS + 1)
#define COUNT_OF(array) (sizeof(array) / sizeof *(array))

/* ------------------------------------------------------------------------------------------------------------------------ the painted stack */

static uint64_t stack[STACK_WORDS];
static ucontext_t here, there;

/* How far down from its top the stack is changed by some work. */
static size_t depth_once(void (*work)(void), uint64_t paint)
{
    size_t unchanged = 0;
    size_t i;
    for (i = 0; i < STACK_WORDS; i++)
        stack[i] = paint;
    getcontext(&there);
    there.uc_stack.ss_sp = stack;
    there.uc_stack.ss_size = sizeof stack;
    there.uc_link = &here;
    makecontext(&there, work, 0);
    swapcontext(&here, &there);
    while (unchanged < STACK_WORDS && stack[unchanged] == paint)
        unchanged++;
    return (STACK_WORDS - unchanged) * sizeof *stack;
}

/* The same, with two paints: a word that was written shows under one of them. */
static size_t depth(void (*work)(void))
{
    size_t one = depth_once(work, 0xa5a5a5a5a5a5a5a5u);
    size_t other = depth_once(work, 0x5a5a5a5a5a5a5a5au);
    return one > other ? one : other;
}

/* ----------------------------------------------------------------------------------------------------------------------------- the calls */

static uint8_t text[EDN_MOST], bytes[EDN_MOST + 1], out[EDN_MOST], buffer[EDN_MOST + 1];
static size_t text_len, bytes_len;
static const uint8_t *sheet; /* what is corrected */
static size_t sheet_len;
static uint16_t path[TOO_MANY]; /* all steps 0 */
static size_t path_len;
static uint64_t value[2];
static uint8_t answer;

static void idle(void) {}
static void do_read(void) { answer = edn_read(text, text_len, out, sizeof out, value, 2); }
static void do_print(void) { answer = edn_print(bytes, bytes_len, out, sizeof out, value, 2); }
static void do_look_up(void) { answer = edn_look_up(bytes, bytes_len, path, path_len, value, 2); }
static void do_correct(void)
{
    memcpy(buffer, sheet, sheet_len); /* what an earlier call left there is overwritten */
    answer = edn_correct(buffer, sizeof buffer, sheet_len, path, path_len, text, text_len, value, 2);
}
static void do_check(void) { answer = edn_check(bytes, bytes_len, value, 2); }

struct function {
    const char *name;
    void (*work)(void);
    size_t stated;
    size_t measured;
    unsigned long calls, accepted;
};

enum { READ, PRINT, LOOK_UP, CORRECT, CHECK, FUNCTIONS };

static struct function functions[FUNCTIONS] = {
    {"edn_read", do_read, EDN_STACK_READ, 0, 0, 0},
    {"edn_print", do_print, EDN_STACK_PRINT, 0, 0, 0},
    {"edn_look_up", do_look_up, EDN_STACK_LOOK_UP, 0, 0, 0},
    {"edn_correct", do_correct, EDN_STACK_CORRECT, 0, 0, 0},
    {"edn_check", do_check, EDN_STACK_CHECK, 0, 0, 0},
};

static void measure(struct function *f)
{
    static size_t before; /* what is on the stack already when a call is made */
    size_t taken;
    if (before == 0)
        before = depth(idle);
    taken = depth(f->work) - before;
    if (taken > f->measured)
        f->measured = taken;
    f->calls++;
    f->accepted += answer == EDN_OK;
}

static void measure_correct(const uint8_t *start, size_t len)
{
    sheet = start;
    sheet_len = len;
    measure(&functions[CORRECT]);
}

/* ----------------------------------------------------------------------------------------------------------------------------- the inputs */

struct pair { const char *open, *close; };

static const struct pair brackets[] = {
    {"[", "]"}, {"[_ ", "]"}, {"{1: ", "}"}, {"{_ 1: ", "}"}, {"{[]: ", "}"}, {"{", ": 1}"}, {"1(", ")"}, {"18446744073709551615(", ")"}, {"<<", ">>"},
};

/* What stands inside the brackets: a beginning, a part that may be repeated, an end. */
struct content { const char *begin, *part, *end; };

static const struct content contents[] = {
    {"1", ", 23", ""},
    {"-18446744073709551616", ", -18446744073709551616", ""},
    {"0xffffffffffffffff_3", ", 0b1", ""},
    {"h'", "03 / bits / 01 ", "'"},
    {"b64'", "AQID ", "'"},
    {"\"", "a\\u00e9\\ud83d\\ude00\\\" ", "\""},
    {"'", "a\\u00e9\\' ", "'_2"},
    {"(_ h'01'", ", b64'AQI', 'a'", ")"},
    {"(_ \"a\"", ", \"bc\\n\"", ")"},
    {"''_", ", \"\"_", ""},
    {"simple(255)", ", undefined, null", ""},
    {"64(h'", "0102", "')"},
    {"/ comment / 1", " # more\n", ""},
    {"[1, {2: 3}]", ", <<4>>", ""},
    /* refused ones */
    {"...", "", ""}, {"1", "2345678901234567890", ""}, {"1.5", "", ""}, {"word", "", ""}, {"h'", "0", "'"}, {"24_i", "", ""}, {"]", "", ""},
    {"(_ h'01', ", "h'02', ", "\"a\")"}, {"65(h'01", "0203", "')"}, {"\"not ended", " ", ""}, {"", "\xff", ""}, {"", "", ""},
};

/* Puts a string behind the text, or leaves it out where it does not fit. */
static int put(const char *s)
{
    size_t n = strlen(s);
    if (n > sizeof text - text_len)
        return 0;
    memcpy(text + text_len, s, n);
    text_len += n;
    return 1;
}

/* Brackets of one kind, or with NULL of all kinds in turn, around a content whose part stands there `times` times, as far as there is room. */
static void write_text(const struct pair *kind, int levels, const struct content *c, size_t times, int ended)
{
    int i;
    size_t room_at_end = strlen(c->end);
    text_len = 0;
    for (i = 0; i < levels; i++) {
        const struct pair *p = kind ? kind : &brackets[(size_t)i % COUNT_OF(brackets)];
        put(p->open);
        room_at_end += strlen(p->close);
    }
    put(c->begin);
    if (*c->part)
        while (times-- > 0 && text_len + strlen(c->part) + room_at_end <= sizeof text && put(c->part))
            continue;
    if (!ended)
        return;
    put(c->end);
    while (i-- > 0)
        put((kind ? kind : &brackets[(size_t)i % COUNT_OF(brackets)])->close);
}

/* The functions over bytes, with a path that goes as deep as it can. */
static void measure_bytes(size_t levels)
{
    path_len = levels + 1;
    measure(&functions[PRINT]);
    measure(&functions[CHECK]);
    measure(&functions[LOOK_UP]);
    measure_correct(bytes, bytes_len);
}

/* The bytes that a text was read to, as they are and damaged: their last byte missing or wrong, one level more around them. */
static void measure_bytes_read(size_t levels)
{
    static const uint8_t wrong[] = {0x1c, 0xff, 0xfb, 0xc1};
    size_t i;
    bytes_len = (size_t)value[0];
    memcpy(bytes, out, bytes_len);
    measure_bytes(levels);
    if (bytes_len == 0)
        return;
    for (i = 0; i < sizeof wrong; i++) {
        bytes[bytes_len - 1] = wrong[i];
        measure_bytes(levels);
    }
    bytes_len--;
    measure_bytes(levels);
    bytes[0] = 0x81; /* an array of one */
    memcpy(bytes + 1, out, bytes_len + 1);
    bytes_len += 2;
    measure_bytes(levels);
}

static void measure_text(size_t levels)
{
    static const uint8_t one[] = {0x01};
    measure(&functions[READ]);
    if (answer == EDN_OK)
        measure_bytes_read(levels);
    path_len = 1;
    measure_correct(one, sizeof one);
}

static void measure_all(void)
{
    static const size_t levels[] = {0, LEVELS - 1, LEVELS, TOO_MANY};
    static const size_t times[] = {0, 1, EDN_MOST};
    size_t b, l, c, t;
    for (b = 0; b <= COUNT_OF(brackets); b++)
        for (l = 0; l < COUNT_OF(levels); l++)
            for (c = 0; c < COUNT_OF(contents); c++)
                for (t = 0; t < COUNT_OF(times); t++) {
                    const struct pair *kind = b < COUNT_OF(brackets) ? &brackets[b] : NULL;
                    if (times[t] == EDN_MOST && levels[l] != LEVELS)
                        continue; /* long ones take time; where they stand deepest will do */
                    write_text(kind, (int)levels[l], &contents[c], times[t], 1);
                    measure_text(levels[l]);
                    write_text(kind, (int)levels[l], &contents[c], times[t], 0);
                    measure_text(levels[l]);
                }
}

/* ------------------------------------------------------------------------------------------------------------------------------ the table */

int main(void)
{
    int i, wrong = 0;
    measure_all();
    printf("%-12s %10s %10s %10s %10s\n", "function", "measured", "stated", "calls", "accepted");
    for (i = 0; i < FUNCTIONS; i++) {
        const struct function *f = &functions[i];
        int holds = f->measured <= f->stated && f->measured >= f->stated / 2;
        printf("%-12s %10lu %10lu %10lu %10lu%s\n", f->name, (unsigned long)f->measured, (unsigned long)f->stated, f->calls, f->accepted,
               holds ? "" : "  the header's figure is wrong");
        wrong |= !holds;
    }
    return wrong;
}
