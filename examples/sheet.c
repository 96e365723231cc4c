/* Reads a sheet, corrects one item of it, and prints it. Build and run, in the repository (`make example` does it too):
 *
 *   (cd crates/edn_c && rt lib --cpu=x86-64)
 *   cc -std=c99 -Wall -Wextra -Werror -pedantic -I include examples/sheet.c crates/edn_c/out/libedn_c.a -o target/sheet
 *   target/sheet
 *
 * or, where the library is installed:
 *
 *   cc examples/sheet.c $(pkg-config --cflags --libs edn) -o sheet
 */
#include <stdio.h>
#include <string.h>

#include "edn.h"

#define COUNT_OF(array) (sizeof(array) / sizeof *(array))

static const char text[] = "# monitors of one vehicle type\n"
                           "{1: \"catalyst\", 2: h'03 / bits / 01', 3: [true, false]}";
static const char item[] = "h'0207'";
static const char dots[] = "[_ 1, ...]";
static const uint16_t path[] = {0, 1}; /* top item 0, the value of its second pair */
static uint8_t sheet[EDN_MOST];
static uint8_t printed[EDN_MOST];

/* The place is value[0], which a misused call does not write. */
static void say(FILE *where, const char *what, uint8_t code, uint64_t place)
{
    if (code == EDN_MISUSE)
        fprintf(where, "%s: %s\n", what, edn_name(code));
    else
        fprintf(where, "%s: refused %u at %lu: %s\n", what, code, (unsigned long)place, edn_name(code));
}

static int failed(const char *what, uint8_t code, uint64_t place)
{
    say(stderr, what, code, place);
    return 1;
}

int main(void)
{
    uint64_t value[2] = {0, 0};
    size_t used;
    uint8_t code;

    /* read: the sheet's bytes are at the front of `sheet`, value[0] says how many */
    code = edn_read((const uint8_t *)text, strlen(text), sheet, sizeof sheet, value, COUNT_OF(value));
    if (code != EDN_OK)
        return failed("read", code, value[0]);
    used = (size_t)value[0];
    printf("read: %lu bytes\n", (unsigned long)used);

    /* look up: the part of `sheet` that holds the item */
    code = edn_look_up(sheet, used, path, COUNT_OF(path), value, COUNT_OF(value));
    if (code != EDN_OK)
        return failed("look up", code, value[0]);
    printf("item: from %lu to %lu\n", (unsigned long)value[0], (unsigned long)value[1]);

    /* correct: in the same buffer */
    code = edn_correct(sheet, sizeof sheet, used, path, COUNT_OF(path), (const uint8_t *)item, strlen(item), value, COUNT_OF(value));
    if (code != EDN_OK)
        return failed("correct", code, value[0]);
    used = (size_t)value[0];

    /* print: no zero byte behind the text */
    code = edn_print(sheet, used, printed, sizeof printed, value, COUNT_OF(value));
    if (code != EDN_OK)
        return failed("print", code, value[0]);
    fwrite(printed, 1, (size_t)value[0], stdout);

    /* a text that is refused, EDN_DOTS at byte 6: the buffer is as it was */
    code = edn_read((const uint8_t *)dots, strlen(dots), sheet, sizeof sheet, value, COUNT_OF(value));
    say(stdout, "read", code, value[0]);
    return edn_check(sheet, used, value, COUNT_OF(value));
}
