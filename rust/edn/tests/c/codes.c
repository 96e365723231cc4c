/* Writes what edn.h says of itself: the version, every code by its name in C, and the words of every number that there could be. */
#include <stdio.h>

#include "edn.h"

#define NUMBERS 1000 /* more than a code can have */

#if EDN_VERSION_NUMBER < EDN_VERSION_OF(0, 2, 0) || EDN_VERSION_NUMBER >= EDN_VERSION_OF(EDN_VERSION_MAJOR + 1, 0, 0)
#error "versions do not compare"
#endif

#define WRITE(name, number, words) printf("code %s %d\n", #name, name);

int main(void)
{
    unsigned n;
    printf("version %s %d.%d.%d\n", EDN_VERSION, EDN_VERSION_MAJOR, EDN_VERSION_MINOR, EDN_VERSION_PATCH);
    EDN_CODES(WRITE)
    for (n = 0; n < NUMBERS; n++)
        printf("name %u %s\n", n, edn_name(n));
    return 0;
}
