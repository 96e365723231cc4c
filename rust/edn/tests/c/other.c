/* A second file of a program that includes the header. */
#include "edn.h"

const char *name_in_other_file(unsigned code);
uint8_t check_in_other_file(const uint8_t *bytes, size_t bytes_len, uint64_t *value, size_t value_len);

const char *name_in_other_file(unsigned code)
{
    return edn_name(code);
}

uint8_t check_in_other_file(const uint8_t *bytes, size_t bytes_len, uint64_t *value, size_t value_len)
{
    return edn_check(bytes, bytes_len, value, value_len);
}
