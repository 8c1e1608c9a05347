#include "number.h"

/* Not by strtoull: that takes blanks and signs, and gives the largest number for one that does not fit. */
int read_number(const char *text, uint64_t most, uint64_t *out)
{
    uint64_t number = 0;
    if (*text == 0)
        return 0;
    for (; *text; text++) {
        uint64_t digit = (uint64_t)*text - '0';
        if (digit > 9 || number > (most - digit) / 10)
            return 0;
        number = 10 * number + digit;
    }
    *out = number;
    return 1;
}
