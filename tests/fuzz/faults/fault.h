/* Which fault the library has: DT_FAULT, 0 for none. */
#include <stdlib.h>

static inline int fault(void)
{
    static int number = -1;
    if (number < 0)
        number = getenv("DT_FAULT") ? atoi(getenv("DT_FAULT")) : 0;
    return number;
}
