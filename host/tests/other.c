/* A library of form 0, which no header has: a host sees that by its number and calls nothing else of it. */
#include <stdint.h>
#include <stdlib.h>

#define NEVER(name) \
    void name(void) \
    { \
        abort(); \
    }

NEVER(cadnohal_compact)
NEVER(cadnohal_check)
NEVER(cadnohal_lookup)
NEVER(cadnohal_adjust)
NEVER(cadnohal_adjust_range)

uint32_t cadnohal_abi(void)
{
    return 0;
}
