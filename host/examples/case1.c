/* Document 01's case 1 from C: an array sized by an override, compacted with KeepUnused::Yes. Prints the case, the number, area and
 * record, and the seven counts. */
#include <inttypes.h>
#include <stdio.h>

#include "cadnohal.h"

#define N CADNOHAL_N
#define SLICE(array) {array, sizeof(array) / sizeof((array)[0])}

int main(void)
{
    /* The last three words of a record are its span, left 0 here, and its tag. */
    uint32_t types[] = {
        0, 0, N, N, 0, 0, 10,
        2, 1, 0, 0, 0, 0, 11,
    };
    uint32_t overrides[] = {0, 0, 1, 0, 0, 0};
    uint32_t expressions[] = {
        0, N, N, N, N, N, N, N, N, N, 0, 0, 20,
        0, N, N, N, N, N, N, N, N, N, 0, 0, 21,
    };
    uint32_t type_map[2], override_map[1], expression_map[2];

    if (cadnohal_abi() != CADNOHAL_ABI) {
        fputs("cadnohal.h and libcadnohal.a don't belong together\n", stderr);
        return 2;
    }
    /* What isn't named is an empty slice. */
    const cadnohal_module module = {
        .types = SLICE(types),
        .overrides = SLICE(overrides),
        .expressions = SLICE(expressions),
        .type_map = SLICE(type_map),
        .override_map = SLICE(override_map),
        .expression_map = SLICE(expression_map),
    };
    cadnohal_answer a = cadnohal_compact_module(&module, 1);

    printf("1 %" PRIu32 " %" PRIu32 " %" PRIu32, a.number, a.area, a.record);
    printf(" %" PRIu32 " %" PRIu32 " %" PRIu32 " %" PRIu32, a.types, a.constants, a.overrides, a.globals);
    printf(" %" PRIu32 " %" PRIu32 " %" PRIu32 "\n", a.expressions, a.members, a.components);
    return a.number == 0 ? 0 : 1;
}
