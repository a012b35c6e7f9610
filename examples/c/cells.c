/* A pack of ten cells: the highest and the lowest voltage, the sum, and highest minus lowest. The call takes 3 to 12 voltages, so two
 * and thirteen are refused.
 *
 *     ./buttmitrel install
 *     cc -o cells_c examples/c/cells.c $(pkg-config --cflags --libs buttmitrel)
 *     ./cells_c
 *
 * By hand: over 3,600 mV the cells have 12, -2, 5, -13, 11, 20, 1, -6, 9 and 3 mV. The highest of these is 20, the lowest -13, and
 * 20 + 13 = 33. They add up to 61 - 21 = 40, and 10 x 3,600 + 40 = 36,040. So it prints
 *
 *     highest 3620 mV, lowest 3587 mV, sum 36040 mV, difference 33 mV
 *     2 cells: refused 3 at 0
 *     13 cells: refused 3 at 0
 */
#include <inttypes.h>
#include <stdio.h>

#include "buttmitrel.h"

enum { HIGHEST, LOWEST, SUM, THREE };

static void show(const uint16_t *volts, size_t count)
{
    uint32_t three[THREE];
    uint64_t answer = buttmitrel_cells(volts, count, three, THREE);
    if (answer != 0) {
        printf("%zu cells: refused %" PRIu32 " at %" PRIu32 "\n", count, buttmitrel_number(answer), buttmitrel_place(answer));
        return;
    }
    printf("highest %" PRIu32 " mV, lowest %" PRIu32 " mV, ", three[HIGHEST], three[LOWEST]);
    printf("sum %" PRIu32 " mV, difference %" PRIu32 " mV\n", three[SUM], three[HIGHEST] - three[LOWEST]);
}

int main(void)
{
    const uint16_t pack[10] = {3612, 3598, 3605, 3587, 3611, 3620, 3601, 3594, 3609, 3603};
    const uint16_t long_pack[13] = {0};
    show(pack, 10);
    show(pack, 2);
    show(long_pack, 13);
    return 0;
}
