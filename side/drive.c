/* A room driven the way firmware drives it: plant P of document 01, its table made and checked once, of each form, then one call a sample. The next
   reading is the lowest or the highest that the mode's equation and band allow, or one between, by turns. Every answer is held against what is promised:
   no call is refused, every reading lies in S, and at every idle call it lies in R. It ends in "driven N samples". */
#include "hoachulim.h"

#include <stdio.h>
#include <string.h>

enum { NO_MODE = 65535 };

static const uint8_t plant[] = {
    1, 1, 2, 10, 2, 1, 0x86, 3, 0xC2, 3, 0xFC, 2, 0xCC, 3, 9, 8, 18, 0xC8, 1, 18, 0xD8, 4};
/* of each form: one room has one side to split, so that the trees are the same; form 2 has the lower half's length behind the 0 */
static const struct table {
    uint64_t length;
    uint8_t bytes[8];
} tables[] = {{7, {1, 1, 0, 1, 1, 1, 0}}, {8, {2, 1, 0, 2, 1, 1, 1, 0}}, {7, {3, 1, 0, 1, 1, 1, 0}}};
static const int64_t offset[] = {100, 300};

/* Rounded down, for a divisor above 0. */
static int64_t floor_of(int64_t a, int64_t q)
{
    return a >= 0 ? a / q : -((-a + q - 1) / q);
}

/* The table that is made of P in its form, and that a form which is not known is refused, the buffer zeroed. */
static int made(const struct table *table)
{
    uint64_t out[2], form = table->bytes[0];
    uint8_t buffer[8];
    if (hoachulim_make(plant, sizeof plant, form, buffer, table->length, out) != 0 || out[0] != table->length)
        return 0;
    if (memcmp(buffer, table->bytes, table->length) != 0)
        return 0;
    if (hoachulim_make(plant, sizeof plant, UINT64_C(0x100000000) + form, buffer, table->length, out) != 2 || out[0] != 0)
        return 0;
    return buffer[0] + buffer[1] + buffer[3] == 0;
}

/* 200 samples from each reading of R. */
static int driven(const struct table *table)
{
    uint64_t out[5];
    for (int64_t first = 195; first <= 225; first++) {
        int64_t x = first;
        uint64_t place = 0, left = 0;
        for (int sample = 0; sample < 200; sample++) {
            if (x < 190 || x > 230 || (left == 0 && (x < 195 || x > 225)))
                return 0;
            uint64_t mode = hoachulim_control(plant, sizeof plant, table->bytes, table->length, place, left, x, 0, 0, 0, out);
            if (mode > 1 || out[0] != 0 || out[1] != 0 || out[2] != 0)
                return 0;
            place = out[3];
            left = out[4];
            int64_t high = floor_of(9 * x + offset[mode] + 4, 10), low = -floor_of(-(9 * x + offset[mode] - 5), 10);
            x = sample % 3 == 0 ? low : sample % 3 == 1 ? high : (low + high) / 2;
        }
    }
    return 1;
}

/* A reading outside R, a state that cannot be, and a table cut short are refused, and the controller is idle. */
static int refusals(const struct table *table)
{
    uint64_t out[5];
    const uint8_t *bytes = table->bytes;
    if (hoachulim_control(plant, sizeof plant, bytes, table->length, 0, 0, 230, 0, 0, 0, out) != NO_MODE || out[0] != 11 || out[3] + out[4] != 0)
        return 0;
    if (hoachulim_control(plant, sizeof plant, bytes, table->length, UINT64_MAX, 2, 200, 0, 0, 0, out) != NO_MODE || out[0] != 12)
        return 0;
    if (out[3] + out[4] != 0)
        return 0;
    return hoachulim_control(plant, sizeof plant, bytes, 3, 0, 0, 200, 0, 0, 0, out) == NO_MODE && out[0] == 1 && out[1] == 3;
}

int main(void)
{
    uint64_t out[2];
    for (int i = 0; i < 3; i++) {
        const struct table *table = &tables[i];
        if (hoachulim_plant(plant, sizeof plant, out) != 0 || hoachulim_check(plant, sizeof plant, table->bytes, table->length, out) != 0) {
            printf("refused %llu %llu\n", (unsigned long long)out[0], (unsigned long long)out[1]);
            return 1;
        }
        if (!made(table))
            return 2;
        if (!driven(table))
            return 3;
        if (!refusals(table))
            return 4;
    }
    printf("driven %d samples\n", 3 * 31 * 200);
    return 0;
}
