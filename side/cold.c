/* A cold room brought home the way firmware does it: the start file is made once of plant and chain, with tables of each form by turns, checked
   once, then one call a sample.
   The plant is document 01's P with S 150..240, the chain R1 180..225 and R2 160..230. The room begins at each reading of R2; the next reading
   is the lowest or the highest that the mode's equation and band allow, or one between, by turns. Every answer is held against what is promised:
   no call is refused, every reading lies in S, an idle call meets a reading in R within the sum of the longest patterns of tables 1 up to that
   of the smallest box that holds the first reading, and from then on R0's table alone answers. It ends in "came home N times". */
#include "hoachulim.h"

#include <stdio.h>

enum { NO_MODE = 65535 };

static const uint8_t plant[] = {
    1, 1, 2, 10, 2, 1, 0x86, 3, 0xC2, 3, 0xAC, 2, 0xE0, 3, 9, 8, 18, 0xC8, 1, 18, 0xD8, 4};
static const uint8_t chain[] = {1, 2, 0xE8, 2, 0xC2, 3, 0xC0, 2, 0xCC, 3};
static const int64_t offset[] = {100, 300};

static uint8_t start[64];
static uint64_t start_length;

/* What is handed back at the next call; all zeros is idle. */
struct state {
    uint64_t index, place, left;
};

/* Rounded down, for a divisor above 0. */
static int64_t floor_of(int64_t a, int64_t q)
{
    return a >= 0 ? a / q : -((-a + q - 1) / q);
}

/* A reading that may follow: the lowest, the highest, or one between. */
static int64_t next_reading(int64_t x, uint64_t mode, int which)
{
    int64_t high = floor_of(9 * x + offset[mode] + 4, 10), low = -floor_of(-(9 * x + offset[mode] - 5), 10);
    return which == 0 ? low : which == 1 ? high : (low + high) / 2;
}

/* The sum of the longest patterns of tables 1..index; here every length, node and mode is a number of one byte, and form 2 has one length behind a
   split's 0. */
static unsigned longest_way(unsigned index)
{
    unsigned sum = 0, at = sizeof chain;
    for (unsigned table = 0; table <= index; table++) {
        unsigned longest = 0, end = at + 1 + start[at], form = start[at + 1];
        for (at += 3; at < end; at += start[at] == 0 && form == 2 ? 2 : 1 + start[at])
            longest = start[at] > longest ? start[at] : longest;
        sum += table > 0 ? longest : 0;
    }
    return sum;
}

static int idle_in_r(const struct state *state, int64_t x)
{
    return state->left == 0 && x >= 195 && x <= 225;
}

/* One sample: 0 where the call was refused or the reading lies outside S. */
static int sample(struct state *state, int64_t *x, int which)
{
    uint64_t out[6];
    if (*x < 150 || *x > 240)
        return 0;
    uint64_t mode = hoachulim_start_control(plant, sizeof plant, start, start_length, state->index, state->place, state->left, *x, 0, 0, 0, out);
    if (mode > 1 || out[0] != 0 || out[1] != 0 || out[2] != 0)
        return 0;
    *state = (struct state){out[3], out[4], out[5]};
    *x = next_reading(*x, mode, which);
    return 1;
}

/* From a first reading home to R, and on for 300 samples; kind 3 takes lowest, highest and between by turns. */
static int run(int64_t first, int kind)
{
    struct state state = {0, 0, 0};
    int64_t x = first;
    unsigned way = first >= 195 && first <= 225 ? 0 : longest_way(first >= 180 && first <= 225 ? 1 : 2);
    unsigned samples = 0;
    for (; !idle_in_r(&state, x); samples++)
        if (samples == way || !sample(&state, &x, kind == 3 ? (int)(samples % 3) : kind))
            return 0;
    for (int later = 0; later < 300; later++)
        if (state.index != 0 || (state.left == 0 && !idle_in_r(&state, x)) || !sample(&state, &x, kind == 3 ? later % 3 : kind))
            return 0;
    return 1;
}

/* What must be refused: a buffer too short, a form that is not known, a reading outside R2, an index over 2, an index with an idle state, and a file
   cut short. */
static int refusals(uint64_t form)
{
    uint64_t out[6];
    uint8_t small[20];
    /* table 1 splits once, so that in form 2 it is a byte longer */
    uint64_t last_length = form == 2 ? 27 : 26;
    if (hoachulim_start_make(plant, sizeof plant, chain, sizeof chain, 3, small, sizeof small, out) != 10)
        return 0;
    if (hoachulim_start_make(plant, sizeof plant, chain, sizeof chain, 4, small, sizeof small, out) != 2 || out[0] != 0)
        return 0;
    if (hoachulim_start_control(plant, sizeof plant, start, start_length, 0, 0, 0, 159, 0, 0, 0, out) != NO_MODE || out[0] != 11)
        return 0;
    if (hoachulim_start_control(plant, sizeof plant, start, start_length, 3, 5, 1, 200, 0, 0, 0, out) != NO_MODE || out[0] != 12)
        return 0;
    if (hoachulim_start_control(plant, sizeof plant, start, start_length, 1, 0, 0, 200, 0, 0, 0, out) != NO_MODE || out[0] != 12)
        return 0;
    if (hoachulim_start_control(plant, sizeof plant, start, start_length - 1, 0, 0, 0, 160, 0, 0, 0, out) != NO_MODE || out[0] != 3)
        return 0;
    return out[1] == last_length && out[3] + out[4] + out[5] == 0;
}

/* The start file with tables of a form, made and checked; then a run of each kind from each reading of R2. 0 where all came home. */
static int brought_home(uint64_t form)
{
    uint64_t out[2];
    if (hoachulim_start_make(plant, sizeof plant, chain, sizeof chain, form, start, sizeof start, out) != 0)
        return 1;
    start_length = out[0];
    if (start[sizeof chain + 1] != form || hoachulim_start_check(plant, sizeof plant, start, start_length, out) != 0)
        return 2;
    for (int64_t first = 160; first <= 230; first++)
        for (int kind = 0; kind < 4; kind++)
            if (!run(first, kind)) {
                printf("from %lld, kind %d\n", (long long)first, kind);
                return 3;
            }
    return refusals(form) ? 0 : 4;
}

int main(void)
{
    for (uint64_t form = 1; form <= 3; form++) {
        int status = brought_home(form);
        if (status != 0)
            return status;
    }
    printf("came home %d times\n", 3 * 71 * 4);
    return 0;
}
