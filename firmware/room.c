/* See room.h. */
#include "room.h"

#include "board.h"
#include "lines.h"

#include <string.h>

enum { ROOMS = 4, MODES = 256 };

static struct {
    int64_t n, modes, q;
    int64_t edges[ROOMS][4]; /* R lo, R hi, S lo, S hi */
    int64_t bands[MODES][ROOMS][2];
    int64_t rows[MODES][ROOMS][ROOMS + 1];
} plant;

struct seen seen;
static struct run run;
static int64_t reading[ROOMS];
static int read_since;
static uint64_t random_state;

/* The next number of a file, and the next signed one. */
static uint64_t unsigned_at(const uint8_t **at)
{
    uint64_t number = 0;
    for (int shift = 0;; shift += 7) {
        uint8_t byte = *(*at)++;
        number |= (uint64_t)(byte & 0x7F) << shift;
        if (byte < 0x80)
            return number;
    }
}

static int64_t signed_at(const uint8_t **at)
{
    uint64_t number = unsigned_at(at);
    return number % 2 == 0 ? (int64_t)(number / 2) : -(int64_t)(number / 2) - 1;
}

static void read_band(const uint8_t **at, int64_t band[ROOMS][2])
{
    for (int i = 0; i < plant.n; i++)
        for (int end = 0; end < 2; end++)
            band[i][end] = signed_at(at);
}

/* In form 1 mode 0's band stands for all, before the first row; in form 2 each mode begins with its own. */
static void read_plant(const uint8_t *at)
{
    uint64_t form = unsigned_at(&at);
    plant.n = (int64_t)unsigned_at(&at);
    plant.modes = (int64_t)unsigned_at(&at);
    plant.q = (int64_t)unsigned_at(&at);
    unsigned_at(&at); /* K */
    unsigned_at(&at); /* D */
    for (int i = 0; i < plant.n; i++)
        for (int edge = 0; edge < 4; edge++)
            plant.edges[i][edge] = signed_at(&at);
    for (int mode = 0; mode < plant.modes; mode++) {
        if (mode == 0 || form == 2)
            read_band(&at, plant.bands[mode]);
        else
            memcpy(plant.bands[mode], plant.bands[0], sizeof plant.bands[0]);
        for (int i = 0; i < plant.n; i++)
            for (int j = 0; j <= plant.n; j++)
                plant.rows[mode][i][j] = signed_at(&at);
    }
}

static int inside(const int64_t x[4], int edge)
{
    for (int i = 0; i < plant.n; i++)
        if (x[i] < plant.edges[i][edge] || x[i] > plant.edges[i][edge + 1])
            return 0;
    return 1;
}

int room_in_r(const int64_t x[4])
{
    return inside(x, 0);
}

unsigned room_count(void)
{
    return (unsigned)plant.n;
}

/* A whole number from 0 to span (xorshift). */
static int64_t up_to(int64_t span)
{
    random_state ^= random_state << 13;
    random_state ^= random_state >> 7;
    random_state ^= random_state << 17;
    return (int64_t)(random_state % ((uint64_t)span + 1));
}

static int64_t floor_of(int64_t a, int64_t q)
{
    return a >= 0 ? a / q : -((-a + q - 1) / q);
}

/* A reading that may follow: q y - (A x + b) lies in the mode's band, in every room. */
static void follow(uint64_t mode)
{
    int64_t following[ROOMS];
    for (int i = 0; i < plant.n; i++) {
        const int64_t *row = plant.rows[mode][i];
        int64_t sum = row[plant.n];
        for (int j = 0; j < plant.n; j++)
            sum += row[j] * reading[j];
        int64_t low = -floor_of(-(sum + plant.bands[mode][i][0]), plant.q), high = floor_of(sum + plant.bands[mode][i][1], plant.q);
        int lower = run.next == LOWEST || (run.next == BY_TURNS && (seen.samples + (unsigned)i) % 2 == 0);
        following[i] = run.next == ANY ? low + up_to(high - low) : lower ? low : high;
    }
    memcpy(reading, following, sizeof reading[0] * (size_t)plant.n);
}

void room_begin(const struct stored *stored, const struct run *to_be)
{
    memset(&seen, 0, sizeof seen);
    read_plant(stored->plant);
    run = *to_be;
    memcpy(reading, run.first, sizeof reading);
    read_since = 0;
    random_state = 20261116;
}

int board_reading(int64_t x[4])
{
    if (seen.samples == run.samples)
        return 0;
    seen.left_s |= !inside(reading, 2);
    memcpy(x, reading, sizeof reading);
    if (run.fault == (int)seen.samples)
        x[0] = plant.edges[0][3] + 1;
    seen.samples++;
    read_since = 1;
    return 1;
}

void board_apply(uint64_t mode)
{
    seen.wrong |= !read_since || seen.times_told > 0 || mode >= (uint64_t)plant.modes;
    read_since = 0;
    seen.heating = 1;
    if (mode < (uint64_t)plant.modes)
        follow(mode);
}

void board_off(void)
{
    seen.heating = 0;
    say_word("off");
    say_end();
}

void board_tell(uint64_t number, uint64_t place, uint64_t step)
{
    const uint64_t told[] = {number, place, step};
    memcpy(seen.told, told, sizeof told);
    seen.times_told++;
    say_word("refused");
    for (int i = 0; i < 3; i++)
        say_number((int64_t)told[i]);
    say_end();
}
