/* The loop tried against emulated rooms: rooms held by a table, a cold room brought home by a start file, and refusals.
   The same source runs on the emulated board and on the host. Each answer of the library is told, whole, on a line of its own (the calls are wrapped
   by the linker, so that loop.c stays the product's own), and run compares the lines; what the answers promise about the room is tried here.
   The last line is "N trials, M samples, as promised". */
#include "hoachulim.h"
#include "lines.h"
#include "loop.h"
#include "room.h"
#include "stored.h"

STORED(p_plant, "P.plant")
STORED(p_table, "P.table")
STORED(fan_plant, "fan.plant")
STORED(fan_table, "fan.table")
STORED(valves_plant, "valves.plant")
STORED(valves_table, "valves.table")
STORED(house_plant, "house.plant")
STORED(house_table, "house.table")
STORED(four_plant, "four.plant")
STORED(four_table, "four.table")
STORED(four_lengths_table, "four_lengths.table")
STORED(four_halved_table, "four_halved.table")
STORED(cold_plant, "cold.plant")
STORED(cold_start, "cold.start")

static unsigned calls, home; /* calls so far in a run; the first idle one in R, counted from 1 */

static void tell_answer(int idle, const int64_t x[4], uint64_t mode, const uint64_t *out, int count)
{
    calls++;
    if (home == 0 && idle && room_in_r(x))
        home = calls;
    for (unsigned i = 0; i < room_count(); i++)
        say_number(x[i]);
    say_word(":");
    say_number((int64_t)mode);
    for (int i = 0; i < count; i++)
        say_number((int64_t)out[i]);
    say_end();
}

uint64_t __real_hoachulim_control(const uint8_t *, uint64_t, const uint8_t *, uint64_t, uint64_t, uint64_t, int64_t, int64_t, int64_t, int64_t,
                                  uint64_t *);
uint64_t __wrap_hoachulim_control(const uint8_t *plant, uint64_t plant_length, const uint8_t *table, uint64_t table_length, uint64_t place,
                                  uint64_t left, int64_t x0, int64_t x1, int64_t x2, int64_t x3, uint64_t *out)
{
    uint64_t mode = __real_hoachulim_control(plant, plant_length, table, table_length, place, left, x0, x1, x2, x3, out);
    tell_answer(left == 0, (int64_t[]){x0, x1, x2, x3}, mode, out, 5);
    return mode;
}

uint64_t __real_hoachulim_start_control(const uint8_t *, uint64_t, const uint8_t *, uint64_t, uint64_t, uint64_t, uint64_t, int64_t, int64_t,
                                        int64_t, int64_t, uint64_t *);
uint64_t __wrap_hoachulim_start_control(const uint8_t *plant, uint64_t plant_length, const uint8_t *start, uint64_t start_length, uint64_t index,
                                        uint64_t place, uint64_t left, int64_t x0, int64_t x1, int64_t x2, int64_t x3, uint64_t *out)
{
    uint64_t mode = __real_hoachulim_start_control(plant, plant_length, start, start_length, index, place, left, x0, x1, x2, x3, out);
    tell_answer(left == 0, (int64_t[]){x0, x1, x2, x3}, mode, out, 6);
    return mode;
}

static unsigned trials, samples, broken;

/* One run of the loop; what is wanted: so many samples, a refusal (0: none), and home within so many samples. */
static void trial(const char *name, void (*loop)(const struct stored *), const struct stored *stored, const struct run *run,
                  unsigned wanted_samples, uint64_t wanted_refusal, unsigned within)
{
    calls = home = 0;
    say_word(name);
    say_end();
    room_begin(stored, run);
    loop(stored);
    int kept = seen.samples == wanted_samples && calls == wanted_samples && seen.told[0] == wanted_refusal && seen.times_told == (wanted_refusal != 0);
    kept = kept && !seen.left_s && !seen.wrong && !seen.heating && (wanted_refusal != 0 || (home > 0 && home - 1 <= within));
    if (!kept) {
        broken++;
        say_word("broken:");
        say_word(name);
        say_end();
    }
    trials++;
    samples += seen.samples;
}

/* Rooms held from a reading in R, in each of the ways that a room may go. */
static void held(const char *name, const struct stored *stored, const int64_t first[4])
{
    for (enum next next = LOWEST; next < NEXTS; next++) {
        struct run run = {{first[0], first[1], first[2], first[3]}, next, 1250, -1};
        trial(name, hold, stored, &run, 1250, 0, 0);
    }
}

/* samples/cold.start: boxes 180..225 and 160..230, longest patterns 2 and 2, so that 4 samples bring any room home. */
static void cold(const struct stored *stored)
{
    for (int64_t first = 160; first <= 230; first++)
        for (enum next next = LOWEST; next < NEXTS; next++) {
            struct run run = {{first}, next, 20, -1};
            trial("cold", bring_home, stored, &run, 20, 0, first >= 195 && first <= 225 ? 0 : first >= 180 && first <= 225 ? 2 : 4);
        }
}

/* A reading above S, idle and in mid-pattern; a first reading outside R, and outside every box; bytes that are not accepted, a plant whose band in mode 1
   is too narrow among them: no sample is asked for. */
static void refused(const struct stored *p, const struct stored *house, const struct stored *start)
{
    static const uint8_t heat[] = {1, 1, 1, 1};
    static const uint8_t narrow[] = {2, 1, 2, 10, 2, 1, 0x86, 3, 0xC2, 3, 0xFC, 2, 0xCC, 3, 9, 8, 18, 0xC8, 1, 9, 6, 18, 0xD8, 4};
    const struct stored unsound = {p->plant, heat, p->plant_length, sizeof heat}, thin = {narrow, p->file, sizeof narrow, p->file_length};
    const struct stored cut = {start->plant, start->file, start->plant_length, start->file_length - 1};
    trial("above S, idle", hold, p, &(struct run){{200}, HIGHEST, 50, 5}, 6, 11, 0);
    trial("above S, running", hold, house, &(struct run){{2100, 2100}, ANY, 50, 7}, 8, 11, 0);
    trial("above S, cold", bring_home, start, &(struct run){{160}, LOWEST, 50, 1}, 2, 11, 0);
    trial("outside R", hold, p, &(struct run){{226}, ANY, 50, -1}, 1, 11, 0);
    trial("outside every box", bring_home, start, &(struct run){{159}, ANY, 50, -1}, 1, 11, 0);
    trial("not accepted", hold, &unsound, &(struct run){{200}, ANY, 50, -1}, 0, 7, 0);
    trial("too narrow", hold, &thin, &(struct run){{200}, ANY, 50, -1}, 0, 5, 0);
    trial("cut short", bring_home, &cut, &(struct run){{200}, ANY, 50, -1}, 0, 3, 0);
}

int main(void)
{
    const struct stored p = BOTH(p_plant, p_table), house = BOTH(house_plant, house_table), four = BOTH(four_plant, four_table);
    const struct stored lengths = BOTH(four_plant, four_lengths_table); /* the table of form 2 */
    const struct stored halved = BOTH(four_plant, four_halved_table);   /* the table of form 3 */
    const struct stored fan = BOTH(fan_plant, fan_table), valves = BOTH(valves_plant, valves_table), start = BOTH(cold_plant, cold_start);
    held("P", &p, (int64_t[]){195, 0, 0, 0});
    held("fan", &fan, (int64_t[]){195, 0, 0, 0});
    held("valves", &valves, (int64_t[]){195, 0, 0, 0});
    held("house", &house, (int64_t[]){2000, 2200, 0, 0});
    held("four", &four, (int64_t[]){2000, 2100, 2500, 2200});
    held("four, lengths", &lengths, (int64_t[]){2000, 2100, 2500, 2200});
    held("four, halved", &halved, (int64_t[]){2000, 2100, 2500, 2200});
    cold(&start);
    refused(&p, &house, &start);
    say_number(trials);
    say_word("trials,");
    say_number(samples);
    say_word("samples,");
    say_word(broken == 0 ? "as promised" : "BROKEN");
    say_end();
    return broken != 0;
}
