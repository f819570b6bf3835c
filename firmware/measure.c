/* What a call costs on the emulated board, for firmware/figures: lines "FUNCTION STATE INPUT STACK INSTRUCTIONS NUMBER", the last 0 where
   nothing was refused.

   Stack: the memory below the caller is painted, the function called, and the lowest word that has changed is looked for. Counted are the function, all
   that it calls, and its arguments with the frame that hands them over.
   Time: QEMU is told to take one nanosecond for an instruction (-icount shift=0), and the board's 25 MHz counter is read before and after. */
#include "hoachulim.h"
#include "lines.h"
#include "stored.h"

STORED(p_plant, "P.plant")
STORED(p_table, "P.table")
STORED(house_plant, "house.plant")
STORED(house_table, "house.table")
STORED(four_plant, "four.plant")
STORED(four_table, "four.table")
STORED(four_lengths_table, "four_lengths.table")
STORED(four_halved_table, "four_halved.table")
STORED(valves_plant, "valves.plant")
STORED(valves_table, "valves.table")
STORED(table_plant, "table.plant")
STORED(table_table, "table.table")
STORED(table_lengths_table, "table_lengths.table")
STORED(table_halved_table, "table_halved.table")
STORED(largest_plant, "plant.plant")
STORED(largest_table, "plant.table")
STORED(sheet_sheet, "sheet.sheet")
STORED(cold_plant, "cold.plant")
STORED(cold_start, "cold.start")
STORED(start_plant, "start.plant")
STORED(start_chain, "start.chain")
STORED(start_start, "start.start")
STORED(start_lengths_start, "start_lengths.start")
STORED(start_halved_start, "start_halved.start")

/* What a call takes: a plant (or a sheet) with a table, a start file or a chain, the state, the reading, and the form that is told. The name
   of an input with tables of form 2 ends with _lengths, of form 3 with _halved. */
struct input {
    const char *name;
    struct stored s;
    uint64_t index, place, left;
    int64_t x[4];
    uint64_t form;
};

static const struct input *in;
static uint8_t buffer[1 << 20];
static uint64_t out[8], number;

static void call_plant(void) { number = hoachulim_plant(in->s.plant, in->s.plant_length, out); }
static void call_sheet(void) { number = hoachulim_sheet(in->s.plant, in->s.plant_length, buffer, sizeof buffer, out); }
static void call_make(void) { number = hoachulim_make(in->s.plant, in->s.plant_length, in->form, buffer, sizeof buffer, out); }
static void call_check(void) { number = hoachulim_check(in->s.plant, in->s.plant_length, in->s.file, in->s.file_length, out); }
static void call_start_check(void) { number = hoachulim_start_check(in->s.plant, in->s.plant_length, in->s.file, in->s.file_length, out); }

static void call_relay(void)
{
    number = hoachulim_relay(in->s.plant, in->s.plant_length, in->s.file, in->s.file_length, in->form, buffer, sizeof buffer, out);
}

static void call_start_make(void)
{
    number = hoachulim_start_make(in->s.plant, in->s.plant_length, in->s.file, in->s.file_length, in->form, buffer, sizeof buffer, out);
}

static void call_control(void)
{
    const int64_t *x = in->x;
    hoachulim_control(in->s.plant, in->s.plant_length, in->s.file, in->s.file_length, in->place, in->left, x[0], x[1], x[2], x[3], out);
    number = out[0];
}

static void call_start_control(void)
{
    const int64_t *x = in->x;
    hoachulim_start_control(in->s.plant, in->s.plant_length, in->s.file, in->s.file_length, in->index, in->place, in->left, x[0], x[1], x[2], x[3], out);
    number = out[0];
}

/* Bytes of stack below here that a call has touched. */
static __attribute__((noinline)) uint32_t stack_of(void (*call)(void))
{
    enum { WORDS = 1 << 18, PAINT = 0x5A5AA5A5 };
    volatile uint32_t *here;
    __asm__ volatile("mov %0, sp" : "=r"(here));
    volatile uint32_t *lowest = here - WORDS;
    for (volatile uint32_t *at = lowest; at < here; at++)
        *at = PAINT;
    call();
    while (*lowest == PAINT)
        lowest++;
    return (uint32_t)((uintptr_t)here - (uintptr_t)lowest);
}

/* Instructions of a call: the counter falls once in 40 ns, so it is called so many times. 0 where the counter has run out. */
static uint32_t time_of(void (*call)(void), uint32_t times)
{
    volatile uint32_t *const counter = (volatile uint32_t *)0xE000E010; /* SysTick: control, reload, current */
    counter[1] = 0xFFFFFF;
    counter[2] = 0;
    counter[0] = 5;
    while (counter[2] == 0)
        ;
    (void)counter[0];
    uint32_t before = counter[2];
    for (uint32_t i = 0; i < times; i++)
        call();
    uint32_t after = counter[2], run_out = counter[0] >> 16;
    return run_out != 0 ? 0 : (uint32_t)((uint64_t)(before - after) * 40 / times);
}

/* Idle calls meet the last tile, of a start file that of its largest box; running ones stand at a mode of the first. */
static void measure(const char *function, void (*call)(void), const char *state, struct input input, uint32_t times)
{
    in = &input;
    say_word(function);
    say_word(state);
    say_word(input.name);
    say_number(stack_of(call));
    say_number(time_of(call, times));
    say_number((int64_t)number);
    say_end();
}

static void a_table(const char *name, struct stored s, int64_t x0, int64_t x1, int64_t x2, int64_t x3, uint64_t place, uint64_t left, uint32_t times)
{
    struct input idle = {name, s, 0, 0, 0, {x0, x1, x2, x3}, 0}, running = {name, s, 0, place, left, {x0, x1, x2, x3}, 0};
    measure("plant", call_plant, "once", idle, times);
    measure("check", call_check, "once", idle, times);
    measure("control", call_control, "idle", idle, times);
    measure("control", call_control, "running", running, times);
}

static void a_start(const char *name, struct stored s, int64_t x, uint64_t index, uint64_t place, uint64_t left, uint32_t times)
{
    struct input idle = {name, s, 0, 0, 0, {x, x}, 0}, running = {name, s, index, place, left, {x, x}, 0};
    measure("start_check", call_start_check, "once", idle, times);
    measure("start_control", call_start_control, "idle", idle, times);
    measure("start_control", call_start_control, "running", running, times);
}

static void a_make(const char *name, struct stored s, uint64_t form)
{
    measure("make", call_make, "once", (struct input){name, s, 0, 0, 0, {0}, form}, 1);
}

static void a_relay(const char *name, struct stored s, uint64_t form)
{
    measure("relay", call_relay, "once", (struct input){name, s, 0, 0, 0, {0}, form}, 1);
}

static void a_start_make(const char *name, uint64_t form)
{
    measure("start_make", call_start_make, "once", (struct input){name, BOTH(start_plant, start_chain), 0, 0, 0, {0}, form}, 1);
}

static void tables(void)
{
    a_table("P", (struct stored)BOTH(p_plant, p_table), 225, 0, 0, 0, 4, 1, 1000);
    a_table("house", (struct stored)BOTH(house_plant, house_table), 2200, 2200, 0, 0, 4, 4, 1000);
    a_table("four", (struct stored)BOTH(four_plant, four_table), 3000, 2200, 3000, 2200, 5, 2, 1000);
    a_table("four_lengths", (struct stored)BOTH(four_plant, four_lengths_table), 3000, 2200, 3000, 2200, 20, 2, 1000);
    a_table("four_halved", (struct stored)BOTH(four_plant, four_halved_table), 3000, 2200, 3000, 2200, 8, 2, 1000);
    a_table("table", (struct stored)BOTH(table_plant, table_table), 1063, 1063, 0, 0, 9, 6, 1);
    a_table("table_lengths", (struct stored)BOTH(table_plant, table_lengths_table), 1063, 1063, 0, 0, 39, 6, 1);
    a_table("table_halved", (struct stored)BOTH(table_plant, table_halved_table), 1063, 1063, 0, 0, 15, 6, 1);
    a_table("valves", (struct stored)BOTH(valves_plant, valves_table), 225, 0, 0, 0, 5, 1, 100);
    a_table("plant", (struct stored)BOTH(largest_plant, largest_table), 500003, 500003, 500003, 500003, 6, 6, 1);
}

static void makes(void)
{
    a_make("P", (struct stored)BOTH(p_plant, p_table), 1);
    a_make("house", (struct stored)BOTH(house_plant, house_table), 1);
    a_make("four", (struct stored)BOTH(four_plant, four_table), 1);
    a_make("four_lengths", (struct stored)BOTH(four_plant, four_table), 2);
    a_make("four_halved", (struct stored)BOTH(four_plant, four_table), 3);
    a_make("valves", (struct stored)BOTH(valves_plant, valves_table), 1);
    a_make("table", (struct stored)BOTH(table_plant, table_table), 1);
    a_make("table_lengths", (struct stored)BOTH(table_plant, table_table), 2);
    a_make("table_halved", (struct stored)BOTH(table_plant, table_table), 3);
}

/* Forms 1 and 2 into each other; form 3 into its own, the one that it can be turned into. */
static void relays(void)
{
    a_relay("four", (struct stored)BOTH(four_plant, four_table), 2);
    a_relay("four_lengths", (struct stored)BOTH(four_plant, four_lengths_table), 1);
    a_relay("table", (struct stored)BOTH(table_plant, table_table), 2);
    a_relay("table_lengths", (struct stored)BOTH(table_plant, table_lengths_table), 1);
    a_relay("table_halved", (struct stored)BOTH(table_plant, table_halved_table), 3);
    a_relay("plant", (struct stored)BOTH(largest_plant, largest_table), 2);
}

static void starts(void)
{
    a_start("cold", (struct stored)BOTH(cold_plant, cold_start), 230, 2, 5, 1, 1000);
    a_start("start", (struct stored)BOTH(start_plant, start_start), 1063, 8, 9, 6, 1);
    a_start("start_lengths", (struct stored)BOTH(start_plant, start_lengths_start), 1063, 8, 39, 6, 1);
    a_start("start_halved", (struct stored)BOTH(start_plant, start_halved_start), 1063, 8, 15, 6, 1);
    a_start_make("start", 1);
    a_start_make("start_lengths", 2);
    a_start_make("start_halved", 3);
}

int main(void)
{
    tables();
    makes();
    relays();
    starts();
    measure("sheet", call_sheet, "once", (struct input){"sheet", BOTH(sheet_sheet, sheet_sheet), 0, 0, 0, {0}, 0}, 100);
    return 0;
}
