/* The control loop: what a product's firmware does with the library, and all that it does. It relies on include/hoachulim.h and board.h.
   There is one way to go on after a refusal: not heating. An accepted table is never refused while the room does what the plant allows, so a refusal
   says that a probe, the stored bytes or the plant's figures are wrong, and somebody has to look. */
#include "loop.h"

#include "board.h"
#include "hoachulim.h"

enum { NO_MODE = 65535 };

/* Heaters first, words second. */
static void stop(uint64_t number, uint64_t place, uint64_t step)
{
    board_off();
    board_tell(number, place, step);
}

void hold(const struct stored *s)
{
    uint64_t out[5], place = 0, left = 0;
    int64_t x[4] = {0};
    board_off();
    uint64_t number = hoachulim_check(s->plant, s->plant_length, s->file, s->file_length, out);
    if (number != 0) {
        stop(number, out[0], out[1]);
        return;
    }
    while (board_reading(x)) {
        uint64_t mode = hoachulim_control(s->plant, s->plant_length, s->file, s->file_length, place, left, x[0], x[1], x[2], x[3], out);
        if (mode == NO_MODE) {
            stop(out[0], out[1], out[2]);
            return;
        }
        place = out[3];
        left = out[4];
        board_apply(mode);
    }
    board_off();
}

void bring_home(const struct stored *s)
{
    uint64_t out[6], index = 0, place = 0, left = 0;
    int64_t x[4] = {0};
    board_off();
    uint64_t number = hoachulim_start_check(s->plant, s->plant_length, s->file, s->file_length, out);
    if (number != 0) {
        stop(number, out[0], out[1]);
        return;
    }
    while (board_reading(x)) {
        uint64_t mode =
            hoachulim_start_control(s->plant, s->plant_length, s->file, s->file_length, index, place, left, x[0], x[1], x[2], x[3], out);
        if (mode == NO_MODE) {
            stop(out[0], out[1], out[2]);
            return;
        }
        index = out[3];
        place = out[4];
        left = out[5];
        board_apply(mode);
    }
    board_off();
}
