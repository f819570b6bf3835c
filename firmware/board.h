/* What the loop (loop.c) asks of a board; a product writes these four for its own probes and heaters. Here a room is emulated (room.c). */
#ifndef BOARD_H
#define BOARD_H

#include <stdint.h>

/* Waits for the next sample and reads the probes, in the plant's counts; x beyond the plant's rooms is not looked at.
   0 where no reading can be had: the loop then stops heating and ends. */
int board_reading(int64_t x[4]);

/* Switches the heaters as the mode says, until the next sample. */
void board_apply(uint64_t mode);

/* No heater on. */
void board_off(void);

/* Tells whoever looks after the room that a call was refused: number, place, step. */
void board_tell(uint64_t number, uint64_t place, uint64_t step);

#endif
