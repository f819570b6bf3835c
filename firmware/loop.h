/* The control loop of a board. Each function checks the stored bytes once, then calls the controller once a sample.
   It ends only where a call is refused, with the heaters off and the refusal told, or where no reading can be had, with the heaters off. */
#ifndef LOOP_H
#define LOOP_H

#include <stdint.h>

/* A plant file with a table file or a start file, as they stand in flash. */
struct stored {
    const uint8_t *plant, *file;
    uint64_t plant_length, file_length;
};

/* A room that begins in R, by a table. */
void hold(const struct stored *stored);

/* A room that begins in any box of a start file: home to R, and then held there. */
void bring_home(const struct stored *stored);

#endif
