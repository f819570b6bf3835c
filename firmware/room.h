/* An emulated room in place of probes and heaters: it answers board.h, and does whatever the plant's equation and band allow.
   The plant's bytes are read here a second time and in another way than in the library. */
#ifndef ROOM_H
#define ROOM_H

#include "loop.h"

/* Which of the readings that may follow does. */
enum next { LOWEST, HIGHEST, BY_TURNS, ANY, NEXTS };

/* How a run is to be: it begins at a reading, is over after so many samples, and at sample `fault` room 1 is read one count above S. */
struct run {
    int64_t first[4];
    enum next next;
    unsigned samples;
    int fault; /* below 0: none */
};

/* What came of it. */
struct seen {
    unsigned samples;       /* readings that were asked for */
    int left_s;             /* the room itself was outside S */
    int wrong;              /* a mode that is none, a mode without a reading before it, or one behind a refusal */
    int heating;            /* the last that was heard was a mode, not off */
    uint64_t told[3];       /* the refusal */
    unsigned times_told;
};

extern struct seen seen;

/* The room made ready for a run; the plant is a sound one. */
void room_begin(const struct stored *stored, const struct run *run);

/* Whether a reading lies in R. */
int room_in_r(const int64_t x[4]);

/* The number of rooms. */
unsigned room_count(void);

#endif
