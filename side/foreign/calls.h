/* A case of side/src/bin/cases.rs as it is called, and the answer in the papers' terms. */
#ifndef CALLS_H
#define CALLS_H

#include <stdint.h>

enum { PLANT, SHEET, MAKE, CHECK, CONTROL, START_MAKE, START_CHECK, START_CONTROL, FUNCTIONS };

struct call {
    uint64_t function;
    const uint8_t *files[2];
    uint64_t lengths[2];
    uint64_t index, place, left;
    int64_t x[4];
    uint64_t form;
    uint8_t *buffer;
    uint64_t buffer_length;
};

/* number, place or length written, step, mode (all ones: none), next index, next place, next left */
enum { ANSWERS = 7 };

void answer(const struct call *call, uint64_t said[ANSWERS]);

/* The cases of a file compared (cases.c): the program's exit status. */
int compare(const char *path);

#endif
