/* The exported functions, called for a case. Of side/foreign this file alone knows how the face lays out an answer. */
#include "calls.h"

#include "hoachulim.h"

#include <string.h>

enum { NO_MODE = 65535 };

/* An answer that is a number, a place or a length, and a step. */
static void told(uint64_t said[ANSWERS], uint64_t number, const uint64_t *out)
{
    const uint64_t all[ANSWERS] = {number, out[0], out[1], 0, 0, 0, 0};
    memcpy(said, all, sizeof all);
}

/* An answer that is a mode and a state. */
static void moved(uint64_t said[ANSWERS], uint64_t mode, const uint64_t refusal[3], const uint64_t next[3])
{
    const uint64_t all[ANSWERS] = {refusal[0], refusal[1], refusal[2], mode == NO_MODE ? UINT64_MAX : mode, next[0], next[1], next[2]};
    memcpy(said, all, sizeof all);
}

static void control(const struct call *c, uint64_t said[ANSWERS])
{
    uint64_t out[5];
    memset(out, 0xFF, sizeof out);
    uint64_t mode =
        hoachulim_control(c->files[0], c->lengths[0], c->files[1], c->lengths[1], c->place, c->left, c->x[0], c->x[1], c->x[2], c->x[3], out);
    moved(said, mode, out, (uint64_t[]){0, out[3], out[4]});
}

static void start_control(const struct call *c, uint64_t said[ANSWERS])
{
    uint64_t out[6];
    memset(out, 0xFF, sizeof out);
    uint64_t mode = hoachulim_start_control(c->files[0], c->lengths[0], c->files[1], c->lengths[1], c->index, c->place, c->left, c->x[0], c->x[1],
                                            c->x[2], c->x[3], out);
    moved(said, mode, out, out + 3);
}

void answer(const struct call *c, uint64_t said[ANSWERS])
{
    const uint8_t *a = c->files[0], *b = c->files[1];
    uint64_t al = c->lengths[0], bl = c->lengths[1], out[2] = {UINT64_MAX, UINT64_MAX}, number = UINT64_MAX;
    switch (c->function) {
    case PLANT: number = hoachulim_plant(a, al, out); break;
    case SHEET: number = hoachulim_sheet(a, al, c->buffer, c->buffer_length, out); break;
    case MAKE: number = hoachulim_make(a, al, c->form, c->buffer, c->buffer_length, out); break;
    case CHECK: number = hoachulim_check(a, al, b, bl, out); break;
    case CONTROL: control(c, said); return;
    case START_MAKE: number = hoachulim_start_make(a, al, b, bl, c->form, c->buffer, c->buffer_length, out); break;
    case START_CHECK: number = hoachulim_start_check(a, al, b, bl, out); break;
    case START_CONTROL: start_control(c, said); return;
    }
    told(said, number, out);
}
