/* Reads the second program's cases and answers (side/src/bin/cases.rs sets out the file), calls the library for each, and compares number by number
   and, of a lent buffer, byte by byte, with some bytes behind it. It ends in "N answers, M differ"; the status is 0 only where M is. */
#include "calls.h"

#include <stdio.h>
#include <stdlib.h>
#include <string.h>

/* More than the largest start file, 530,810 bytes, and what stands behind it. */
enum { LARGEST = 532000, BEHIND = 16, MARK = 0xAA };

static const char *const names[FUNCTIONS] = {"plant", "sheet", "make", "check", "control", "start_make", "start_check", "start_control"};
static uint8_t files[2][LARGEST], buffer[LARGEST], wanted[LARGEST];
static FILE *from;

static void fail(const char *why)
{
    printf("%s\n", why);
    exit(2);
}

/* The next number; 0 is told of the end of the file. */
static int number(uint64_t *value)
{
    uint8_t bytes[8];
    if (fread(bytes, 1, sizeof bytes, from) != sizeof bytes)
        return 0;
    *value = 0;
    for (int i = 8; i-- > 0;)
        *value = *value << 8 | bytes[i];
    return 1;
}

static uint64_t next(void)
{
    uint64_t value = 0;
    if (!number(&value))
        fail("the file ends early");
    return value;
}

static uint64_t bytes(uint8_t *to)
{
    uint64_t length = next();
    if (length > LARGEST - BEHIND || fread(to, 1, (size_t)length, from) != length)
        fail("bytes that do not fit or end early");
    return length;
}

/* One case: 1 where the answer or a byte differs. */
static int differs(uint64_t function)
{
    struct call call = {.function = function, .files = {files[0], files[1]}, .buffer = buffer};
    uint64_t said[ANSWERS], expected[ANSWERS];
    for (int i = 0; i < 2; i++)
        call.lengths[i] = bytes(files[i]);
    call.index = next();
    call.place = next();
    call.left = next();
    for (int i = 0; i < 4; i++)
        call.x[i] = (int64_t)next();
    call.form = next();
    call.buffer_length = next();
    for (int i = 0; i < ANSWERS; i++)
        expected[i] = next();
    uint64_t first = bytes(wanted), length = call.buffer_length;
    int rest = (int)next();
    if (length > LARGEST - BEHIND || first > length)
        fail("a buffer that is too long");
    memset(wanted + first, rest, (size_t)(length - first));
    memset(wanted + length, MARK, BEHIND);
    memset(buffer, MARK, (size_t)length + BEHIND);
    answer(&call, said);
    return memcmp(said, expected, sizeof said) != 0 || memcmp(buffer, wanted, (size_t)length + BEHIND) != 0;
}

int compare(const char *path)
{
    unsigned long answers[FUNCTIONS] = {0}, different = 0, all = 0;
    uint64_t function;
    from = fopen(path, "rb");
    if (from == NULL)
        fail("no such file");
    while (number(&function)) {
        if (function >= FUNCTIONS)
            fail("no such function");
        if (differs(function) && different++ < 10)
            printf("case %lu differs: %s\n", all, names[function]);
        answers[function]++;
        all++;
    }
    for (int i = 0; i < FUNCTIONS; i++)
        printf("%s %lu%s", names[i], answers[i], i + 1 < FUNCTIONS ? ", " : "\n");
    printf("%lu answers, %lu differ\n", all, different);
    return different != 0 || all == 0;
}
