/* See lines.h. A word that no longer fits is left out. */
#include "lines.h"

#include "console.h"

#include <string.h>

static char line[240];
static size_t used;

void say_word(const char *word)
{
    size_t length = strlen(word), space = used > 0;
    if (used + space + length >= sizeof line)
        return;
    if (space)
        line[used++] = ' ';
    memcpy(line + used, word, length + 1);
    used += length;
}

void say_number(int64_t number)
{
    char digits[24], *first = digits + sizeof digits - 1;
    uint64_t rest = number < 0 ? 0 - (uint64_t)number : (uint64_t)number;
    *first = 0;
    do {
        *--first = (char)('0' + rest % 10);
        rest /= 10;
    } while (rest > 0);
    if (number < 0)
        *--first = '-';
    say_word(first);
}

void say_end(void)
{
    console_line(used > 0 ? line : "");
    used = 0;
    line[0] = 0;
}
