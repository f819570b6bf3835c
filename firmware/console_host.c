/* The console of a run on the host. */
#include "console.h"

#include <stdio.h>
#include <stdlib.h>

void console_line(const char *text)
{
    puts(text);
}

_Noreturn void console_end(int status)
{
    exit(status);
}
