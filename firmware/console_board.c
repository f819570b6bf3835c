/* The console of the emulated board: semihosting, that is a breakpoint which the emulator answers. */
#include "console.h"

#include <stdint.h>

static void ask(uint32_t operation, const void *with)
{
    register uint32_t r0 __asm__("r0") = operation;
    register const void *r1 __asm__("r1") = with;
    __asm__ volatile("bkpt 0xAB" : "+r"(r0) : "r"(r1) : "memory");
}

void console_line(const char *text)
{
    ask(4, text); /* SYS_WRITE0 */
    ask(4, "\n");
}

_Noreturn void console_end(int status)
{
    const uint32_t ended[] = {0x20026, (uint32_t)status}; /* ADP_Stopped_ApplicationExit */
    ask(0x20, ended);                                     /* SYS_EXIT_EXTENDED */
    for (;;)
        ;
}
