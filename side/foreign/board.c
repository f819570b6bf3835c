/* The program on a bare board: files by semihosting, of newlib (librdimon, which has to be woken) or of picolibc; there is no command line. */
#include "calls.h"

__attribute__((weak)) void initialise_monitor_handles(void);

/* What newlib's exit asks for. */
void _fini(void) {}

int main(void)
{
    if (initialise_monitor_handles)
        initialise_monitor_handles();
    return compare("target/foreign/cases");
}
