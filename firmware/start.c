/* Start-up of the emulated board, QEMU's mps2-an386, a Cortex-M4: the first two vectors, the reset handler, and a fault handler that ends the run.
   A product has its maker's start-up file instead. */
#include "console.h"

#include <stdint.h>
#include <string.h>

extern uint8_t stack_top[], data_begin[], data_end[], data_stored[], bss_begin[], bss_end[];

int main(void);

void reset(void)
{
    memcpy(data_begin, data_stored, (size_t)(data_end - data_begin));
    memset(bss_begin, 0, (size_t)(bss_end - bss_begin));
    console_end(main());
}

static void fault(void)
{
    console_line("fault");
    console_end(1);
}

__attribute__((section(".vectors"), used)) static const void *const vectors[] = {stack_top, reset, fault, fault, fault, fault, fault};
