/* The memory of QEMU's mps2-an386: code and stored files from 0 on, data at 0x20000000, and the stack in the board's 16 MB, so that every function
   can be tried on its largest input. A product's script has its own sizes; README says how much the library needs. */
ENTRY(reset)
MEMORY
{
    code (rx) : ORIGIN = 0x00000000, LENGTH = 4M
    data (rw) : ORIGIN = 0x20000000, LENGTH = 4M
    stack (rw) : ORIGIN = 0x21000000, LENGTH = 16M
}
SECTIONS
{
    .text : { KEEP(*(.vectors)) *(.text*) *(.rodata*) } > code
    .ARM.exidx : { *(.ARM.exidx*) } > code
    .data : { data_begin = .; *(.data*) . = ALIGN(4); data_end = .; } > data AT > code
    data_stored = LOADADDR(.data);
    .bss : { bss_begin = .; *(.bss*) *(COMMON) bss_end = .; } > data
    stack_bottom = ORIGIN(stack);
    stack_top = ORIGIN(stack) + LENGTH(stack);
}
