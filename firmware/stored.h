/* The files that stand in flash beside the code, put there by the assembler from the folder that the compiler is told (-I). */
#ifndef STORED_H
#define STORED_H

#include "loop.h"

#define STORED(name, path)                                                        \
    extern const uint8_t name[], name##_end[];                                    \
    __asm__(".section .rodata\n.balign 4\n.global " #name ", " #name "_end\n" #name \
            ":\n.incbin \"" path "\"\n" #name "_end:\n.byte 0\n.balign 4\n.text\n");

#define LENGTH(name) ((uint64_t)(name##_end - name))
#define BOTH(plant, file) {plant, file, LENGTH(plant), LENGTH(file)}

#endif
