/* Lines out of a run: on the emulated board by semihosting (console_board.c), on the host by standard output (console_host.c). */
#ifndef CONSOLE_H
#define CONSOLE_H

void console_line(const char *text);
_Noreturn void console_end(int status);

#endif
