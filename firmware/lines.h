/* Lines put together of words and whole numbers, for the console; without printf, which a small part has no room for. */
#ifndef LINES_H
#define LINES_H

#include <stdint.h>

void say_word(const char *word);
void say_number(int64_t number);
/* Ends the line and sends it. */
void say_end(void);

#endif
