/* The program where there is an operating system: the file is named on the command line. */
#include "calls.h"

int main(int count, char **words)
{
    return count == 2 ? compare(words[1]) : 2;
}
