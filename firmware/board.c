/*
 * A board without a C library: x86-64 Linux, by its system calls alone. It starts `main` and prints.
 */
#include "board.h"
#include "system_call.h"

#include <stddef.h>

int main(void);

enum { WRITE = 1, EXIT = 60, STANDARD_OUTPUT = 1 };

void print(const char *text)
{
    size_t length = 0;
    while (text[length] != 0)
        length++;
    while (length > 0) {
        long put = system_call(WRITE, STANDARD_OUTPUT, (long)text, (long)length);
        if (put <= 0)
            system_call(EXIT, 1, 0, 0);
        text += put;
        length -= (size_t)put;
    }
}

void print_number(uint32_t number)
{
    char text[11];
    size_t at = sizeof text - 1;
    text[at] = 0;
    do {
        text[--at] = (char)('0' + number % 10);
        number /= 10;
    } while (number != 0);
    print(text + at);
}

__attribute__((force_align_arg_pointer, noreturn)) void _start(void)
{
    int status = main();
    for (;;)
        system_call(EXIT, status, 0, 0);
}
