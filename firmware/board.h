/* What the board under a program has to offer: somewhere to print to. */
#ifndef BOARD_H
#define BOARD_H

#include <stdint.h>

void print(const char *text);
void print_number(uint32_t number);

#endif
