/*
 * The three functions that the library asks of the program it is linked into, for programs that have no
 * C library to bring them.
 */
#include <stddef.h>
#include <stdint.h>

void *memcpy(void *to, const void *from, size_t length)
{
    for (size_t at = 0; at < length; at++)
        ((uint8_t *)to)[at] = ((const uint8_t *)from)[at];
    return to;
}

void *memmove(void *to, const void *from, size_t length)
{
    if ((uintptr_t)to <= (uintptr_t)from)
        return memcpy(to, from, length);
    while (length-- > 0)
        ((uint8_t *)to)[length] = ((const uint8_t *)from)[length];
    return to;
}

void *memset(void *to, int byte, size_t length)
{
    for (size_t at = 0; at < length; at++)
        ((uint8_t *)to)[at] = (uint8_t)byte;
    return to;
}
