/* x86-64 Linux without a C library: a call to the system. */
#ifndef SYSTEM_CALL_H
#define SYSTEM_CALL_H

static long system_call(long number, long a, long b, long c)
{
    long result;
    __asm__ volatile("syscall"
                     : "=a"(result)
                     : "a"(number), "D"(a), "S"(b), "d"(c)
                     : "rcx", "r11", "memory");
    return result;
}

#endif
