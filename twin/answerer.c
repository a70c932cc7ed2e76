/*
 * The verified library as a process of its own: reads calls from standard
 * input, makes them through the C interface, and writes back the answer and
 * every lent byte.
 *
 * It is for machines that the library's archive is not made for: this program
 * then runs under an emulator, and the agreement program beside it natively.
 * Without a C library and for x86-64 Linux, like the archive; `agreement` builds
 * and starts it.
 *
 * A call is eleven words of four bytes: the function (1 setup, 2 hall step,
 * 3 box step, 4 book), its seven numbers (0 for the book) and the lengths in
 * bytes of what is lent, in the order of the C interface (0 where there is no
 * second or third); then those bytes. The answer is eight bytes, then all that
 * was lent, as it is after the call. All numbers are little-endian. A call that
 * touches bytes around what it is lent ends the program with status 3.
 */
#include "../firmware/system_call.h"
#include "chinchor.h"

enum { ROOM = 1 << 17, GUARD = 64, PAINT = 0xee };

/* Three lent buffers, each between guards that no call may touch. */
static uint8_t room[3][GUARD + ROOM + GUARD] __attribute__((aligned(64)));

enum { READ = 0, WRITE = 1, EXIT = 60 };

__attribute__((noreturn)) static void leave(int status)
{
    for (;;)
        system_call(EXIT, status, 0, 0);
}

/* All of it, or the end of the program: 0 at the end of the input. */
static void read_all(void *to, size_t length)
{
    for (uint8_t *at = to; length > 0;) {
        long got = system_call(READ, 0, (long)at, (long)length);
        if (got <= 0)
            leave(got == 0 ? 0 : 1);
        at += got;
        length -= (size_t)got;
    }
}

static void write_all(const void *from, size_t length)
{
    for (const uint8_t *at = from; length > 0;) {
        long put = system_call(WRITE, 1, (long)at, (long)length);
        if (put <= 0)
            leave(1);
        at += put;
        length -= (size_t)put;
    }
}

static void paint(uint8_t *buffer, size_t length)
{
    for (size_t at = 0; at < GUARD; at++)
        buffer[at] = buffer[GUARD + length + at] = PAINT;
}

static void check_paint(const uint8_t *buffer, size_t length)
{
    for (size_t at = 0; at < GUARD; at++)
        if (buffer[at] != PAINT || buffer[GUARD + length + at] != PAINT)
            leave(3);
}

static void answer_one(void)
{
    uint32_t call[11];
    read_all(call, sizeof call);
    const uint32_t *k = call + 1, *length = call + 8;
    uint8_t *lent[3];
    for (int i = 0; i < 3; i++) {
        if (length[i] > ROOM)
            leave(2);
        paint(room[i], length[i]);
        lent[i] = room[i] + GUARD;
        read_all(lent[i], length[i]);
    }
    uint64_t answer;
    switch (call[0]) {
    case 1:
        answer = chinchor_hall_setup(lent[0], length[0], k[0], k[1], k[2], k[3], k[4], k[5], k[6]);
        break;
    case 2:
        answer = chinchor_hall_step(lent[0], length[0], k[0], k[1], k[2], k[3], k[4], k[5], k[6]);
        break;
    case 3:
        answer = chinchor_box_step(lent[0], length[0], lent[1], length[1], lent[2], length[2], k[0],
                                   k[1], k[2], k[3], k[4], k[5], k[6]);
        break;
    case 4:
        answer = chinchor_book(lent[0], length[0], (uint32_t *)lent[1], length[1] / 4);
        break;
    default:
        leave(2);
    }
    for (int i = 0; i < 3; i++)
        check_paint(room[i], length[i]);
    write_all(&answer, sizeof answer);
    for (int i = 0; i < 3; i++)
        write_all(lent[i], length[i]);
}

__attribute__((force_align_arg_pointer, noreturn)) void _start(void)
{
    for (;;)
        answer_one();
}
