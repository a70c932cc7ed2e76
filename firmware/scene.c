#include "scene.h"

#include "board.h"

hall_bytes hall, elsewhere, wider, small;
const uint8_t zeros[65 * BLOCK];

void copy(uint8_t *to, const uint8_t *from, size_t length)
{
    for (size_t at = 0; at < length; at++)
        to[at] = from[at];
}

int same(const uint8_t *a, const uint8_t *b, size_t length)
{
    for (size_t at = 0; at < length; at++)
        if (a[at] != b[at])
            return 0;
    return 1;
}

uint8_t *of(hall_bytes of_hall, int place)
{
    return of_hall + place * BLOCK;
}

void take(hall_bytes in, uint32_t code, uint32_t agent, uint32_t number, uint32_t n, uint32_t cf,
          uint32_t reading)
{
    uint32_t answer = chinchor_hall_step(in, HALL, code, agent, number, n, 0, cf, reading);
    if (answer != CHINCHOR_GRANTED)
        print("a step of a scene was refused\n");
}

/* 3 boxes, 2 coordinators, 2 readers; V is voted on, rack 1 is blank, coordinator 1 begins a round.
 */
static void play(hall_bytes in, uint32_t instance, uint32_t racks)
{
    chinchor_hall_setup(in, HALL, instance, racks, 3, 2, 2, 0, 3);
    take(in, CHINCHOR_OFFER, 0, 0, 0, 0, V);
    take(in, CHINCHOR_FAST, 0, OFFERED, 0, 0, 0);
    take(in, CHINCHOR_BLANK, 1, READING, 0, 0, 0);
    take(in, CHINCHOR_TAKE_READING, 0, READING, 0, 0, 0);
    take(in, CHINCHOR_TAKE_READING, 1, READING, 0, 0, 0);
    take(in, CHINCHOR_NOTE_VOTE, 0, VOTE_OF_BOX_0, 0, 0, 0);
    take(in, CHINCHOR_NOTE_VOTE, 0, VOTE_OF_BOX_1, 0, 0, 0);
    take(in, CHINCHOR_START, 1, 0, 1, 3, 0);
    take(in, CHINCHOR_JOIN, 2, STARTED, 0, 0, 0);
    take(in, CHINCHOR_HEAR, 1, JOINED, 0, 0, 0);
}

/* One box that has not voted: the round opens with the empty page. */
static void play_small(void)
{
    chinchor_hall_setup(small, HALL, 0, 2, 1, 1, 1, 0, 3);
    take(small, CHINCHOR_START, 0, 0, 1, 3, 0);
    take(small, CHINCHOR_JOIN, 0, 0, 0, 0, 0);
    take(small, CHINCHOR_HEAR, 0, 1, 0, 0, 0);
    take(small, CHINCHOR_OPEN, 0, 0, 0, 0, 0);
}

void play_all(void)
{
    play(hall, 0, 2);
    play(elsewhere, 1, 2);
    play(wider, 0, 3);
    play_small();
}

/* The check words of document 01. */
static void seal(uint8_t *block)
{
    uint32_t sum[2] = {1, 0};
    for (int at = 0; at < BLOCK - 8; at += 4) {
        sum[0] +=
            block[at] + 256u * block[at + 1] + 65536u * block[at + 2] + 16777216u * block[at + 3];
        sum[1] += sum[0];
    }
    for (int k = 0; k < 8; k++)
        block[BLOCK - 8 + k] = (uint8_t)(sum[k / 4] >> 8 * (k % 4));
}

static void set_line(uint8_t *line, uint8_t state, uint32_t reading)
{
    line[0] = state;
    for (int k = 0; k < 4; k++)
        line[1 + k] = (uint8_t)(reading >> 8 * k);
}

uint8_t *copied(const uint8_t *block)
{
    static uint8_t changed[BLOCK];
    copy(changed, block, BLOCK);
    return changed;
}

uint8_t *flipped(const uint8_t *block, int at)
{
    uint8_t *changed = copied(block);
    changed[at] ^= 1;
    return changed;
}

uint8_t *of_agent(const uint8_t *block, uint8_t agent)
{
    uint8_t *changed = copied(block);
    changed[CHINCHOR_AGENT_AT] = agent;
    seal(changed);
    return changed;
}

uint8_t *with_line(const uint8_t *block, int page_at, uint32_t reading)
{
    uint8_t *changed = copied(block);
    set_line(changed + page_at, CHINCHOR_READING, reading);
    seal(changed);
    return changed;
}

uint8_t *blank_reader(void)
{
    enum { HELD = 50, HELD_SIZE = 45, HELD_PAGE = 5 };
    uint8_t *row = copied(of(hall, READER_0));
    set_line(row + CHINCHOR_PAGE_AT + CHINCHOR_LINE, CHINCHOR_NIL, 0);
    for (uint32_t k = 0; k < 2; k++) {
        uint8_t *page = row + HELD + k * HELD_SIZE + HELD_PAGE;
        set_line(page, CHINCHOR_NIL, 0);
        set_line(page + CHINCHOR_LINE, CHINCHOR_READING, V + k);
    }
    seal(row);
    return row;
}
