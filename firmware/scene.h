/*
 * What the refusals are tried on: halls that were played a few steps on, and blocks changed on
 * purpose.
 */
#ifndef SCENE_H
#define SCENE_H

#include "chinchor.h"

enum { BLOCK = CHINCHOR_BLOCK, HALL = CHINCHOR_HALL, V = 459602, W = 787752 };

/* Blocks of a hall by name. */
enum {
    COORDINATOR_0 = CHINCHOR_COORDINATORS_AT,
    COORDINATOR_1 = CHINCHOR_COORDINATORS_AT + 1,
    BOX_0 = CHINCHOR_BOXES_AT,
    BOX_2 = CHINCHOR_BOXES_AT + 2,
    RACK_0 = CHINCHOR_RACKS_AT,
    RACK_1 = CHINCHOR_RACKS_AT + 1,
    READER_0 = CHINCHOR_READERS_AT,
    READER_1 = CHINCHOR_READERS_AT + 1,
    MESSAGE = CHINCHOR_MESSAGES_AT
};

/* The messages of the first three halls, by number; EMPTY_PAGE is the small one's. */
enum { OFFERED, READING, BLANK, VOTE_OF_BOX_0, VOTE_OF_BOX_1, STARTED, JOINED, MESSAGES };
enum { EMPTY_PAGE = 2 };

/* One hall; the same in another instance, and with a rack more; one with a single box. */
typedef uint8_t hall_bytes[HALL];
extern hall_bytes hall, elsewhere, wider, small;
extern const uint8_t zeros[65 * BLOCK];

/* Plays the four halls. */
void play_all(void);

/* A step of a scene, which must be granted. */
void take(hall_bytes in, uint32_t code, uint32_t agent, uint32_t number, uint32_t n, uint32_t cf,
          uint32_t reading);

void copy(uint8_t *to, const uint8_t *from, size_t length);
int same(const uint8_t *a, const uint8_t *b, size_t length);
uint8_t *of(hall_bytes of_hall, int place);

/*
 * A copy of a block, to be changed; there is one at a time. With one bit flipped, of another agent,
 * or with another reading as the first line of its page; the last two with check words redone.
 */
uint8_t *copied(const uint8_t *block);
uint8_t *flipped(const uint8_t *block, int at);
uint8_t *of_agent(const uint8_t *block, uint8_t agent);
uint8_t *with_line(const uint8_t *block, int page_at, uint32_t reading);

/* Reader 0's row where two boxes hold Nil for rack 0, and the page has Nil for rack 1. */
uint8_t *blank_reader(void);

#endif
