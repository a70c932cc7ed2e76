/*
 * Chinchor: the pages of a factory hall, by collision-fast Paxos, on lent bytes.
 *
 * Racks offer readings, boxes vote on them, and readers build a page with one line per rack: a
 * reading, or blank (Nil). A line that a reader has shown never changes. Document 01 decides on
 * every size, step and refusal named here; what each function does with every lent byte is proved.
 *
 * Firmware of one agent keeps that agent's row, 512 bytes, and calls chinchor_box_step for each
 * message that comes in. The two hall functions run a whole hall in one piece of memory, as a
 * rehearsal does. chinchor_book makes the yearly list out of a reader's saved rows.
 *
 * What the caller owes, since nothing can check it from inside:
 *
 *   - A pointer leads to as many elements as the length beside it says, and is not null, also where
 *     that length is 0. `list` is aligned as uint32_t is.
 *   - The buffers lent to one call do not overlap, and no one else touches them until it returns.
 *   - The program links memcpy, memmove and memset, which the library calls and does not bring.
 *
 * All else may be anything: any lengths, bytes and numbers get an answer. Every number is compared
 * whole; none is cut to a byte first. The library keeps no memory of its own and takes none from a
 * heap, so calls on different buffers may run at the same time.
 *
 * For C99, C11 and C++, hosted or freestanding.
 */
#ifndef CHINCHOR_H
#define CHINCHOR_H

#include <stddef.h>
#include <stdint.h>

#ifdef __cplusplus
extern "C" {
#endif

/*
 * Answers. 0 is granted. Any other number is a refusal: the first that applies in the order given
 * with each function, and then not one lent byte has changed.
 */
enum {
    CHINCHOR_GRANTED = 0,
    CHINCHOR_WRONG_LENGTH = 1,  /* a lent buffer has the wrong length */
    CHINCHOR_BAD_BLOCK = 2,     /* a block that is read fails its check words or its rules */
    CHINCHOR_OTHER_HALL = 3,    /* blocks differ in setup or instance, or a row is not in its place */
    CHINCHOR_NO_SUCH_STEP = 4,  /* code not 1 to 13, no such agent, no such message */
    CHINCHOR_WRONG_MESSAGE = 5, /* a good row or message of another kind or content than named */
    CHINCHOR_WRONG_ROUND = 6,   /* the round does not fit */
    CHINCHOR_ALREADY_DONE = 7,  /* already done */
    CHINCHOR_NO_MAJORITY = 8,   /* no majority of boxes yet */
    CHINCHOR_LINES_CLASH = 9,   /* lines clash, or a page would be all Nil: only on damaged bytes */
    CHINCHOR_POST_FULL = 10,    /* the hall has 96 messages, or the book's list is too short */
    CHINCHOR_OUT_OF_RANGE = 11  /* setup, round or reading out of range */
};

/*
 * The thirteen steps. "Row" is the sort of agent that takes the step, "message" what it is handed,
 * "numbers" which of n, c, cf and reading it looks at; the others are ignored. "Sends" is the kind
 * of the message sent if the step is granted. The last column has those of the refusals 6 to 9 that
 * the step can give.
 *
 *      step          row          message            numbers   sends    6 to 9
 *   1  offer         rack         none               reading   PROPOSE
 *   2  start         coordinator  none               n, cf     1A       6
 *   3  join          box          1A                           1B       6
 *   4  hear          coordinator  1B                           nothing  6 7
 *   5  open          coordinator  none                         2S       6 7 8 9
 *   6  prepare       rack         2S                           nothing  6
 *   7  fast          rack         PROPOSE                      2A       6 7
 *   8  blank         rack         2A with a reading            2A       6 7
 *   9  take page     box          2S not empty                 2B       6 7
 *  10  take reading  box          2A with a reading            2B       6
 *  11  note vote     reader       2B                           nothing  6 7 9
 *  12  note blank    reader       2A with Nil                  nothing  6 7
 *  13  learn         reader       none               n, c, cf  nothing  8 9
 *
 * n and c name a round, cf its racks as bits, rack 0 lowest. A reading is headset * 65536 + dose in
 * tenths of a percent, with headsets from 1 on.
 */
enum {
    CHINCHOR_OFFER = 1,
    CHINCHOR_START = 2,
    CHINCHOR_JOIN = 3,
    CHINCHOR_HEAR = 4,
    CHINCHOR_OPEN = 5,
    CHINCHOR_PREPARE = 6,
    CHINCHOR_FAST = 7,
    CHINCHOR_BLANK = 8,
    CHINCHOR_TAKE_PAGE = 9,
    CHINCHOR_TAKE_READING = 10,
    CHINCHOR_NOTE_VOTE = 11,
    CHINCHOR_NOTE_BLANK = 12,
    CHINCHOR_LEARN = 13
};

/* Sizes in bytes of a block (every row and message is one) and of a hall; messages in a full post. */
enum { CHINCHOR_BLOCK = 512, CHINCHOR_HALL = 60416, CHINCHOR_POST = 96 };

/*
 * A hall is 118 blocks. Where its parts begin, in blocks: the head is block 0, coordinator k is block
 * CHINCHOR_COORDINATORS_AT + k, and so on; message k is block CHINCHOR_MESSAGES_AT + k.
 */
enum {
    CHINCHOR_COORDINATORS_AT = 1,
    CHINCHOR_BOXES_AT = 5,
    CHINCHOR_RACKS_AT = 10,
    CHINCHOR_READERS_AT = 18,
    CHINCHOR_MESSAGES_AT = 22
};

/*
 * What firmware looks at in a good block: byte CHINCHOR_KIND_AT is its kind, byte CHINCHOR_AGENT_AT
 * the agent whose row it is, or who sent it. In a hall's head the message count stands at
 * CHINCHOR_COUNT_AT, in two bytes. In a reader's row the page's line of rack k begins at
 * CHINCHOR_PAGE_AT + k * CHINCHOR_LINE: its state, then the reading in four bytes. Numbers are
 * little-endian. Nothing is to be written there: a row is changed by steps alone.
 */
enum {
    CHINCHOR_KIND_AT = 2,
    CHINCHOR_AGENT_AT = 9,
    CHINCHOR_COUNT_AT = 10,
    CHINCHOR_PAGE_AT = 10,
    CHINCHOR_LINE = 5
};

/* Kinds of messages (1 to 6), of the head, and of rows. */
enum {
    CHINCHOR_PROPOSE = 1,
    CHINCHOR_1A = 2,
    CHINCHOR_1B = 3,
    CHINCHOR_2S = 4,
    CHINCHOR_2A = 5,
    CHINCHOR_2B = 6,
    CHINCHOR_HEAD = 16,
    CHINCHOR_COORDINATOR = 17,
    CHINCHOR_BOX = 18,
    CHINCHOR_RACK = 19,
    CHINCHOR_READER = 20
};

/* States of a line. */
enum { CHINCHOR_ABSENT = 0, CHINCHOR_NIL = 1, CHINCHOR_READING = 2 };

/*
 * One step of one agent, on three lent blocks of 512 bytes: its row, which may be of any sort of
 * agent; the message handed over; room for the message sent. The agent is the row's own: `agent` and
 * `message_number` are ignored, and stand here so that a step has its seven numbers everywhere. A step
 * that names no message does not look at the bytes of `message`, but it must be lent.
 *
 * Granted: the row is rewritten (step 1 leaves it as it was); `sent` is the message sent, or all zero
 * where the step sends none, so that sent[CHINCHOR_KIND_AT] tells.
 *
 * Refusals, in this order:
 *    1  row_len, message_len or sent_len is not 512
 *    4  code is not 1 to 13
 *    2  the row fails its check or rules
 *   11  step 1: reading below 65536. Step 2: n not 1 to 65535, or cf empty or with a rack that is not
 *       there; c is not looked at, the agent is the row's. Step 13: no such round, that is n above
 *       65535, c not below the number of coordinators, cf as above, or n = 0 and not round Zero
 *    2  the message fails its check or rules, where the step names one
 *    3  the message is of another setup or instance than the row, where the step names one
 *    5  the row is not of the sort that takes this step, or the message not what the step names
 *    6 to 9  by number, as document 01 says for each step
 * 10 never occurs here.
 */
uint32_t chinchor_box_step(uint8_t *row, size_t row_len, const uint8_t *message, size_t message_len, uint8_t *sent, size_t sent_len,
                           uint32_t code, uint32_t agent, uint32_t message_number, uint32_t n, uint32_t c, uint32_t cf, uint32_t reading);

/*
 * Sets up a hall in 60416 lent bytes, whatever stood there: all 118 blocks are written, those of agents
 * and messages that are not there with zeros. Rows cut out of it are what firmware starts with.
 *
 * Refusals, in this order:
 *    1  hall_len is not 60416
 *   11  instance above 65535; racks not 1 to 8, boxes not 1 to 5, coordinators or readers not 1 to 4;
 *       c0 not below the number of coordinators; cf0 empty or with a rack that is not there
 */
uint32_t chinchor_hall_setup(uint8_t *hall, size_t hall_len, uint32_t instance, uint32_t racks, uint32_t boxes,
                             uint32_t coordinators, uint32_t readers, uint32_t c0, uint32_t cf0);

/*
 * One step of a hall: the agent of that number, of the sort that takes this step, is handed the message
 * of that number, counted from 0, where the step names one. Only the head, that row and that message
 * are read.
 *
 * Granted: the row is rewritten; where the step sends, the message is put behind the last one and the
 * head counts it. No other byte changes.
 *
 * Refusals, in this order:
 *    1  hall_len is not 60416
 *    2  the head fails its check or rules, or block 0 is not a head
 *    4  code is not 1 to 13, no such agent, or a message number not below the count where the step
 *       names a message
 *   11  as in chinchor_box_step, by the head's setup
 *    2  the row, then the message, fails its check or rules
 *    3  row or message are of another setup or instance than the head, or the row's agent number is
 *       not its place
 *    5 to 9  as in chinchor_box_step
 *   10  the step sends, and the post has 96 messages
 */
uint32_t chinchor_hall_step(uint8_t *hall, size_t hall_len, uint32_t code, uint32_t agent, uint32_t message_number,
                            uint32_t n, uint32_t c, uint32_t cf, uint32_t reading);

/*
 * The book: the list of readings out of 0 to 64 rows of one reader, of instances 0, 1, 2 and on. By
 * instance, then by rack; Nil is skipped, and so is a reading that is in the list; the walk stops at the
 * first absent line of any instance. blocks_len counts bytes, list_len numbers.
 *
 * Answers refusal + 65536 * count; the count is 0 if refused. Granted: the first `count` numbers of
 * `list` are the list, those after it stay as they were. A list of 512 always has room.
 *
 * Refusals, in this order, each over all blocks before the next:
 *    1  blocks_len is not 0 to 64 whole blocks
 *    2  a block fails its check or rules
 *    3  a block's agent or setup is not the first block's, or its instance is not its place
 *    5  a good block that is not a reader's row
 *   10  the list is longer than list_len
 */
uint64_t chinchor_book(const uint8_t *blocks, size_t blocks_len, uint32_t *list, size_t list_len);

#ifdef __cplusplus
}
#endif

#endif
