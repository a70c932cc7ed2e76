/*
 * One hall as it stands in a factory: every rack, box, coordinator and reader is a unit of its own
 * with its own row, and all that goes between them is messages. Firmware calls one function,
 * chinchor_box_step. Two instances are played, and the book is made of one reader's two pages.
 */
#include "board.h"
#include "chinchor.h"

enum { RACKS = 2, BOXES = 3, COORDINATORS = 2, READERS = 2, INSTANCES = 2 };

/* Coordinator 0 has round Zero, in which both racks may speak at once. */
enum { C0 = 0, RACK_0 = 1, RACK_1 = 2, CF0 = RACK_0 | RACK_1 };

/* Headset 7 with 85.0 percent; headset 12, a press operator's, with 132.0; headset 7 with 91.2. */
static const uint32_t QUIET = 7 * 65536 + 850, LOUD = 12 * 65536 + 1320, LATER = 7 * 65536 + 912;

typedef uint8_t block[CHINCHOR_BLOCK];

static block rack[RACKS], box[BOXES], coordinator[COORDINATORS], reader[READERS];

/* All messages in the order in which they were sent, and what stands for one that was not. */
enum { MESSAGES = 24, NOT_SENT = MESSAGES };
static block message[MESSAGES + 1];
static uint32_t messages;

/* What is handed over where a step names no message. */
static const block nothing;

/* The rows of reader 0 at the end of each instance, as a book wants them. */
static block saved[INSTANCES];

static void copy(uint8_t *to, const uint8_t *from)
{
    for (int at = 0; at < CHINCHOR_BLOCK; at++)
        to[at] = from[at];
}

/* Gives each unit its first row, out of a hall that is not used again. */
static void set_up(uint32_t instance)
{
    static uint8_t hall[CHINCHOR_HALL];
    uint32_t answer = chinchor_hall_setup(hall, sizeof hall, instance, RACKS, BOXES, COORDINATORS,
                                          READERS, C0, CF0);
    print("instance ");
    print_number(instance);
    print(": ");
    print_number(answer);
    print("\n");
    for (int k = 0; k < COORDINATORS; k++)
        copy(coordinator[k], hall + (CHINCHOR_COORDINATORS_AT + k) * CHINCHOR_BLOCK);
    for (int k = 0; k < BOXES; k++)
        copy(box[k], hall + (CHINCHOR_BOXES_AT + k) * CHINCHOR_BLOCK);
    for (int k = 0; k < RACKS; k++)
        copy(rack[k], hall + (CHINCHOR_RACKS_AT + k) * CHINCHOR_BLOCK);
    for (int k = 0; k < READERS; k++)
        copy(reader[k], hall + (CHINCHOR_READERS_AT + k) * CHINCHOR_BLOCK);
    messages = 0;
}

static void print_step(uint32_t code, const uint8_t *row)
{
    static const char *const steps[] = {
        "",     "offer", "start",     "join",         "hear",      "open",       "prepare",
        "fast", "blank", "take page", "take reading", "note vote", "note blank", "learn"};
    static const char *const sorts[] = {"coordinator", "box", "rack", "reader"};
    print(sorts[row[CHINCHOR_KIND_AT] - CHINCHOR_COORDINATOR]);
    print(" ");
    print_number(row[CHINCHOR_AGENT_AT]);
    print(", ");
    print(steps[code]);
}

/* One step of one unit; its line says what was answered and sent. Answers the message's number. */
static uint32_t step(uint8_t *row, uint32_t code, const uint8_t *handed, uint32_t n, uint32_t c,
                     uint32_t cf, uint32_t reading)
{
    static const char *const kinds[] = {"", "PROPOSE", "1A", "1B", "2S", "2A", "2B"};
    uint8_t *sent = message[messages];
    uint32_t answer = chinchor_box_step(row, CHINCHOR_BLOCK, handed, CHINCHOR_BLOCK, sent,
                                        CHINCHOR_BLOCK, code, 0, 0, n, c, cf, reading);
    print_step(code, row);
    print(": ");
    print_number(answer);
    if (answer != CHINCHOR_GRANTED || sent[CHINCHOR_KIND_AT] == 0) {
        print("\n");
        return NOT_SENT;
    }
    print(", message ");
    print_number(messages);
    print(" is ");
    print(kinds[sent[CHINCHOR_KIND_AT]]);
    print("\n");
    return messages++;
}

static uint32_t offer(uint8_t *row, uint32_t reading)
{
    return step(row, CHINCHOR_OFFER, nothing, 0, 0, 0, reading);
}

/* A step on a message, which names no numbers. */
static uint32_t on(uint8_t *row, uint32_t code, uint32_t number)
{
    return step(row, code, message[number], 0, 0, 0, 0);
}

static void learn(uint8_t *row, uint32_t n, uint32_t c, uint32_t cf)
{
    step(row, CHINCHOR_LEARN, nothing, n, c, cf, 0);
    print("page:");
    for (int k = 0; k < RACKS; k++) {
        const uint8_t *line = row + CHINCHOR_PAGE_AT + k * CHINCHOR_LINE;
        print(" ");
        if (line[0] == CHINCHOR_ABSENT)
            print("-");
        else if (line[0] == CHINCHOR_NIL)
            print("nil");
        else
            print_number(line[1] + 256u * line[2] + 65536u * line[3] + 16777216u * line[4]);
    }
    print("\n");
}

/* Two racks speak at once: both get on the page without a second try. */
static void both_speak(void)
{
    uint32_t offer_0 = offer(rack[0], QUIET), offer_1 = offer(rack[1], LOUD);
    uint32_t quiet = on(rack[0], CHINCHOR_FAST, offer_0),
             loud = on(rack[1], CHINCHOR_FAST, offer_1);
    on(box[0], CHINCHOR_TAKE_READING, quiet);
    uint32_t of_box_0 = on(box[0], CHINCHOR_TAKE_READING, loud);
    uint32_t first_of_box_1 = on(box[1], CHINCHOR_TAKE_READING, loud);
    uint32_t of_box_1 = on(box[1], CHINCHOR_TAKE_READING, quiet);
    /* Box 2 is behind: the quiet reading has not come through. */
    on(box[2], CHINCHOR_TAKE_READING, loud);
    on(reader[0], CHINCHOR_NOTE_VOTE, of_box_0);
    on(reader[0], CHINCHOR_NOTE_VOTE, first_of_box_1);
    learn(reader[0], 0, C0, CF0);
    on(reader[0], CHINCHOR_NOTE_VOTE, of_box_1);
    learn(reader[0], 0, C0, CF0);

    /* A new round begins over boxes 1 and 2. Reader 1, who saw nothing yet, shows the same page. */
    uint32_t start = step(coordinator[1], CHINCHOR_START, nothing, 1, 0, CF0, 0);
    uint32_t joined_1 = on(box[1], CHINCHOR_JOIN, start);
    uint32_t joined_2 = on(box[2], CHINCHOR_JOIN, start);
    on(coordinator[1], CHINCHOR_HEAR, joined_2);
    step(coordinator[1], CHINCHOR_OPEN, nothing, 0, 0, 0, 0);
    on(coordinator[1], CHINCHOR_HEAR, joined_1);
    uint32_t opened = step(coordinator[1], CHINCHOR_OPEN, nothing, 0, 0, 0, 0);
    on(rack[0], CHINCHOR_PREPARE, opened);
    on(rack[1], CHINCHOR_PREPARE, opened);
    /* Only now the quiet reading comes through to box 2: too late for round Zero. */
    on(box[2], CHINCHOR_TAKE_READING, quiet);
    uint32_t page_of_box_1 = on(box[1], CHINCHOR_TAKE_PAGE, opened);
    uint32_t page_of_box_2 = on(box[2], CHINCHOR_TAKE_PAGE, opened);
    on(reader[1], CHINCHOR_NOTE_VOTE, page_of_box_1);
    on(reader[1], CHINCHOR_NOTE_VOTE, page_of_box_2);
    learn(reader[1], 1, 1, CF0);
    learn(reader[0], 0, C0, CF0);
}

/* Rack 1 is dead: its line stays open, until a new round in which it has no say makes it blank. */
static void one_is_dead(void)
{
    uint32_t reading = on(rack[0], CHINCHOR_FAST, offer(rack[0], LATER));
    uint32_t vote[BOXES];
    for (int k = 0; k < BOXES; k++)
        vote[k] = on(box[k], CHINCHOR_TAKE_READING, reading);
    on(reader[0], CHINCHOR_NOTE_VOTE, vote[0]);
    on(reader[0], CHINCHOR_NOTE_VOTE, vote[1]);
    learn(reader[0], 0, C0, CF0);

    uint32_t start = step(coordinator[1], CHINCHOR_START, nothing, 1, 0, RACK_0, 0);
    on(coordinator[1], CHINCHOR_HEAR, on(box[0], CHINCHOR_JOIN, start));
    on(coordinator[1], CHINCHOR_HEAR, on(box[2], CHINCHOR_JOIN, start));
    uint32_t opened = step(coordinator[1], CHINCHOR_OPEN, nothing, 0, 0, 0, 0);
    on(reader[0], CHINCHOR_NOTE_VOTE, on(box[0], CHINCHOR_TAKE_PAGE, opened));
    on(reader[0], CHINCHOR_NOTE_VOTE, on(box[2], CHINCHOR_TAKE_PAGE, opened));
    learn(reader[0], 1, 1, RACK_0);
}

static void print_book(void)
{
    uint32_t list[INSTANCES * RACKS];
    uint64_t answer = chinchor_book(saved[0], sizeof saved, list, INSTANCES * RACKS);
    uint32_t count = (uint32_t)(answer / 65536);
    print("book: ");
    print_number((uint32_t)(answer % 65536));
    print(", ");
    print_number(count);
    print(" readings:");
    for (uint32_t k = 0; k < count; k++) {
        print(" ");
        print_number(list[k]);
    }
    print("\n");
}

int main(void)
{
    set_up(0);
    both_speak();
    copy(saved[0], reader[0]);
    set_up(1);
    one_is_dead();
    copy(saved[1], reader[0]);
    print_book();
    return 0;
}
