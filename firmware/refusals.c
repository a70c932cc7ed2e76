/*
 * Every refusal number, met through C: wrong lengths, damaged rows, wrong sorts, rounds that do not
 * fit. Each line is the function, the case and the answer; a line says so if a refused call changed
 * a lent byte, which none may.
 */
#include "board.h"
#include "chinchor.h"
#include "scene.h"

static hall_bytes before;

static void tell(const char *function, const char *what, uint32_t answer, int kept)
{
    print(function);
    print(", ");
    print(what);
    print(": ");
    print_number(answer);
    print(kept ? "\n" : ", BUT LENT BYTES HAVE CHANGED\n");
}

struct step {
    uint32_t code, n, c, cf, reading;
};

/* The C step on copies that are lent with these lengths. */
static void lend(const char *what, const uint8_t *row, size_t row_len, const uint8_t *message,
                 size_t message_len, size_t sent_len, struct step x)
{
    static uint8_t lent_row[BLOCK + 1], lent_message[BLOCK + 1], lent_sent[BLOCK + 1];
    const uint8_t paint = 0xaa;
    copy(lent_row, row, BLOCK);
    copy(lent_message, message, BLOCK);
    lent_row[BLOCK] = lent_message[BLOCK] = paint;
    for (int at = 0; at <= BLOCK; at++)
        lent_sent[at] = paint;
    /* Agent and message number are ignored, so they may be anything. */
    uint32_t answer =
        chinchor_box_step(lent_row, row_len, lent_message, message_len, lent_sent, sent_len, x.code,
                          99, 0xffffffffu, x.n, x.c, x.cf, x.reading);
    int kept = same(lent_message, message, BLOCK);
    if (answer != CHINCHOR_GRANTED) {
        kept = kept && same(lent_row, row, BLOCK);
        for (int at = 0; at <= BLOCK; at++)
            kept = kept && lent_sent[at] == paint;
    }
    tell("box step", what, answer, kept);
}

static void box_step(const char *what, const uint8_t *row, const uint8_t *message, struct step x)
{
    lend(what, row, BLOCK, message, BLOCK, BLOCK, x);
}

static void hall_step(const char *what, size_t length, struct step x, uint32_t agent,
                      uint32_t number)
{
    copy(before, hall, HALL);
    uint32_t answer =
        chinchor_hall_step(hall, length, x.code, agent, number, x.n, x.c, x.cf, x.reading);
    tell("hall step", what, answer, answer == CHINCHOR_GRANTED || same(hall, before, HALL));
}

static const struct step offer = {.code = CHINCHOR_OFFER, .reading = V};
static const struct step fast = {.code = CHINCHOR_FAST};
static const struct step join = {.code = CHINCHOR_JOIN};
static const struct step learn = {.code = CHINCHOR_LEARN, .cf = 3};

static struct step start(uint32_t n, uint32_t c, uint32_t cf)
{
    struct step x = {.code = CHINCHOR_START, .n = n, .c = c, .cf = cf};
    return x;
}

static struct step offer_of(uint32_t reading)
{
    struct step x = {.code = CHINCHOR_OFFER, .reading = reading};
    return x;
}

static struct step learn_of(uint32_t n, uint32_t c, uint32_t cf)
{
    struct step x = {.code = CHINCHOR_LEARN, .n = n, .c = c, .cf = cf};
    return x;
}

static struct step coded(uint32_t code)
{
    struct step x = {.code = code};
    return x;
}

static void box_steps(void)
{
    const uint8_t *rack_0 = of(hall, RACK_0), *rack_1 = of(hall, RACK_1), *box_0 = of(hall, BOX_0);
    const uint8_t *box_2 = of(hall, BOX_2), *reader_0 = of(hall, READER_0);
    const uint8_t *coordinator_1 = of(hall, COORDINATOR_1), *offered = of(hall, MESSAGE + OFFERED);
    const uint8_t *started = of(hall, MESSAGE + STARTED), *joined = of(hall, MESSAGE + JOINED);

    box_step("reading 65536", rack_0, zeros, offer_of(65536));
    box_step("a step that names no message, a damaged message", rack_0, flipped(offered, 11),
             offer);
    box_step("start, c is not looked at", coordinator_1, zeros, start(2, 0xffffffffu, 3));

    lend("row of 511 bytes", rack_0, BLOCK - 1, zeros, BLOCK, BLOCK, offer);
    lend("row of 513 bytes", rack_0, BLOCK + 1, zeros, BLOCK, BLOCK, offer);
    lend("no message bytes", rack_0, BLOCK, zeros, 0, BLOCK, offer);
    lend("room for 511 bytes", rack_0, BLOCK, zeros, BLOCK, BLOCK - 1, offer);
    lend("a wrong length and no such code", rack_0, 0, zeros, BLOCK, BLOCK, coded(14));

    box_step("a row with a bit flipped", flipped(rack_0, 11), zeros, offer);
    box_step("a row's check word flipped", flipped(rack_0, BLOCK - 1), zeros, offer);
    box_step("a row of zeros", zeros, zeros, offer);
    box_step("a row of a rack that is not there", of_agent(rack_0, 2), zeros, offer);
    box_step("a message with a bit flipped", rack_0, flipped(offered, 11), fast);
    box_step("a bad row and a reading out of range", zeros, zeros, offer_of(0));

    box_step("a message of another instance", rack_1, of(elsewhere, MESSAGE + OFFERED), fast);
    box_step("a message of another setup", rack_1, of(wider, MESSAGE + OFFERED), fast);
    box_step("another instance and another kind", box_2, of(elsewhere, MESSAGE + OFFERED), join);

    box_step("code 0", rack_0, zeros, coded(0));
    box_step("code 14", rack_0, zeros, coded(14));
    box_step("code 257", rack_0, zeros, coded(257));
    box_step("code 14 and a bad row", zeros, zeros, coded(14));

    box_step("offer on a box's row", box_0, zeros, offer);
    box_step("join on a PROPOSE", box_0, offered, join);
    box_step("join on a row", box_0, rack_0, join);
    box_step("blank on Nil", rack_1, of(hall, MESSAGE + BLANK), coded(CHINCHOR_BLANK));
    box_step("take page on an empty page", of(small, BOX_0), of(small, MESSAGE + EMPTY_PAGE),
             coded(CHINCHOR_TAKE_PAGE));

    box_step("join a round again", box_2, started, join);
    box_step("hear for another round", of(hall, COORDINATOR_0), joined, coded(CHINCHOR_HEAR));
    box_step("take a reading of a lower round", box_2, of(hall, MESSAGE + READING),
             coded(CHINCHOR_TAKE_READING));

    box_step("fast a second time", rack_0, offered, fast);
    box_step("hear a box a second time", coordinator_1, joined, coded(CHINCHOR_HEAR));
    box_step("note a vote a second time", reader_0, of(hall, MESSAGE + VOTE_OF_BOX_0),
             coded(CHINCHOR_NOTE_VOTE));

    box_step("open with one box of three", coordinator_1, zeros, coded(CHINCHOR_OPEN));
    box_step("learn with no box", of(hall, READER_1), zeros, learn);

    /* The page of a 2B comes after its round, four bytes later than a reader's. */
    box_step("note another vote of the same box and round", reader_0,
             with_line(of(hall, MESSAGE + VOTE_OF_BOX_0), CHINCHOR_PAGE_AT + 4, W),
             coded(CHINCHOR_NOTE_VOTE));
    box_step("learn against the reader's page", with_line(reader_0, CHINCHOR_PAGE_AT, W), zeros,
             learn);
    box_step("learn a page of Nil alone", blank_reader(), zeros, learn);

    box_step("reading 65535", rack_0, zeros, offer_of(65535));
    box_step("start with n = 0", coordinator_1, zeros, start(0, 1, 3));
    box_step("start with n = 65536", coordinator_1, zeros, start(65536, 1, 3));
    box_step("start with no rack", coordinator_1, zeros, start(2, 1, 0));
    box_step("start with rack 2 of 2", coordinator_1, zeros, start(2, 1, 4));
    box_step("learn in a round 0 that is not Zero", reader_0, zeros, learn_of(0, 1, 3));
    box_step("learn with coordinator 2 of 2", reader_0, zeros, learn_of(1, 2, 3));
    box_step("out of range on a row of another sort", box_0, zeros, start(0, 1, 3));
}

/* The hall is spoilt at one block for one step, and mended. */
static void spoilt(const char *what, int place, const uint8_t *block, struct step x)
{
    static uint8_t kept[BLOCK];
    copy(kept, of(hall, place), BLOCK);
    copy(of(hall, place), block, BLOCK);
    hall_step(what, HALL, x, 0, 0);
    copy(of(hall, place), kept, BLOCK);
}

static void hall_steps(void)
{
    hall_step("one byte short", HALL - 1, offer, 0, 0);
    spoilt("the head with a bit flipped", 0, flipped(of(hall, 0), 11), offer);
    spoilt("a rack's row in the head's place", 0, copied(of(hall, RACK_0)), offer);
    hall_step("code 0", HALL, coded(0), 0, 0);
    hall_step("rack 2 of 2", HALL, offer, 2, 0);
    hall_step("rack 256", HALL, offer, 256, 0);
    hall_step("message 7 of 7", HALL, fast, 1, MESSAGES);
    hall_step("reading 65535", HALL, offer_of(65535), 0, 0);
    spoilt("the row with a bit flipped", RACK_0, flipped(of(hall, RACK_0), 11), fast);
    spoilt("the message with a bit flipped", MESSAGE, flipped(of(hall, MESSAGE), 11), fast);
    spoilt("rack 1's row in rack 0's place", RACK_0, copied(of(hall, RACK_1)), fast);
    spoilt("a row of another instance", RACK_0, copied(of(elsewhere, RACK_0)), offer);
    hall_step("fast on a 2A", HALL, fast, 1, READING);
    hall_step("join a round again", HALL, join, 2, STARTED);
    hall_step("fast a second time", HALL, fast, 0, OFFERED);
    hall_step("open with one box of three", HALL, coded(CHINCHOR_OPEN), 1, 0);
    spoilt("learn against the reader's page", READER_0,
           with_line(of(hall, READER_0), CHINCHOR_PAGE_AT, W), learn);
    for (int k = MESSAGES; k < CHINCHOR_POST - 1; k++)
        take(hall, CHINCHOR_OFFER, 0, 0, 0, 0, V);
    hall_step("message 96", HALL, offer, 0, 0);
    hall_step("message 97", HALL, offer, 0, 0);
    hall_step("a full post and already done", HALL, fast, 0, OFFERED);
    hall_step("a full post and nothing to send", HALL, learn, 0, 0);
}

static void setup(const char *what, size_t length, uint32_t instance, uint32_t racks,
                  uint32_t boxes, uint32_t coordinators, uint32_t readers, uint32_t c0,
                  uint32_t cf0)
{
    copy(before, hall, HALL);
    uint32_t answer =
        chinchor_hall_setup(hall, length, instance, racks, boxes, coordinators, readers, c0, cf0);
    tell("setup", what, answer, answer == CHINCHOR_GRANTED || same(hall, before, HALL));
}

static void setups(void)
{
    setup("one byte short", HALL - 1, 0, 2, 3, 2, 2, 0, 3);
    setup("no bytes, out of range", 0, 0, 0, 0, 0, 0, 0, 0);
    setup("instance 65536", HALL, 65536, 2, 3, 2, 2, 0, 3);
    setup("no rack", HALL, 0, 0, 3, 2, 2, 0, 3);
    setup("9 racks", HALL, 0, 9, 3, 2, 2, 0, 3);
    setup("6 boxes", HALL, 0, 2, 6, 2, 2, 0, 3);
    setup("5 coordinators", HALL, 0, 2, 3, 5, 2, 0, 3);
    setup("5 readers", HALL, 0, 2, 3, 2, 5, 0, 3);
    setup("c0 = 2 of 2", HALL, 0, 2, 3, 2, 2, 2, 3);
    setup("cf0 empty", HALL, 0, 2, 3, 2, 2, 0, 0);
    setup("cf0 with rack 2 of 2", HALL, 0, 2, 3, 2, 2, 0, 4);
    setup("258 racks", HALL, 0, 258, 3, 2, 2, 0, 3);
    setup("all at their highest", HALL, 65535, 8, 5, 4, 4, 3, 255);
}

/* Two rows of reader 0, of instances 0 and 1, each with the page {0:V, 1:Nil}. */
static uint8_t pages[2 * BLOCK];

static void learn_page(hall_bytes in, uint8_t *row)
{
    take(in, CHINCHOR_NOTE_BLANK, 0, BLANK, 0, 0, 0);
    take(in, CHINCHOR_LEARN, 0, 0, 0, 3, 0);
    copy(row, of(in, READER_0), BLOCK);
}

static void book(const char *what, const uint8_t *blocks, size_t length, size_t room)
{
    static uint8_t lent[65 * BLOCK];
    uint32_t list[3] = {1, 2, 3};
    copy(lent, blocks, length);
    uint64_t answer = chinchor_book(lent, length, list, room);
    uint32_t refusal = (uint32_t)(answer % 65536), count = (uint32_t)(answer / 65536);
    int kept = same(lent, blocks, length) && list[1] == 2 && list[2] == 3;
    kept = kept && list[0] == (count == 0 ? 1 : V) && (refusal == 0 || count == 0);
    tell("book", what, refusal, kept);
    if (count != 0) {
        print("  count ");
        print_number(count);
        print("\n");
    }
}

static void books(void)
{
    enum { SIZE = sizeof pages };
    book("two rows with the same reading", pages, SIZE, 3);
    book("a list that just fits", pages, SIZE, 1);
    book("no blocks", pages, 0, 0);
    book("one byte too many", pages, SIZE + 1 - BLOCK, 3);
    book("65 blocks", zeros, sizeof zeros, 3);
    book("a block of zeros", zeros, BLOCK, 3);
    book("instance 1 in the first place", pages + BLOCK, BLOCK, 3);
    book("a rack's row", of(hall, RACK_0), BLOCK, 3);
    book("a list that is too short", pages, SIZE, 0);
}

int main(void)
{
    play_all();
    box_steps();
    learn_page(hall, pages);
    learn_page(elsewhere, pages + BLOCK);
    books();
    hall_steps();
    setups();
    return 0;
}
