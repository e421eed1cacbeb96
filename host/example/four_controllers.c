/*
 * Four controllers in one process: 5, 7 and 9 are correct; 3 is faulty. It joins late
 * at 9, and it equivocates, telling 5 one thing and 7 and 9 another. It brings its number
 * in so late, and at 9 alone, that 9 decides a phase after the others. The program prints
 * what each one sent in each round and how its state stands after, then in which
 * round each one first heard the others. It ends 0 if the three agree on a bit, 1
 * otherwise.
 *
 * From the repository's root:
 *   cc -std=c99 -Wall -Wextra -Werror -pedantic -Iinclude \
 *      host/example/four_controllers.c crates/controller_c/out/libcontroller_c.a -o four_controllers
 *   ./four_controllers | diff - host/example/four_controllers.stdout
 */
#include <stdio.h>
#include <string.h>

#include "controller.h"

/* How many are correct, the faulty one's number, and by when all have decided. */
enum { CORRECT = 3, FAULTY = 3, ALL = CORRECT + 1, ROUNDS = 3 + 3 * ALL };

/* The places of 5, 7 and 9 among the correct ones, and the round before which 9 hears
 * nothing of the faulty one. */
enum { FIVE = 0, SEVEN = 1, NINE = 2, JOINS = 4 };

/* The kinds of frames that the faulty one writes. */
enum { INIT = 1, ROSTER = 2, TURN = 5 };

/* A tray here has at most one entry from each other one, with one frame. */
enum { TRAY_ROOM = 8 + CORRECT * (8 + CONTROLLER_FRAME_LEN) };

/* A controller that has decided sends nothing: the length is 0. */
struct frame {
    uint32_t sender;
    size_t length;
    uint8_t bytes[CONTROLLER_FRAME_LEN];
};

struct controller {
    uint8_t image[CONTROLLER_IMAGE_LEN];
    struct frame sent;
};

static void put(uint8_t *at, uint32_t value, size_t bytes)
{
    while (bytes > 0) {
        bytes--;
        at[bytes] = (uint8_t)(value & 0xFF);
        value >>= 8;
    }
}

static void header(struct frame *frame, uint32_t round, uint8_t kind, uint8_t bit)
{
    put(frame->bytes, round, 4);
    frame->bytes[4] = kind;
    frame->bytes[5] = bit;
    put(frame->bytes + 6, 0, 2);
    frame->length = 8;
}

/*
 * Whether the faulty one's turn for a receiver lists its own number. 5 has its init, so
 * that 9 echoes its number, and goes on with this help. With the help for 5 in round 8 two
 * of them list it in round 11; the faulty one's list makes three of four, but for 9 alone.
 */
static int is_listed(uint32_t round, size_t receiver)
{
    return receiver == NINE || (receiver == FIVE && round == 8);
}

/*
 * What the faulty one sends: init to 5, an empty entry to 7, an empty roster; then, as
 * value, proposal and opinion, 0 to 5 and 1 to the others.
 */
static void equivocate(struct frame *frame, uint32_t round, size_t receiver)
{
    uint8_t side = receiver == FIVE ? 0 : 1;
    uint8_t kind = round <= ROSTER ? (uint8_t)round : (uint8_t)(3 + round % 3);

    frame->sender = FAULTY;
    header(frame, round, kind, kind <= ROSTER ? 2 : side);
    if (kind == INIT && receiver == SEVEN) {
        frame->length = 0;
    }
    if (kind == TURN && is_listed(round, receiver)) {
        put(frame->bytes + 6, 1, 2);
        put(frame->bytes + 8, FAULTY, 4);
        frame->length = 12;
    }
}

/* Packs frames into a tray and returns its length. */
static size_t pack(uint8_t *tray, uint32_t round, const struct frame *const *frames,
                   size_t count)
{
    size_t end = 8 + 8 * count;
    size_t i;

    put(tray, round, 4);
    put(tray + 4, (uint32_t)count, 2);
    put(tray + 6, 0, 2);
    for (i = 0; i < count; i++) {
        uint8_t *entry = tray + 8 + 8 * i;

        put(entry, frames[i]->sender, 4);
        put(entry + 4, (uint32_t)end, 2);
        put(entry + 6, (uint32_t)frames[i]->length, 2);
        memcpy(tray + end, frames[i]->bytes, frames[i]->length);
        end += frames[i]->length;
    }
    return end;
}

static void print(const struct controller *c)
{
    const uint8_t *sent = c->sent.bytes;

    printf("%lu in round %lu sent ", (unsigned long)c->sent.sender,
           (unsigned long)controller_round(c->image, sizeof c->image));
    if (c->sent.length == 0) {
        printf("nothing;");
    } else {
        printf("kind %d bit %d count %d;", sent[4], sent[5], sent[6] * 256 + sent[7]);
    }
    printf(" heard %lu candidates %lu echoes %lu king %lu decision %d\n",
           (unsigned long)controller_heard(c->image, sizeof c->image),
           (unsigned long)controller_candidates(c->image, sizeof c->image),
           (unsigned long)controller_echoes(c->image, sizeof c->image),
           (unsigned long)controller_king(c->image, sizeof c->image),
           controller_decision(c->image, sizeof c->image));
}

/* Who joined when, as one controller heard it. Its own number has the round 0. */
static void print_joined(const struct controller *c)
{
    uint32_t heard = controller_heard(c->image, sizeof c->image);
    uint32_t i;

    for (i = 0; i < heard; i++) {
        uint32_t number = controller_heard_number(c->image, sizeof c->image, i);
        uint32_t round = controller_first_round(c->image, sizeof c->image, i);

        if (round != 0) {
            printf("%lu first heard %lu in round %lu\n", (unsigned long)c->sent.sender,
                   (unsigned long)number, (unsigned long)round);
        }
    }
}

/* Carries the frames of one round to one controller, which makes the next. */
static uint8_t carry(struct controller *c, const struct frame *sent, uint32_t round,
                     size_t receiver)
{
    const struct frame *frames[CORRECT];
    struct frame faulty;
    uint8_t tray[TRAY_ROOM];
    size_t count = 0;
    size_t i, length;

    if (receiver != NINE || round >= JOINS) {
        equivocate(&faulty, round, receiver);
        frames[count++] = &faulty;
    }
    /* Who has decided sent nothing, and has no entry: an empty one would not be silence. */
    for (i = 0; i < CORRECT; i++) {
        if (i != receiver && sent[i].length > 0) {
            frames[count++] = &sent[i];
        }
    }
    length = pack(tray, round, frames, count);
    return controller_tray(c->image, sizeof c->image, tray, length, c->sent.bytes,
                           sizeof c->sent.bytes, &c->sent.length);
}

static int step(struct controller *controllers, uint32_t round)
{
    struct frame sent[CORRECT];
    size_t i;

    /* All send before any receives, so the frames are set aside first. */
    for (i = 0; i < CORRECT; i++) {
        sent[i] = controllers[i].sent;
    }
    for (i = 0; i < CORRECT; i++) {
        uint8_t answer;

        /* Its run is over: a tray would be refused under CONTROLLER_LAST_ROUND_SENT. */
        if (sent[i].length == 0) {
            continue;
        }
        answer = carry(&controllers[i], sent, round, i);
        if (answer != CONTROLLER_WORKED) {
            printf("%lu refused %d\n", (unsigned long)controllers[i].sent.sender, answer);
            return 1;
        }
        print(&controllers[i]);
    }
    return 0;
}

static int start(struct controller *controllers)
{
    static const uint32_t numbers[CORRECT] = {5, 7, 9};
    static const uint8_t bits[CORRECT] = {0, 1, 1};
    size_t i;

    for (i = 0; i < CORRECT; i++) {
        struct controller *c = &controllers[i];
        uint8_t answer = controller_start(numbers[i], bits[i], c->image, sizeof c->image,
                                          c->sent.bytes, sizeof c->sent.bytes,
                                          &c->sent.length);

        c->sent.sender = numbers[i];
        if (answer != CONTROLLER_WORKED) {
            printf("%lu refused %d\n", (unsigned long)numbers[i], answer);
            return 1;
        }
        print(c);
    }
    return 0;
}

int main(void)
{
    static struct controller controllers[CORRECT];
    uint32_t round;
    size_t i;
    int decisions[CORRECT];
    int agree = 1;

    if (start(controllers) != 0) {
        return 1;
    }
    for (round = 1; round < ROUNDS; round++) {
        if (step(controllers, round) != 0) {
            return 1;
        }
    }
    for (i = 0; i < CORRECT; i++) {
        print_joined(&controllers[i]);
    }
    for (i = 0; i < CORRECT; i++) {
        decisions[i] = controller_decision(controllers[i].image, sizeof controllers[i].image);
        printf("%lu decided %d\n", (unsigned long)controllers[i].sent.sender, decisions[i]);
        agree = agree && decisions[i] <= 1 && decisions[i] == decisions[0];
    }
    puts(agree ? "all agree" : "no agreement");
    return agree ? 0 : 1;
}
